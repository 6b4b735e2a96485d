//! The fast day runner that the benchmark measures beside the proved one: a day file from standard
//! input, its lines to standard output.

use std::io;

fn main() {
    if let Err(broken) = model::baseline::run(io::stdin().lock(), io::stdout().lock()) {
        eprintln!("baseline: {broken}");
    }
}
