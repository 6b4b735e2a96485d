//! The model's day runner: a day file from standard input, its lines to standard output.

use std::io::{self, Read, Write};

fn main() {
    let mut file = Vec::new();
    let printed = match io::stdin().read_to_end(&mut file) {
        Ok(_) => model::runner::run(&file),
        Err(error) => {
            eprintln!("model: cannot read standard input: {error}");
            model::runner::run_cut_off(&file)
        }
    };
    if let Err(error) = io::stdout().write_all(printed.as_bytes()) {
        eprintln!("model: cannot write standard output: {error}");
    }
}
