//! The model's book of a day: a day file from standard input, its book to standard output. A read that
//! fails, or a file that is too long, leaves standard output empty.

use model::book::{run, MOST_BYTES};
use std::io::{self, Read, Write};

fn main() {
    let mut file = Vec::new();
    // One byte too many tells that there are too many.
    let come = io::stdin().take(MOST_BYTES as u64 + 1).read_to_end(&mut file);
    if let Err(error) = come {
        eprintln!("book: cannot read standard input: {error}");
    } else if file.len() > MOST_BYTES {
        eprintln!("book: the day file is longer than {MOST_BYTES} bytes");
    } else if let Err(error) = io::stdout().write_all(run(&file).as_bytes()) {
        eprintln!("book: cannot write standard output: {error}");
    }
}
