//! The model's figures for the quarter: `figures COUNT FILE...`, a desk count and the names of day
//! files. A file that cannot be read, or is too long, leaves standard output empty.

use model::book::MOST_BYTES;
use model::figures::{figures, line, number, DayPages};
use std::ffi::OsStr;
use std::fs::File;
use std::io::{self, IsTerminal, Read, Write};
use std::os::unix::ffi::OsStrExt;

fn main() {
    let words: Vec<_> = std::env::args_os().skip(1).collect();
    let Some((count, names)) = words.split_first() else {
        return eprintln!("use: figures COUNT FILE...");
    };
    let Some(asked) = number(count.as_bytes()) else {
        return eprintln!("figures: '{}' is not a desk count", count.display());
    };
    let mut answers = Vec::new();
    let mut whole = true;
    for name in names {
        let shown = name.display();
        if io::stderr().is_terminal() {
            eprintln!("{shown}");
        }
        match read(name) {
            Ok(file) => {
                let pages = DayPages::of(&file);
                if let Some(refusal) = pages.ended_by {
                    eprintln!("figures: {shown}: ends with refusal {}", refusal as u32);
                }
                answers.extend(pages.answers);
            }
            Err(why) => {
                eprintln!("figures: {shown}: {why}");
                whole = false;
            }
        }
    }
    if whole {
        let printed = line(&figures(&answers, asked));
        if let Err(error) = io::stdout().write_all(printed.as_bytes()) {
            eprintln!("figures: cannot write standard output: {error}");
        }
    }
}

fn read(name: &OsStr) -> io::Result<Vec<u8>> {
    let mut file = Vec::new();
    // One byte too many tells that there are too many.
    File::open(name)?.take(MOST_BYTES as u64 + 1).read_to_end(&mut file)?;
    match file.len() > MOST_BYTES {
        true => Err(io::Error::other(format!("longer than {MOST_BYTES} bytes"))),
        false => Ok(file),
    }
}
