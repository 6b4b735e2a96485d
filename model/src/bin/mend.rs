//! The model's mending: a damaged day file from standard input, the mended one to standard output, and
//! what was dropped to standard error. A read that fails, or a file that is too long, leaves standard
//! output empty. The messages are those of the proved program.

use model::mending::{mend, text, CANNOT_READ, CANNOT_WRITE, MOST_BYTES, TOO_LONG};
use std::io::{self, Read, Write};

fn main() {
    let mut file = Vec::new();
    // One byte too many tells that there are too many.
    let come = io::stdin().take(MOST_BYTES as u64 + 1).read_to_end(&mut file);
    if let Err(error) = come {
        tell(&format!("{CANNOT_READ}: {error}\n"));
    } else if file.len() > MOST_BYTES {
        tell(TOO_LONG);
    } else {
        let mended = mend(&file);
        if let Err(error) = write(&mended.kept) {
            tell(&format!("{CANNOT_WRITE}: {error}\n"));
        }
        tell(&text(&mended.dropped));
    }
}

/// The bytes need not end a line, and would wait for the line's end.
fn write(kept: &[u8]) -> io::Result<()> {
    io::stdout().write_all(kept)?;
    io::stdout().flush()
}

/// If standard error cannot be written, the mended file is whole all the same.
fn tell(lines: &str) {
    let _ = io::stderr().write_all(lines.as_bytes());
}
