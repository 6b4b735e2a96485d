//! A damaged day file brought back: K7 of document 02, sentence by sentence. `mend_claims` has what K7
//! says of the result.

use crate::dayfile::{self, Record};
use crate::register::Refusal;
use crate::runner::{Done, Register};
use std::fmt::Write;

/// A longer file is not mended. The papers set no limit; docs/DECISIONS.md does.
pub const MOST_BYTES: usize = 6_291_456;

/// What standard error has of a longer file, and how the line begins that it has of a read or a write
/// that fails.
pub const TOO_LONG: &str = "day_mend: the day file has more than 6291456 bytes\n";
pub const CANNOT_READ: &str = "day_mend: cannot read standard input";
pub const CANNOT_WRITE: &str = "day_mend: cannot write standard output";
pub const CANNOT_TELL: &str = "day_mend: cannot write standard error";

/// Bytes of a file that are read together: a record, or what the reader's refusal drops.
#[derive(Clone, Copy, Debug, PartialEq, Eq)]
pub struct Piece {
    pub first: usize,
    pub count: usize,
    pub read: Result<Record, Refusal>,
}

/// An entry of the list of what was dropped: "first byte (from 0), byte count, refusal number".
#[derive(Clone, Copy, Debug, Default, PartialEq, Eq)]
pub struct Dropped {
    pub first: usize,
    pub count: usize,
    pub number: u32,
}

/// "Write the kept records unchanged, and a list of what was dropped".
#[derive(Clone, Debug, Default, PartialEq, Eq)]
pub struct Mended {
    pub kept: Vec<u8>,
    pub dropped: Vec<Dropped>,
}

/// "Read the file from end to end".
pub fn pieces(file: &[u8]) -> Vec<Piece> {
    let mut pieces = Vec::new();
    let mut first = 0;
    loop {
        let rest = &file[first..];
        let (count, read) = match dayfile::read(rest) {
            Ok(None) => return pieces,
            Ok(Some((record, next))) => (next, Ok(record)),
            Err(refusal) => (dropped_on(refusal, rest), Err(refusal)),
        };
        pieces.push(Piece { first, count, read });
        first += count;
    }
}

/// How many bytes are dropped where the reader refuses the rest of a file.
fn dropped_on(refusal: Refusal, rest: &[u8]) -> usize {
    // "on 7 drop the rest"
    if refusal == Refusal::CutShort {
        return rest.len();
    }
    // "on 8 or 9 drop the two length bytes and as many bytes as they say, or all that is left if
    // fewer"
    let said = u16::from_le_bytes([rest[0], rest[1]]);
    rest.len().min(2 + said as usize)
}

pub fn mend(file: &[u8]) -> Mended {
    mend_watched(file, |_, _, _| {})
}

/// The same, with each piece, its outcome and the register after it shown to `watch`.
pub fn mend_watched(
    file: &[u8],
    mut watch: impl FnMut(&Piece, Result<Done, Refusal>, &Register),
) -> Mended {
    let mut register = Register::default();
    let mut mended = Mended::default();
    for piece in pieces(file) {
        let Piece { first, count, read } = piece;
        // "Run the records that remain, and drop each one refused."
        let outcome = read.and_then(|record| register.apply(record));
        match outcome {
            Ok(_) => mended.kept.extend_from_slice(&file[first..first + count]),
            // "one entry a drop, by first byte"
            Err(refusal) => mended.dropped.push(Dropped { first, count, number: refusal as u32 }),
        }
        watch(&piece, outcome, &register);
    }
    mended
}

/// The same into lent outputs: "the counts written are returned and later places remain".
pub fn mend_into(
    file: &[u8],
    kept: &mut [u8],
    dropped: &mut [Dropped],
) -> Result<(usize, usize), Refusal> {
    let mended = mend(file);
    let counts = (mended.kept.len(), mended.dropped.len());
    // "12 when either lent output is too small for the result, tested before anything is written."
    if kept.len() < counts.0 || dropped.len() < counts.1 {
        return Err(Refusal::RoomShort);
    }
    kept[..counts.0].copy_from_slice(&mended.kept);
    dropped[..counts.1].copy_from_slice(&mended.dropped);
    Ok(counts)
}

/// The list as standard error has it, one line a drop.
pub fn text(dropped: &[Dropped]) -> String {
    let mut text = String::new();
    for Dropped { first, count, number } in dropped {
        let _ = writeln!(text, "dropped {count} at {first} refused {number}");
    }
    text
}
