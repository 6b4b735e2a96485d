//! The reader of day files as the fast day runner has it.

use crate::dayfile::Record;
use crate::register::Refusal;

/// The bytes of the longest record.
pub const LONGEST: usize = 10;

/// Reads the record that `bytes` begin with: it and the place of the next, or nothing at the end.
pub fn read(bytes: &[u8]) -> Result<Option<(Record, usize)>, Refusal> {
    let length = match *bytes {
        [] => return Ok(None),
        [_] => return Err(Refusal::CutShort),
        [low, high, ..] => u16::from_le_bytes([low, high]) as usize,
    };
    if !(4..=8).contains(&length) {
        return Err(Refusal::WrongLength);
    }
    let Some(body) = bytes.get(2..2 + length) else {
        return Err(Refusal::CutShort);
    };
    let kind = u16::from_le_bytes([body[0], body[1]]);
    let field = u16::from_le_bytes([body[2], body[3]]);
    let record = match (kind, body) {
        (1, [_, _, _, _]) => Record::Open { desks: field },
        (2, &[_, _, _, _, a, b, c, d]) => {
            Record::Entry { desk: field, word: u32::from_le_bytes([a, b, c, d]) }
        }
        (3, [_, _, _, _]) => Record::Page { desk: field },
        (4, [_, _, _, _]) => Record::Turn { desk: field },
        (1..=4, _) => return Err(Refusal::WrongLength),
        _ => return Err(Refusal::UnknownKind),
    };
    Ok(Some((record, 2 + length)))
}
