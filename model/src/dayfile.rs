//! Day files. "House layout: length first, little-endian, a two-byte kind. Length (16 bits) counts the
//! bytes after itself. Every field is 16 bits but the word, 32."

use crate::register::Refusal;

/// The table of kinds, with what stands "after the kind".
#[derive(Clone, Copy, Debug, PartialEq, Eq)]
pub enum Record {
    Open { desks: u16 },
    Entry { desk: u16, word: u32 },
    Page { desk: u16 },
    Turn { desk: u16 },
}

/// "The reader is lent the part of the file that begins at the record. It answers either one record
/// and the place of the next, or a refusal." "No bytes left is the ordinary end."
pub fn read(bytes: &[u8]) -> Result<Option<(Record, usize)>, Refusal> {
    if bytes.is_empty() {
        return Ok(None);
    }
    // "Order: 7 if only one byte is left;"
    if bytes.len() == 1 {
        return Err(Refusal::CutShort);
    }
    // "9 for a length outside 4 to 8;"
    let length = u16::from_le_bytes([bytes[0], bytes[1]]);
    if length < 4 || length > 8 {
        return Err(Refusal::WrongLength);
    }
    // "7 if the body is short;"
    let end = 2 + length as usize;
    if bytes.len() < end {
        return Err(Refusal::CutShort);
    }
    // "8; 9 for the kind."
    let kind = u16::from_le_bytes([bytes[2], bytes[3]]);
    if kind < 1 || kind > 4 {
        return Err(Refusal::UnknownKind);
    }
    if length != if kind == 2 { 8 } else { 4 } {
        return Err(Refusal::WrongLength);
    }
    let field = u16::from_le_bytes([bytes[4], bytes[5]]);
    let record = match kind {
        1 => Record::Open { desks: field },
        2 => {
            let word = u32::from_le_bytes([bytes[6], bytes[7], bytes[8], bytes[9]]);
            Record::Entry { desk: field, word }
        }
        3 => Record::Page { desk: field },
        _ => Record::Turn { desk: field },
    };
    Ok(Some((record, end)))
}

/// Adds a record's bytes to a day file.
pub fn write(record: Record, file: &mut Vec<u8>) {
    let (length, kind, field) = match record {
        Record::Open { desks } => (4u16, 1u16, desks),
        Record::Entry { desk, .. } => (8, 2, desk),
        Record::Page { desk } => (4, 3, desk),
        Record::Turn { desk } => (4, 4, desk),
    };
    for number in [length, kind, field] {
        file.extend_from_slice(&number.to_le_bytes());
    }
    if let Record::Entry { word, .. } = record {
        file.extend_from_slice(&word.to_le_bytes());
    }
}
