//! Byte strings for the reader: records, damaged or cut, and rubbish.

use model::random::Random;

/// Up to 14 bytes that begin with something like a record.
pub fn some(random: &mut Random) -> Vec<u8> {
    if random.once_in(4) {
        let count = random.below(15);
        return (0..count).map(|_| random.draw() as u8).collect();
    }
    let kind = match random.below(6) {
        0 => random.draw() as u16,
        1 => random.below(7) as u16,
        _ => 1 + random.below(4) as u16,
    };
    let length = match random.below(8) {
        0 => random.draw() as u16,
        1 => random.below(11) as u16,
        2 => 256 + random.below(11) as u16,
        _ if kind == 2 => 8,
        _ => 4,
    };
    let mut bytes = Vec::new();
    bytes.extend(length.to_le_bytes());
    bytes.extend(kind.to_le_bytes());
    bytes.extend((0..10).map(|_| random.draw() as u8));
    let left = match random.below(3) {
        0 => random.below(15),
        1 => 2 + random.pick(&[3, 4, 7, 8]),
        _ => 14,
    };
    bytes.truncate(left);
    bytes
}
