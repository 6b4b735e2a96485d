use crate::library::{self, Row};
use crate::{other_version, Refusal};

/// Bytes of a damaged day file that are not kept.
#[derive(Clone, Copy, Debug, PartialEq, Eq, Hash)]
pub struct Dropped {
    /// The place of the first one in the file, from 0.
    pub first: usize,
    /// How many there are, one at least.
    pub count: usize,
    /// Why: [`CutShort`](Refusal::CutShort), [`UnknownKind`](Refusal::UnknownKind) or
    /// [`WrongLength`](Refusal::WrongLength) if they could not be read, else the refusal of the
    /// request that they are.
    pub refusal: Refusal,
}

/// A day file that was mended.
#[derive(Clone, Debug, Default, PartialEq, Eq, Hash)]
pub struct Mended {
    /// The mended file: the bytes that are kept, in order.
    pub kept: Vec<u8>,
    /// The others, in the order of their first bytes.
    pub dropped: Vec<Dropped>,
}

/// Mends a day file that was damaged.
///
/// The file is read from end to end. What cannot be read is dropped: of an unknown kind or a wrong
/// length, the two bytes of the length and as many as they say, or all that is left if fewer, and
/// reading goes on behind them; of a record that is cut short, all that is left. Every other request is
/// asked, in order, of a [`Register`](crate::Register) that is blank at first, and dropped if it is
/// refused there. The bytes of the others are kept unchanged.
///
/// Kept and dropped bytes together are the file, in order. What is kept is a day file that is run
/// without a refusal and has the same accepted events, with the same answers; mended again, nothing of
/// it is dropped.
///
/// ```
/// use nelvaquist::{mend, DayFile, Refusal, Register};
///
/// // Between two records there are two bytes too many, and the last one is cut off.
/// let file = [4, 0, 1, 0, 2, 0, 0, 0, 4, 0, 3, 0, 1, 0, 4, 0, 4];
/// let mended = mend(&file);
/// assert_eq!(mended.kept, [4, 0, 1, 0, 2, 0, 4, 0, 3, 0, 1, 0]);
/// for drop in &mended.dropped {
///     println!("{} bytes from {} on: {}", drop.count, drop.first, drop.refusal);
/// }
/// # assert_eq!(mended.dropped.len(), 2);
///
/// let mut register = Register::new();
/// for request in DayFile::new(&mended.kept) {
///     register.step(request?, &mut [0; Register::MOST_PAGE_WORDS])?;
/// }
/// assert_eq!((register.desks(), register.event()), (2, 1));
/// assert_eq!(mend(&mended.kept).dropped, []);
/// # Ok::<(), Refusal>(())
/// ```
#[must_use]
pub fn mend(bytes: &[u8]) -> Mended {
    let mut kept = vec![0; bytes.len()];
    // Zeros come from the system, so that rows which are not written take no memory.
    let mut rows = vec![[0; 3]; most_drops(bytes)];
    let (length, drops) = match mended(bytes, &mut kept, &mut rows) {
        Ok(counts) => counts,
        // There is room for whatever is kept or dropped.
        Err(refusal) => other_version("refusal", refusal.number()),
    };
    kept.truncate(length);
    Mended { kept, dropped: rows[..drops].iter().map(dropped).collect() }
}

/// Mends a day file as [`mend`] does into lent room: what is kept is put in the first slice, and its
/// drops in the second, each from the first place on. It answers how many bytes are kept and how many
/// drops there are. Later places of both stay as they are.
///
/// As many bytes as the file has, and half as many drops and one, are always enough. With so much the
/// file is run once, with less twice, first to count.
///
/// ```
/// use nelvaquist::{mend_into, Dropped, Refusal};
///
/// let file = [4, 0, 1, 0, 2, 0, 0, 0, 4, 0, 3, 0, 1, 0, 4, 0, 4];
/// let mut room = [9; 14];
/// let mut drops = [Dropped { first: 0, count: 0, refusal: Refusal::RoomShort }; 2];
/// assert_eq!(mend_into(&file, &mut room, &mut drops), Ok((12, 2)));
/// assert_eq!(room, [4, 0, 1, 0, 2, 0, 4, 0, 3, 0, 1, 0, 9, 9]);
/// assert_eq!(drops[0], Dropped { first: 6, count: 2, refusal: Refusal::WrongLength });
/// assert_eq!(drops[1], Dropped { first: 14, count: 3, refusal: Refusal::CutShort });
/// assert_eq!(mend_into(&file, &mut room[..11], &mut drops), Err(Refusal::RoomShort));
/// ```
///
/// # Errors
///
/// Refused with [`RoomShort`](Refusal::RoomShort) if either slice has too few places. Nothing is
/// changed then. Nothing else is refused, whatever stands in the file.
pub fn mend_into(
    bytes: &[u8],
    room: &mut [u8],
    drops: &mut [Dropped],
) -> Result<(usize, usize), Refusal> {
    let mut rows = vec![[0; 3]; drops.len().min(most_drops(bytes))];
    let (kept, count) = mended(bytes, room, &mut rows)?;
    for (place, row) in drops.iter_mut().zip(&rows[..count]) {
        *place = dropped(row);
    }
    Ok((kept, count))
}

/// More drops than a file has: each has two bytes at least, but the last one may have one.
fn most_drops(bytes: &[u8]) -> usize {
    bytes.len() / 2 + 1
}

/// Mends a file and answers how many bytes are kept, and how many drops there are; no more than there
/// are places for.
fn mended(bytes: &[u8], room: &mut [u8], rows: &mut [Row]) -> Result<(usize, usize), Refusal> {
    let reply = library::mend(bytes, room, rows);
    match reply.refusal {
        0 => Ok((reply.kept as usize, reply.drops as usize)),
        number => Err(refusal(number)),
    }
}

/// The drop that a row holds.
fn dropped(&[first, count, number]: &Row) -> Dropped {
    Dropped { first: first as usize, count: count as usize, refusal: refusal(number) }
}

/// The refusal of a number that the library answers.
fn refusal(number: u64) -> Refusal {
    let number = u32::try_from(number).unwrap_or(u32::MAX);
    match Refusal::from_number(number) {
        Some(refusal) => refusal,
        None => other_version("refusal", number),
    }
}
