//! What mended files have reached, and what they must reach. The n is that of the day when a piece of
//! the file is met, or of what is kept of the whole file.

use super::Counts;
use crate::state::*;
use model::mending::{mend_watched, Mended, Piece};
use model::register::{Refusal, Turn};
use model::runner::Done;

pub const REQUIRED: &[(&str, usize, usize)] = &[
    ("empty files", 0, 0),
    ("files of which nothing is dropped", 1, 8),
    ("files of which something is dropped", 1, 8),
    ("files of which everything is dropped", 0, 0),
    ("mended files mended again", 1, 8),
    ("dropped with 1", 0, 0),
    ("dropped with 2", 1, 8),
    ("dropped with 3", 1, 8),
    ("dropped with 4", 1, 8),
    ("dropped with 5", 1, 8),
    ("dropped with 7, one byte", 0, 8),
    ("dropped with 7, a short body", 0, 8),
    ("dropped with 8", 0, 8),
    ("dropped with 9 for the kind", 0, 8),
    ("dropped with 9 for the length", 0, 8),
    ("dropped with 9 for a length of 0", 0, 8),
    ("dropped with 9 for a length of just what is left", 0, 8),
    ("dropped with 9 for a length of one more", 0, 8),
    ("dropped with 9 for a length of many more", 0, 8),
    ("dropped with 10 before an opening", 0, 0),
    ("dropped with 10 behind an opening", 1, 8),
    ("entries written and pages shown behind a drop of the reader", 1, 8),
    ("entries written and pages shown behind a refused record", 1, 8),
    ("pages borrowed behind a drop", 2, 8),
    ("drops right behind others", 0, 8),
    ("mended in both rooms just enough", 0, 8),
    ("mended in a longer room", 0, 8),
    ("mended with more rows", 0, 8),
    ("mended in both rooms longer", 0, 8),
    ("mended in just as much as is always enough", 0, 8),
    ("mended in more than is always enough", 0, 8),
    ("mended in what is always enough, less a row", 0, 8),
    ("mended in what is always enough, less a byte", 0, 8),
    ("refused 12 by one byte", 1, 8),
    ("refused 12 by one byte, with as many rows as are always enough", 1, 8),
    ("refused 12 by one row", 0, 8),
    ("refused 12 by one row, with as much room as is always enough", 0, 8),
    ("refused 12 by one byte and one row", 1, 8),
    ("refused 12 with neither a byte nor a row", 0, 8),
    ("drops behind more than 65,536 bytes", 1, 8),
    ("drops of more than 65,536 bytes", 0, 0),
    ("files with more than 65,536 drops", 0, 0),
    ("files with more than 65,536 drops refused 12 by one row", 0, 0),
];

impl Counts {
    /// Mends a file by the model, and takes in what that meets.
    pub fn watch_file(&mut self, file: &[u8]) -> Mended {
        // What was met by now: a drop of the reader, a refused record; and whether the last was one.
        let (mut unread, mut refused, mut dropped) = (false, false, false);
        let mended = mend_watched(file, |piece, outcome, register| {
            let n = register.day.desks as usize;
            let ended =
                matches!(outcome, Ok(Done::Turned(Turn::Page { .. } | Turn::Written { .. })));
            let name = "entries written and pages shown behind a drop of the reader";
            self.add_if(ended && unread, name, n);
            let name = "entries written and pages shown behind a refused record";
            self.add_if(ended && refused, name, n);
            let borrowed = matches!(outcome, Ok(Done::Turned(Turn::Page { from: 1.., .. })));
            self.add_if(borrowed && (unread || refused), "pages borrowed behind a drop", n);
            let drop = outcome.err();
            self.add_if(drop.is_some() && dropped, "drops right behind others", n);
            if let Some(refusal) = drop {
                self.dropped(&file[piece.first..], piece, refusal, n);
            }
            unread |= piece.read.is_err();
            refused |= drop.is_some() && piece.read.is_ok();
            dropped = drop.is_some();
        });
        let n = desks(&mended);
        let name = match (mended.kept.is_empty(), mended.dropped.is_empty()) {
            (true, true) => "empty files",
            (true, false) => "files of which everything is dropped",
            (false, true) => "files of which nothing is dropped",
            (false, false) => "files of which something is dropped",
        };
        self.add(name, n);
        let many = mended.dropped.len() > 1 << 16;
        self.add_if(many, "files with more than 65,536 drops", 0);
        mended
    }

    /// A piece that is dropped on a day for n desks, with all that is left from its first byte on.
    fn dropped(&mut self, rest: &[u8], piece: &Piece, refusal: Refusal, n: usize) {
        let name = match refusal {
            Refusal::DeskCount => "dropped with 1",
            Refusal::NoSuchDesk => "dropped with 2",
            Refusal::DeskBusy => "dropped with 3",
            Refusal::DeskIdle => "dropped with 4",
            Refusal::DayFull => "dropped with 5",
            Refusal::CutShort if piece.count == 1 => "dropped with 7, one byte",
            Refusal::CutShort => "dropped with 7, a short body",
            Refusal::UnknownKind => "dropped with 8",
            Refusal::WrongLength => self.wrong_length(rest, n),
            _ if n == 0 => "dropped with 10 before an opening",
            _ => "dropped with 10 behind an opening",
        };
        self.add(name, n);
        self.add_if(piece.first > 1 << 16, "drops behind more than 65,536 bytes", n);
        self.add_if(piece.count > 1 << 16, "drops of more than 65,536 bytes", 0);
    }

    fn wrong_length(&mut self, rest: &[u8], n: usize) -> &'static str {
        let length = u16::from_le_bytes([rest[0], rest[1]]) as usize;
        if (4..=8).contains(&length) {
            return "dropped with 9 for the kind";
        }
        let left = rest.len() - 2;
        self.add_if(length == 0, "dropped with 9 for a length of 0", n);
        self.add_if(length == left, "dropped with 9 for a length of just what is left", n);
        self.add_if(length == left + 1, "dropped with 9 for a length of one more", n);
        self.add_if(length > left + 1, "dropped with 9 for a length of many more", n);
        "dropped with 9 for the length"
    }

    /// A mended file is mended.
    pub fn watch_again(&mut self, mended: &Mended) {
        self.add("mended files mended again", desks(mended));
    }

    /// Takes in the rooms of a file of so many bytes.
    pub fn watch_rooms(&mut self, length: usize, mended: &Mended, rooms: &Rooms) {
        let n = desks(mended);
        let (kept, drops) = (mended.kept.len(), mended.dropped.len());
        let (places, rows) = (rooms.room.len(), rooms.rows.len());
        if places < kept || rows < drops {
            self.room_short(n, (kept, drops), (places, rows), length);
            return;
        }
        let (longer, more) = (places > kept, rows > drops);
        self.add_if(!longer && !more, "mended in both rooms just enough", n);
        self.add_if(longer, "mended in a longer room", n);
        self.add_if(more, "mended with more rows", n);
        self.add_if(longer && more, "mended in both rooms longer", n);
        let enough = (length, length / 2 + 1);
        self.add_if((places, rows) == enough, "mended in just as much as is always enough", n);
        let beyond = places > length && rows > length / 2 + 1;
        self.add_if(beyond, "mended in more than is always enough", n);
        let less_a_row = places == length && rows == length / 2;
        self.add_if(less_a_row, "mended in what is always enough, less a row", n);
        let less_a_byte = places + 1 == length && rows == length / 2 + 1;
        self.add_if(less_a_byte, "mended in what is always enough, less a byte", n);
    }

    /// Rooms of which one is too short, or both.
    fn room_short(
        &mut self,
        n: usize,
        (kept, drops): (usize, usize),
        (places, rows): (usize, usize),
        length: usize,
    ) {
        let (byte, row) = (places + 1 == kept, rows + 1 == drops);
        let (by_byte, by_row) = (byte && rows >= drops, row && places >= kept);
        self.add_if(by_byte, "refused 12 by one byte", n);
        let name = "refused 12 by one byte, with as many rows as are always enough";
        self.add_if(by_byte && rows > length / 2, name, n);
        self.add_if(by_row, "refused 12 by one row", n);
        let name = "refused 12 by one row, with as much room as is always enough";
        self.add_if(by_row && places >= length, name, n);
        self.add_if(byte && row, "refused 12 by one byte and one row", n);
        let none = places == 0 && rows == 0;
        self.add_if(none, "refused 12 with neither a byte nor a row", n);
        let name = "files with more than 65,536 drops refused 12 by one row";
        self.add_if(by_row && drops > 1 << 16, name, 0);
    }
}

/// The desk count of a mended file, 0 if nothing is kept: it begins with an opening.
fn desks(mended: &Mended) -> usize {
    mended.kept.get(4).map_or(0, |&desks| desks.into())
}
