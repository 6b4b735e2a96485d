//! What the books of a set of days have reached.

use crate::book::{Deed, History, Piece};
use crate::counts::Reached;
use crate::register::{Refusal, Task, LAST_EVENT, PLACES};

/// The most places that a book can have: a page of one desk takes a call and two turns, and no
/// finished work takes less.
pub const MOST_PLACES: usize = LAST_EVENT as usize / 3;

#[derive(Default)]
pub struct BookCounts {
    last_event: u64,
    most_places: u64,
    empty: u64,
    left_open: u64,
    /// Days with finished work after records that were refused before the opening.
    before_opening: u64,
    /// Days with finished work in files that 7, 8 or 9 ended, by number.
    ended: [u64; 12],
    /// Days with entries and pages, by n.
    both: [u64; PLACES + 1],
    /// Pages above places that were answered before them, by n.
    overtaken: [u64; PLACES + 1],
    /// Borrowed pages above five places or more that were answered 20 events before them or more,
    /// by n.
    late: [u64; PLACES + 1],
    /// Pages above a thousand places or more that were answered before them.
    latest: u64,
    /// Numbers that pages share, by n, and those where a lower desk stands below a higher.
    shared: [u64; PLACES + 1],
    crossed: [u64; PLACES + 1],
    /// Numbers that pages share, by how many.
    sharers: [u64; PLACES + 1],
}

impl BookCounts {
    pub fn watch(&mut self, history: &History, book: &[Piece]) {
        let n = history.rows.len();
        self.last_event += u64::from(history.events == LAST_EVENT);
        self.most_places += u64::from(book.len() == MOST_PLACES);
        self.empty += u64::from(book.is_empty());
        self.left_open += u64::from(history.tasks.iter().any(|task| *task != Task::Idle));
        if !book.is_empty() {
            self.before_opening += u64::from(history.before_opening > 0);
            self.ended[history.ended_by.map_or(0, |refusal| refusal as usize)] += 1;
        }
        let pages = book.iter().filter(|place| matches!(place.deed, Deed::Page { .. })).count();
        self.both[n] += u64::from(0 < pages && pages < book.len());
        for (i, place) in book.iter().enumerate() {
            self.place(n, place, &book[i + 1..]);
        }
        for same in book.chunk_by(|a, b| a.number == b.number).filter(|same| same.len() > 1) {
            self.shared[n] += 1;
            self.crossed[n] += u64::from(!same.is_sorted_by_key(|place| place.desk));
            self.sharers[same.len()] += 1;
        }
    }

    fn place(&mut self, n: usize, place: &Piece, below: &[Piece]) {
        let Deed::Page { from, .. } = place.deed else { return };
        // Nothing is answered before its number.
        let near = below.iter().take_while(|other| other.number < place.answered);
        let before: Vec<u32> =
            near.map(|other| other.answered).filter(|&other| other < place.answered).collect();
        let long = before.iter().filter(|&other| other + 20 <= place.answered).count();
        self.overtaken[n] += u64::from(!before.is_empty());
        self.late[n] += u64::from(from != 0 && long >= 5);
        self.latest += u64::from(before.len() >= 1_000);
    }

    /// What all of the days have to reach.
    pub fn reached(&self) -> Reached {
        let mut reached = Reached::default();
        let ends = [Refusal::CutShort, Refusal::UnknownKind, Refusal::WrongLength];
        let ends = ends.map(|refusal| self.ended[refusal as usize]);
        reached.add("books of days up to event 65,535", &[self.last_event]);
        reached.add(format!("books of {MOST_PLACES} places"), &[self.most_places]);
        reached.add("empty books", &[self.empty]);
        reached.add("days with work left open", &[self.left_open]);
        reached.add("books after records before the opening", &[self.before_opening]);
        reached.add("books of files that 7, 8, 9 ended", &ends);
        reached.add("books of entries and pages, n = 1 to 8", &self.both[1..]);
        reached.add("pages above work answered before them, n = 2 to 8", &self.overtaken[2..]);
        let name = "borrowed pages above 5 places answered 20 events before them, n = 2 to 8";
        reached.add(name, &self.late[2..]);
        reached.add("pages above 1,000 places answered before them", &[self.latest]);
        reached.add("numbers that pages share, n = 3 to 8", &self.shared[3..]);
        reached.add("those whose desks do not ascend, n = 3 to 8", &self.crossed[3..]);
        reached.add("numbers that 2 to 7 pages share", &self.sharers[2..=7]);
        reached
    }
}
