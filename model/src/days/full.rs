//! Full days, after which nobody waits and no call is taken, and files of a given length.

use super::Draft;
use crate::dayfile::{self, Record};
use crate::register::{most_reads, LAST_EVENT};

/// A full day for n desks of different speed, then calls and turns of every desk. Its last event is
/// one of the last 2n² + 1 that a day can have: a page that is called after it could come to lack
/// turns.
pub fn full_day(n: u16, seed: u64) -> Vec<u8> {
    let mut draft = Draft::opened(n, seed);
    let weights = draft.weights();
    while draft.goes_on() {
        draft.paced_step(&weights);
    }
    draft.ask_everybody();
    draft.file
}

/// A file of exactly `length` bytes for one desk, short and long records mixed, so that records
/// lie across every edge in many ways.
pub fn long_file(length: usize, seed: u64) -> Vec<u8> {
    let mut draft = Draft::opened(1, seed);
    while draft.file.len() < length {
        let word = draft.word();
        let record = match draft.random.below(2) {
            0 => Record::Turn { desk: 1 },
            _ => Record::Entry { desk: 1, word },
        };
        draft.give(record);
    }
    draft.file.truncate(length);
    draft.file
}

/// A full day for n desks with a refused record before every event.
pub fn between_refused(n: u16, seed: u64) -> Vec<u8> {
    let mut draft = Draft::opened(n, seed);
    let weights = draft.weights();
    while draft.goes_on() {
        let refused = (0..).find_map(|_| draft.refusable());
        draft.give(refused.expect("a record that is refused"));
        draft.paced_step(&weights);
    }
    draft.file
}

/// A full day of pages of desk n, after every desk has entered the word, if there is one. For one desk
/// and without a word the last page is answered by event 65,535, because each takes 3.
pub fn pages_day(n: u16, word: Option<u32>) -> Vec<u8> {
    let mut draft = Draft::opened(n, 0);
    for (desk, word) in (1..=n).filter_map(|desk| Some((desk, word?))) {
        draft.give(Record::Entry { desk, word });
        while draft.busy(desk) {
            draft.give(Record::Turn { desk });
        }
    }
    while draft.goes_on() {
        let busy = draft.busy(n);
        draft.give(if busy { Record::Turn { desk: n } } else { Record::Page { desk: n } });
    }
    draft.file
}

/// Records of exactly `length` bytes, which is even and not small, that every day refuses, open or
/// not.
pub fn refused_records(length: usize) -> Vec<u8> {
    let mut file = Vec::new();
    while (length - file.len()) % 6 != 0 {
        dayfile::write(Record::Entry { desk: 0, word: 7 }, &mut file);
    }
    while file.len() < length {
        dayfile::write(Record::Turn { desk: 0 }, &mut file);
    }
    file
}

impl Draft {
    /// The events that are left to the day if everybody who waits takes all turns owed.
    pub(super) fn room(&self) -> u32 {
        let day = self.register.day;
        LAST_EVENT - day.event - day.all_owed(&self.register.table) as u32
    }

    /// Whether somebody waits or a page call is taken, which needs less room than an entry call.
    pub(super) fn goes_on(&self) -> bool {
        self.anybody_busy() || self.room() > most_reads(self.n().into())
    }

    /// Calls and turns of every desk and of two that are not there, and an opening. A waiting desk
    /// takes its turn.
    pub(super) fn ask_everybody(&mut self) {
        let n = self.n();
        for desk in 0..=n + 1 {
            self.give(Record::Page { desk });
            self.give(Record::Entry { desk, word: 7 });
            self.give(Record::Turn { desk });
        }
        self.give(Record::Open { desks: n });
    }
}
