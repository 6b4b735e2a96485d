//! What the mending of a set of files has reached.

use crate::counts::Reached;
use crate::days::Damaged;
use crate::mending::{mend_watched, Mended, Piece, MOST_BYTES};
use crate::register::{Refusal, Turn, PLACES};
use crate::runner::{Done, Register};

/// The lengths outside 4 to 8 that are counted.
const LENGTHS: [u16; 6] = [0, 1, 2, 3, 9, 65_535];

type Outcome = Result<Done, Refusal>;

#[derive(Default)]
pub struct MendCounts {
    /// Drops by number. 6 and 11 are never met: tables and page lists have the right sizes, and the day
    /// grows from an opening. 12 and above refuse no record.
    numbers: [u64; 12],
    /// Drops with 10 by whether there is no day yet, or one.
    unopened: [u64; 2],
    /// Drops with 7 by their bytes.
    short: [u64; 10],
    /// Drops with 8 by their length.
    unknown: [u64; 9],
    /// Drops with 9 by the kind whose length it is not.
    kinds: [u64; 5],
    /// Drops with 9 for the lengths above: whole, and cut off by the end of the file. Nothing else is
    /// cut off there: the reader gives 8, and 9 for the kind, only where the body is whole.
    lengths: [[u64; LENGTHS.len()]; 2],
    /// Drops with 9 for a length of just what is left, of one more and of one fewer.
    just_left: [u64; 3],
    /// Records kept behind a drop with 8 and behind one with 9, before the reader drops again.
    kept_behind: [u64; 2],
    /// Drops right behind others, by whether the reader or the run made the first and the second.
    neighbours: [[u64; 2]; 2],
    /// Empty files, and those of which nothing, something and everything is dropped.
    files: [u64; 4],
    /// Days of which nothing is dropped, and of which something is, by n.
    days: [[u64; PLACES + 1]; 2],
    /// Borrowed pages on days of which something is dropped, by n.
    borrowed: [u64; PLACES + 1],
    /// Files of the greatest length, and those with the most drops.
    longest: u64,
    most_drops: u64,
    /// Whole records behind a damage, in front of which the reader drops something because of it: those
    /// that it drops too, by n, those that are read but only now refused, by number, and turns that are
    /// now answered otherwise, by n.
    skipped: [u64; PLACES + 1],
    refused_now: [u64; 12],
    otherwise: [u64; PLACES + 1],
}

impl MendCounts {
    /// Mends a file, and counts what that reaches.
    pub fn mended(&mut self, file: &[u8]) -> Mended {
        let (mut n, mut borrowed) = (0, 0);
        // The piece before, if it was dropped, and what the reader dropped last.
        let (mut before, mut refused) = (None, None);
        let mended = mend_watched(file, |piece, outcome, register| {
            n = register.day.desks as usize;
            match outcome {
                Ok(done) => {
                    self.kept_behind[0] += u64::from(refused == Some(Refusal::UnknownKind));
                    self.kept_behind[1] += u64::from(refused == Some(Refusal::WrongLength));
                    borrowed += u64::from(is_borrowed(done));
                    before = None;
                }
                Err(refusal) => {
                    self.dropped(&file[piece.first..], piece, refusal, register);
                    let readers = piece.read.is_err();
                    if let Some(before) = before.replace(readers) {
                        self.neighbours[usize::from(!before)][usize::from(!readers)] += 1;
                    }
                }
            }
            refused = piece.read.err().or(refused);
        });
        self.file(file, &mended, n, borrowed);
        mended
    }

    fn dropped(&mut self, rest: &[u8], piece: &Piece, refusal: Refusal, register: &Register) {
        self.numbers[refusal as usize] += 1;
        match refusal {
            Refusal::OpenOrNot => self.unopened[usize::from(register.day.desks > 0)] += 1,
            Refusal::CutShort => self.short[piece.count] += 1,
            Refusal::UnknownKind => self.unknown[piece.count - 2] += 1,
            Refusal::WrongLength => self.wrong_length(rest),
            _ => {}
        }
    }

    fn wrong_length(&mut self, rest: &[u8]) {
        let length = u16::from_le_bytes([rest[0], rest[1]]);
        let left = rest.len() - 2;
        if (4..=8).contains(&length) {
            self.kinds[rest[2] as usize] += 1;
        } else {
            let cut = usize::from(left < length as usize);
            if let Some(place) = LENGTHS.iter().position(|&counted| counted == length) {
                self.lengths[cut][place] += 1;
            }
            for (place, just) in [left, left + 1, left.wrapping_sub(1)].into_iter().enumerate() {
                self.just_left[place] += u64::from(length as usize == just);
            }
        }
    }

    fn file(&mut self, file: &[u8], mended: &Mended, n: usize, borrowed: u64) {
        let all_kept = mended.dropped.is_empty();
        let place = match (file.is_empty(), all_kept, mended.kept.is_empty()) {
            (true, ..) => 0,
            (_, true, _) => 1,
            (_, _, false) => 2,
            (_, _, true) => 3,
        };
        self.files[place] += 1;
        self.days[usize::from(!all_kept)][n] += 1;
        if !all_kept {
            self.borrowed[n] += borrowed;
        }
        self.longest += u64::from(file.len() == MOST_BYTES);
        self.most_drops += u64::from(mended.dropped.len() == MOST_BYTES / 2);
    }

    /// Counts the records behind a damage that fare otherwise than on the undamaged day, for n desks.
    pub fn later(&mut self, day: &[u8], damaged: &Damaged, n: usize) {
        let now = outcomes(&damaged.file);
        let Some((dropped, _)) = now.iter().find(|(piece, _)| piece.read.is_err()) else { return };
        for (record, before) in outcomes(day) {
            let place = damaged.moved(record.first).filter(|&place| place > dropped.first);
            let Some(place) = place else { continue };
            let (piece, outcome) = now[now.partition_point(|(piece, _)| piece.first <= place) - 1];
            if piece.read.is_err() {
                let whole = place + record.count <= piece.first + piece.count;
                self.skipped[n] += u64::from(whole);
            } else if piece.first == place {
                self.same_record(before, outcome, n);
            }
        }
    }

    fn same_record(&mut self, before: Outcome, now: Outcome, n: usize) {
        match now {
            Err(refusal) => self.refused_now[refusal as usize] += 1,
            Ok(done) => {
                let answered = before.map(but_for_its_instant);
                self.otherwise[n] += u64::from(answered != Ok(but_for_its_instant(done)));
            }
        }
    }

    /// What all of the files have to reach.
    pub fn add_to(&self, reached: &mut Reached) {
        reached.add("dropped with 1 to 5", &self.numbers[1..=5]);
        reached.add("dropped with 7 to 10", &self.numbers[7..=10]);
        reached.add("dropped with 10 before an opening, and behind one", &self.unopened);
        reached.add("dropped with 7, of 1 to 9 bytes", &self.short[1..]);
        reached.add("dropped with 8, of length 4 to 8", &self.unknown[4..]);
        reached.add("dropped with 9, of kind 1 to 4", &self.kinds[1..]);
        reached.add(format!("dropped with 9, of length {LENGTHS:?}"), &self.lengths[0]);
        let name = format!("the same cut off by the end, of length {:?}", &LENGTHS[1..]);
        reached.add(name, &self.lengths[1][1..]);
        let name = "dropped with 9 for a length of what is left, of one more, of one fewer";
        reached.add(name, &self.just_left);
        reached.add("records kept behind a drop with 8, with 9", &self.kept_behind);
        let name = "drops right behind others: reader reader, reader run, run reader, run run";
        reached.add(name, &self.neighbours.concat());
        let name = "empty files, files of which nothing, something, everything is dropped";
        reached.add(name, &self.files);
        reached.add("days of which nothing is dropped, n = 1 to 8", &self.days[0][1..]);
        reached.add("days of which something is dropped, n = 1 to 8", &self.days[1][1..]);
        let name = "borrowed pages on days of which something is dropped, n = 2 to 8";
        reached.add(name, &self.borrowed[2..]);
        reached.add(format!("files of {MOST_BYTES} bytes"), &[self.longest]);
        reached.add(format!("files with {} drops", MOST_BYTES / 2), &[self.most_drops]);
        reached.add("good records skipped by a wrong length, n = 1 to 8", &self.skipped[1..]);
        let numbers = [3, 4, 10].map(|number| self.refused_now[number]);
        reached.add("records refused 3, 4, 10 only because of a drop before", &numbers);
        let name = "turns answered otherwise because of a drop before, n = 1 to 8";
        reached.add(name, &self.otherwise[1..]);
    }
}

/// The pieces of a file, and how they fare.
fn outcomes(file: &[u8]) -> Vec<(Piece, Outcome)> {
    let mut outcomes = Vec::new();
    mend_watched(file, |piece, outcome, _| outcomes.push((*piece, outcome)));
    outcomes
}

fn is_borrowed(done: Done) -> bool {
    matches!(done, Done::Turned(Turn::Page { from, .. }) if from > 0)
}

/// A page's instant is an event number, and differs wherever an event was dropped.
fn but_for_its_instant(done: Done) -> Done {
    match done {
        Done::Turned(Turn::Page { from, turns, .. }) => {
            Done::Turned(Turn::Page { from, at: 0, turns })
        }
        _ => done,
    }
}
