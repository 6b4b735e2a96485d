//! Random days and deliberate schedules. A draft runs the model while it is written, so that a
//! schedule knows which desks are busy and can place a write between two reads.

mod closing;
mod damaged;
mod full;
mod lending;
mod quarter;

pub use closing::{closing_day, last_day};
pub use damaged::{
    damage_places, damaged, damaged_day, edges, noise, sound_day, Damage, Damaged, Spot, Third,
    DAMAGES, SPOTS, THIRDS,
};
pub use full::{between_refused, full_day, long_file, pages_day, refused_records};
pub use lending::{latest_day, lending_day};
pub use quarter::{pages_of_one, quarter};

use crate::dayfile::{self, Record};
use crate::random::Random;
use crate::register::{Task, PLACES};
use crate::runner::Register;

/// A day of some hundred records, the same for the same seed; one in six is damaged.
pub fn random_day(seed: u64) -> Vec<u8> {
    let mut draft = Draft::begun(seed);
    match (draft.n(), draft.random.below(4)) {
        (0, _) | (_, 0) => draft.anything(),
        (_, 1) => draft.paced(),
        (_, 2) => draft.longest(),
        _ => draft.nested(),
    }
    draft.ended()
}

struct Draft {
    file: Vec<u8>,
    register: Register,
    random: Random,
}

impl Draft {
    fn new(seed: u64) -> Self {
        Draft { file: Vec::new(), register: Register::default(), random: Random::new(seed) }
    }

    /// A day that is opened for n desks.
    fn opened(n: u16, seed: u64) -> Self {
        let mut draft = Draft::new(seed);
        draft.give(Record::Open { desks: n });
        draft
    }

    /// A day that is opened, but for one in fifty.
    fn begun(seed: u64) -> Self {
        let mut draft = Draft::new(seed);
        if draft.random.once_in(4) {
            draft.before_opening();
        }
        if !draft.random.once_in(50) {
            let n = 1 + draft.random.below(PLACES) as u16;
            draft.give(Record::Open { desks: n });
        }
        draft
    }

    /// The day file, one in six of them damaged.
    fn ended(mut self) -> Vec<u8> {
        if self.random.once_in(6) {
            damage(&mut self.random, &mut self.file);
        }
        self.file
    }

    fn n(&self) -> u16 {
        self.register.day.desks as u16
    }

    fn task(&self, desk: u16) -> Task {
        self.register.table[desk as usize - 1].task
    }

    fn busy(&self, desk: u16) -> bool {
        self.task(desk) != Task::Idle
    }

    fn anybody_busy(&self) -> bool {
        (1..=self.n()).any(|desk| self.busy(desk))
    }

    fn reading(&self, desk: u16) -> bool {
        matches!(self.task(desk), Task::Page { .. } | Task::Entry { .. })
    }

    fn give(&mut self, record: Record) {
        dayfile::write(record, &mut self.file);
        let _ = self.register.apply(record);
    }

    /// Often a word that stood before, so that a change may show in the seq alone.
    fn word(&mut self) -> u32 {
        match self.random.below(4) {
            0 => 0,
            1 => self.random.below(3) as u32,
            2 => {
                self.random.pick(&[9, 10, 99, 100, 65_535, 65_536, 999_999_999, 1 << 31, u32::MAX])
            }
            _ => self.random.draw() as u32,
        }
    }

    /// A desk number, now and then one that no desk has.
    fn desk(&mut self) -> u16 {
        let n = self.n();
        if self.random.once_in(12) {
            return self.random.pick(&[0, n + 1, n + 8, n + 256, 65_535]);
        }
        1 + self.random.below(n.max(1) as usize) as u16
    }

    fn before_opening(&mut self) {
        for _ in 0..1 + self.random.below(4) {
            let desk = self.random.below(10) as u16;
            let record = match self.random.below(5) {
                0 => Record::Entry { desk, word: 7 },
                1 => Record::Page { desk },
                2 => Record::Turn { desk },
                _ if self.random.once_in(40) => Record::Open { desks: 65_535 },
                _ => Record::Open { desks: self.random.pick(&[0, 9, 10, 256, 257, 4_096]) },
            };
            self.give(record);
        }
    }

    /// Records without a plan.
    fn anything(&mut self) {
        for _ in 0..20 + self.random.below(300) {
            let (desk, word) = (self.desk(), self.word());
            let record = match self.random.below(24) {
                0 => Record::Open { desks: self.random.below(11) as u16 },
                1..=4 => Record::Entry { desk, word },
                5..=6 => Record::Page { desk },
                _ => Record::Turn { desk },
            };
            self.give(record);
        }
    }

    /// Desks of very different speed, each at work most of the time.
    fn paced(&mut self) {
        let weights = self.weights();
        for _ in 0..50 + self.random.below(350) {
            self.paced_step(&weights);
        }
    }

    fn weights(&mut self) -> Vec<usize> {
        (0..self.n()).map(|_| 1 << self.random.below(6)).collect()
    }

    fn paced_step(&mut self, weights: &[usize]) {
        let mut left = self.random.below(weights.iter().sum());
        let mut desk = 1;
        for weight in weights {
            if left < *weight {
                break;
            }
            left -= weight;
            desk += 1;
        }
        if self.busy(desk) {
            self.turn(desk);
        } else if self.random.once_in(4) {
            self.call_page(desk);
        } else {
            self.call_entry(desk);
        }
    }

    fn call_page(&mut self, desk: u16) {
        self.disturb();
        self.give(Record::Page { desk });
    }

    fn call_entry(&mut self, desk: u16) {
        self.disturb();
        let word = self.word();
        self.give(Record::Entry { desk, word });
    }

    fn turn(&mut self, desk: u16) {
        self.disturb();
        self.give(Record::Turn { desk });
    }

    /// Now and then a record that is refused, which must change nothing.
    fn disturb(&mut self) {
        if !self.random.once_in(20) {
            return;
        }
        if let Some(record) = self.refusable() {
            self.give(record);
        }
    }

    /// A record that the open day refuses, or now and then none.
    fn refusable(&mut self) -> Option<Record> {
        let (desk, word) = (self.desk(), self.word());
        let absent = desk == 0 || desk > self.n();
        match self.random.below(6) {
            0 => Some(Record::Open { desks: desk }),
            1 if absent || self.busy(desk) => Some(Record::Page { desk }),
            2 if absent || self.busy(desk) => Some(Record::Entry { desk, word }),
            _ if absent || !self.busy(desk) => Some(Record::Turn { desk }),
            _ => None,
        }
    }

    /// A task that needs every double collect: in each but the last another desk, not seen to move
    /// before, writes between its row's two reads. The last one is clean or has a lender.
    fn longest(&mut self) {
        let mut others: Vec<u16> = (1..=self.n()).collect();
        self.random.shuffle(&mut others);
        let Some(desk) = others.pop() else { return };
        self.prepare(&others);
        self.call_any(desk);
        for k in 0..=others.len() {
            let mut moves = Vec::new();
            if k < others.len() {
                moves.push((self.seen(others[k]), others[k]));
            } else if k > 0 && self.random.once_in(2) {
                let lender = self.random.pick(&others);
                moves.push((self.seen(lender), lender));
            }
            if k > 0 && self.random.once_in(4) {
                let other = self.random.pick(&others);
                moves.push((self.unseen(other), other));
            }
            self.double_collect(desk, &moves, 0);
        }
        self.finish(desk);
    }

    /// Some writes, then some entries left half read or ready to write.
    fn prepare(&mut self, desks: &[u16]) {
        for _ in 0..self.random.below(4) {
            let desk = 1 + self.random.below(self.n() as usize) as u16;
            self.write(desk, 0);
        }
        for &desk in desks {
            if self.random.once_in(3) {
                self.call_entry(desk);
                for _ in 0..self.random.below(2 * self.n() as usize + 1) {
                    self.turn(desk);
                }
            }
        }
    }

    /// Tasks during which other desks write whose own tasks are disturbed in the same way, so that
    /// lenders have borrowed themselves.
    fn nested(&mut self) {
        let depth = if self.n() < 5 { 3 } else { 2 };
        for _ in 0..1 + self.random.below(2) {
            let desk = 1 + self.random.below(self.n() as usize) as u16;
            self.call_any(desk);
            self.disturbed(desk, depth);
            self.finish(desk);
        }
    }

    fn disturbed(&mut self, desk: u16, depth: usize) {
        let mut favourite = None;
        while self.reading(desk) {
            let idle: Vec<u16> = (1..=self.n()).filter(|&other| !self.busy(other)).collect();
            let mut moves = Vec::new();
            if !idle.is_empty() && !self.random.once_in(8) {
                let first = *favourite.get_or_insert(self.random.pick(&idle));
                moves.push((self.seen(first), first));
                let second = self.random.pick(&idle);
                match self.random.below(4) {
                    0 => moves.push((self.seen(second), second)),
                    1 => moves.push((self.unseen(second), second)),
                    2 => favourite = None,
                    _ => {}
                }
            }
            self.double_collect(desk, &moves, depth);
        }
    }

    /// Reads 0 to 2n−1 of a desk. A move is a number of reads and a desk that writes after them.
    fn double_collect(&mut self, desk: u16, moves: &[(usize, u16)], depth: usize) {
        for read in 0..2 * self.n() as usize {
            for &(after, mover) in moves {
                if after == read {
                    self.write(mover, depth);
                }
            }
            self.turn(desk);
        }
    }

    /// Some reads of each desk, mixed.
    fn collect(&mut self, desks: &[u16], reads: usize) {
        let mut turns = desks.repeat(reads);
        self.random.shuffle(&mut turns);
        for desk in turns {
            self.turn(desk);
        }
    }

    /// After how many reads a write of this desk lies between the two reads of its row.
    fn seen(&mut self, mover: u16) -> usize {
        mover as usize + self.random.below(self.n() as usize)
    }

    /// After how many reads it lies before the first or after the second.
    fn unseen(&mut self, mover: u16) -> usize {
        let n = self.n() as usize;
        let reads = self.random.below(n);
        if reads < mover as usize {
            reads
        } else {
            n + reads
        }
    }

    /// Lets a desk write once: the entry that it is at, or a new one.
    fn write(&mut self, desk: u16, depth: usize) {
        if !self.busy(desk) {
            self.call_entry(desk);
            if depth > 0 {
                self.disturbed(desk, depth - 1);
            }
        }
        self.finish(desk);
    }

    fn call_any(&mut self, desk: u16) {
        if self.random.once_in(2) {
            self.call_page(desk);
        } else {
            self.call_entry(desk);
        }
    }

    fn finish(&mut self, desk: u16) {
        while self.busy(desk) {
            self.turn(desk);
        }
    }
}

/// Cuts a file, or changes, drops or adds some bytes.
fn damage(random: &mut Random, file: &mut Vec<u8>) {
    let at = random.below(file.len());
    match random.below(5) {
        0 => file.truncate(at),
        1 => file[at] = random.draw() as u8,
        2 => file[at] ^= 1 << random.below(8),
        3 => drop(file.remove(at)),
        _ => file.insert(at, random.below(10) as u8),
    }
}
