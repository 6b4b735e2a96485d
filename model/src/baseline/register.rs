//! The register as the fast day runner has it: in place, without a copy that it can do without.

use crate::register::{most_reads, Refusal, Shown, Task, Turn, View, LAST_EVENT, PLACES};

#[derive(Clone, Copy, Debug, Default, PartialEq, Eq)]
pub struct Row {
    /// Its word, and the event number of its last writing.
    pub shown: Shown,
    pub seq: u32,
    pub at: u32,
    pub view: View,
}

#[derive(Clone, Copy, Debug, Default, PartialEq, Eq)]
pub struct Desk {
    pub row: Row,
    pub task: Task,
    pub marks: [bool; PLACES],
    pub kept: View,
    pub first: [Row; PLACES],
    pub second: [Row; PLACES],
    /// The number of the turn that ended the first collect.
    pub first_ended: u32,
}

#[derive(Clone, Copy, Debug, Default, PartialEq, Eq)]
pub struct Day {
    pub desks: u32,
    pub event: u32,
}

/// The place of a desk's record in the table, and what all tasks owe.
struct Found {
    i: usize,
    owed: u32,
}

/// A page as decided: its lender or 0, and its instant.
struct Decided {
    from: usize,
    at: u32,
}

impl Day {
    pub fn open(&mut self, table: &mut [Desk], desks: u32) -> Result<(), Refusal> {
        if self.desks != 0 {
            return Err(Refusal::OpenOrNot);
        }
        if !(1..=PLACES as u32).contains(&desks) {
            return Err(Refusal::DeskCount);
        }
        if table.len() != desks as usize {
            return Err(Refusal::LentSize);
        }
        *self = Day { desks, event: 0 };
        table.fill(Desk::default());
        Ok(())
    }

    pub fn entry(&mut self, table: &mut [Desk], desk: u32, word: u32) -> Result<(), Refusal> {
        self.call(table, desk, Task::Entry { turns: 0, word })
    }

    pub fn page(&mut self, table: &mut [Desk], desk: u32) -> Result<(), Refusal> {
        self.call(table, desk, Task::Page { turns: 0 })
    }

    fn call(&mut self, table: &mut [Desk], desk: u32, task: Task) -> Result<(), Refusal> {
        let Found { i, owed } = self.find(table, None, desk)?;
        if table[i].task != Task::Idle {
            return Err(Refusal::DeskBusy);
        }
        let greatest = match task {
            Task::Page { .. } => most_reads(self.desks),
            _ => most_reads(self.desks) + 1,
        };
        if self.event + 1 + owed + greatest > LAST_EVENT {
            return Err(Refusal::DayFull);
        }
        self.event += 1;
        table[i].begin(self.desks as usize, task);
        Ok(())
    }

    pub fn turn(
        &mut self,
        table: &mut [Desk],
        desk: u32,
        page: &mut [Shown],
    ) -> Result<Turn, Refusal> {
        let Found { i, .. } = self.find(table, Some(page.len()), desk)?;
        match table[i].task {
            Task::Idle => Err(Refusal::DeskIdle),
            Task::Ready { turns, word, at } => {
                self.event += 1;
                table[i].write(self.desks as usize, Shown { word, last: self.event }, at);
                Ok(Turn::Written { turns: turns + 1 })
            }
            Task::Page { turns } => Ok(self.page_turn(table, i, turns, page)),
            Task::Entry { turns, word } => Ok(self.entry_turn(table, i, turns, word)),
        }
    }

    fn page_turn(&mut self, table: &mut [Desk], i: usize, turns: u32, page: &mut [Shown]) -> Turn {
        let n = self.desks as usize;
        let decided = self.read(table, i, turns);
        let turns = turns + 1;
        let Some(Decided { from, at }) = decided else {
            table[i].task = Task::Page { turns };
            return Turn::Read;
        };
        show(&table[i].second, from, &mut page[..n]);
        table[i].begin(n, Task::Idle);
        Turn::Page { from: from as u32, at, turns }
    }

    fn entry_turn(&mut self, table: &mut [Desk], i: usize, turns: u32, word: u32) -> Turn {
        let decided = self.read(table, i, turns);
        let turns = turns + 1;
        let Desk { task, kept, second, .. } = &mut table[i];
        *task = match decided {
            None => Task::Entry { turns, word },
            Some(Decided { from, at }) => {
                show(second, from, &mut kept[..self.desks as usize]);
                Task::Ready { turns, word, at }
            }
        };
        Turn::Read
    }

    /// Makes desk i's reading turn, numbered from 0, and decides the page after a double collect.
    fn read(&mut self, table: &mut [Desk], i: usize, turn: u32) -> Option<Decided> {
        let n = self.desks as usize;
        let p = turn as usize % (2 * n);
        self.event += 1;
        if p < n {
            let row = table[p].row;
            table[i].first[p].copy(n, &row);
            if p == n - 1 {
                table[i].first_ended = self.event;
            }
            return None;
        }
        let row = table[p - n].row;
        table[i].second[p - n].copy(n, &row);
        if p == 2 * n - 1 {
            table[i].decide(n)
        } else {
            None
        }
    }

    /// The desk's record and all turns owed, or the first of 10, 6, 11 and 2 that is met. A turn says
    /// for how many rows its page list has places.
    fn find(&self, table: &[Desk], rows: Option<usize>, desk: u32) -> Result<Found, Refusal> {
        let n = self.desks as usize;
        if n == 0 {
            return Err(Refusal::OpenOrNot);
        }
        if table.len() != n || rows.is_some_and(|rows| rows < n) {
            return Err(Refusal::LentSize);
        }
        let owed = self.owed(table).ok_or(Refusal::CannotHaveArisen)?;
        if desk == 0 || desk as usize > n {
            return Err(Refusal::NoSuchDesk);
        }
        Ok(Found { i: desk as usize - 1, owed })
    }

    /// All turns owed, or nothing where the day cannot have arisen. Each record is looked at once.
    fn owed(&self, table: &[Desk]) -> Option<u32> {
        if self.desks > PLACES as u32 || self.event > LAST_EVENT {
            return None;
        }
        let most = most_reads(self.desks);
        let mut owed = 0;
        for Desk { row, task, .. } in table {
            if row.seq > self.event || row.at > self.event || row.shown.last > self.event {
                return None;
            }
            owed += match *task {
                Task::Idle => 0,
                Task::Page { turns } if turns < most => most - turns,
                Task::Entry { turns, .. } if turns < most => most + 1 - turns,
                Task::Ready { turns, .. } if turns <= most => most + 1 - turns,
                _ => return None,
            };
        }
        (self.event + owed <= LAST_EVENT).then_some(owed)
    }
}

impl Desk {
    /// Sets the task, as a call or the answer that ends one does: nothing collected, marked or kept.
    fn begin(&mut self, n: usize, task: Task) {
        self.task = task;
        self.marks = [false; PLACES];
        self.kept[..n].fill(Shown::default());
        for j in 0..n {
            self.first[j].clear(n);
            self.second[j].clear(n);
        }
        self.first_ended = 0;
    }

    fn differs(&self, j: usize) -> bool {
        self.first[j].seq != self.second[j].seq
    }

    /// Figure 3, lines 4 to 10: a clean page, a lender, or new marks and another double collect.
    fn decide(&mut self, n: usize) -> Option<Decided> {
        if !(0..n).any(|j| self.differs(j)) {
            return Some(Decided { from: 0, at: self.first_ended });
        }
        for j in 0..n {
            if self.differs(j) {
                if self.marks[j] {
                    return Some(Decided { from: j + 1, at: self.second[j].at });
                }
                self.marks[j] = true;
            }
        }
        None
    }

    /// Writes the row and ends the task.
    fn write(&mut self, n: usize, shown: Shown, at: u32) {
        self.row.shown = shown;
        self.row.seq += 1;
        self.row.at = at;
        self.row.view[..n].copy_from_slice(&self.kept[..n]);
        self.begin(n, Task::Idle);
    }
}

/// The rows of the second collect, or the lender's view in it.
fn show(second: &[Row; PLACES], from: usize, page: &mut [Shown]) {
    if from > 0 {
        page.copy_from_slice(&second[from - 1].view[..page.len()]);
    } else {
        for (shown, row) in page.iter_mut().zip(second) {
            *shown = row.shown;
        }
    }
}

impl Row {
    /// Takes over another row, but for what is past n of its view.
    fn copy(&mut self, n: usize, other: &Row) {
        self.shown = other.shown;
        self.seq = other.seq;
        self.at = other.at;
        self.view[..n].copy_from_slice(&other.view[..n]);
    }

    fn clear(&mut self, n: usize) {
        self.copy(n, &Row::default());
    }
}
