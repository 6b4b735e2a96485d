//! Days in which several desks borrow the page of one entry, and end late and in any order.

use super::Draft;
use crate::register::LAST_EVENT;

/// Such a day of some hundred records, the same for the same seed; one in six is damaged.
pub fn lending_day(seed: u64) -> Vec<u8> {
    let mut draft = Draft::begun(seed);
    if draft.n() < 2 {
        draft.anything();
    } else {
        draft.lending();
        draft.paced();
    }
    draft.ended()
}

/// A nearly full day for n desks, at whose end the others' pages are answered that they borrow from
/// desk 1 near its beginning.
pub fn latest_day(n: u16) -> Vec<u8> {
    let mut draft = Draft::opened(n, n.into());
    draft.lend_to(1, (2..=n).collect(), Vec::new(), LAST_EVENT - 2_000);
    draft.file
}

impl Draft {
    pub(super) fn lending(&mut self) {
        let mut others: Vec<u16> = (1..=self.n()).collect();
        self.random.shuffle(&mut others);
        let Some(lender) = others.pop() else { return };
        let readers = others.split_off(self.random.below(others.len()));
        self.lend_to(lender, readers, others, 0);
    }

    /// Some desks read pages, and the lender writes in the first and in the second double collect of
    /// all of them. Others work before the readers end, at least to the event `until`.
    fn lend_to(&mut self, lender: u16, mut readers: Vec<u16>, mut others: Vec<u16>, until: u32) {
        let n = self.n() as usize;
        for &reader in &readers {
            self.call_page(reader);
        }
        self.collect(&readers, n);
        self.lend(lender);
        self.collect(&readers, n);

        self.collect(&readers, n);
        self.lend(lender);
        self.work(&others);
        self.collect(&readers, lender.into());
        // The readers have its row by now, and do not see what it writes.
        others.push(lender);
        self.work(&others);
        while self.register.day.event < until {
            self.work(&others);
        }
        self.random.shuffle(&mut readers);
        for reader in readers {
            self.finish(reader);
            self.work(&others);
        }
    }

    /// An entry, now and then one that has borrowed itself.
    fn lend(&mut self, lender: u16) {
        let depth = self.random.below(2);
        self.write(lender, depth);
    }

    /// Entries and pages of idle desks, each ended before the next. With few desks each is short.
    fn work(&mut self, desks: &[u16]) {
        if desks.is_empty() {
            return;
        }
        for _ in 0..self.random.below(4 + 16 / self.n() as usize) {
            let desk = self.random.pick(desks);
            self.call_any(desk);
            self.finish(desk);
        }
    }
}
