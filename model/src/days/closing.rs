//! The end of the day, K2 of document 02: days in which the last calls are just taken or just not.

use super::Draft;
use crate::register::{most_reads, LAST_EVENT, PLACES};

/// A day for n desks up to event 65,535, then calls and turns of every desk: the last call is taken
/// with no event to spare, and every task under way then takes its greatest number of turns.
pub fn last_day(n: u16) -> Vec<u8> {
    let mut trial = Draft::opened(n, 0);
    trial.longest_together();
    let mut draft = Draft::opened(n, 0);
    draft.work_until(LAST_EVENT - trial.register.day.event);
    draft.longest_together();
    draft.ask_everybody();
    draft.file
}

/// A full day that comes to a last call again and again, for n from 1 to 8 by the seed. The first time
/// each way in which the call can lie comes once in 48 seeds.
pub fn closing_day(seed: u64) -> Vec<u8> {
    let n = 1 + seed as usize % PLACES;
    let way = seed as usize / PLACES;
    let mut draft = Draft::opened(n as u16, seed);
    // Room for every desk's call, and for whatever `fits` asks.
    let page = draft.page_events();
    let room = n as u32 * (most_reads(n as u32) + 2) + page * page;
    let more = draft.random.below(page as usize) as u32;
    draft.work_until(LAST_EVENT - room - more);
    let others = if way % 6 < 3 && n > 1 { 1 + draft.random.below(n - 1) } else { 0 };
    draft.last_call(others, way as u32 % 3);
    while draft.goes_on() {
        let called = (0..20).any(|_| {
            let (others, spare) = (draft.random.below(n), draft.random.below(3));
            draft.last_call(others, spare as u32)
        });
        if !called {
            draft.any_work();
        }
    }
    draft.ask_everybody();
    draft.file
}

impl Draft {
    /// The events of a page that nobody disturbs. An entry has one more.
    fn page_events(&self) -> u32 {
        2 * u32::from(self.n()) + 1
    }

    /// Whether pages and entries that nobody disturbs can have so many events.
    fn fits(&self, events: u32) -> bool {
        events % self.page_events() <= events / self.page_events()
    }

    /// Pages and entries of idle desks up to an event number, one after the other.
    fn work_until(&mut self, event: u32) {
        let page = self.page_events();
        while self.register.day.event < event {
            let left = event - self.register.day.event;
            let far = left > 2 * page * page;
            let desk = 1 + self.random.below(self.n().into()) as u16;
            let entry = if far { self.random.once_in(2) } else { left % page > 0 };
            if entry {
                self.call_entry(desk);
            } else {
                self.call_page(desk);
            }
            self.finish(desk);
        }
    }

    fn any_work(&mut self) {
        let desk = 1 + self.random.below(self.n().into()) as u16;
        self.call_any(desk);
        self.finish(desk);
    }

    /// From a day on which nobody waits: so many others call and read, so that the room left is 2n² and
    /// the `spare`, 0 to 2. A page lacks an event then, has just enough or one too many; an entry needs
    /// one more. A further desk calls, and all are ended. Answers whether there was room for it.
    fn last_call(&mut self, others: usize, spare: u32) -> bool {
        let n = self.n();
        let most = most_reads(n.into());
        let mut desks: Vec<u16> = (1..=n).collect();
        self.random.shuffle(&mut desks);
        desks.truncate(1 + others);
        let Some(last) = desks.pop() else { return false };
        let entries = self.random.below(desks.len() + 1);
        let calls = desks.len() as u32 * (1 + most) + entries as u32;
        match self.room().checked_sub(calls + most + spare) {
            Some(left) if self.fits(left) => self.work_until(self.register.day.event + left),
            _ => return false,
        }
        for &desk in &desks[..entries] {
            self.call_entry(desk);
        }
        for &desk in &desks[entries..] {
            self.call_page(desk);
        }
        // Nobody reads all rows twice, so nobody is answered.
        let reads = self.random.below(2 * n as usize);
        self.collect(&desks, reads);
        self.call_entry(last);
        self.call_page(last);
        self.end_all();
        true
    }

    /// Turns of waiting desks in any order until nobody waits. Sometimes idle desks call meanwhile,
    /// and are taken once others have ended early.
    fn end_all(&mut self) {
        if self.random.once_in(2) {
            self.ask_everybody();
        }
        let calls = self.random.once_in(3);
        while self.anybody_busy() {
            let desk = 1 + self.random.below(self.n().into()) as u16;
            if self.busy(desk) {
                self.turn(desk);
            } else if calls && self.random.once_in(8) {
                self.call_any(desk);
            }
        }
    }

    /// Entries of desks n to 2 and a page of desk 1, each of which takes its greatest number of turns.
    /// They go on by double collects. In each of the first n - 1 the next desk down writes and then
    /// calls; in each later one the first that still waits is ended. So everybody sees every other
    /// desk write once, and each in another double collect.
    fn longest_together(&mut self) {
        let n = self.n();
        self.call_last(n);
        for next in (1..n).rev() {
            let waiting: Vec<u16> = (next + 1..=n).collect();
            self.together(&waiting, next);
            self.call_last(next);
        }
        for first in (1..=n).rev() {
            let waiting: Vec<u16> = (1..first).collect();
            self.together(&waiting, first);
        }
    }

    fn call_last(&mut self, desk: u16) {
        if desk == 1 {
            self.call_page(desk);
        } else {
            self.call_entry(desk);
        }
    }

    /// A double collect of these desks, between whose two collects another ends its task, or a new
    /// entry.
    fn together(&mut self, desks: &[u16], other: u16) {
        let n = self.n() as usize;
        self.collect(desks, n);
        self.write(other, 0);
        self.collect(desks, n);
    }
}
