//! The day files of a quarter.

use super::{lending_day, pages_day, random_day, Draft};
use crate::random::Random;
use crate::register::PLACES;

/// Up to seven day files, the same for the same seed. Most are for one desk count, the others for any.
/// Some are empty, some have records that are refused, and some end with 7, 8 or 9. In one quarter of
/// eight nobody is disturbed.
pub fn quarter(seed: u64) -> Vec<Vec<u8>> {
    let mut random = Random::new(seed);
    let n = 1 + random.below(PLACES) as u16;
    let kinds = if random.once_in(8) { vec![0, 4, 4] } else { (0..8).collect() };
    (0..random.below(8)).map(|_| quarter_day(&mut random, n, &kinds)).collect()
}

fn quarter_day(random: &mut Random, n: u16, kinds: &[u32]) -> Vec<u8> {
    let seed = random.draw();
    match random.pick(kinds) {
        0 => Vec::new(),
        1 => random_day(seed),
        2 => lending_day(seed),
        3 => broken_day(n, seed),
        4 => quiet_day(n, seed),
        _ => busy_day(n, seed),
    }
}

/// A day of one desk with so many pages, up to 21,845, and nothing else.
pub fn pages_of_one(pages: usize) -> Vec<u8> {
    let mut file = pages_day(1, None);
    // The opening, and a call and two turns for each page.
    file.truncate(6 + 18 * pages);
    file
}

fn quiet_day(n: u16, seed: u64) -> Vec<u8> {
    let mut draft = Draft::opened(n, seed);
    draft.quiet();
    draft.file
}

fn busy_day(n: u16, seed: u64) -> Vec<u8> {
    let mut draft = Draft::opened(n, seed);
    draft.borrowing();
    draft.paced();
    draft.file
}

/// A day whose last record is cut short, or that has a record which ends it and pages after that.
fn broken_day(n: u16, seed: u64) -> Vec<u8> {
    let mut draft = Draft::opened(n, seed);
    draft.quiet();
    draft.borrowing();
    let ends: [&[u8]; 4] =
        [&[4, 0, 9, 0, 1, 0], &[4, 0, 2, 0, 1, 0], &[8, 0, 4, 0, 1, 0, 0, 0, 0, 0], &[2, 0, 4, 0]];
    if draft.random.once_in(3) {
        let missing = 1 + draft.random.below(5);
        draft.file.truncate(draft.file.len() - missing);
    } else {
        let end = draft.random.pick(&ends);
        draft.file.extend(end);
        draft.quiet();
    }
    draft.file
}

impl Draft {
    /// Pages that nobody disturbs.
    fn quiet(&mut self) {
        for _ in 0..1 + self.random.below(6) {
            let desk = 1 + self.random.below(self.n().into()) as u16;
            self.call_page(desk);
            self.finish(desk);
        }
    }

    pub(super) fn borrowing(&mut self) {
        if self.n() > 1 {
            self.lending();
        }
    }
}
