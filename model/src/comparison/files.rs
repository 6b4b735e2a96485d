//! Files that are cut, damaged or long, and full days. What the files have met is counted.

use super::{bytes, Checked, Comparison, Model};
use crate::counts::Reached;
use crate::dayfile::{self, Record};
use crate::days::{full_day, last_day, long_file};

/// Every kind of record and of answer, short enough to cut and damage at every byte.
pub const SMALL: &str =
    "open 2\nentry 1 70000\nturn 1 x5\npage 2\nturn 2 x4\npage 1\nentry 2 9\nturn 1";

const KINDS: [&str; 4] = ["an opening", "an entry call", "a page call", "a turn"];

/// Counts by kind of record and by its parts: length, kind, desk or count, word.
type Places = [[u64; 4]; 4];

#[derive(Default)]
pub struct Met {
    cut: Places,
    damaged: Places,
    /// Records across an edge of 64 KiB, by length and by the bytes before the edge.
    across: [[u64; 11]; 11],
}

impl Met {
    pub fn add_to(&self, reached: &mut Reached) {
        for (i, kind) in KINDS.iter().enumerate() {
            let parts = ["length", "kind", if i == 0 { "count" } else { "desk" }, "word"];
            let parts = &parts[..if i == 1 { 4 } else { 3 }];
            let names = parts.join(", ");
            reached.add(format!("cut in {kind}'s {names}"), &self.cut[i][..parts.len()]);
            reached.add(format!("damaged in {kind}'s {names}"), &self.damaged[i][..parts.len()]);
        }
        // All lengths are even, so are the places.
        for (length, places) in [(6, vec![2, 4]), (10, vec![2, 4, 6, 8])] {
            let counts: Vec<u64> = places.iter().map(|&at| self.across[length][at]).collect();
            let name = format!("records of {length} bytes across 64 KiB after {places:?} bytes");
            reached.add(name, &counts);
        }
    }

    fn count_edges(&mut self, file: &[u8]) {
        for (start, end) in records(file) {
            let before = start.next_multiple_of(1 << 16) - start;
            if 0 < before && before < end - start {
                self.across[end - start][before] += 1;
            }
        }
    }
}

impl<M: Model> Comparison<M> {
    /// Turns before any opening, then a record of an unknown kind or length, then more than a buffer
    /// is likely to hold, none of which is read. The lines of 5,888 turns leave 768 bytes of 64 KiB;
    /// 1,023 turns are 6,138 bytes, and 10,922 are nearly 64 KiB.
    pub(super) fn refused_before_the_end(&mut self) -> Checked {
        for turns in [0, 1, 1_021, 1_022, 1_023, 5_887, 5_888, 5_889, 10_921, 10_922] {
            for bad in [[4, 0, 9, 0, 1, 0], [9, 0, 4, 0, 1, 0]] {
                let mut file = Vec::new();
                for _ in 1..=turns {
                    dayfile::write(Record::Turn { desk: 1 }, &mut file);
                }
                file.extend(bad);
                file.extend(long_file(70_000, 5));
                self.check(&format!("a refusal after {turns} turns, and more"), &file)?;
            }
        }
        Ok(())
    }

    /// The small day cut at every byte.
    pub(super) fn cut(&mut self) -> Checked {
        let file = bytes(SMALL);
        for at in 0..=file.len() {
            self.check(&format!("the small day cut after {at} bytes"), &file[..at])?;
            let between = records(&file[..at]).last().map_or(0, |&(_, end)| end) == at;
            if !between {
                let (kind, part) = place(&file, at);
                self.met.cut[kind][part] += 1;
            }
        }
        Ok(())
    }

    /// The small day with every byte changed in many ways.
    pub(super) fn damaged(&mut self) -> Checked {
        let file = bytes(SMALL);
        for at in 0..file.len() {
            let bits = (0..8).map(|bit| file[at] ^ (1 << bit));
            for byte in (0..=10).chain([255]).chain(bits) {
                let mut damaged = file.clone();
                damaged[at] = byte;
                self.check(&format!("the small day with byte {at} as {byte}"), &damaged)?;
            }
            let (kind, part) = place(&file, at);
            self.met.damaged[kind][part] += 1;
        }
        Ok(())
    }

    /// Last records of every length and kind near the right ones, all bytes there or some missing.
    pub(super) fn tails(&mut self) -> Checked {
        for length in (0..=10u16).chain([260]) {
            for kind in (0..=5u16).chain([260]) {
                let mut file = bytes("open 2");
                file.extend(length.to_le_bytes());
                file.extend(kind.to_le_bytes());
                file.extend([1, 0, 7, 0, 0, 0, 4, 0]);
                for cut in 0..12 {
                    let name = format!("length {length}, kind {kind}, {cut} bytes short");
                    self.check(&name, &file[..file.len() - cut])?;
                }
            }
        }
        Ok(())
    }

    /// Files longer than any likely buffer, of every length modulo 10.
    pub(super) fn long_files(&mut self) -> Checked {
        for size in [1 << 16, 1 << 20] {
            for more in 1..=10 {
                let file = long_file(size + more, (size + more) as u64);
                self.check(&format!("a long file of {} bytes", file.len()), &file)?;
                self.met.count_edges(&file);
            }
        }
        Ok(())
    }

    pub(super) fn full_days(&mut self) -> Checked {
        for n in 1..=8 {
            self.check(&format!("a full day for {n}"), &full_day(n, n.into()))?;
            self.check(&format!("a day for {n} up to the last event"), &last_day(n))?;
        }
        Ok(())
    }
}

/// The first byte of each record of a file, and of the next.
fn records(file: &[u8]) -> Vec<(usize, usize)> {
    let mut found = Vec::new();
    let mut at = 0;
    while let Ok(Some((_, next))) = dayfile::read(&file[at..]) {
        found.push((at, at + next));
        at += next;
    }
    found
}

/// The kind of record and the part of it that a byte belongs to.
fn place(file: &[u8], at: usize) -> (usize, usize) {
    let start = records(file).iter().find(|&&(_, end)| at < end).map_or(0, |&(start, _)| start);
    (file[start + 2] as usize - 1, ((at - start) / 2).min(3))
}
