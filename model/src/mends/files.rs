//! The files: worked out by hand, cut, damaged at every kind of place, with every kind of length, long
//! and full ones. What they have met is counted.

use super::Mends;
use crate::comparison::{bytes, Checked, SMALL};
use crate::counts::Reached;
use crate::days::{self, Spot, Third, DAMAGES, SPOTS, THIRDS};
use crate::mend_examples::EXAMPLES;
use crate::mending::MOST_BYTES;
use crate::register::PLACES;

/// How often each damage was met, by n.
type Damages = [[u64; PLACES + 1]; DAMAGES.len()];

#[derive(Default)]
pub struct Met {
    places: [[Damages; SPOTS.len()]; THIRDS.len()],
    full: [u64; PLACES + 1],
    examples: u64,
    prefixes: u64,
    deletions: u64,
}

impl Met {
    pub fn add_to(&self, reached: &mut Reached) {
        reached.add("files worked out by hand", &[self.examples]);
        reached.add("prefixes of a short day, and a byte lost", &[self.prefixes, self.deletions]);
        reached.add("full days damaged, n = 1 to 8", &self.full[1..]);
        for (third, spot) in days::damage_places() {
            let counts = &self.places[third as usize][spot as usize];
            // Each n counts.
            let least = counts.map(|by_n| by_n[1..].iter().copied().min().unwrap_or(0));
            let place = format!("{}, {}", third_name(third), spot_name(spot));
            let name = "lost, changed, doubled, exchanged, the least of n = 1 to 8";
            reached.add(format!("{place}: {name}"), &least);
        }
    }
}

fn third_name(third: Third) -> &'static str {
    match third {
        Third::Opening => "the opening",
        Third::Beginning => "the first third",
        Third::Middle => "the second third",
        Third::End => "the last third",
    }
}

fn spot_name(spot: Spot) -> &'static str {
    match spot {
        Spot::Length => "in a length",
        Spot::Kind => "in a kind",
        Spot::Desk => "in a desk or count",
        Spot::Word => "in a word",
        Spot::Edge => "across the edge of two records",
        Spot::Records => "whole records",
    }
}

impl Mends {
    /// Everything but input, output and random files.
    pub fn special(&mut self) -> Checked {
        self.examples()?;
        self.undamaged()?;
        self.small()?;
        self.lengths()?;
        self.tails()?;
        println!("examples, undamaged and short days, every length: {} alike", self.alike);
        let before = self.alike;
        self.places()?;
        println!("each damage at each kind of place: {} alike", self.alike - before);
        let before = self.alike;
        self.full_days()?;
        self.longest()?;
        println!("full days and the longest files: {} alike", self.alike - before);
        Ok(())
    }

    /// What was worked out by hand.
    fn examples(&mut self) -> Checked {
        for example in &EXAMPLES {
            let file = bytes(example.file);
            let run = self.program.both(&file)?;
            if run.message != example.dropped || run.printed != bytes(example.kept) {
                let said = format!("{:?} with {:?}", run.printed, run.message);
                return Err(format!("{}, by hand, is mended to {said}", example.name).into());
            }
            self.check(example.name, &file)?;
            self.met.examples += 1;
        }
        Ok(())
    }

    /// Days without a refused record, and two of them in one file.
    fn undamaged(&mut self) -> Checked {
        for n in 1..=8 {
            for seed in 1..=3 {
                self.check(&format!("a sound day for {n}"), &days::sound_day(n, seed))?;
            }
            let two = [days::sound_day(n, 4), days::sound_day(9 - n, 5)].concat();
            self.check(&format!("a day for {n} and another"), &two)?;
        }
        Ok(())
    }

    /// A short day cut at every byte, and with every byte lost or changed.
    fn small(&mut self) -> Checked {
        let file = bytes(SMALL);
        for at in 0..=file.len() {
            self.check(&format!("the small day cut after {at} bytes"), &file[..at])?;
            self.met.prefixes += 1;
        }
        for at in 0..file.len() {
            let mut damaged = file.clone();
            damaged.remove(at);
            self.check(&format!("the small day without byte {at}"), &damaged)?;
            self.met.deletions += 1;
            for byte in [file[at] ^ 1, file[at] ^ 4, 9] {
                let mut damaged = file.clone();
                damaged[at] = byte;
                self.check(&format!("the small day with byte {at} as {byte}"), &damaged)?;
            }
        }
        Ok(())
    }

    /// Every kind of length, put in place of a record's own and between two records.
    fn lengths(&mut self) -> Checked {
        for n in [1, 3, 8] {
            let day = days::sound_day(n, n.into());
            let edges = days::edges(&day);
            let records = edges.len() - 1;
            for place in [0, 1, records / 2, records - 1].map(|record| edges[record]) {
                let left = day.len() - place - 2;
                for length in [0, 1, 2, 3, 9, 10, 12, 300, left - 1, left, left + 1, 65_535] {
                    let field = (length as u16).to_le_bytes();
                    let name = format!("length {length} at {place} of a day for {n}");
                    let changed = [&day[..place], &field, &day[place + 2..]].concat();
                    self.check(&name, &changed)?;
                    let added = [&day[..place], &field, &day[place..]].concat();
                    self.check(&format!("{name}, added"), &added)?;
                }
            }
        }
        Ok(())
    }

    /// Last pieces of every length and kind near the right ones, all bytes there or some missing, and
    /// a record behind those that are whole.
    fn tails(&mut self) -> Checked {
        let day = bytes("open 2\npage 1");
        for length in 0..=10u8 {
            for kind in [0, 2, 4, 5] {
                let body = [kind, 0, 1, 0, 7, 0, 0, 0, 4, 0];
                let piece = [&[length, 0], &body[..length.into()]].concat();
                for cut in [0, 1, 2, 5] {
                    let there = &piece[..piece.len().saturating_sub(cut).max(1)];
                    let name = format!("length {length}, kind {kind}, {cut} bytes short");
                    self.check(&name, &[&day, there].concat())?;
                }
                let name = format!("length {length}, kind {kind}, and a turn");
                self.check(&name, &[&day, &piece[..], &bytes("turn 1")].concat())?;
            }
        }
        Ok(())
    }

    /// Each damage at each kind of place of days for every n.
    fn places(&mut self) -> Checked {
        for n in 1..=8 {
            for (seed, (third, spot)) in (1..).zip(days::damage_places()) {
                let day = days::sound_day(n, seed);
                for damage in DAMAGES {
                    let damaged = days::damaged(&day, damage, spot, third, seed);
                    let name = format!("{damage:?}, {spot:?}, {third:?}, for {n}");
                    self.check(&name, &damaged.file)?;
                    self.counts.later(&day, &damaged, n.into());
                    let counts = &mut self.met.places[third as usize][spot as usize];
                    counts[damage as usize][n as usize] += 1;
                }
            }
        }
        Ok(())
    }

    /// Full days, damaged and not, and all of them one after the other.
    fn full_days(&mut self) -> Checked {
        let full: Vec<Vec<u8>> = (1..=8).map(|n| days::full_day(n, n.into())).collect();
        for (n, day) in (1..).zip(&full) {
            self.check(&format!("a full day for {n}"), day)?;
            let damage = DAMAGES[n % DAMAGES.len()];
            let damaged = days::damaged(day, damage, Spot::Length, Third::Middle, n as u64);
            self.check(&format!("a full day for {n}, {damage:?}"), &damaged.file)?;
            self.met.full[n] += 1;
        }
        self.check("a full day without its opening", &full[4][6..])?;
        self.check("eight full days", &full.concat())?;
        self.check("a full day of pages", &days::pages_day(1, None))
    }

    /// Files of the greatest length: a day before and behind records that are refused, and as many
    /// drops as there can be.
    fn longest(&mut self) -> Checked {
        let day = days::full_day(3, 3);
        let rest = days::refused_records(MOST_BYTES - day.len());
        self.check("a day and refused records", &[&day[..], &rest].concat())?;
        self.check("refused records and a day", &[&rest[..], &day].concat())?;
        self.check("zeros", &vec![0; MOST_BYTES])
    }
}
