//! What a set of days has reached, counted from the model's own answers.

use crate::dayfile::Record;
use crate::register::{most_reads, Refusal, Turn, LAST_EVENT, PLACES};
use crate::runner::{Done, Register};
use std::fmt;

#[derive(Default)]
pub struct Counts {
    pub clean: u64,
    pub borrowed: u64,
    pub borrowed_twice: u64,
    /// Pages of 2n² turns and entries of 2n²+1, by n.
    pub longest_pages: [u64; PLACES + 1],
    pub longest_entries: [u64; PLACES + 1],
    /// By number.
    pub refusals: [u64; 12],
    pub full_call: u64,
    pub full_idle: u64,
    pub numbers: Numbers,
    /// The desk of each event of the day that is being run.
    makers: Vec<u32>,
}

impl Counts {
    /// Takes in one record of a day and its outcome, with the register after it.
    pub fn watch(
        &mut self,
        record: Option<Record>,
        outcome: Result<Done, Refusal>,
        register: &Register,
    ) {
        match outcome {
            Err(refusal) => self.refused(record, refusal, register),
            // Events count from 1.
            Ok(Done::Opened) => self.makers = vec![0],
            Ok(done) => self.accepted(record, done, register),
        }
    }

    fn accepted(&mut self, record: Option<Record>, done: Done, register: &Register) {
        let n = register.day.desks;
        if let Some(Record::Entry { desk, .. } | Record::Page { desk } | Record::Turn { desk }) =
            record
        {
            self.makers.push(desk.into());
        }
        match done {
            Done::Turned(Turn::Page { from, at, turns }) => {
                self.page(from, at);
                self.numbers.page(from, register);
                self.longest_pages[n as usize] += u64::from(turns == most_reads(n));
            }
            Done::Turned(Turn::Written { turns }) => {
                self.longest_entries[n as usize] += u64::from(turns == most_reads(n) + 1);
            }
            _ => {}
        }
    }

    /// A page's instant is an event of the desk that read it clean. If that is not the lender, the
    /// lender had borrowed it.
    fn page(&mut self, from: u32, at: u32) {
        if from == 0 {
            self.clean += 1;
        } else if self.makers[at as usize] == from {
            self.borrowed += 1;
        } else {
            self.borrowed_twice += 1;
        }
    }

    fn refused(&mut self, record: Option<Record>, refusal: Refusal, register: &Register) {
        self.refusals[refusal as usize] += 1;
        if register.day.event == LAST_EVENT {
            match (record, refusal) {
                (Some(Record::Turn { .. }), Refusal::DeskIdle) => self.full_idle += 1,
                (Some(_), Refusal::DayFull) => self.full_call += 1,
                _ => {}
            }
        }
    }
}

/// What pages have shown of their rows' last writings, by n.
#[derive(Default)]
pub struct Numbers {
    /// A row that was never written beside one that was.
    beside: [u64; PLACES + 1],
    /// A row that was written later than the next, which was written too.
    later_first: [u64; PLACES + 1],
    /// A word 0 that was written.
    zero: [u64; PLACES + 1],
    /// The last of several writings of a row.
    again: [u64; PLACES + 1],
    /// Clean and borrowed pages of which a row has been written anew before they are answered.
    overtaken: [[u64; PLACES + 1]; 2],
    /// Numbers by how many digits they have.
    digits: [u64; 6],
    /// Pages with a number of five digits.
    five_digits: [u64; PLACES + 1],
}

impl Numbers {
    /// A page of this lender, with the register right after it.
    fn page(&mut self, from: u32, register: &Register) {
        let n = register.day.desks as usize;
        let (words, last) = (register.words(), register.last());
        let rows = || register.table.iter().zip(last).map(|(desk, &last)| (desk.row, last));
        let written = last.iter().any(|&last| last > 0);
        let add = |met: bool, count: &mut [u64; PLACES + 1]| count[n] += u64::from(met);
        add(written && last.contains(&0), &mut self.beside);
        add(last.windows(2).any(|two| two[0] > two[1] && two[1] > 0), &mut self.later_first);
        add(words.iter().zip(last).any(|(&word, &last)| word == 0 && last > 0), &mut self.zero);
        add(rows().any(|(row, last)| row.seq > 1 && last == row.last), &mut self.again);
        let overtaken = &mut self.overtaken[usize::from(from > 0)];
        add(rows().any(|(row, last)| last < row.last), overtaken);
        add(last.iter().any(|&last| last >= 10_000), &mut self.five_digits);
        for number in last {
            self.digits[number.to_string().len()] += 1;
        }
    }

    /// What random days have to reach, and full ones.
    pub fn add_to(&self, full: &Numbers, reached: &mut Reached) {
        let name = "pages with a row never written beside a written one, n = 2 to 8";
        reached.add(name, &self.beside[2..]);
        let name = "pages with a row written later than the next, n = 2 to 8";
        reached.add(name, &self.later_first[2..]);
        reached.add("pages with a written word 0, n = 1 to 8", &self.zero[1..]);
        reached.add("pages with the last of several writings, n = 1 to 8", &self.again[1..]);
        let name = "clean pages with a number older than its row's, n = 2 to 8";
        reached.add(name, &self.overtaken[0][2..]);
        let name = "borrowed pages with a number older than its row's, n = 2 to 8";
        reached.add(name, &self.overtaken[1][2..]);
        reached.add("numbers of 1 to 5 digits in full days", &full.digits[1..]);
        let name = "pages with a number of 5 digits in full days, n = 1 to 8";
        reached.add(name, &full.five_digits[1..]);
    }
}

/// Named rows of counts, all of which have to be above 0.
#[derive(Default)]
pub struct Reached(Vec<(String, Vec<u64>)>);

impl Reached {
    pub fn add(&mut self, name: impl Into<String>, counts: &[u64]) {
        self.0.push((name.into(), counts.to_vec()));
    }

    pub fn missing(&self) -> Vec<&str> {
        self.0.iter().filter(|row| row.1.contains(&0)).map(|row| row.0.as_str()).collect()
    }
}

impl fmt::Display for Reached {
    fn fmt(&self, f: &mut fmt::Formatter) -> fmt::Result {
        for (name, counts) in &self.0 {
            let counts: Vec<String> = counts.iter().map(u64::to_string).collect();
            writeln!(f, "  {name}: {}", counts.join(" "))?;
        }
        Ok(())
    }
}
