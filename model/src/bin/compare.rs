//! Runs another day runner and the model on the same day files and compares what they print, line
//! by line: the papers' days, damaged and long files, full days, random days and random ends of days.
//! On every day the model's own outcomes are held to what K2 says of its end.

use model::closing::{Closing, Ends};
use model::comparison::{self, bytes, Checked, Comparison, Drawn, Model};
use model::counts::{Counts, Reached};
use model::days::{closing_day, random_day};
use model::papers::{self, CASES, ENDINGS};
use model::runner;
use std::error::Error;
use std::mem;
use std::process::ExitCode;

const RANDOM: Drawn = Drawn { name: "random days", make: random_day, fixed: 4_000, fresh: 200 };
const CLOSING: Drawn = Drawn { name: "closing days", make: closing_day, fixed: 240, fresh: 48 };

#[derive(Default)]
struct Runner {
    counts: Counts,
    ends: Ends,
}

impl Model for Runner {
    fn printed(&self, file: &[u8]) -> String {
        runner::run(file)
    }

    fn watched(&mut self, file: &[u8]) -> Result<String, Box<dyn Error>> {
        let (mut closing, mut held) = (Closing::default(), Ok(()));
        let printed = runner::run_watched(file, |record, outcome, register| {
            self.counts.watch(record, outcome, register);
            if held.is_ok() {
                held = closing.watch(record, outcome, &mut self.ends);
            }
        });
        held?;
        Ok(printed)
    }

    /// After a read that failed there is no end.
    fn cut_off(&self, file: &[u8]) -> String {
        runner::run_cut_off(file)
    }
}

fn main() -> ExitCode {
    comparison::main("compare RUNNER", run)
}

fn run(comparison: &mut Comparison<Runner>, seed: u64) -> Checked {
    papers(comparison)?;
    memory(comparison)?;
    comparison.special()?;
    let special = mem::take(&mut comparison.model.counts);
    comparison.drawn(&RANDOM, seed)?;
    let random = mem::take(&mut comparison.model.counts);
    comparison.drawn(&CLOSING, seed)?;
    let mut reached = reached(&random, &special);
    random.numbers.add_to(&special.numbers, &mut reached);
    comparison.model.ends.add_to(&mut reached);
    comparison.require(reached)
}

/// What has to be reached, in random days and in `special` ones.
fn reached(random: &Counts, special: &Counts) -> Reached {
    let mut reached = Reached::default();
    reached.add("clean pages", &[random.clean]);
    reached.add("pages borrowed from a desk that read its own", &[random.borrowed]);
    reached.add("pages borrowed from a borrower", &[random.borrowed_twice]);
    reached.add("pages of exactly 2n² turns, n = 1 to 8", &random.longest_pages[1..]);
    reached.add("entries of exactly 2n²+1 turns, n = 1 to 8", &random.longest_entries[1..]);
    reached.add("refusals 1 to 4", &random.refusals[1..=4]);
    reached.add("refusals 7 to 10", &random.refusals[7..=10]);
    reached.add("calls after the last event, refused 5", &[special.full_call]);
    reached.add("idle desks' turns after the last event, refused 4", &[special.full_idle]);
    reached
}

/// The days of document 01 and what it says of them.
fn papers(comparison: &mut Comparison<Runner>) -> Checked {
    for case in &CASES {
        let file = bytes(case.day);
        let printed = comparison.program.printed(&file)?;
        if let Some(line) = papers::missing(case, &String::from_utf8_lossy(&printed)) {
            return Err(format!("day {}: the paper states: {line}", case.name).into());
        }
        comparison.check(&format!("day {}", case.name), &file)?;
    }
    for (lines, wanted) in ENDINGS {
        let file = bytes(lines);
        let printed = comparison.program.printed(&file)?;
        comparison.alike(&format!("'{lines}' by the paper"), &file, wanted.as_bytes(), &printed)?;
        comparison.check(lines, &file)?;
    }
    Ok(())
}

/// A file is read "of any length", in memory that does not grow with it.
fn memory(comparison: &mut Comparison<Runner>) -> Checked {
    let size = 24 << 20;
    let (grown, printed) = comparison.program.growth(size)?;
    if grown > 4 << 10 || printed != size / 6 * "refused 10\n".len() + "end 0\n".len() {
        return Err(format!("{size} bytes: {grown} KiB more, {printed} bytes printed").into());
    }
    Ok(())
}
