//! A mender beside the model: both get the same files, and what they write on both outputs is compared.
//! What the mender wrote is also held to what K7 says of it, for which a day runner runs the mended
//! file and the mender mends it again. `files` has the files, `streams` has input that is slow or too
//! long and reads and writes that fail.

mod files;
mod streams;

use crate::comparison::{about, difference, require, Checked, Drawn};
use crate::counts::Reached;
use crate::mend_claims::{drops, drops_nothing, same_events, together};
use crate::mend_counts::MendCounts;
use crate::mending::{text, Mended};
use crate::program::{Ended, Program};
use std::collections::HashMap;
use std::path::PathBuf;

pub struct Mends {
    program: Program,
    runner: Program,
    counts: MendCounts,
    met: files::Met,
    said: streams::Said,
    /// What the day runner has printed for the mended files that there were so far.
    lines: HashMap<Vec<u8>, String>,
    pub alike: u64,
}

impl Mends {
    pub fn new(program: PathBuf, runner: PathBuf) -> Self {
        Mends {
            program: Program::new(program),
            runner: Program::new(runner),
            counts: Default::default(),
            met: Default::default(),
            said: Default::default(),
            lines: HashMap::new(),
            alike: 0,
        }
    }

    pub fn drawn(&mut self, files: &Drawn, seed: u64) -> Checked {
        files.each(seed, |name, file| self.check(name, file))
    }

    /// Compares both outputs for one file, and holds them to the claims.
    pub fn check(&mut self, name: &str, file: &[u8]) -> Checked {
        let wanted = self.counts.mended(file);
        self.held(file, &wanted).map_err(|why| about(&self.program, name, file, why).into())
    }

    fn held(&mut self, file: &[u8], wanted: &Mended) -> Checked {
        let run = self.program.both(file)?;
        self.same(wanted, &run)?;
        let mended = written(run)?;
        together(file, &mended)?;
        if !self.lines.contains_key(&mended.kept) {
            let lines = self.runner.printed(&mended.kept)?;
            drops_nothing(&mended, &written(self.program.both(&mended.kept)?)?)?;
            let lines = String::from_utf8_lossy(&lines).into_owned();
            self.lines.insert(mended.kept.clone(), lines);
        }
        Ok(same_events(file, &mended, &self.lines[&mended.kept])?)
    }

    /// How many mended files the day runner has run and the mender has mended again.
    pub fn different(&self) -> usize {
        self.lines.len()
    }

    /// Compares both outputs alone.
    fn same(&mut self, wanted: &Mended, run: &Ended) -> Result<(), String> {
        let lines = text(&wanted.dropped);
        if lines != run.message {
            let why = difference(lines.as_bytes(), run.message.as_bytes());
            return Err(format!("on standard error {why}"));
        }
        if wanted.kept != run.printed {
            return Err(other_bytes(&wanted.kept, &run.printed));
        }
        self.alike += 1;
        Ok(())
    }

    /// Prints what was reached, and requires all of it.
    pub fn require(&self) -> Checked {
        let mut reached = Reached::default();
        self.counts.add_to(&mut reached);
        self.met.add_to(&mut reached);
        self.said.add_to(&mut reached);
        require(&reached)
    }
}

/// What a run wrote: the mended file, and the drops that it named.
fn written(run: Ended) -> Result<Mended, String> {
    Ok(Mended { dropped: drops(&run.message)?, kept: run.printed })
}

/// The first byte in which two mended files differ.
fn other_bytes(wanted: &[u8], printed: &[u8]) -> String {
    let same = wanted.iter().zip(printed).take_while(|(a, b)| a == b).count();
    let (all, found) = (wanted.len(), printed.len());
    let (byte, other) = (wanted.get(same), printed.get(same));
    format!("byte {same} is {other:?}, not {byte:?}; there are {found} bytes, not {all}")
}
