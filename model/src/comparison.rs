//! A program beside the model: both get the same day files, and what they print is compared line by
//! line. `files` has files that are damaged, long or full, `streams` has input that is slow and reads
//! and writes that fail.

mod files;
mod streams;

pub use files::SMALL;

use crate::counts::Reached;
use crate::program::Program;
use crate::text;
use std::error::Error;
use std::path::PathBuf;
use std::process::ExitCode;
use std::time::{Instant, SystemTime, UNIX_EPOCH};

pub type Checked = Result<(), Box<dyn Error>>;

/// The model's side.
pub trait Model {
    /// What a day file prints.
    fn printed(&self, file: &[u8]) -> String;

    /// The same, with what the day reaches counted.
    fn watched(&mut self, file: &[u8]) -> Result<String, Box<dyn Error>>;

    /// What is printed if a read fails after these bytes.
    fn cut_off(&self, file: &[u8]) -> String;
}

pub struct Comparison<M> {
    pub program: Program,
    pub model: M,
    days: u64,
    failures: u64,
    met: files::Met,
}

/// Files that are made from seeds.
pub struct Drawn {
    /// What they are called.
    pub name: &'static str,
    pub make: fn(u64) -> Vec<u8>,
    /// How many have the seeds 1, 2 and so on, and how many the next ones from a fresh seed.
    pub fixed: u64,
    pub fresh: u64,
}

impl Drawn {
    /// Checks each of them, with its name.
    pub fn each(&self, seed: u64, mut check: impl FnMut(&str, &[u8]) -> Checked) -> Checked {
        let Drawn { name, make, fixed, fresh } = *self;
        for day in 1..=fixed {
            check(&format!("{name}, of seed {day}"), &make(day))?;
        }
        println!("{name} of fixed seeds: {fixed} alike");
        println!("fresh seed {seed}");
        for day in 0..fresh {
            let file = make(seed.wrapping_add(day));
            check(&format!("fresh {name}, {day} of --seed {seed}"), &file)?;
        }
        println!("{name} of the fresh seed: {fresh} alike");
        Ok(())
    }
}

/// Makes a comparison with the program that the command line names. `run` gets the seed for the fresh
/// days, by default from the clock.
pub fn main<M: Model + Default>(
    usage: &str,
    run: fn(&mut Comparison<M>, u64) -> Checked,
) -> ExitCode {
    let started = Instant::now();
    let Some((path, seed)) = arguments() else {
        eprintln!("use: {usage} [--seed N]");
        return ExitCode::from(2);
    };
    let mut comparison = Comparison::new(path, M::default());
    match run(&mut comparison, seed) {
        Err(why) => {
            println!("{why}");
            ExitCode::FAILURE
        }
        Ok(()) => {
            println!("{} days alike, {:.1} s", comparison.days, started.elapsed().as_secs_f64());
            ExitCode::SUCCESS
        }
    }
}

fn arguments() -> Option<(PathBuf, u64)> {
    let given: Vec<String> = std::env::args().skip(1).collect();
    match given.as_slice() {
        [path] => {
            let now = SystemTime::now().duration_since(UNIX_EPOCH).ok()?;
            Some((path.into(), now.as_nanos() as u64))
        }
        [path, flag, seed] if flag == "--seed" => Some((path.into(), seed.parse().ok()?)),
        _ => None,
    }
}

impl<M: Model> Comparison<M> {
    fn new(path: PathBuf, model: M) -> Self {
        let program = Program::new(path);
        Comparison { program, model, days: 0, failures: 0, met: Default::default() }
    }

    /// Everything but the papers' days and random ones that is tried with every program.
    pub fn special(&mut self) -> Checked {
        self.input_and_output()?;
        self.failures()?;
        self.refused_before_the_end()?;
        self.cut()?;
        self.damaged()?;
        self.tails()?;
        self.long_files()?;
        self.full_days()?;
        println!("the papers' days, cut, damaged, long and full ones: {} alike", self.days);
        println!("failing reads and writes: {} ended with a message", self.failures);
        Ok(())
    }

    pub fn drawn(&mut self, days: &Drawn, seed: u64) -> Checked {
        days.each(seed, |name, file| self.check(name, file))
    }

    /// Compares the two printouts of one day file.
    pub fn check(&mut self, name: &str, file: &[u8]) -> Checked {
        let about = |why| about(&self.program, name, file, why);
        let wanted = self.model.watched(file).map_err(about)?;
        let printed = self.program.printed(file).map_err(about)?;
        self.alike(name, file, wanted.as_bytes(), &printed)
    }

    pub fn alike(&mut self, name: &str, file: &[u8], wanted: &[u8], printed: &[u8]) -> Checked {
        if wanted == printed {
            self.days += 1;
            return Ok(());
        }
        Err(about(&self.program, name, file, difference(wanted, printed)).into())
    }

    /// Prints what was reached, with what the files have met, and requires all of it.
    pub fn require(&self, mut reached: Reached) -> Checked {
        self.met.add_to(&mut reached);
        require(&reached)
    }
}

/// Prints what was reached, and requires all of it.
pub fn require(reached: &Reached) -> Checked {
    print!("{reached}");
    match reached.missing().as_slice() {
        [] => Ok(()),
        missing => Err(format!("not reached: {}", missing.join("; ")).into()),
    }
}

/// What is wrong with a day, which is kept for a look.
pub(crate) fn about(program: &Program, name: &str, file: &[u8], why: impl ToString) -> String {
    let kept = program.keep(file);
    let lines = text::to_text(file);
    let lines = if lines.len() < 4_000 { lines } else { String::new() };
    format!("{name}: {}\nday file: {kept}\n{lines}", why.to_string())
}

/// The bytes of lines that are known to be good.
pub fn bytes(lines: &str) -> Vec<u8> {
    text::to_bytes(lines).expect("good lines")
}

/// The first line in which two printouts differ.
pub(crate) fn difference(wanted: &[u8], printed: &[u8]) -> String {
    let wanted: Vec<&[u8]> = wanted.split(|&byte| byte == b'\n').collect();
    let printed: Vec<&[u8]> = printed.split(|&byte| byte == b'\n').collect();
    let same = wanted.iter().zip(&printed).take_while(|(a, b)| a == b).count();
    let line = |lines: &[&[u8]]| match lines.get(same) {
        Some(line) => String::from_utf8_lossy(line).into_owned(),
        None => "(no line)".to_string(),
    };
    format!("line {} differs\nmodel:   {}\nprogram: {}", same + 1, line(&wanted), line(&printed))
}
