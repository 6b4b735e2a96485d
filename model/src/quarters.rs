//! A program of figures beside the model: both get the same quarters, and what they print is compared.
//! On standard error there must be a line for each file that has something wrong, and no other.
//! `inputs` has bad words and bad files, `terminal` a standard error that is a terminal.

mod inputs;
mod terminal;

use crate::comparison::Checked;
use crate::days;
use crate::figure_counts::FigureCounts;
use crate::figures::{figures, line, number, Answer, DayPages};
use crate::program::{ended, Ended};
use crate::random::Random;
use crate::text;
use std::error::Error;
use std::ffi::OsStr;
use std::fs;
use std::path::PathBuf;
use std::process::{Command, Stdio};

/// A day file with the name by which the program is given it.
#[derive(Clone)]
pub struct DayFile {
    pub name: String,
    pub file: Vec<u8>,
    pub pages: DayPages,
}

/// What a line on standard error must have: a name or word and, for a file that 7, 8 or 9 ended, the
/// number.
type Complaint<'a> = (&'a str, Option<u32>);

pub struct Quarters {
    program: PathBuf,
    /// Where the day files lie.
    scratch: PathBuf,
    pub counts: FigureCounts,
    pub met: inputs::Met,
    pub alike: u64,
}

impl Quarters {
    pub fn new(program: PathBuf) -> Result<Self, Box<dyn Error>> {
        let program = fs::canonicalize(&program)
            .map_err(|error| format!("{}: {error}", program.display()))?;
        let scratch = std::env::temp_dir().join(format!("compare-figures-{}", std::process::id()));
        fs::create_dir(&scratch).map_err(|error| format!("{}: {error}", scratch.display()))?;
        Ok(Quarters {
            program,
            scratch,
            counts: Default::default(),
            met: Default::default(),
            alike: 0,
        })
    }

    /// The program, where the day files lie.
    fn command(&self) -> Command {
        let mut command = Command::new(&self.program);
        command.current_dir(&self.scratch).stdin(Stdio::null());
        command.stdout(Stdio::piped()).stderr(Stdio::piped());
        command
    }

    fn run<W: AsRef<OsStr>>(&self, words: &[W]) -> Result<Ended, Box<dyn Error>> {
        ended(self.command().args(words).output()?)
    }

    /// Lays a day file in the scratch directory.
    fn lay(&self, name: &str, file: Vec<u8>) -> Result<DayFile, Box<dyn Error>> {
        fs::write(self.scratch.join(name), &file)?;
        let pages = DayPages::of(&file);
        Ok(DayFile { name: name.to_string(), file, pages })
    }

    /// The same with numbers as names, none of which is part of another.
    pub fn lay_all(&self, files: Vec<Vec<u8>>) -> Result<Vec<DayFile>, Box<dyn Error>> {
        let numbered = files.into_iter().enumerate();
        numbered.map(|(i, file)| self.lay(&format!("{i:03}.day"), file)).collect()
    }

    /// The quarter of a seed, for a desk count that has pages, if there is one, and for another.
    pub fn drawn(&mut self, seed: u64) -> Checked {
        let mut days = self.lay_all(days::quarter(seed))?;
        let mut random = Random::new(seed);
        if !days.is_empty() && random.once_in(4) {
            days.push(days[random.below(days.len())].clone());
        }
        let answers = answers(&days);
        if !answers.is_empty() {
            let asked = random.pick(&answers).desks;
            self.check("by a desk count that has pages", &asked.to_string(), &days)?;
        }
        let asked = random.below(10);
        self.check("by any desk count", &asked.to_string(), &days)
    }

    pub fn check(&mut self, name: &str, word: &str, days: &[DayFile]) -> Checked {
        self.compared(name, word, days).map(drop)
    }

    /// The same, where the line was worked out by hand.
    pub fn by_hand(&mut self, name: &str, word: &str, days: &[DayFile], wanted: &str) -> Checked {
        let line = self.compared(name, word, days)?;
        match line.strip_suffix('\n') == Some(wanted) {
            true => Ok(()),
            false => Err(about(name, word, days, format!("by hand {wanted}, not {line}")).into()),
        }
    }

    /// Compares what is printed for a desk count and day files, and what is said of them. Answers the
    /// line.
    fn compared(
        &mut self,
        name: &str,
        word: &str,
        days: &[DayFile],
    ) -> Result<String, Box<dyn Error>> {
        let asked = number(word.as_bytes()).ok_or("not a number")?;
        let found = figures(&answers(days), asked);
        self.counts.watch(days, asked, &found)?;
        let wanted = line(&found);
        let run = self.run(&words(word, days));
        let held = run.and_then(|run| Ok(self.held(&run, &wanted, &complaints(days))?));
        match held {
            Ok(()) => Ok(wanted),
            Err(why) => Err(about(name, word, days, why).into()),
        }
    }

    /// Holds a run to what it should print, and its lines on standard error to the complaints.
    fn held(&mut self, run: &Ended, wanted: &str, complaints: &[Complaint]) -> Result<(), String> {
        let Ended { printed, message } = run;
        if printed != wanted.as_bytes() {
            let printed = String::from_utf8_lossy(printed);
            let printouts = format!("model:   {wanted:?}\nprogram: {printed:?}");
            return Err(format!("\n{printouts}\nstandard error: {message:?}"));
        }
        let mut lines: Vec<&str> = message.lines().collect();
        for complaint in complaints {
            match lines.iter().position(|line| says(line, *complaint)) {
                Some(place) => drop(lines.remove(place)),
                None => return Err(format!("{complaint:?} is not on standard error: {message:?}")),
            }
        }
        if !lines.is_empty() {
            return Err(format!("standard error has more: {lines:?}"));
        }
        self.alike += 1;
        Ok(())
    }
}

impl Drop for Quarters {
    fn drop(&mut self) {
        let _ = fs::remove_dir_all(&self.scratch);
    }
}

/// The page answers of a quarter.
pub fn answers(days: &[DayFile]) -> Vec<Answer> {
    days.iter().flat_map(|day| &day.pages.answers).copied().collect()
}

/// The words that the program is given.
fn words(word: &str, days: &[DayFile]) -> Vec<String> {
    [word.to_string()].into_iter().chain(days.iter().map(|day| day.name.clone())).collect()
}

/// The files that 7, 8 or 9 ended, with the number.
fn complaints(days: &[DayFile]) -> Vec<Complaint<'_>> {
    let broken = |day: &DayFile| day.pages.ended_by.map(|refusal| refusal as u32);
    let named = days.iter().map(|day| (day.name.as_str(), broken(day)));
    named.filter(|(_, number)| number.is_some()).collect()
}

/// Whether a line has a name and, beside it, the number if there is one.
fn says(line: &str, (name, number): Complaint) -> bool {
    let Some((before, after)) = line.split_once(name) else { return false };
    let Some(number) = number else { return true };
    let rest = format!("{before} {after}");
    let mut numbers = rest.split(|letter: char| !letter.is_ascii_digit());
    numbers.any(|digits| digits == number.to_string())
}

/// What is wrong with a quarter, with the lines of its short files.
fn about(name: &str, word: &str, days: &[DayFile], why: impl ToString) -> String {
    let mut about =
        format!("{name}: {}\nwords: {:.200}", why.to_string(), words(word, days).join(" "));
    for day in days.iter().filter(|day| day.file.len() < 4_000).take(10) {
        about += &format!("\n{}:\n{}", day.name, text::to_text(&day.file));
    }
    about
}
