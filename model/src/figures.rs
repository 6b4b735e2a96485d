//! Figures for the quarter: K5 of document 02, sentence by sentence. A fraction is put in lowest terms
//! by trying every number that could divide both.

use crate::register::{Refusal, Turn};
use crate::runner::{self, Done};

/// "15 when more than 65,535 answers are given"
pub const MOST_ANSWERS: usize = 65_535;

/// A page's answer, "each with its day's desk count".
#[derive(Clone, Copy, Debug, PartialEq, Eq)]
pub struct Answer {
    pub desks: u32,
    pub turns: u32,
    /// "names its lender, or 0 when clean"
    pub from: u32,
}

/// What a day file gives to a quarter.
#[derive(Clone, Default)]
pub struct DayPages {
    pub answers: Vec<Answer>,
    /// The refusal that ended the file, if it was not the ordinary end.
    pub ended_by: Option<Refusal>,
    /// How many records were refused.
    pub refused: u32,
}

impl DayPages {
    /// Runs the records of a day file as the day runner does.
    pub fn of(file: &[u8]) -> Self {
        let mut pages = DayPages::default();
        runner::run_watched(file, |record, outcome, register| match (record, outcome) {
            (None, ended) => pages.ended_by = ended.err(),
            (_, Err(_)) => pages.refused += 1,
            (_, Ok(Done::Turned(Turn::Page { from, turns, .. }))) => {
                pages.answers.push(Answer { desks: register.day.desks, turns, from });
            }
            _ => {}
        });
        pages
    }
}

#[derive(Clone, Copy, Debug, PartialEq, Eq)]
pub struct Fraction {
    pub over: u64,
    pub under: u64,
}

impl Fraction {
    /// "in lowest terms": both divided by the greatest number that divides both. `under` is not 0.
    pub fn lowest(over: u64, under: u64) -> Self {
        let divides = |d: &u64| over % d == 0 && under % d == 0;
        let greatest = (1..=under).rev().find(divides).expect("1 divides both");
        Fraction { over: over / greatest, under: under / greatest }
    }
}

/// The figures "for a desk count asked for".
#[derive(Clone, Debug, PartialEq, Eq)]
pub struct Figures {
    pub desks: u32,
    pub pages: u64,
    /// "the mean turns of a page"
    pub mean: Fraction,
    /// "the share of borrowed pages"
    pub borrowed: Fraction,
    /// "the largest turn count"
    pub largest: u32,
}

/// "The sums are defined from the list of answers".
pub fn figures(answers: &[Answer], asked: u32) -> Result<Figures, Refusal> {
    // "1 when the desk count asked for is outside 1 to 8"
    if asked < 1 || asked > 8 {
        return Err(Refusal::DeskCount);
    }
    // "then 15 when more than 65,535 answers are given"
    if answers.len() > MOST_ANSWERS {
        return Err(Refusal::TooManyAnswers);
    }
    let pages: Vec<Answer> =
        answers.iter().filter(|answer| answer.desks == asked).copied().collect();
    // "then 14 when that desk count has no page"
    let Some(largest) = pages.iter().map(|page| page.turns).max() else {
        return Err(Refusal::NoPage);
    };
    let count = pages.len() as u64;
    let turns = pages.iter().map(|page| u64::from(page.turns)).sum();
    let borrowed = pages.iter().filter(|page| page.from != 0).count() as u64;
    Ok(Figures {
        desks: asked,
        pages: count,
        mean: Fraction::lowest(turns, count),
        borrowed: Fraction::lowest(borrowed, count),
        largest,
    })
}

/// The line that is printed.
pub fn line(found: &Result<Figures, Refusal>) -> String {
    match found {
        Err(refusal) => format!("refused {}\n", *refusal as u32),
        Ok(Figures { desks, pages, mean, borrowed, largest }) => format!(
            "desks {desks} pages {pages} mean {}/{} borrowed {}/{} largest {largest}\n",
            mean.over, mean.under, borrowed.over, borrowed.under
        ),
    }
}

/// A desk count as a word of decimal digits alone, of any length. One that 32 bits do not hold is
/// outside 1 to 8 whichever it is.
pub fn number(word: &[u8]) -> Option<u32> {
    if word.is_empty() || !word.iter().all(u8::is_ascii_digit) {
        return None;
    }
    let add =
        |number: u32, digit: &u8| number.saturating_mul(10).saturating_add(u32::from(digit - b'0'));
    Some(word.iter().fold(0, add))
}
