//! Runs another maker of books and the model on the same day files and compares the books, line by
//! line: the papers' days, damaged and long files, full days, random days and random ends of days. On
//! every day the model's own book is held to what K1 says of books.

use model::book::{self, History, MOST_BYTES};
use model::book_counts::BookCounts;
use model::claims;
use model::comparison::{self, bytes, Checked, Comparison, Drawn, Model};
use model::days;
use model::papers::{CASES, ENDINGS};
use std::error::Error;
use std::process::ExitCode;

const RANDOM: Drawn =
    Drawn { name: "random days", make: days::random_day, fixed: 2_000, fresh: 100 };
const LENDING: Drawn =
    Drawn { name: "lending days", make: days::lending_day, fixed: 2_000, fresh: 100 };
const CLOSING: Drawn = Drawn { name: "closing days", make: days::closing_day, fixed: 48, fresh: 8 };

#[derive(Default)]
struct Books {
    counts: BookCounts,
}

impl Model for Books {
    fn printed(&self, file: &[u8]) -> String {
        book::run(file)
    }

    fn watched(&mut self, file: &[u8]) -> Result<String, Box<dyn Error>> {
        let history = History::of(file);
        let book = history.book();
        claims::check(&history, &book)?;
        self.counts.watch(&history, &book);
        Ok(book::text(&book))
    }

    /// A book that may not be whole is not printed.
    fn cut_off(&self, _: &[u8]) -> String {
        String::new()
    }
}

fn main() -> ExitCode {
    comparison::main("compare_books PROGRAM", run)
}

fn run(comparison: &mut Comparison<Books>, seed: u64) -> Checked {
    papers(comparison)?;
    full_days(comparison)?;
    comparison.special()?;
    lengths(comparison)?;
    comparison.drawn(&RANDOM, seed)?;
    comparison.drawn(&LENDING, seed)?;
    comparison.drawn(&CLOSING, seed)?;
    comparison.require(comparison.model.counts.reached())
}

/// The days of document 01, whole and a byte at a time, and their books, worked out by hand.
fn papers(comparison: &mut Comparison<Books>) -> Checked {
    let days = CASES.iter().map(|case| (case.name, case.day, case.book));
    let endings = ENDINGS.iter().map(|&(lines, _)| (lines, lines, "end 0\n"));
    for (name, lines, wanted) in days.chain(endings) {
        let file = bytes(lines);
        let printed = comparison.program.printed(&file)?;
        comparison.alike(&format!("day '{name}' by hand"), &file, wanted.as_bytes(), &printed)?;
        comparison.check(&format!("day '{name}'"), &file)?;
        comparison.check_slowly(&file, 1)?;
    }
    Ok(())
}

/// Full days with as many refused records as events, the longest books, and pages that belong near the
/// top of a book and are answered last.
fn full_days(comparison: &mut Comparison<Books>) -> Checked {
    for n in 1..=8 {
        let file = days::between_refused(n, n.into());
        comparison.check(&format!("a full day for {n} between refused records"), &file)?;
    }
    for (n, word) in [(1, None), (1, Some(u32::MAX)), (8, Some(u32::MAX))] {
        let file = days::pages_day(n, word);
        comparison.check(&format!("a full day of pages for {n}"), &file)?;
    }
    for n in 2..=8 {
        comparison.check(&format!("late pages for {n}"), &days::latest_day(n))?;
    }
    Ok(())
}

/// Files that are just not too long, with a day at their beginning, at their end, or before a record
/// that ends them; and files that are too long.
fn lengths(comparison: &mut Comparison<Books>) -> Checked {
    let day = days::full_day(3, 3);
    let ending = vec![4, 0, 9, 0, 1, 0];
    let rest = days::refused_records(MOST_BYTES - day.len());
    let less = days::refused_records(MOST_BYTES - day.len() - ending.len());
    let files = [[&day[..], &rest, &[]], [&rest, &day, &[]], [&day, &ending, &less]];
    for mut file in files.map(|parts| parts.concat()) {
        comparison.check("a file that is just not too long", &file)?;
        comparison.check_slowly(&file, 1 << 16)?;
        for more in [1, 6, 1 << 20] {
            file.resize(MOST_BYTES + more, 0);
            let stopped = comparison.program.both(&file)?;
            comparison.failed("a file that is too long", &file, b"", &stopped, "")?;
            let stopped = comparison.program.both_slowly(&file, 1 << 16)?;
            comparison.failed("a long pipe", &file, b"", &stopped, "")?;
        }
    }
    println!("files of {MOST_BYTES} bytes alike, longer ones refused");
    Ok(())
}
