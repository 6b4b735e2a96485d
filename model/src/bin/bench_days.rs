//! Writes a day file for the benchmark to standard output: `bench_days NAME RECORDS`.

use model::dayfile::{self, Record};
use model::register::Task;
use model::runner::Register;
use std::io::{self, Write};
use std::process::ExitCode;

fn main() -> ExitCode {
    let given: Vec<String> = std::env::args().skip(1).collect();
    let file = match given.as_slice() {
        [name, records] => records.parse().ok().and_then(|records| make(name, records)),
        _ => None,
    };
    let Some(file) = file else {
        eprintln!("use: bench_days pages-1|pages-8|refused-1|refused-8 RECORDS");
        return ExitCode::FAILURE;
    };
    match io::stdout().write_all(&file) {
        Ok(()) => ExitCode::SUCCESS,
        Err(_) => ExitCode::FAILURE,
    }
}

fn make(name: &str, records: usize) -> Option<Vec<u8>> {
    match name {
        "pages-1" => Some(pages(1, records)),
        "pages-8" => Some(pages(8, records)),
        "refused-1" => Some(refused(1, records)),
        "refused-8" => Some(refused(8, records)),
        _ => None,
    }
}

/// Each desk in turn makes one event. The first half of the desks read pages, the others write
/// in between. With one desk there are pages only.
fn pages(n: u16, records: usize) -> Vec<u8> {
    let mut file = Vec::new();
    let mut register = Register::default();
    let mut give = |record| {
        dayfile::write(record, &mut file);
        let _ = register.apply(record);
        register.table.iter().map(|desk| desk.task == Task::Idle).collect::<Vec<bool>>()
    };
    let mut idle = give(Record::Open { desks: n });
    for i in 1..records {
        let desk = 1 + (i % n as usize) as u16;
        let reads_pages = desk <= n.div_ceil(2);
        idle = give(match idle[desk as usize - 1] {
            true if reads_pages => Record::Page { desk },
            true => Record::Entry { desk, word: i as u32 },
            false => Record::Turn { desk },
        });
    }
    file
}

/// Even desks have called for a page, odd ones are idle; then all records are refused.
fn refused(n: u16, records: usize) -> Vec<u8> {
    let mut file = Vec::new();
    dayfile::write(Record::Open { desks: n }, &mut file);
    for desk in (2..=n).step_by(2) {
        dayfile::write(Record::Page { desk }, &mut file);
    }
    for i in 1..records {
        let desk = 1 + (i % n as usize) as u16;
        let record = match (i % 4, desk % 2) {
            (0, _) => Record::Turn { desk: n + 1 },
            (1, _) if i % 8 == 1 => Record::Open { desks: n },
            (_, 0) => Record::Entry { desk, word: i as u32 },
            _ => Record::Turn { desk },
        };
        dayfile::write(record, &mut file);
    }
    file
}
