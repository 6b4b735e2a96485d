//! The fast day runner prints what the model prints, however its input arrives and its output is
//! taken.

use model::baseline::{self, Broken};
use model::days::{closing_day, full_day, last_day, long_file, random_day};
use model::papers::{CASES, ENDINGS};
use model::{runner, text};
use std::io::{self, Read, Write};

fn alike(name: &str, file: &[u8]) {
    let mut printed = Vec::new();
    baseline::run(file, &mut printed).unwrap();
    assert!(String::from_utf8(printed).unwrap() == runner::run(file), "{name}");
}

#[test]
fn it_is_the_model_on_the_papers_days() {
    for case in &CASES {
        alike(case.name, &text::to_bytes(case.day).unwrap());
    }
    for (lines, _) in ENDINGS {
        alike(lines, &text::to_bytes(lines).unwrap());
    }
}

#[test]
fn it_is_the_model_on_random_days() {
    for seed in 1..=4_000 {
        alike(&format!("seed {seed}"), &random_day(seed));
    }
}

#[test]
fn it_is_the_model_on_long_and_full_days() {
    for n in 1..=8 {
        alike("a full day", &full_day(n, n.into()));
        alike("a day up to the last event", &last_day(n));
        alike("a closing day", &closing_day(n.into()));
    }
    for more in 1..=10 {
        alike("a long file", &long_file((1 << 16) + more, more as u64));
    }
}

/// Gives a few bytes at a time, is interrupted in between, and fails, if it is to, when there are
/// none left.
struct Input<'a> {
    left: &'a [u8],
    count: usize,
    fails: bool,
    interrupted: bool,
}

fn input(left: &[u8], count: usize, fails: bool) -> Input<'_> {
    Input { left, count, fails, interrupted: false }
}

impl Read for Input<'_> {
    fn read(&mut self, buffer: &mut [u8]) -> io::Result<usize> {
        self.interrupted = !self.interrupted;
        if self.interrupted {
            return Err(io::ErrorKind::Interrupted.into());
        }
        if self.left.is_empty() && self.fails {
            return Err(io::Error::other("no more"));
        }
        let count = self.count.min(self.left.len()).min(buffer.len());
        buffer[..count].copy_from_slice(&self.left[..count]);
        self.left = &self.left[count..];
        Ok(count)
    }
}

#[test]
fn how_the_bytes_arrive_does_not_matter() {
    let file = long_file(200_000, 1);
    let wanted = runner::run(&file);
    for count in (1..=12).chain([65_535, 65_536, 65_537]) {
        let mut printed = Vec::new();
        baseline::run(input(&file, count, false), &mut printed).unwrap();
        assert!(printed == wanted.as_bytes());
    }
}

#[test]
fn after_a_failing_read_it_is_the_model() {
    let file = text::to_bytes("open 1\nentry 1 7\nturn 1 x3\npage 1\nturn 1").unwrap();
    for cut in 0..=file.len() {
        let wanted = runner::run_cut_off(&file[..cut]);
        for count in [1, 7, 100] {
            let mut printed = Vec::new();
            let broken = baseline::run(input(&file[..cut], count, true), &mut printed);
            assert!(matches!(broken, Err(Broken::Read(_))));
            assert_eq!(String::from_utf8(printed).unwrap(), wanted, "cut after {cut}");
        }
    }
}

/// Takes some bytes and then no more.
struct Full(usize);

impl Write for Full {
    fn write(&mut self, bytes: &[u8]) -> io::Result<usize> {
        let count = self.0.min(bytes.len());
        self.0 -= count;
        Ok(count)
    }

    fn flush(&mut self) -> io::Result<()> {
        Ok(())
    }
}

#[test]
fn a_failing_write_ends_the_run() {
    let broken = baseline::run(long_file(200_000, 1).as_slice(), Full(100_000));
    assert!(matches!(broken, Err(Broken::Write(_))));
}
