//! A fast day runner, the measure of the benchmark and nothing else: a day file in by a buffer of fixed
//! size, one line a record out, then `end` and the event number. What it prints is the model's, by
//! test.

mod reader;
mod register;

use self::reader::LONGEST;
use self::register::{Day, Desk};
use crate::dayfile::Record;
use crate::register::{Refusal, Shown, Turn, View, PLACES};
use crate::runner::Done;
use std::error::Error;
use std::fmt;
use std::io::{self, ErrorKind, Read, Write};

const INPUT: usize = 1 << 16;
const OUTPUT: usize = 1 << 16;
/// No line is longer: with eight words and eight numbers of ten digits each a page's has 226 bytes.
const LINE: usize = 256;

/// A day with the table and the page list that are lent to its calls.
#[derive(Default)]
struct Register {
    day: Day,
    table: [Desk; PLACES],
    page: View,
}

impl Register {
    fn apply(&mut self, record: Record) -> Result<Done, Refusal> {
        let n = self.day.desks as usize;
        let table = &mut self.table[..n];
        match record {
            Record::Open { desks } => {
                // A count that is refused anyway is lent no records.
                let lent = if desks as usize <= PLACES { desks as usize } else { 0 };
                self.day.open(&mut self.table[..lent], desks.into())?;
                Ok(Done::Opened)
            }
            Record::Entry { desk, word } => {
                self.day.entry(table, desk.into(), word)?;
                Ok(Done::Called)
            }
            Record::Page { desk } => {
                self.day.page(table, desk.into())?;
                Ok(Done::Called)
            }
            Record::Turn { desk } => {
                let turn = self.day.turn(table, desk.into(), &mut self.page[..n])?;
                Ok(Done::Turned(turn))
            }
        }
    }

    /// The rows of the last page answered.
    fn shown(&self) -> &[Shown] {
        &self.page[..self.day.desks as usize]
    }

    /// Adds the line of an accepted record.
    fn line(&self, record: Record, done: Done, out: &mut Vec<u8>) {
        if done != Done::Opened {
            number(out, self.day.event);
        }
        match record {
            Record::Open { desks } => field(out, b"open ", desks.into()),
            Record::Entry { desk, word } => {
                field(out, b" entry ", desk.into());
                field(out, b" ", word);
            }
            Record::Page { desk } => field(out, b" asked ", desk.into()),
            Record::Turn { desk } => self.turn_line(desk.into(), done, out),
        }
        out.push(b'\n');
    }

    fn turn_line(&self, desk: u32, done: Done, out: &mut Vec<u8>) {
        match done {
            Done::Turned(Turn::Page { from, at, turns }) => {
                field(out, b" page ", desk);
                field(out, b" from ", from);
                field(out, b" at ", at);
                field(out, b" turns ", turns);
                out.extend_from_slice(b" words");
                for shown in self.shown() {
                    field(out, b" ", shown.word);
                }
                out.extend_from_slice(b" last");
                for shown in self.shown() {
                    field(out, b" ", shown.last);
                }
            }
            Done::Turned(Turn::Written { turns }) => {
                field(out, b" written ", desk);
                field(out, b" turns ", turns);
            }
            _ => field(out, b" read ", desk),
        }
    }
}

fn field(out: &mut Vec<u8>, name: &[u8], value: u32) {
    out.extend_from_slice(name);
    number(out, value);
}

fn line(out: &mut Vec<u8>, name: &[u8], value: u32) {
    field(out, name, value);
    out.push(b'\n');
}

fn number(out: &mut Vec<u8>, mut value: u32) {
    if value < 10 {
        out.push(b'0' + value as u8);
        return;
    }
    let mut digits = [0; 10];
    let mut start = digits.len();
    while value > 0 {
        start -= 1;
        digits[start] = b'0' + (value % 10) as u8;
        value /= 10;
    }
    out.extend_from_slice(&digits[start..]);
}

/// Why a run ended before its day was printed whole.
#[derive(Debug)]
pub enum Broken {
    Read(io::Error),
    Write(io::Error),
}

impl From<io::Error> for Broken {
    /// The `?` here stand at writes: a read that fails is kept until the lines before it are out.
    fn from(error: io::Error) -> Self {
        Broken::Write(error)
    }
}

impl fmt::Display for Broken {
    fn fmt(&self, f: &mut fmt::Formatter<'_>) -> fmt::Result {
        match self {
            Broken::Read(error) => write!(f, "cannot read standard input: {error}"),
            Broken::Write(error) => write!(f, "cannot write standard output: {error}"),
        }
    }
}

impl Error for Broken {}

/// The part of the input not yet taken, in a buffer of fixed size.
struct Source<R> {
    input: R,
    buffer: Box<[u8]>,
    start: usize,
    end: usize,
    ended: bool,
    fault: Option<io::Error>,
}

impl<R: Read> Source<R> {
    fn new(input: R) -> Self {
        let buffer = vec![0; INPUT].into_boxed_slice();
        Source { input, buffer, start: 0, end: 0, ended: false, fault: None }
    }

    /// What is left, with a whole record in it unless the input ends sooner.
    fn rest(&mut self) -> &[u8] {
        if self.end - self.start < LONGEST && !self.ended {
            self.refill();
        }
        &self.buffer[self.start..self.end]
    }

    fn refill(&mut self) {
        self.buffer.copy_within(self.start..self.end, 0);
        self.end -= self.start;
        self.start = 0;
        while self.end < LONGEST && !self.ended {
            match self.input.read(&mut self.buffer[self.end..]) {
                Ok(0) => self.ended = true,
                Ok(count) => self.end += count,
                Err(error) if error.kind() == ErrorKind::Interrupted => {}
                Err(error) => {
                    self.ended = true;
                    self.fault = Some(error);
                }
            }
        }
    }
}

/// Runs a day file. After a failing read the lines of the records that came whole are printed, and
/// no more.
pub fn run(input: impl Read, mut output: impl Write) -> Result<(), Broken> {
    let mut source = Source::new(input);
    let mut register = Register::default();
    let mut out = Vec::with_capacity(OUTPUT + LINE);
    loop {
        match reader::read(source.rest()) {
            Ok(None) => break,
            Ok(Some((record, next))) => {
                source.start += next;
                match register.apply(record) {
                    Ok(done) => register.line(record, done, &mut out),
                    Err(refusal) => line(&mut out, b"refused ", refusal as u32),
                }
            }
            // The read that failed may have held the rest of it.
            Err(_) if source.fault.is_some() => break,
            Err(refusal) => {
                line(&mut out, b"refused ", refusal as u32);
                break;
            }
        }
        if out.len() >= OUTPUT {
            output.write_all(&out)?;
            out.clear();
        }
    }
    if source.fault.is_none() {
        line(&mut out, b"end ", register.day.event);
    }
    output.write_all(&out)?;
    output.flush()?;
    match source.fault {
        None => Ok(()),
        Some(fault) => Err(Broken::Read(fault)),
    }
}
