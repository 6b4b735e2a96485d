//! The day's book in one order: document 02, K1, from what the model's runner answers. `claims` has
//! what K1 says of a book.

use crate::dayfile::Record;
use crate::register::{Refusal, Task, Turn};
use crate::runner::{self, Done, Register};

/// A longer day file gets no book, and no figures. The papers set no limit; docs/DECISIONS.md does.
pub const MOST_BYTES: usize = 2_097_152;

/// An accepted call, with its word if it is an entry.
#[derive(Clone, Debug, PartialEq, Eq)]
pub struct Call {
    pub number: u32,
    pub desk: u32,
    pub word: Option<u32>,
}

/// What was done. A page also has its rows' numbers of last writings, which a book does not show.
#[derive(Clone, Debug, PartialEq, Eq)]
pub enum Deed {
    Entry { word: u32 },
    Page { from: u32, words: Vec<u32>, last: Vec<u32> },
}

/// A piece of finished work: where it stands in the book, what it is, and the numbers of its call and
/// of its answer.
#[derive(Clone, Debug, PartialEq, Eq)]
pub struct Piece {
    pub number: u32,
    pub desk: u32,
    pub deed: Deed,
    pub called: u32,
    pub answered: u32,
}

/// What the desks of a day called for and were answered.
#[derive(Default)]
pub struct History {
    pub calls: Vec<Call>,
    /// In the order of their answers.
    pub pieces: Vec<Piece>,
    /// The rows' words, the desks' tasks and the event number at the end of the day.
    pub rows: Vec<u32>,
    pub tasks: Vec<Task>,
    pub events: u32,
    /// How many records were refused before the opening.
    pub before_opening: u32,
    /// The refusal that ended the file, if it was not the ordinary end.
    pub ended_by: Option<Refusal>,
}

impl History {
    /// "Run the records of a day file as the day runner does".
    pub fn of(file: &[u8]) -> Self {
        let mut history = History::default();
        runner::run_watched(file, |record, outcome, register| match (record, outcome) {
            (Some(record), Ok(done)) => history.accepted(record, done, register),
            (Some(_), Err(_)) => history.before_opening += u32::from(register.day.desks == 0),
            (None, ended) => history.ended_by = ended.err(),
        });
        history
    }

    fn accepted(&mut self, record: Record, done: Done, register: &Register) {
        let number = register.day.event;
        self.events = number;
        self.rows = register.table.iter().map(|desk| desk.row.word).collect();
        self.tasks = register.table.iter().map(|desk| desk.task).collect();
        match (record, done) {
            (Record::Open { .. }, _) => {}
            (Record::Entry { desk, word }, _) => self.call(number, desk, Some(word)),
            (Record::Page { desk }, _) => self.call(number, desk, None),
            (Record::Turn { desk }, Done::Turned(turn)) => self.turn(number, desk, turn, register),
            (Record::Turn { .. }, _) => unreachable!("a turn is answered as a turn"),
        }
    }

    fn call(&mut self, number: u32, desk: u16, word: Option<u32>) {
        self.calls.push(Call { number, desk: desk.into(), word });
    }

    /// "each entry at the number of its writing turn, each page at its *at*"
    fn turn(&mut self, answered: u32, desk: u16, turn: Turn, register: &Register) {
        let desk = u32::from(desk);
        let call = self.calls.iter().rfind(|call| call.desk == desk).expect("a turn has a call");
        let called = call.number;
        let (number, deed) = match turn {
            Turn::Read => return,
            Turn::Written { .. } => {
                (answered, Deed::Entry { word: call.word.expect("an entry has a word") })
            }
            Turn::Page { from, at, .. } => {
                let (words, last) = (register.words().to_vec(), register.last().to_vec());
                (at, Deed::Page { from, words, last })
            }
        };
        self.pieces.push(Piece { number, desk, deed, called, answered });
    }

    /// "ascending, pages with the same number by the number of their answer"
    pub fn book(&self) -> Vec<Piece> {
        let mut book = self.pieces.clone();
        book.sort_by_key(|piece| (piece.number, piece.answered));
        book
    }
}

/// What is printed for a day file.
pub fn run(file: &[u8]) -> String {
    text(&History::of(file).book())
}

/// One line a place, then `end` and the number of places.
pub fn text(book: &[Piece]) -> String {
    let mut lines: Vec<String> = book.iter().map(line).collect();
    lines.push(format!("end {}", book.len()));
    lines.iter().map(|line| format!("{line}\n")).collect()
}

fn line(place: &Piece) -> String {
    let Piece { number, desk, .. } = place;
    match &place.deed {
        Deed::Entry { word } => format!("{number} entry {desk} {word}"),
        Deed::Page { words, .. } => {
            let words: Vec<String> = words.iter().map(u32::to_string).collect();
            format!("{number} page {desk} words {}", words.join(" "))
        }
    }
}
