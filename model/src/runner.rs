//! The day runner of document 01, "Day files and the day runner": a whole day file in, its lines
//! out. It is written to be read, and has no care for time or memory.

use crate::dayfile::{self, Record};
use crate::register::{Day, Desk, Refusal, Turn};

/// A day, with "the table of desk records, one record for each desk", and the page list of the last
/// turn, which has 2n places.
#[derive(Default)]
pub struct Register {
    pub day: Day,
    pub table: Vec<Desk>,
    pub page: Vec<u32>,
}

/// What an accepted record did.
#[derive(Clone, Copy, Debug, PartialEq, Eq)]
pub enum Done {
    Opened,
    Called,
    Turned(Turn),
}

impl Register {
    /// Does what a record asks. "The table of desk records, one record for each desk, is lent to every
    /// call." A blank day has no desks, so its opening is lent a new table, of "the asked number of
    /// records". A turn is lent a page list of 2n places. So no record of a day file is refused with 6.
    pub fn apply(&mut self, record: Record) -> Result<Done, Refusal> {
        match record {
            Record::Open { desks } => {
                if self.day.desks == 0 {
                    self.table = vec![Desk::default(); desks.into()];
                }
                self.day.open(&mut self.table, desks.into())?;
                Ok(Done::Opened)
            }
            Record::Entry { desk, word } => {
                self.day.entry(&mut self.table, desk.into(), word)?;
                Ok(Done::Called)
            }
            Record::Page { desk } => {
                self.day.page(&mut self.table, desk.into())?;
                Ok(Done::Called)
            }
            Record::Turn { desk } => {
                let mut page = vec![0; 2 * self.day.desks as usize];
                let turn = self.day.turn(&mut self.table, desk.into(), &mut page)?;
                self.page = page;
                Ok(Done::Turned(turn))
            }
        }
    }

    /// The words of the last page: the first n places of its list.
    pub fn words(&self) -> &[u32] {
        &self.page[..self.day.desks as usize]
    }

    /// Its rows' numbers: "The page list takes them after the words".
    pub fn last(&self) -> &[u32] {
        &self.page[self.day.desks as usize..]
    }

    /// The line of an accepted record. "An opening prints `open` and the desk count. For every other
    /// accepted record the first field is the event number; then what happened and the desk".
    fn line(&self, record: Record, done: Done) -> String {
        let event = self.day.event;
        match record {
            Record::Open { desks } => format!("open {desks}"),
            // "`entry` or `asked` for a call"; "After an entry call's desk stands the word"
            Record::Entry { desk, word } => format!("{event} entry {desk} {word}"),
            Record::Page { desk } => format!("{event} asked {desk}"),
            Record::Turn { desk } => format!("{event} {}", self.turn_line(desk, done)),
        }
    }

    /// "`written` or `page` for a turn that answers, `read` for any other turn"; "after `turns` the
    /// count of turns, after `from` the lender, after `at` the instant, after `words` the n words". "In
    /// the runner's page line `last` and the n numbers follow the words".
    fn turn_line(&self, desk: u16, done: Done) -> String {
        match done {
            Done::Turned(Turn::Page { from, at, turns }) => {
                let (words, last) = (numbers(self.words()), numbers(self.last()));
                format!("page {desk} from {from} at {at} turns {turns} words {words} last {last}")
            }
            Done::Turned(Turn::Written { turns }) => format!("written {desk} turns {turns}"),
            _ => format!("read {desk}"),
        }
    }
}

/// "Single spaces" between them.
fn numbers(list: &[u32]) -> String {
    let list: Vec<String> = list.iter().map(u32::to_string).collect();
    list.join(" ")
}

/// What a day file prints: "one line a record, then `end` and the event number".
pub fn run(file: &[u8]) -> String {
    run_watched(file, |_, _, _| {})
}

/// The same, with each record, its outcome and the register after it shown to `watch`. Where the file
/// ends with 7, 8 or 9 there is no record.
pub fn run_watched(
    file: &[u8],
    mut watch: impl FnMut(Option<Record>, Result<Done, Refusal>, &Register),
) -> String {
    let mut register = Register::default();
    let (mut lines, last) = run_records(&mut register, file, &mut watch);
    // "Refusals 7, 8 and 9 end the file (the runner prints the refusal, then its `end` line)"
    if let Some(refusal) = last {
        lines.push(refused(refusal));
        watch(None, Err(refusal), &register);
    }
    lines.push(format!("end {}", register.day.event));
    ended(lines)
}

/// What is printed of a file of which only these bytes came, because a read failed then: the lines of
/// the records that came whole. The papers are silent here; docs/DECISIONS.md is not.
pub fn run_cut_off(file: &[u8]) -> String {
    ended(run_records(&mut Register::default(), file, &mut |_, _, _| {}).0)
}

/// Takes a file's records one after the other. Answers their lines, and the refusal that ended the
/// file if it was not the ordinary end.
fn run_records(
    register: &mut Register,
    file: &[u8],
    watch: &mut impl FnMut(Option<Record>, Result<Done, Refusal>, &Register),
) -> (Vec<String>, Option<Refusal>) {
    let mut place = 0;
    let mut lines = Vec::new();
    loop {
        let (record, length) = match dayfile::read(&file[place..]) {
            Ok(Some(found)) => found,
            // "No bytes left is the ordinary end."
            Ok(None) => return (lines, None),
            Err(refusal) => return (lines, Some(refusal)),
        };
        let outcome = register.apply(record);
        // "the others let the next record follow"
        lines.push(match outcome {
            Ok(done) => register.line(record, done),
            Err(refusal) => refused(refusal),
        });
        watch(Some(record), outcome, register);
        place += length;
    }
}

/// "A refused record prints `refused` and its number."
fn refused(refusal: Refusal) -> String {
    format!("refused {}", refusal as u32)
}

/// "a line feed after each line"
fn ended(lines: Vec<String>) -> String {
    lines.iter().map(|line| format!("{line}\n")).collect()
}
