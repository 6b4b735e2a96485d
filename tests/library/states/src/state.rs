//! What is lent to the library and what it answers.

use crate::record::{unpack_task, Words};
use model::register::PLACES;

/// A day, its table and a page list, which takes n words and then n numbers of last writings. Any words
/// may stand in it.
#[derive(Clone, Debug, Default, PartialEq, Eq)]
pub struct State {
    pub count: u32,
    pub event: u32,
    pub table: Vec<Words>,
    pub page: Vec<u32>,
}

impl State {
    /// "all turns owed", for at most eight desks. A task of a kind that is none owes nothing.
    pub fn owed(&self) -> u64 {
        let n = self.count.min(PLACES as u32);
        let tasks = self.table.iter().filter_map(unpack_task);
        tasks.map(|task| u64::from(task.owed(n))).sum()
    }
}

/// "kind of a request: 1 opening (process = the desk count asked for), 2 entry, 3 page call, 4 turn,
/// as in day files".
#[derive(Clone, Copy, Debug, PartialEq, Eq)]
pub struct Request {
    pub kind: u32,
    pub process: u32,
    pub word: u32,
}

pub const OPENING: u32 = 1;
pub const ENTRY_CALL: u32 = 2;
pub const PAGE_CALL: u32 = 3;
pub const TURN: u32 = 4;

/// "reply.kind: 0 refused (refusal = the paper's number), 1 opened, 2 called, 3 read, 4 page (lender,
/// at = instant, turns), 5 written (turns). What an answer does not have is 0."
#[derive(Clone, Copy, Debug, Default, PartialEq, Eq)]
pub struct Reply {
    pub kind: u32,
    pub refusal: u32,
    pub lender: u32,
    pub at: u32,
    pub turns: u32,
}

pub const REFUSED: u32 = 0;
pub const OPENED: u32 = 1;
pub const CALLED: u32 = 2;
pub const READ: u32 = 3;
pub const PAGE_ANSWER: u32 = 4;
pub const WRITTEN: u32 = 5;
/// A run has been given.
pub const RAN: u32 = 6;

impl Reply {
    /// A reply that has nothing more than its kind.
    pub fn plain(kind: u32) -> Self {
        Reply { kind, ..Reply::default() }
    }

    pub fn refused(refusal: u32) -> Self {
        Reply { refusal, ..Reply::default() }
    }

    /// The reply with the day after it, as it stands in an answer table.
    pub fn place(self, count: u32, event: u32) -> Place {
        let Reply { kind, refusal, lender, at, turns } = self;
        [count, event, kind, refusal, lender, at, turns]
    }
}

/// A reply, and the state that it leaves.
#[derive(Clone, Debug, PartialEq, Eq)]
pub struct Outcome {
    pub reply: Reply,
    pub after: State,
}

/// A place of an answer table: the day after a turn, and its reply.
pub type Place = [u32; 7];
pub const PLACE_NAMES: [&str; 7] = ["count", "event", "kind", "refusal", "lender", "at", "turns"];

/// What a run is lent beside a day and its table: "a list of desk numbers", "a lent table" for the
/// answers and "a second table" for the pages. Any words may stand in it.
#[derive(Clone, Debug, Default, PartialEq, Eq)]
pub struct Run {
    pub desks: Vec<u32>,
    pub answers: Vec<Place>,
    pub pages: Vec<u32>,
}

/// The reply to a run, and all that it leaves.
#[derive(Clone, Debug, PartialEq, Eq)]
pub struct Ran {
    pub outcome: Outcome,
    pub run: Run,
}

/// What the reader answers: "at the ordinary end (no bytes left) everything is 0; a refusal has its
/// number 7, 8 or 9 in refusal, the rest 0".
#[derive(Clone, Copy, Debug, Default, PartialEq, Eq)]
pub struct Found {
    pub refusal: u32,
    pub kind: u32,
    pub process: u32,
    pub word: u32,
    pub next: u32,
}

/// A drop as it lies in a lent row: "first byte (from 0), byte count, refusal number".
pub type Row = [u64; 3];
pub const ROW_NAMES: [&str; 3] = ["first byte", "byte count", "refusal"];

/// What mending is lent beside a file: room for the kept bytes, and a row for each drop. Anything may
/// stand in them.
#[derive(Clone, Debug, Default, PartialEq, Eq)]
pub struct Rooms {
    pub room: Vec<u8>,
    pub rows: Vec<Row>,
}

/// The reply to a mending: "the counts written", or a refusal's number and 0 for both.
#[derive(Clone, Copy, Debug, Default, PartialEq, Eq)]
pub struct MendReply {
    pub kept: u64,
    pub drops: u64,
    pub refusal: u64,
}

/// The reply to a mending, and all that it leaves.
#[derive(Clone, Debug, PartialEq, Eq)]
pub struct Mending {
    pub reply: MendReply,
    pub rooms: Rooms,
}
