//! The library itself, by its C interface. What is lent to it lies between guards, so that a word or a
//! byte written outside is seen.

use states::record::{Words, WORDS};
use states::state::*;

/// Records beside a lent table, words beside a lent page list and so on, on each side.
const BESIDE: usize = 2;
const GUARD: u32 = 0x5eed_cafe;

/// Bytes beside lent bytes, more than a record has.
const BYTES_BESIDE: usize = 16;

#[repr(C)]
#[derive(Default)]
struct RawReply {
    count: u32,
    event: u32,
    kind: u32,
    refusal: u32,
    lender: u32,
    at: u32,
    turns: u32,
}

#[repr(C)]
struct RawRecord {
    refusal: u32,
    kind: u32,
    process: u32,
    word: u32,
    next: u32,
}

#[repr(C)]
struct RawMending {
    kept: u64,
    drops: u64,
    refusal: u64,
}

extern "C" {
    fn nq_open(count: u32, event: u32, table: *mut Words, records: usize, asked: u32) -> RawReply;
    fn nq_entry(
        count: u32,
        event: u32,
        table: *mut Words,
        records: usize,
        process: u32,
        word: u32,
    ) -> RawReply;
    fn nq_page(count: u32, event: u32, table: *mut Words, records: usize, process: u32)
        -> RawReply;
    fn nq_turn(
        count: u32,
        event: u32,
        table: *mut Words,
        records: usize,
        process: u32,
        page: *mut u32,
        words: usize,
    ) -> RawReply;
    fn nq_step(
        count: u32,
        event: u32,
        table: *mut Words,
        records: usize,
        kind: u32,
        process: u32,
        word: u32,
        page: *mut u32,
        words: usize,
    ) -> RawReply;
    fn nq_run(
        count: u32,
        event: u32,
        table: *mut Words,
        records: usize,
        desks: *const u32,
        turns: usize,
        replies: *mut Place,
        places: usize,
        pages: *mut u32,
        words: usize,
    ) -> RawReply;
    fn nq_read(bytes: *const u8, length: usize) -> RawRecord;
    fn nq_mend(
        bytes: *const u8,
        length: usize,
        room: *mut u8,
        places: usize,
        rows: *mut Row,
        row_count: usize,
    ) -> RawMending;
}

impl RawReply {
    fn reply(&self) -> Reply {
        let RawReply { kind, refusal, lender, at, turns, .. } = *self;
        Reply { kind, refusal, lender, at, turns }
    }
}

/// Something lent, between guards.
struct Guarded<T> {
    all: Vec<T>,
    guard: T,
    beside: usize,
}

impl<T: Copy + PartialEq> Guarded<T> {
    fn new(lent: &[T], guard: T) -> Self {
        Guarded::with(lent, guard, BESIDE)
    }

    /// Between so many guards on each side.
    fn with(lent: &[T], guard: T, beside: usize) -> Self {
        let guards = vec![guard; beside];
        Guarded { all: [&guards, lent, &guards].concat(), guard, beside }
    }

    fn lend(&mut self) -> (*mut T, usize) {
        let inner = self.beside..self.all.len() - self.beside;
        (self.all[inner.clone()].as_mut_ptr(), inner.len())
    }

    /// What was lent, if no guard was written over.
    fn back(self, called: &str) -> Result<Vec<T>, String> {
        let end = self.all.len() - self.beside;
        let mut beside = self.all[..self.beside].iter().chain(&self.all[end..]);
        match beside.any(|guard| *guard != self.guard) {
            true => Err(format!("something beside the {called} was written")),
            false => Ok(self.all[self.beside..end].to_vec()),
        }
    }
}

/// A state's table and page list between guards.
struct Lent {
    table: Guarded<Words>,
    page: Guarded<u32>,
}

impl Lent {
    fn new(state: &State) -> Self {
        let table = Guarded::new(&state.table, [GUARD; WORDS]);
        Lent { table, page: Guarded::new(&state.page, GUARD) }
    }

    fn outcome(self, raw: RawReply) -> Result<Outcome, String> {
        let (table, page) = (self.table.back("table")?, self.page.back("page list")?);
        let after = State { count: raw.count, event: raw.event, table, page };
        Ok(Outcome { reply: raw.reply(), after })
    }
}

/// A request by `nq_step`.
pub fn step(state: &State, request: Request) -> Result<Outcome, String> {
    let Request { kind, process, word } = request;
    let mut lent = Lent::new(state);
    let (table, records) = lent.table.lend();
    let (page, words) = lent.page.lend();
    let (count, event) = (state.count, state.event);
    // SAFETY: table and page are of these lengths, aligned, not null and apart from each other.
    let raw = unsafe { nq_step(count, event, table, records, kind, process, word, page, words) };
    lent.outcome(raw)
}

/// A request by the function of its kind, if there is one.
pub fn named(state: &State, request: Request) -> Option<Result<Outcome, String>> {
    let Request { kind, process, word } = request;
    let mut lent = Lent::new(state);
    let (table, records) = lent.table.lend();
    let (page, words) = lent.page.lend();
    let (count, event) = (state.count, state.event);
    // SAFETY: as above.
    let raw = unsafe {
        match kind {
            OPENING => nq_open(count, event, table, records, process),
            ENTRY_CALL => nq_entry(count, event, table, records, process, word),
            PAGE_CALL => nq_page(count, event, table, records, process),
            TURN => nq_turn(count, event, table, records, process, page, words),
            _ => return None,
        }
    };
    Some(lent.outcome(raw))
}

/// A run by `nq_run`.
pub fn run(state: &State, run: &Run) -> Result<Ran, String> {
    let mut lent = Lent::new(state);
    let mut list = Guarded::new(&run.desks, GUARD);
    let mut answers = Guarded::new(&run.answers, [GUARD; 7]);
    let mut page_table = Guarded::new(&run.pages, GUARD);
    let (table, records) = lent.table.lend();
    let (desks, turns) = list.lend();
    let (replies, places) = answers.lend();
    let (pages, words) = page_table.lend();
    let (count, event) = (state.count, state.event);
    // SAFETY: as above; the list, the answer table and the page table likewise.
    let raw = unsafe {
        nq_run(count, event, table, records, desks, turns, replies, places, pages, words)
    };
    let desks = list.back("desk list")?;
    if desks != run.desks {
        return Err("the desk list was written".to_string());
    }
    let (answers, pages) = (answers.back("answer table")?, page_table.back("page table")?);
    Ok(Ran { outcome: lent.outcome(raw)?, run: Run { desks, answers, pages } })
}

/// The turns of a run that is not refused one by one, by `nq_turn`. Each is lent the 2n words of the
/// page table that are its own.
pub fn one_by_one(state: &State, run: &Run) -> Result<Ran, String> {
    let size = 2 * state.count as usize;
    let mut lent = Lent::new(state);
    let (table, records) = lent.table.lend();
    let mut ran = run.clone();
    let mut raw = RawReply { count: state.count, event: state.event, ..RawReply::default() };
    for (i, &desk) in run.desks.iter().enumerate() {
        let own = &mut ran.pages[i * size..(i + 1) * size];
        let mut list = Guarded::new(own, GUARD);
        let (page, words) = list.lend();
        // SAFETY: as above.
        raw = unsafe { nq_turn(raw.count, raw.event, table, records, desk, page, words) };
        own.copy_from_slice(&list.back("page list")?);
        ran.answers[i] = raw.reply().place(raw.count, raw.event);
    }
    let outcome = Outcome { reply: Reply::plain(RAN), ..lent.outcome(raw)? };
    Ok(Ran { outcome, run: ran })
}

/// What the library's reader finds. `after` stands behind the bytes that are lent.
pub fn read(bytes: &[u8], after: u8) -> Found {
    let mut lent = bytes.to_vec();
    lent.extend([after; 16]);
    // SAFETY: the bytes are there, and the pointer is not null.
    let raw = unsafe { nq_read(lent.as_ptr(), bytes.len()) };
    let RawRecord { refusal, kind, process, word, next } = raw;
    Found { refusal, kind, process, word, next }
}

/// A mending by `nq_mend`. `beside` stands before and behind the bytes that are lent.
pub fn mend(file: &[u8], beside: u8, rooms: &Rooms) -> Result<Mending, String> {
    let mut bytes = Guarded::with(file, beside, BYTES_BESIDE);
    let mut room = Guarded::with(&rooms.room, GUARD as u8, BYTES_BESIDE);
    let mut rows = Guarded::new(&rooms.rows, [GUARD.into(); 3]);
    let (lent, length) = bytes.lend();
    let (kept, places) = room.lend();
    let (drops, row_count) = rows.lend();
    // SAFETY: all three are of these lengths, aligned, not null and apart from each other.
    let raw = unsafe { nq_mend(lent, length, kept, places, drops, row_count) };
    if bytes.back("file")? != file {
        return Err("the file was written".to_string());
    }
    let RawMending { kept, drops, refusal } = raw;
    let rooms = Rooms { room: room.back("room")?, rows: rows.back("rows")? };
    Ok(Mending { reply: MendReply { kept, drops, refusal }, rooms })
}
