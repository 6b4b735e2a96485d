//! What the states have reached, counted from the model's own outcomes, and what they must reach.

mod mends;
mod numbers;
mod runs;

use crate::record::*;
use crate::state::*;
use model::counts::Reached;
use model::register::{most_reads, LAST_EVENT, PLACES};
use std::collections::BTreeMap;

const LAST_NUMBER: u64 = LAST_EVENT as u64;

/// Counts above this stand in one column.
const LAST_COLUMN: usize = 12;

/// What must be reached, for these n. Column 0 has what is met on a day of no desks, and what is
/// counted whatever the n.
const REQUIRED: &[(&str, usize, usize)] = &[
    ("openings", 1, 8),
    ("entry calls", 1, 8),
    ("page calls", 1, 8),
    ("reads", 1, 8),
    ("clean pages", 1, 8),
    ("borrowed pages", 1, 8),
    ("pages borrowed from desk n, whatever the count", 1, 8),
    ("entries that found a clean page", 1, 8),
    ("entries that borrowed a page", 1, 8),
    ("entries that marked a desk before the lender", 2, 8),
    ("entries written", 1, 8),
    ("first collects ended", 1, 8),
    ("double collects ended without a page", 1, 8),
    ("pages of 2n² turns", 1, 8),
    ("entries of 2n²+1 turns", 1, 8),
    ("pages going on past the last double collect", 1, 8),
    ("entries going on past the last double collect", 1, 8),
    ("accepted with a seq as large as the event number", 1, 8),
    ("accepted with an at as large as the event number", 1, 8),
    ("event 65,535", 1, 8),
    (READ_PAST[0], 1, 7),
    (READ_PAST[1], 1, 7),
    (KEPT_PAST[0], 1, 7),
    (KEPT_PAST[1], 1, 7),
    (WRITTEN_PAST[0], 1, 7),
    (WRITTEN_PAST[1], 1, 7),
    ("page lists with words past 2n that stay", 1, 8),
    ("page lists of just 2n words", 1, 8),
    ("collects' rows past n that stay at a call or an answer", 1, 7),
    (CLEARED_PAST[0], 1, 7),
    (CLEARED_PAST[1], 1, 7),
    (CLEARED_KEPT_PAST[0], 1, 7),
    (CLEARED_KEPT_PAST[1], 1, 7),
    ("marks past n unset by a call or an answer", 1, 7),
    ("marks past n that stay over a read", 1, 7),
    ("own marks other than 0 and 1 made 1", 1, 8),
    ("others' marks other than 0 and 1 left", 2, 8),
    ("words that the own task does not have made 0", 1, 8),
    ("words that another task does not have left", 2, 8),
    ("5 accepted requests on one damaged state", 1, 8),
    ("20 accepted requests on one damaged state", 1, 8),
    ("refusal 1", 0, 0),
    ("refusal 2", 1, 8),
    ("refusal 3", 1, 8),
    ("refusal 4", 1, 8),
    ("refusal 4 after the last event", 1, 8),
    ("page calls just taken, nobody waiting", 1, 8),
    ("page calls just taken, others waiting", 2, 8),
    ("entry calls just taken, nobody waiting", 1, 8),
    ("entry calls just taken, others waiting", 2, 8),
    ("page calls refused 5 for want of one event, nobody waiting", 1, 8),
    ("page calls refused 5 for want of one event, others waiting", 2, 8),
    ("entry calls refused 5 for want of one event, nobody waiting", 1, 8),
    ("entry calls refused 5 for want of one event, others waiting", 2, 8),
    ("refusal 5", 1, 8),
    ("calls refused 5 where event number and turns owed are 65,535", 2, 8),
    ("turns accepted where they are 65,535", 1, 8),
    ("turns refused 11 where they are 65,536 alone", 1, 8),
    ("calls refused 11 where they are 65,536 alone", 1, 8),
    ("refusal 6 of an opening by the table", 1, 8),
    ("refusal 6 by the table", 1, 12),
    ("refusal 6 by the page list", 1, 12),
    ("refusal 6 by a page list of 2n-1 words", 1, 12),
    ("refusal 6 by a page list of n words", 1, 12),
    ("refusal 8", 0, 8),
    ("refusal 10 of a call or a turn", 0, 0),
    ("refusal 10 of an opening", 1, 8),
    ("refusal 11", 1, 12),
    (COUNT_ABOVE, 9, 12),
    (EVENT_ABOVE, 1, 8),
    (LAST_ABOVE, 1, 8),
    (SEQ_ABOVE, 1, 8),
    (AT_ABOVE, 1, 8),
    (PAGE_BEYOND, 1, 8),
    (ENTRY_BEYOND, 1, 8),
    (READY_BEYOND, 1, 8),
    (OWED_ABOVE, 1, 8),
    (UNKNOWN_TASK, 1, 8),
    ("calls refused with 11 for an unknown task kind alone", 1, 8),
    ("turns refused with 11 for an unknown task kind alone", 1, 8),
    ("openings over an unknown task kind", 1, 8),
    ("unknown task kinds behind refusal 10 of a call or a turn", 0, 0),
    ("unknown task kinds behind refusal 6 by the table", 1, 8),
    ("unknown task kinds behind refusal 6 by the page list", 1, 8),
    ("unknown task kinds alone, and no such desk", 0, 0),
    ("unknown task kinds alone, after the last event", 0, 0),
];

const COUNT_ABOVE: &str = "refusal 11 alone by a count above 8, with as many records";
const EVENT_ABOVE: &str = "refusal 11 alone by an event number above 65,535";
const LAST_ABOVE: &str = "refusal 11 alone by a row's last above the event number";
const SEQ_ABOVE: &str = "refusal 11 alone by a seq above the event number";
const AT_ABOVE: &str = "refusal 11 alone by an at above the event number";
const PAGE_BEYOND: &str = "refusal 11 alone by a page's turns beyond 2n²-1";
const ENTRY_BEYOND: &str = "refusal 11 alone by an entry's turns beyond 2n²-1";
const READY_BEYOND: &str = "refusal 11 alone by a ready entry's turns beyond 2n²";
const OWED_ABOVE: &str = "refusal 11 alone by event number and turns owed above 65,535";
const UNKNOWN_TASK: &str = "refusal 11 alone by an unknown task kind";

/// Words and numbers of a view past n.
const READ_PAST: [&str; PAIR] = [
    "reads into places with words past n that stay",
    "reads into places with numbers past n that stay",
];
const KEPT_PAST: [&str; PAIR] =
    ["kept views with words past n that stay", "kept views with numbers past n that stay"];
const WRITTEN_PAST: [&str; PAIR] =
    ["rows written with words past n that stay", "rows written with numbers past n that stay"];
const CLEARED_PAST: [&str; PAIR] = [
    "words past n that stay where a call or an answer clears a collect",
    "numbers past n that stay where a call or an answer clears a collect",
];
const CLEARED_KEPT_PAST: [&str; PAIR] = [
    "words past n that stay where a call or an answer clears a kept view",
    "numbers past n that stay where a call or an answer clears a kept view",
];

/// What the reader must have met.
const READER: &[&str] = &[
    "reader: the end",
    "reader: openings",
    "reader: entry calls",
    "reader: page calls",
    "reader: turns",
    "reader: 7 for one byte",
    "reader: 7 for a short body",
    "reader: 8",
    "reader: 9 for a length outside 4 to 8",
    "reader: 9 for the kind",
];

#[derive(Default)]
pub struct Counts(BTreeMap<&'static str, [u64; LAST_COLUMN + 1]>);

impl Counts {
    fn add(&mut self, name: &'static str, n: usize) {
        self.add_if(true, name, n);
    }

    fn add_if(&mut self, met: bool, name: &'static str, n: usize) {
        if met {
            self.0.entry(name).or_default()[n.min(LAST_COLUMN)] += 1;
        }
    }

    fn of(&self, name: &str) -> [u64; LAST_COLUMN + 1] {
        self.0.get(name).copied().unwrap_or_default()
    }

    /// All that must be reached, with its counts.
    pub fn reached(&self) -> Reached {
        let mut reached = Reached::default();
        let required = [REQUIRED, numbers::REQUIRED, runs::REQUIRED, mends::REQUIRED];
        for &(name, from, to) in required.into_iter().flatten() {
            let columns = match (from, to) {
                (0, 0) => String::new(),
                _ => format!(", n = {from} to {to}"),
            };
            reached.add(format!("{name}{columns}"), &self.of(name)[from..=to]);
        }
        for name in READER {
            reached.add(*name, &self.of(name)[..1]);
        }
        reached
    }

    /// Takes in a request on a state, and its outcome.
    pub fn watch(&mut self, before: &State, request: Request, outcome: &Outcome) {
        if before.table.iter().any(|words| words[KIND] > READY) {
            self.unknown_task(before, request, outcome.reply);
        }
        match outcome.reply.kind {
            REFUSED => self.refused(before, request, outcome.reply.refusal),
            OPENED => self.add("openings", request.process as usize),
            CALLED => self.called(before, request, outcome),
            _ => self.turned(before, request, outcome),
        }
    }

    /// So many requests were accepted on one damaged state by now.
    pub fn accepted_on_one(&mut self, n: u32, count: usize) {
        self.add_if(count == 5, "5 accepted requests on one damaged state", n as usize);
        self.add_if(count == 20, "20 accepted requests on one damaged state", n as usize);
    }

    fn refused(&mut self, before: &State, request: Request, refusal: u32) {
        let n = before.count as usize;
        let opening = request.kind == OPENING;
        let name = match refusal {
            1 => "refusal 1",
            2 => "refusal 2",
            3 => "refusal 3",
            4 if before.event == LAST_EVENT => "refusal 4 after the last event",
            4 => "refusal 4",
            5 => "refusal 5",
            6 if opening => "refusal 6 of an opening by the table",
            6 if before.table.len() == n => "refusal 6 by the page list",
            6 => "refusal 6 by the table",
            8 => "refusal 8",
            10 if opening => "refusal 10 of an opening",
            10 => "refusal 10 of a call or a turn",
            _ => "refusal 11",
        };
        self.add(name, if opening && refusal == 6 { request.process as usize } else { n });
        match refusal {
            5 => self.full(before, request),
            6 if name == "refusal 6 by the page list" => self.page_short(n, before.page.len()),
            11 => self.cannot_have_arisen(before, request),
            _ => {}
        }
    }

    /// A call that is refused with 5.
    fn full(&mut self, before: &State, request: Request) {
        let n = before.count as usize;
        let name = match (request.kind == PAGE_CALL, before.owed() == 0) {
            (true, true) => "page calls refused 5 for want of one event, nobody waiting",
            (true, false) => "page calls refused 5 for want of one event, others waiting",
            (false, true) => "entry calls refused 5 for want of one event, nobody waiting",
            (false, false) => "entry calls refused 5 for want of one event, others waiting",
        };
        self.add_if(call_needs(before, request) == LAST_NUMBER + 1, name, n);
        let owed = before.owed() > 0 && work_needs(before) == LAST_NUMBER;
        self.add_if(owed, "calls refused 5 where event number and turns owed are 65,535", n);
    }

    /// A turn whose page list is too short.
    fn page_short(&mut self, n: usize, words: usize) {
        self.add_if(words + 1 == 2 * n, "refusal 6 by a page list of 2n-1 words", n);
        self.add_if(words == n, "refusal 6 by a page list of n words", n);
    }

    /// A call or a turn that is refused with 11.
    fn cannot_have_arisen(&mut self, before: &State, request: Request) {
        let n = before.count as usize;
        if let [cause] = causes(before).as_slice() {
            self.add(cause, n);
            let just = *cause == OWED_ABOVE && work_needs(before) == LAST_NUMBER + 1;
            let turn = request.kind == TURN;
            self.add_if(just && !turn, "calls refused 11 where they are 65,536 alone", n);
            self.add_if(just && turn, "turns refused 11 where they are 65,536 alone", n);
            if *cause == LAST_ABOVE {
                self.last_above(before, turn);
            }
        }
    }

    /// A request on a table that has a task of an unknown kind.
    fn unknown_task(&mut self, before: &State, request: Request, reply: Reply) {
        let n = before.count as usize;
        let turn = request.kind == TURN;
        let sized = before.table.len() == n;
        match (request.kind, reply.refusal) {
            (OPENING, 0) => self.add("openings over an unknown task kind", before.table.len()),
            (OPENING, _) => {}
            (_, 10) => self.add("unknown task kinds behind refusal 10 of a call or a turn", n),
            (_, 6) if sized => self.add("unknown task kinds behind refusal 6 by the page list", n),
            (_, 6) => self.add("unknown task kinds behind refusal 6 by the table", n),
            (_, 11) if causes(before) == [UNKNOWN_TASK] => {
                self.add_if(!turn, "calls refused with 11 for an unknown task kind alone", n);
                self.add_if(turn, "turns refused with 11 for an unknown task kind alone", n);
                let no_desk = request.process == 0 || request.process > before.count;
                self.add_if(no_desk, "unknown task kinds alone, and no such desk", 0);
                let last = before.event == LAST_EVENT;
                self.add_if(last, "unknown task kinds alone, after the last event", 0);
            }
            _ => {}
        }
    }

    fn called(&mut self, before: &State, request: Request, outcome: &Outcome) {
        let n = before.count as usize;
        self.add_if(request.kind == ENTRY_CALL, "entry calls", n);
        self.add_if(request.kind == PAGE_CALL, "page calls", n);
        let just = match (request.kind == PAGE_CALL, before.owed() == 0) {
            (true, true) => "page calls just taken, nobody waiting",
            (true, false) => "page calls just taken, others waiting",
            (false, true) => "entry calls just taken, nobody waiting",
            (false, false) => "entry calls just taken, others waiting",
        };
        self.add_if(call_needs(before, request) == LAST_NUMBER, just, n);
        self.accepted(before, request, outcome);
        self.cleared(before, request);
    }

    /// An accepted call or turn.
    fn accepted(&mut self, before: &State, request: Request, outcome: &Outcome) {
        let n = before.count as usize;
        let own = &before.table[request.process as usize - 1];
        self.add_if(outcome.after.event == LAST_EVENT, "event 65,535", n);
        let equal = |word: usize| before.table.iter().any(|words| words[word] == before.event);
        self.add_if(equal(SEQ), "accepted with a seq as large as the event number", n);
        self.add_if(equal(AT), "accepted with an at as large as the event number", n);
        self.numbers_accepted(before);
        self.add_if(strange(own), "words that the own task does not have made 0", n);
        for (j, words) in before.table.iter().enumerate() {
            if j + 1 != request.process as usize {
                let marks = words[MARKS..].iter().any(|&mark| mark > 1);
                self.add_if(marks, "others' marks other than 0 and 1 left", n);
                self.add_if(strange(words), "words that another task does not have left", n);
            }
        }
    }

    /// A call, or the answer that ends a task.
    fn cleared(&mut self, before: &State, request: Request) {
        let n = before.count as usize;
        let own = &before.table[request.process as usize - 1];
        let marks = own[MARKS + n..].iter().any(|&mark| mark != 0);
        self.add_if(marks, "marks past n unset by a call or an answer", n);
        let rows = own[place(SECOND, n)..FIRST_ENDED].iter().any(|&word| word != 0);
        self.add_if(rows, "collects' rows past n that stay at a call or an answer", n);
        let blank = [0; PAIR * PLACES];
        self.past_n(CLEARED_PAST, n, view(own, place(SECOND, 0)), &blank);
        self.past_n(CLEARED_KEPT_PAST, n, &own[KEPT..MARKS], &blank);
    }

    /// Counts words and numbers past n in which two views differ: what stays was not put there.
    fn past_n(&mut self, names: [&'static str; PAIR], n: usize, stays: &[u32], other: &[u32]) {
        for (part, name) in names.into_iter().enumerate() {
            let mut past = (PAIR * n + part..stays.len()).step_by(PAIR);
            self.add_if(past.any(|word| stays[word] != other[word]), name, n);
        }
    }

    fn turned(&mut self, before: &State, request: Request, outcome: &Outcome) {
        let n = before.count as usize;
        self.add_if(work_needs(before) == LAST_NUMBER, "turns accepted where they are 65,535", n);
        self.accepted(before, request, outcome);
        match outcome.reply.kind {
            READ => self.read(before, request, outcome),
            PAGE_ANSWER => self.page(before, request, outcome),
            _ => self.written(before, request, outcome),
        }
    }

    fn page(&mut self, before: &State, request: Request, outcome: &Outcome) {
        let n = before.count as usize;
        let reply = outcome.reply;
        self.add_if(reply.lender == 0, "clean pages", n);
        self.add_if(reply.lender != 0, "borrowed pages", n);
        let lender = reply.lender as usize;
        self.add_if(lender != 0, "pages borrowed from desk n, whatever the count", lender);
        self.add_if(reply.turns == most_reads(before.count), "pages of 2n² turns", n);
        self.add_if(before.page.len() > 2 * n, "page lists with words past 2n that stay", n);
        self.add_if(before.page.len() == 2 * n, "page lists of just 2n words", n);
        self.numbers_shown(before, request, outcome);
        self.cleared(before, request);
    }

    fn written(&mut self, before: &State, request: Request, outcome: &Outcome) {
        let n = before.count as usize;
        let own = &before.table[request.process as usize - 1];
        let most = outcome.reply.turns == most_reads(before.count) + 1;
        self.add("entries written", n);
        self.add_if(most, "entries of 2n²+1 turns", n);
        self.past_n(WRITTEN_PAST, n, view(own, ROW), &own[KEPT..MARKS]);
        self.number_written(own, outcome);
        self.cleared(before, request);
    }

    fn read(&mut self, before: &State, request: Request, outcome: &Outcome) {
        let n = before.count as usize;
        let own = &before.table[request.process as usize - 1];
        let after = &outcome.after.table[request.process as usize - 1];
        let p = own[TURNS] as usize % (2 * n);
        self.add("reads", n);
        self.add_if(p == n - 1, "first collects ended", n);
        let (at, row) = match p < n {
            true => (place(FIRST, p), p),
            false => (place(SECOND, p - n), p - n),
        };
        self.past_n(READ_PAST, n, view(own, at), view(&before.table[row], ROW));
        let past = own[MARKS + n..].iter().any(|&mark| mark != 0);
        self.add_if(past, "marks past n that stay over a read", n);
        let marks = own[MARKS..].iter().any(|&mark| mark > 1);
        self.add_if(marks, "own marks other than 0 and 1 made 1", n);
        if p == 2 * n - 1 {
            self.ended(before.count, own, after);
        }
        if after[KIND] == READY {
            self.numbers_kept(n, after);
        }
    }

    /// The end of a double collect that answers nothing.
    fn ended(&mut self, count: u32, own: &Words, after: &Words) {
        let n = count as usize;
        if after[KIND] == READY {
            let differs =
                (0..n).any(|j| after[place(FIRST, j) + SEQ] != after[place(SECOND, j) + SEQ]);
            self.add_if(differs, "entries that borrowed a page", n);
            self.add_if(!differs, "entries that found a clean page", n);
            let marked = (MARKS..MARKS + n).any(|mark| own[mark] == 0 && after[mark] != 0);
            self.add_if(marked, "entries that marked a desk before the lender", n);
            self.past_n(KEPT_PAST, n, &own[KEPT..MARKS], &[0; PAIR * PLACES]);
            return;
        }
        self.add("double collects ended without a page", n);
        let last = own[TURNS] == most_reads(count) - 1;
        let (page, entry) = (own[KIND] == PAGE, own[KIND] == ENTRY);
        self.add_if(last && page, "pages going on past the last double collect", n);
        self.add_if(last && entry, "entries going on past the last double collect", n);
    }

    /// Takes in what the reader finds in some bytes.
    pub fn watch_reader(&mut self, bytes: &[u8], found: Found) {
        let length = bytes.get(..2).map_or(0, |two| u16::from_le_bytes([two[0], two[1]]));
        let name = match (found.refusal, found.kind) {
            (7, _) if bytes.len() == 1 => "reader: 7 for one byte",
            (7, _) => "reader: 7 for a short body",
            (8, _) => "reader: 8",
            (9, _) if (4..=8).contains(&length) => "reader: 9 for the kind",
            (9, _) => "reader: 9 for a length outside 4 to 8",
            (_, OPENING) => "reader: openings",
            (_, ENTRY_CALL) => "reader: entry calls",
            (_, PAGE_CALL) => "reader: page calls",
            (_, TURN) => "reader: turns",
            _ => "reader: the end",
        };
        self.add(name, 0);
    }
}

/// The view of the row that begins at this word.
fn view(words: &Words, row: usize) -> &[u32] {
    &words[row + VIEW..row + AT]
}

/// The last event number that all work under way can need.
fn work_needs(state: &State) -> u64 {
    u64::from(state.event) + state.owed()
}

/// The last one with a further call.
fn call_needs(state: &State, request: Request) -> u64 {
    let entry = u64::from(request.kind == ENTRY_CALL);
    work_needs(state) + 1 + u64::from(most_reads(state.count)) + entry
}

/// Whether a record has words that are not of its task.
fn strange(words: &Words) -> bool {
    let (word, at, turns) = (words[TASK_WORD] != 0, words[TASK_AT] != 0, words[TURNS] != 0);
    match words[KIND] {
        IDLE => word || at || turns,
        PAGE => word || at,
        ENTRY => at,
        _ => false,
    }
}

/// The parts of 11 that a day of at least one desk meets, each once.
fn causes(state: &State) -> Vec<&'static str> {
    if state.count as usize > PLACES {
        return vec![COUNT_ABOVE];
    }
    let most = most_reads(state.count);
    let any = |met: &dyn Fn(&Words) -> bool| state.table.iter().any(met);
    let turns = |words: &Words, kind: u32, most: u32| words[KIND] == kind && words[TURNS] > most;
    let parts = [
        (state.event > LAST_EVENT, EVENT_ABOVE),
        (any(&|words| words[LAST] > state.event), LAST_ABOVE),
        (any(&|words| words[SEQ] > state.event), SEQ_ABOVE),
        (any(&|words| words[AT] > state.event), AT_ABOVE),
        (any(&|words| turns(words, PAGE, most - 1)), PAGE_BEYOND),
        (any(&|words| turns(words, ENTRY, most - 1)), ENTRY_BEYOND),
        (any(&|words| turns(words, READY, most)), READY_BEYOND),
        // An event number above 65,535 is a cause of its own.
        (state.event <= LAST_EVENT && work_needs(state) > LAST_NUMBER, OWED_ABOVE),
        (any(&|words| words[KIND] > READY), UNKNOWN_TASK),
    ];
    parts.iter().filter(|part| part.0).map(|part| part.1).collect()
}
