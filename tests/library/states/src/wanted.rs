//! What the model answers to a request on a state, and what it leaves.

use crate::record::{pack, unpack, Words, WORDS};
use crate::state::*;
use model::dayfile::{self, Record};
use model::mending::{mend_into, Dropped};
use model::register::{Day, Desk, Refusal, Turn};

/// The model's outcome, but 11 where there is a task of a kind that the model does not have. "On a
/// refusal nothing is written."
pub fn wanted(before: &State, request: Request) -> Outcome {
    let mut day = Day { desks: before.count, event: before.event };
    let mut page = before.page.clone();
    let (mut table, unknown_task) = records(before);
    let mut answer = ask(&mut day, &mut table, &mut page, request);
    if unknown_task {
        answer = cannot_have_arisen(request, answer);
    }
    match answer {
        Err(refusal) => Outcome { reply: Reply::refused(refusal as u32), after: before.clone() },
        Ok(reply) => {
            let table = written(before, request, &table);
            Outcome { reply, after: State { count: day.desks, event: day.event, table, page } }
        }
    }
}

/// The model's records, and whether there is a task of a kind that it does not have. Blank records
/// then stand in for all: what comes before 11 does not go by records.
fn records(state: &State) -> (Vec<Desk>, bool) {
    let records: Option<Vec<Desk>> = state.table.iter().map(unpack).collect();
    let unknown_task = records.is_none();
    (records.unwrap_or_else(|| vec![Desk::default(); state.table.len()]), unknown_task)
}

/// "any other kind gets refusal 8"; "Only a turn looks at its page list".
fn ask(
    day: &mut Day,
    table: &mut [Desk],
    page: &mut [u32],
    request: Request,
) -> Result<Reply, Refusal> {
    let Request { kind, process, word } = request;
    match kind {
        OPENING => day.open(table, process).map(|()| Reply::plain(OPENED)),
        ENTRY_CALL => day.entry(table, process, word).map(|()| Reply::plain(CALLED)),
        PAGE_CALL => day.page(table, process).map(|()| Reply::plain(CALLED)),
        TURN => day.turn(table, process, page).map(turned),
        _ => Err(Refusal::UnknownKind),
    }
}

/// What is answered where a task kind is none. "A task kind that is none is a day that cannot have
/// arisen: 11, in its place in the order", and that order is, for calls and turns, "10, 6, 11, 2,
/// then 3 or 4, then 5". An opening does not look at it.
fn cannot_have_arisen(
    request: Request,
    otherwise: Result<Reply, Refusal>,
) -> Result<Reply, Refusal> {
    match (request.kind, otherwise) {
        (ENTRY_CALL | PAGE_CALL | TURN, Err(Refusal::OpenOrNot | Refusal::LentSize)) => otherwise,
        (ENTRY_CALL | PAGE_CALL | TURN, _) => Err(Refusal::CannotHaveArisen),
        _ => otherwise,
    }
}

fn turned(turn: Turn) -> Reply {
    match turn {
        Turn::Read => Reply::plain(READ),
        Turn::Page { from, at, turns } => {
            Reply { kind: PAGE_ANSWER, refusal: 0, lender: from, at, turns }
        }
        Turn::Written { turns } => Reply { turns, ..Reply::plain(WRITTEN) },
    }
}

/// "An accepted opening sets every word of every record to 0. An accepted call or turn writes the one
/// record of its desk", all 369 words; "no other record is written."
fn written(before: &State, request: Request, after: &[Desk]) -> Vec<Words> {
    if request.kind == OPENING {
        assert!(after.iter().all(|desk| *desk == Desk::default()), "the model's opening");
        return vec![[0; WORDS]; after.len()];
    }
    let own = request.process as usize - 1;
    for (j, words) in before.table.iter().enumerate() {
        assert!(j == own || unpack(words) == Some(after[j]), "the model changes another record");
    }
    let mut table = before.table.clone();
    table[own] = pack(&after[own]);
    table
}

/// The model's outcome of a run. A task of a kind that the model does not have is no cause to refuse
/// the run, but each turn of it is then refused, with 11.
pub fn wanted_run(before: &State, lent: &Run) -> Ran {
    let mut day = Day { desks: before.count, event: before.event };
    let mut answers = vec![None; lent.answers.len()];
    let mut run = lent.clone();
    let (mut table, unknown_task) = records(before);
    if let Err(refusal) = day.run(&mut table, &lent.desks, &mut answers, &mut run.pages) {
        let reply = Reply::refused(refusal as u32);
        return Ran { outcome: Outcome { reply, after: before.clone() }, run: lent.clone() };
    }
    if unknown_task {
        // Blank records had no turn accepted.
        answers.iter_mut().flatten().for_each(|answer| *answer = Err(Refusal::CannotHaveArisen));
    }
    let mut after = before.clone();
    for (i, answer) in answers.iter().enumerate() {
        run.answers[i] = match *answer {
            // "every other place of both remains"
            None => continue,
            Some(Err(refusal)) => Reply::refused(refusal as u32).place(after.count, after.event),
            Some(Ok(turn)) => {
                // "Every accepted call or turn adds 1 to the event number".
                after.event += 1;
                let own = lent.desks[i] as usize - 1;
                after.table[own] = pack(&table[own]);
                turned(turn).place(after.count, after.event)
            }
        };
    }
    assert_eq!((after.count, after.event), (day.desks, day.event), "the model's day");
    Ran { outcome: Outcome { reply: Reply::plain(RAN), after }, run }
}

/// What the model's reader finds at the beginning of some bytes.
pub fn found(bytes: &[u8]) -> Found {
    let (record, next) = match dayfile::read(bytes) {
        Err(refusal) => return Found { refusal: refusal as u32, ..Found::default() },
        Ok(None) => return Found::default(),
        Ok(Some((record, next))) => (record, next as u32),
    };
    let (kind, process, word) = match record {
        Record::Open { desks } => (OPENING, desks, 0),
        Record::Entry { desk, word } => (ENTRY_CALL, desk, word),
        Record::Page { desk } => (PAGE_CALL, desk, 0),
        Record::Turn { desk } => (TURN, desk, 0),
    };
    Found { refusal: 0, kind, process: process.into(), word, next }
}

/// The model's outcome of a mending. "later places remain", and on 12 everything does.
pub fn wanted_mending(file: &[u8], lent: &Rooms) -> Mending {
    let mut rooms = lent.clone();
    let mut dropped = vec![Dropped::default(); lent.rows.len()];
    match mend_into(file, &mut rooms.room, &mut dropped) {
        Err(refusal) => {
            assert_eq!(rooms, *lent, "the model's refusal");
            Mending { reply: MendReply { refusal: refusal as u64, ..MendReply::default() }, rooms }
        }
        Ok((kept, drops)) => {
            for (row, drop) in rooms.rows.iter_mut().zip(&dropped[..drops]) {
                *row = [drop.first as u64, drop.count as u64, drop.number.into()];
            }
            let reply = MendReply { kept: kept as u64, drops: drops as u64, refusal: 0 };
            Mending { reply, rooms }
        }
    }
}
