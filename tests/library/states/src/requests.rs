//! Requests for a state: mostly such as go on with the day, now and then any.

use crate::damage::number;
use crate::record::{IDLE, KIND};
use crate::state::*;
use model::random::Random;
use model::register::{most_reads, LAST_EVENT, PLACES};

/// What is asked of a state next. The favourite desk, which may be none, gets most of the turns.
pub fn next(random: &mut Random, state: &State, favourite: u32) -> Request {
    if random.once_in(14) {
        return any(random);
    }
    if state.count == 0 || random.once_in(40) {
        return opening(random, state);
    }
    let process = desk(random, state, favourite);
    let kind = state.table.get(process.wrapping_sub(1) as usize).map_or(IDLE, |words| words[KIND]);
    let contrary = if state.event == LAST_EVENT { 3 } else { 16 };
    let call = (kind == IDLE) != random.once_in(contrary);
    let kind = match (call, random.once_in(2)) {
        (false, _) => TURN,
        (true, false) => ENTRY_CALL,
        (true, true) => PAGE_CALL,
    };
    Request { kind, process, word: number(random) }
}

/// Some desk, most often the favourite. Where a call may just be taken or just not, a desk that waits
/// is as likely as one that is idle.
fn desk(random: &mut Random, state: &State, favourite: u32) -> u32 {
    let n = state.count.min(PLACES as u32);
    let needed = u64::from(state.event) + state.owed() + u64::from(most_reads(n)) + 4;
    if needed > u64::from(LAST_EVENT) && random.once_in(2) {
        let idle = random.once_in(2);
        let desks = (1..=n).zip(&state.table).filter(|(_, words)| (words[KIND] == IDLE) == idle);
        let desks: Vec<u32> = desks.map(|(desk, _)| desk).collect();
        if !desks.is_empty() {
            return random.pick(&desks);
        }
    }
    match random.below(8) {
        0..=4 => favourite,
        _ => 1 + random.below(n as usize) as u32,
    }
}

/// Any request, of a kind that there is or not, by a desk that there is or not.
fn any(random: &mut Random) -> Request {
    let kind = near(random, 7);
    Request { kind, process: near(random, 11), word: number(random) }
}

/// Mostly a number below the limit, sometimes one that is so only in its last bits, or any.
pub fn near(random: &mut Random, limit: usize) -> u32 {
    let low = random.below(limit) as u32;
    match random.below(8) {
        0 => number(random),
        1 => low + random.pick(&[1 << 8, 1 << 16, 1 << 31]),
        _ => low,
    }
}

/// An opening, mostly for as many desks as the table has records.
fn opening(random: &mut Random, state: &State) -> Request {
    let process = match random.below(4) {
        0 => near(random, 10),
        1 => state.table.len() as u32 + random.pick(&[1 << 8, 1 << 16, 1 << 31]),
        _ => state.table.len() as u32,
    };
    Request { kind: OPENING, process, word: number(random) }
}
