//! Runs of turns for a state: lists of desks, mostly of such as wait, with tables of about the size
//! that they need.

use crate::damage::{number, MOST_RECORDS};
use crate::record::{Words, IDLE, KIND, LAST, PAGE, ROW, WORDS};
use crate::requests::near;
use crate::state::*;
use model::random::Random;
use model::register::{most_reads, PLACES};

/// The most places and words beyond those that are needed.
const MOST_MORE: usize = 4;

/// More turns than 16 bits count.
const LONG: usize = (1 << 16) + 500;

/// A run for a state: none, some or many turns, and tables.
pub fn some(random: &mut Random, state: &State) -> Run {
    let n = state.count.clamp(1, PLACES as u32);
    let turns = match random.below(8) {
        0 => 0,
        1 => most_reads(n) as usize + random.below(20),
        _ => 1 + random.below(12),
    };
    let favourites = favourites(random, state);
    let desks = (0..turns).map(|_| desk(random, n, &favourites)).collect();
    with_tables(random, state.count, desks)
}

/// The desks that wait.
fn waiting(state: &State) -> Vec<u32> {
    let waiting = (1..).zip(&state.table).filter(|(_, words)| words[KIND] != IDLE);
    waiting.map(|(desk, _)| desk).collect()
}

/// Desks that wait: all, or a few, so that their tasks come to an end.
fn favourites(random: &mut Random, state: &State) -> Vec<u32> {
    let mut desks = waiting(state);
    random.shuffle(&mut desks);
    desks.truncate(1 + random.below(PLACES));
    desks
}

/// Mostly a favourite, now and then any other desk, or none.
fn desk(random: &mut Random, n: u32, favourites: &[u32]) -> u32 {
    match random.below(8) {
        0 => near(random, PLACES + 3),
        _ if favourites.is_empty() || random.once_in(8) => 1 + random.below(n as usize) as u32,
        _ => random.pick(favourites),
    }
}

/// A list with tables that are longer than it needs, just long enough, or too short: by one place, by
/// one word, by both, by the numbers of last writings, or by any number.
pub fn with_tables(random: &mut Random, count: u32, desks: Vec<u32>) -> Run {
    let turns = desks.len();
    // A larger count has not as many records, so that its run does not come to the page table.
    let needed = 2 * turns * (count as usize).min(MOST_RECORDS);
    let (places, words) = (turns + random.below(MOST_MORE), needed + random.below(MOST_MORE));
    let (places, words) = match random.below(12) {
        0 => (turns, needed),
        1 => (turns, words),
        2 => (places, needed),
        3 => (turns.saturating_sub(1), words),
        4 => (places, needed.saturating_sub(1)),
        5 => (turns.saturating_sub(1), needed.saturating_sub(1)),
        6 => (random.below(turns + 1), random.below(needed + 1)),
        7 => (places, needed / 2),
        _ => (places, words),
    };
    let answers = (0..places).map(|_| std::array::from_fn(|_| number(random))).collect();
    let pages = (0..words).map(|_| number(random)).collect();
    Run { desks, answers, pages }
}

/// A run that gives every desk that waits as many turns as it can need, in any order.
pub fn ending(random: &mut Random, state: &State) -> Run {
    let mut desks = waiting(state).repeat(most_reads(state.count) as usize + 1);
    random.shuffle(&mut desks);
    with_tables(random, state.count, desks)
}

/// A day for n desks, of which the first waits for a page, and a run of more turns than 16 bits
/// count: refused ones, but for the first n and the last n, which read the page.
pub fn long(random: &mut Random, n: usize) -> (State, Run) {
    let mut table: Vec<Words> = vec![[0; WORDS]; n];
    for words in &mut table {
        words[ROW] = number(random);
        words[LAST] = random.below(2) as u32;
    }
    table[0][KIND] = PAGE;
    // Desks 2 to n are idle, and desks 0 and n + 1 are none.
    let refused = |random: &mut Random| (2 + random.below(n + 1) as u32) % (n as u32 + 2);
    let mut desks: Vec<u32> = (0..LONG).map(|_| refused(random)).collect();
    desks[..n].fill(1);
    desks[LONG - n..].fill(1);
    let answers = vec![[number(random); 7]; LONG];
    let pages = vec![number(random); LONG * 2 * n];
    (State { count: n as u32, event: 1, table, page: Vec::new() }, Run { desks, answers, pages })
}

/// A count far above 8, with as many records, and a run that needs 2^32 words, of which it is lent few.
pub fn vast() -> (State, Run) {
    let (records, turns) = (1 << 12, 1 << 19);
    let table = vec![[0; WORDS]; records];
    let run = Run { desks: vec![1; turns], answers: vec![[7; 7]; turns], pages: vec![7; records] };
    (State { count: records as u32, event: 1, table, page: Vec::new() }, run)
}
