//! Damaged states: first one that the papers do not refuse, with any numbers where they allow any,
//! then wounds.

use crate::record::*;
use crate::state::State;
use model::random::Random;
use model::register::{most_reads, LAST_EVENT, PLACES};

/// The most records of a table and the most words of a page list that are lent.
pub const MOST_RECORDS: usize = 12;
const MOST_PAGE: usize = 2 * MOST_RECORDS + 8;

/// A state for some n from 1 to 8: one in ten of nothing but any numbers, the others such as are
/// accepted, half of these with a wound.
pub fn state(random: &mut Random) -> State {
    let n = 1 + random.below(PLACES);
    if random.once_in(10) {
        return anything(random);
    }
    let mut state = accepted(random, n);
    if random.once_in(2) {
        wound(random, &mut state);
    }
    state
}

/// Mostly a small number, sometimes one near a limit or any.
pub fn number(random: &mut Random) -> u32 {
    match random.below(8) {
        0..=3 => random.below(4) as u32,
        4 => random.below(200) as u32,
        5 => random.pick(&[255, 256, 65_534, 65_535, 65_536, 1 << 31, u32::MAX - 1, u32::MAX]),
        _ => random.draw() as u32,
    }
}

fn anything(random: &mut Random) -> State {
    let count = match random.below(4) {
        0 => number(random),
        _ => random.below(MOST_RECORDS + 1) as u32,
    };
    let records = match random.below(3) {
        0 => random.below(MOST_RECORDS + 1),
        _ => (count as usize).min(MOST_RECORDS),
    };
    let small = random.once_in(2);
    let mut any = |limit| if small { random.below(limit) as u32 } else { number(random) };
    let event = any(70_000);
    let table = (0..records).map(|_| std::array::from_fn(|_| any(4))).collect();
    State { count, event, table, page: page_list(random, 0) }
}

/// A page list of `least` to 32 words.
pub fn page_list(random: &mut Random, least: usize) -> Vec<u32> {
    let more = if random.once_in(6) { 0 } else { random.below(MOST_PAGE - least + 1) };
    let words = least + more;
    (0..words).map(|_| number(random)).collect()
}

/// A day for n desks that is not refused with 11. Often nobody waits, or only one desk may.
fn accepted(random: &mut Random, n: usize) -> State {
    let one = random.below(n);
    let waiting = match random.below(8) {
        0 => 0..0,
        1 | 2 => one..one + 1,
        _ => 0..n,
    };
    let mut tasks: Vec<Words> =
        (0..n).map(|own| task(random, n as u32, waiting.contains(&own))).collect();
    if waiting.len() == 1 && random.once_in(2) {
        // The last turn of all that are owed.
        (tasks[one][KIND], tasks[one][TURNS]) = match random.below(2) {
            0 => (PAGE, most_reads(n as u32) - 1),
            _ => (READY, most_reads(n as u32)),
        };
    }
    with_tasks(random, tasks)
}

/// A day for n desks that is not refused with 11, and a desk of it whose task is of this kind and has
/// had so many turns.
pub fn reading(random: &mut Random, n: u32, kind: u32, turns: u32) -> (State, u32) {
    let mut tasks: Vec<Words> = (0..n).map(|_| task(random, n, true)).collect();
    let one = random.below(n as usize);
    (tasks[one][KIND], tasks[one][TURNS]) = (kind, turns);
    let mut state = with_tasks(random, tasks);
    // So that a read in a wrong place is seen.
    for j in 0..n as usize {
        for collect in [FIRST, SECOND] {
            let at = place(collect, j);
            state.table[one][at..][..ROW_WORDS].copy_from_slice(&rubbish_row(random));
        }
    }
    (state, one as u32 + 1)
}

/// A day on which every desk has called for a page or an entry, and none has had a turn.
pub fn called(random: &mut Random) -> State {
    let n = 1 + random.below(PLACES);
    let mut table: Vec<Words> = vec![[0; WORDS]; n];
    for words in &mut table {
        words[ROW] = number(random);
        words[LAST] = random.below(n + 1) as u32;
        words[KIND] = random.pick(&[PAGE, ENTRY]);
        words[TASK_WORD] = number(random);
    }
    State { count: n as u32, event: n as u32, table, page: page_list(random, 2 * n) }
}

/// A day that is not refused with 11, with records of these tasks, rubbish as they are.
fn with_tasks(random: &mut Random, tasks: Vec<Words>) -> State {
    let n = tasks.len();
    let page = page_list(random, 2 * n);
    let mut state = State { count: n as u32, event: 0, table: tasks, page };
    state.event = event(random, &state);
    let rows: Vec<[u32; ROW_WORDS]> = (0..n).map(|_| row(random, state.event)).collect();
    for (own, words) in state.table.iter_mut().enumerate() {
        record(random, own, &rows, words);
    }
    state
}

/// Some event number for the tasks of a state: often one of the last that there can be, or one at
/// which a call is just taken or just not.
fn event(random: &mut Random, state: &State) -> u32 {
    let last = LAST_EVENT - state.owed() as u32;
    match random.below(8) {
        0 | 1 => last - random.below(2) as u32,
        2..=4 => last - most_reads(state.count) - random.below(3) as u32,
        5 => random.below(last as usize + 1) as u32,
        _ => random.below(60) as u32,
    }
}

/// A number up to the event number, often the event number itself.
fn up_to(random: &mut Random, event: u32) -> u32 {
    match random.below(4) {
        0 => event,
        1 => random.below(event as usize + 1) as u32,
        _ => event.min(random.below(3) as u32),
    }
}

fn row(random: &mut Random, event: u32) -> [u32; ROW_WORDS] {
    let mut row = rubbish_row(random);
    row[LAST] = up_to(random, event);
    row[SEQ] = up_to(random, event);
    row[AT] = up_to(random, event);
    row
}

fn rubbish_row(random: &mut Random) -> [u32; ROW_WORDS] {
    std::array::from_fn(|_| number(random))
}

/// Puts the rows of a day in a record: its own, and those that it has read.
fn record(random: &mut Random, own: usize, rows: &[[u32; ROW_WORDS]], words: &mut Words) {
    words[..ROW_WORDS].copy_from_slice(&rows[own]);
    for (j, row) in rows.iter().enumerate() {
        words[place(FIRST, j)..][..ROW_WORDS].copy_from_slice(row);
        words[place(SECOND, j)..][..ROW_WORDS].copy_from_slice(row);
    }
    // None of the rows moved, or one, or the last, or most.
    match random.below(5) {
        0 | 1 => {}
        2 => {
            let j = random.below(rows.len());
            stir(random, j, words);
        }
        3 => stir(random, rows.len() - 1, words),
        _ => (0..rows.len()).for_each(|j| stir(random, j, words)),
    }
    if random.once_in(4) {
        // Another number under the same seq.
        let at = place(random.pick(&[FIRST, SECOND]), random.below(rows.len()));
        words[at + LAST] = number(random);
    }
    for j in 0..rows.len() {
        past_n(random, rows.len(), &mut words[place(FIRST, j)..]);
        past_n(random, rows.len(), &mut words[place(SECOND, j)..]);
    }
    marks(random, rows.len(), words);
}

/// A record of rubbish with a task, which is idle or may wait, and a number of turns that it can have
/// had, often at the end of a double collect. The words that it does not have are rubbish, or 0.
fn task(random: &mut Random, n: u32, waiting: bool) -> Words {
    let mut words: Words = std::array::from_fn(|_| number(random));
    let most = most_reads(n);
    let kinds = [IDLE, PAGE, PAGE, ENTRY, ENTRY, READY];
    words[KIND] = if waiting { random.pick(&kinds) } else { IDLE };
    words[TURNS] = match random.below(4) {
        0 => most - 1,
        1 => 2 * n * (1 + random.below(n as usize) as u32) - 1 - random.below(2) as u32,
        _ => random.below(most as usize) as u32,
    };
    if words[KIND] == READY {
        words[TURNS] += 1;
    }
    if random.once_in(2) {
        words[TASK_AT] = 0;
        if words[KIND] == IDLE {
            words[TURNS] = 0;
        }
    }
    words
}

/// Puts another row in place j of a collect, or the same with another seq.
fn stir(random: &mut Random, j: usize, words: &mut Words) {
    let at = place(random.pick(&[FIRST, SECOND]), j);
    if random.once_in(2) {
        words[at..][..ROW_WORDS].copy_from_slice(&rubbish_row(random));
    } else {
        words[at + SEQ] = number(random);
    }
}

/// Rubbish past n of a view in a collect, words and numbers.
fn past_n(random: &mut Random, n: usize, row: &mut [u32]) {
    for word in &mut row[VIEW + PAIR * n..AT] {
        *word = number(random);
    }
}

/// No marks, all from some desk on, or some, by any numbers.
fn marks(random: &mut Random, n: usize, words: &mut Words) {
    let way = random.below(5);
    let from = random.below(n);
    for (j, mark) in words[MARKS..].iter_mut().enumerate() {
        let set = random.pick(&[1, 1, 2, 255, 256, 1 << 16, 1 << 31, u32::MAX]);
        *mark = match way {
            0 => 0,
            1 | 2 => set * u32::from(j >= from),
            _ => random.pick(&[0, 0, set]),
        };
    }
}

/// Damages a state in one way.
pub fn wound(random: &mut Random, state: &mut State) {
    match random.below(15) {
        0 => state.event = LAST_EVENT + 1 + random.below(3) as u32,
        1 => state.event = number(random),
        2 => {
            // A count above 8, with a table of just that many records.
            state.count = 9 + random.below(MOST_RECORDS - 8) as u32;
            let first = state.table.first().copied().unwrap_or([0; WORDS]);
            state.table.resize(state.count as usize, first);
            state.page = page_list(random, 2 * state.count as usize);
            if random.once_in(3) {
                shorten(random, state);
            }
        }
        3 => {
            let first = state.table.first().copied().unwrap_or([0; WORDS]);
            state.table.resize(random.below(MOST_RECORDS + 1), first);
        }
        4 if random.once_in(3) => state.count = 0,
        4 => state.count = state.count.wrapping_add(random.pick(&[1, 1 << 8, 1 << 16, 1 << 31])),
        5 => state.page = page_list(random, 0),
        6 => shorten(random, state),
        7 => {
            for _ in 0..3 {
                wound_record(random, state);
            }
        }
        // More turns are owed than the day has numbers for.
        8 => state.event = LAST_EVENT + 1 - state.owed() as u32 + random.pick(&[0, 0, 0, 1, 2]),
        _ => wound_record(random, state),
    }
}

/// Makes a page list just too short, or one for the words alone.
fn shorten(random: &mut Random, state: &mut State) {
    let n = (state.count as usize).min(MOST_RECORDS);
    let least = 2 * n;
    let words = random.pick(&[least.saturating_sub(1), least.saturating_sub(2), n]);
    state.page.truncate(words);
}

/// Damages one record: what 11 looks at, or any of its words.
fn wound_record(random: &mut Random, state: &mut State) {
    if state.table.is_empty() {
        return;
    }
    let own = random.below(state.table.len());
    let above = state.event.saturating_add(1).saturating_add(random.pick(&[0, 0, 1, 1 << 20]));
    let n = state.count.min(PLACES as u32);
    let beyond = most_reads(n) + random.pick(&[0, 0, 1, 1 << 20, 1 << 31]);
    let any = number(random);
    let words = &mut state.table[own];
    match random.below(9) {
        0 => words[SEQ] = above,
        1 => words[AT] = above,
        2 => words[LAST] = above,
        3 => (words[KIND], words[TURNS]) = (PAGE, beyond),
        4 => (words[KIND], words[TURNS]) = (ENTRY, beyond),
        5 => (words[KIND], words[TURNS]) = (READY, beyond + 1),
        6 => words[KIND] = random.pick(&[4, 5, 255, 256, 257, 1 << 16, (1 << 16) + 1, u32::MAX]),
        _ => words[random.below(WORDS)] = any,
    }
}
