//! What is wanted of a run, in words: which of them it sets, and where tasks are unknown.

use states::record::*;
use states::state::*;
use states::wanted::wanted_run;

/// A day for two desks: desk 1 has one read of its page to go, and desk 2 is idle.
fn day() -> State {
    let mut table: Vec<Words> = vec![[5; WORDS]; 2];
    (table[0][KIND], table[0][TURNS]) = (PAGE, 3);
    table[0][place(SECOND, 0) + LAST] = 4;
    table[1][LAST] = 9;
    table[1][KIND] = IDLE;
    State { count: 2, event: 9, table, page: vec![6; 5] }
}

/// A run with a place and a word more than it needs.
fn run(desks: &[u32]) -> Run {
    let (answers, pages) = (vec![[7; 7]; desks.len() + 1], vec![8; 4 * desks.len() + 1]);
    Run { desks: desks.to_vec(), answers, pages }
}

#[test]
fn a_turn_sets_its_own_places_and_record() {
    let before = day();
    let ran = wanted_run(&before, &run(&[2, 1, 1]));
    assert_eq!(ran.outcome.reply, Reply::plain(RAN));
    let idle = |event| [2, event, REFUSED, 4, 0, 0, 0];
    assert_eq!(ran.run.answers, [idle(9), [2, 10, PAGE_ANSWER, 0, 0, 5, 4], idle(10), [7; 7]]);
    assert_eq!(ran.run.pages, [8, 8, 8, 8, 5, 5, 4, 9, 8, 8, 8, 8, 8]);
    assert_eq!(ran.run.desks, [2, 1, 1]);
    let after = ran.outcome.after;
    assert_eq!((after.count, after.event, &after.page), (2, 10, &before.page));
    assert_eq!(after.table[1], before.table[1]);
    assert_eq!((after.table[0][KIND], after.table[0][TASK_WORD]), (IDLE, 0));
}

#[test]
fn unknown_tasks_refuse_the_turns() {
    let mut before = day();
    before.table[1][KIND] = 4;
    let ran = wanted_run(&before, &run(&[1, 3]));
    assert_eq!(ran.outcome, Outcome { reply: Reply::plain(RAN), after: before });
    assert_eq!(
        ran.run.answers,
        [[2, 9, REFUSED, 11, 0, 0, 0], [2, 9, REFUSED, 11, 0, 0, 0], [7; 7]]
    );
    assert_eq!(ran.run.pages, [8; 9]);
}

#[test]
fn unknown_tasks_do_not_refuse_the_run() {
    let mut before = day();
    before.table[1][KIND] = 4;
    let short = Run { pages: vec![8; 7], ..run(&[1, 3]) };
    let more = State { count: 3, ..before.clone() };
    let closed = State { count: 0, ..before.clone() };
    for (state, refusal) in [(before, 13), (more, 6), (closed, 10)] {
        let ran = wanted_run(&state, &short);
        let outcome = Outcome { reply: Reply::refused(refusal), after: state };
        assert_eq!(ran, Ran { outcome, run: short.clone() });
    }
}
