//! A task kind that is none: 11, in its place in the order, and nothing to an opening.

use states::record::{Words, KIND, WORDS};
use states::state::*;
use states::wanted::wanted;

/// A day for two desks, of which the second has a task of this kind.
fn day(kind: u32) -> State {
    let mut table: Vec<Words> = vec![[0; WORDS]; 2];
    table[1][KIND] = kind;
    State { count: 2, event: 7, table, page: vec![5; 4] }
}

/// The refusal of a request, which changes nothing.
fn refusal(state: &State, kind: u32, process: u32) -> u32 {
    let outcome = wanted(state, Request { kind, process, word: 3 });
    assert_eq!((outcome.reply.kind, &outcome.after), (REFUSED, state));
    outcome.reply.refusal
}

#[test]
fn ahead_of_whatever_a_desk_does() {
    for unknown in [4, 5, 256, u32::MAX] {
        for event in [0, 7, 65_535] {
            let state = State { event, ..day(unknown) };
            for kind in [ENTRY_CALL, PAGE_CALL, TURN] {
                for process in [0, 1, 2, 3] {
                    assert_eq!(refusal(&state, kind, process), 11);
                }
            }
        }
    }
}

#[test]
fn behind_the_day_and_the_sizes() {
    let closed = State { count: 0, ..day(4) };
    let more = State { count: 1, ..day(4) };
    let short = State { page: vec![5; 3], ..day(4) };
    for kind in [ENTRY_CALL, PAGE_CALL, TURN] {
        assert_eq!(refusal(&closed, kind, 1), 10);
        assert_eq!(refusal(&more, kind, 1), 6);
    }
    assert_eq!(refusal(&short, TURN, 1), 6);
    assert_eq!(refusal(&short, PAGE_CALL, 1), 11);
}

#[test]
fn not_looked_at() {
    let closed = State { count: 0, ..day(4) };
    let opened = wanted(&closed, Request { kind: OPENING, process: 2, word: 3 });
    assert_eq!(opened.reply, Reply { kind: OPENED, ..Reply::default() });
    assert_eq!(opened.after.table, vec![[0; WORDS]; 2]);
    assert_eq!(refusal(&closed, OPENING, 9), 1);
    assert_eq!(refusal(&closed, OPENING, 1), 6);
    assert_eq!(refusal(&day(4), OPENING, 2), 10);
    assert_eq!(refusal(&day(4), 5, 1), 8);
}
