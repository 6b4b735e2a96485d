//! What is wanted of the numbers of last writings, in words: where they stand, which are looked at, and
//! that a view's places past n stay.

use states::record::*;
use states::state::*;
use states::wanted::wanted;

const EVENT: u32 = 9;

/// A day for two desks whose words are all 1, but that desk 1 has had so many turns of a task.
fn day(kind: u32, turns: u32) -> State {
    let mut table: Vec<Words> = vec![[1; WORDS]; 2];
    (table[0][KIND], table[0][TURNS]) = (kind, turns);
    table[1][KIND] = IDLE;
    State { count: 2, event: EVENT, table, page: vec![6; 6] }
}

fn turn(state: &State) -> Outcome {
    wanted(state, Request { kind: TURN, process: 1, word: 0 })
}

#[test]
fn a_page_has_words_then_numbers() {
    let mut state = day(PAGE, 3);
    state.table[0][place(SECOND, 0) + LAST] = 70_000;
    (state.table[1][ROW], state.table[1][LAST]) = (2, 3);
    let outcome = turn(&state);
    assert_eq!(outcome.reply, Reply { kind: PAGE_ANSWER, refusal: 0, lender: 0, at: 1, turns: 4 });
    assert_eq!(outcome.after.page, [1, 2, 70_000, 3, 6, 6]);
}

#[test]
fn a_borrowed_page_is_the_lenders_view() {
    let mut state = day(PAGE, 3);
    let row = &mut state.table[1];
    (row[LAST], row[SEQ], row[AT]) = (8, 2, 7);
    row[VIEW..AT]
        .copy_from_slice(&[10, 20, 11, 21, 12, 22, 13, 23, 14, 24, 15, 25, 16, 26, 17, 27]);
    let outcome = turn(&state);
    assert_eq!(outcome.reply, Reply { kind: PAGE_ANSWER, refusal: 0, lender: 2, at: 7, turns: 4 });
    assert_eq!(outcome.after.page, [10, 11, 20, 21, 6, 6]);
    // An entry keeps the pairs, and those past n stay.
    state.table[0][KIND] = ENTRY;
    let after = turn(&state).after;
    assert_eq!(after.page, [6; 6]);
    assert_eq!(after.table[0][KIND], READY);
    assert_eq!(after.table[0][KEPT..][..6], [10, 20, 11, 21, 1, 1]);
}

#[test]
fn a_read_takes_the_first_n_pairs() {
    let mut state = day(PAGE, 1);
    for (word, number) in state.table[1][..ROW_WORDS].iter_mut().zip(2..) {
        *word = number;
    }
    (state.table[1][LAST], state.table[1][SEQ], state.table[1][AT]) = (9, 8, 7);
    let after = turn(&state).after;
    let mut wanted = state.table[1][..ROW_WORDS].to_vec();
    wanted[VIEW + 4..AT].fill(1);
    assert_eq!(after.table[0][place(FIRST, 1)..][..ROW_WORDS], wanted);
}

#[test]
fn a_row_is_written_with_the_turns_own_number() {
    let mut state = day(READY, 4);
    (state.table[0][TASK_WORD], state.table[0][TASK_AT]) = (5, 3);
    state.table[0][KEPT..MARKS].fill(2);
    let after = turn(&state).after;
    let row = &after.table[0][..ROW_WORDS];
    assert_eq!((row[ROW], row[LAST], row[SEQ], row[AT]), (5, EVENT + 1, 2, 3));
    assert_eq!(row[VIEW..][..6], [2, 2, 2, 2, 1, 1]);
    assert_eq!(after.table[0][KEPT..][..6], [0, 0, 0, 0, 2, 2]);
}

#[test]
fn a_rows_own_number_above_the_event_number_is_11() {
    for own in 0..2 {
        for (last, refusal) in [(EVENT, 0), (EVENT + 1, 11), (u32::MAX, 11)] {
            let mut state = day(PAGE, 0);
            state.table[own][LAST] = last;
            assert_eq!(turn(&state).reply.refusal, refusal);
        }
    }
}

/// Every other number of a last writing may be any.
#[test]
fn no_other_number_is_11() {
    let mut state = day(PAGE, 0);
    for words in &mut state.table {
        for pairs in [VIEW, place(SECOND, 0) + VIEW, place(FIRST, 1) + VIEW, KEPT] {
            (0..8).for_each(|j| words[pairs + PAIR * j + 1] = u32::MAX);
        }
        for row in [place(FIRST, 0), place(SECOND, 1)] {
            words[row + LAST] = u32::MAX;
        }
    }
    assert_eq!(turn(&state).reply, Reply::plain(READ));
}

#[test]
fn a_page_list_has_2n_words() {
    for words in 0..8 {
        let state = State { page: vec![6; words], ..day(PAGE, 0) };
        assert_eq!(turn(&state).reply.refusal, if words < 4 { 6 } else { 0 });
    }
}
