//! The event number of each row's last writing, K6 of document 02: what rows, views and pages keep and
//! show of it, worked out by hand.

use model::dayfile::Record;
use model::papers;
use model::register::{Shown, Task, View};
use model::runner::{self, Register};
use model::text;

/// The register as the lines leave it.
fn left(lines: &str) -> Register {
    after(&text::to_bytes(lines).unwrap(), u32::MAX)
}

/// The register after this event of a day file, or after the last.
fn after(file: &[u8], event: u32) -> Register {
    let mut records: Vec<Record> = Vec::new();
    runner::run_watched(file, |record, _, _| records.extend(record));
    let mut register = Register::default();
    for record in records {
        if register.day.event < event {
            let _ = register.apply(record);
        }
    }
    register
}

/// A view that shows these rows.
fn view(rows: &[(u32, u32)]) -> View {
    let mut view = View::default();
    for (place, &(word, last)) in view.iter_mut().zip(rows) {
        *place = Shown { word, last };
    }
    view
}

#[test]
fn a_row_keeps_the_number_of_its_writing_turn() {
    let file = papers::day("A");
    for (event, last) in [(1, 0), (3, 0), (4, 4), (5, 4), (7, 4)] {
        assert_eq!(after(&file, event).table[0].row.last, last, "event {event}");
    }
}

#[test]
fn the_last_of_several_writings_counts() {
    let register = left("open 1\nentry 1 7\nturn 1 x3\nentry 1 7\nturn 1 x3\npage 1\nturn 1 x2");
    assert_eq!(register.table[0].row.last, 8);
    assert_eq!(register.page, [7, 8]);
    // The second entry's view is of the first.
    assert_eq!(register.table[0].row.view, view(&[(7, 4)]));
}

#[test]
fn a_word_of_0_that_was_written() {
    let register = left("open 2\nentry 2 0\nturn 2 x5\npage 1\nturn 1 x4");
    assert_eq!(register.page, [0, 0, 0, 6]);
}

/// Day B: desk 2 writes at 9 and at 19, and lends desk 1 the page of 16.
#[test]
fn a_borrowed_page_has_its_lenders_numbers() {
    let file = papers::day("B");
    assert_eq!(after(&file, 9).table[1].row.view, view(&[(0, 0), (0, 0)]));
    // Desk 2 is ready to write.
    assert_eq!(after(&file, 18).table[1].kept, view(&[(0, 0), (7, 9)]));
    let row = after(&file, 19).table[1].row;
    assert_eq!((row.word, row.last, row.seq, row.at), (9, 19, 2, 16));
    assert_eq!(row.view, view(&[(0, 0), (7, 9)]));
    // Desk 1 has read row 2 at 13, and at 11 for the double collect before.
    let desk = after(&file, 20).table[0];
    assert_eq!((desk.first[1].last, desk.second[1].last), (9, 9));
    let end = after(&file, 21);
    assert_eq!(end.page, [0, 7, 0, 9]);
    assert_eq!(end.table[1].row.last, 19);
}

/// Desk 1's entry borrows from desk 2, and then a page of desk 2 shows what both wrote.
#[test]
fn an_entry_keeps_the_numbers_of_a_page_that_it_borrows() {
    let lines = "open 2
entry 1 5       # event 1
turn 1 x2
entry 2 7       # event 4
turn 2 x5       # event 9 writes
turn 1 x4       # event 13
entry 2 9       # event 14
turn 2 x5       # event 16 ends the first collect, event 19 writes
turn 1 x2       # event 21 borrows";
    let ready = left(lines).table[0];
    assert_eq!(ready.task, Task::Ready { turns: 8, word: 5, at: 16 });
    assert_eq!(ready.kept, view(&[(0, 0), (7, 9)]));
    let row = left(&format!("{lines}\nturn 1")).table[0].row;
    assert_eq!((row.word, row.last, row.view), (5, 22, view(&[(0, 0), (7, 9)])));
    let page = left(&format!("{lines}\nturn 1\npage 2\nturn 2 x4")).page;
    assert_eq!(page, [5, 9, 22, 19]);
}

#[test]
fn a_collected_row_has_its_number_and_those_of_its_view() {
    let lines = "open 2\nentry 2 7\nturn 2 x5\nentry 2 8\nturn 2 x5\npage 1\nturn 1 x2";
    let seen = left(lines).table[0].first[1];
    assert_eq!((seen.word, seen.last, seen.seq), (8, 12, 2));
    assert_eq!(seen.view, view(&[(0, 0), (7, 6)]));
}

/// A row that is written between the last read of it and the answer keeps its old number on the page.
#[test]
fn a_page_may_be_older_than_its_rows() {
    let register = left("open 2\nentry 1 5\nturn 1 x4\npage 2\nturn 2 x3\nturn 1\nturn 2");
    assert_eq!(register.page, [0, 0, 0, 0]);
    assert_eq!(register.table[0].row.last, 10);
}
