//! Refusals in their order, and what they and the turns leave alone. Here the day and its records
//! may also be such as no opening leads to.

use model::register::{Day, Desk, Refusal, Row, Shown, Task, Turn, View, LAST_EVENT};

/// A view of one word and one number in every place.
fn view(word: u32, last: u32) -> View {
    [Shown { word, last }; 8]
}

/// A record of rubbish that is not refused: every number is 1, all marks are set.
fn rubbish() -> Desk {
    let row = Row { word: 1, last: 1, seq: 1, at: 1, view: view(1, 1) };
    Desk {
        row,
        task: Task::Idle,
        marks: [true; 8],
        kept: view(1, 1),
        first: [row; 8],
        second: [row; 8],
        first_ended: 1,
    }
}

fn table(n: usize) -> Vec<Desk> {
    vec![rubbish(); n]
}

/// Both calls of a desk, each refused so and changing nothing.
fn refuse_calls(day: Day, table: &[Desk], desk: u32, refusal: Refusal) {
    let (mut now, mut lent) = (day, table.to_vec());
    assert_eq!(now.entry(&mut lent, desk, 7), Err(refusal));
    assert_eq!(now.page(&mut lent, desk), Err(refusal));
    assert_eq!((now, lent), (day, table.to_vec()));
}

/// The same, and a turn.
fn refuse(day: Day, table: &[Desk], desk: u32, words: usize, calls: Refusal, turn: Refusal) {
    refuse_calls(day, table, desk, calls);
    let (mut now, mut lent) = (day, table.to_vec());
    let mut page = vec![9; words];
    assert_eq!(now.turn(&mut lent, desk, &mut page), Err(turn));
    assert_eq!((now, lent, page), (day, table.to_vec(), vec![9; words]));
}

fn refuse_all(day: Day, table: &[Desk], desk: u32, words: usize, refusal: Refusal) {
    refuse(day, table, desk, words, refusal, refusal);
}

#[test]
fn opening_is_10_then_1_then_6() {
    for (desks, asked, records, refusal) in [
        (1, 9, 3, Refusal::OpenOrNot),
        (70_000, 0, 0, Refusal::OpenOrNot),
        (0, 9, 9, Refusal::DeskCount),
        (0, 0, 0, Refusal::DeskCount),
        (0, 2, 3, Refusal::LentSize),
        (0, 2, 1, Refusal::LentSize),
    ] {
        let day = Day { desks, event: 70_000 };
        let (mut now, mut lent) = (day, table(records));
        assert_eq!(now.open(&mut lent, asked), Err(refusal));
        assert_eq!((now, lent), (day, table(records)));
    }
}

#[test]
fn opening_sets_all_to_0() {
    let mut day = Day { desks: 0, event: 70_000 };
    let mut lent = table(3);
    lent[0].row.seq = 80_000;
    lent[1].task = Task::Page { turns: 900 };
    assert_eq!(day.open(&mut lent, 3), Ok(()));
    assert_eq!((day, lent), (Day { desks: 3, event: 0 }, vec![Desk::default(); 3]));
}

#[test]
fn order_of_calls_and_turns() {
    let full = Day { desks: 2, event: LAST_EVENT };
    let over = Day { desks: 2, event: LAST_EVENT + 1 };
    refuse_all(Day { desks: 0, event: 70_000 }, &table(3), 3, 0, Refusal::OpenOrNot);
    refuse_all(over, &table(3), 3, 4, Refusal::LentSize);
    refuse_all(over, &table(1), 3, 4, Refusal::LentSize);
    refuse_all(over, &table(2), 3, 4, Refusal::CannotHaveArisen);
    for short in [0, 1, 2, 3] {
        refuse(over, &table(2), 3, short, Refusal::CannotHaveArisen, Refusal::LentSize);
    }
    let nine = Day { desks: 9, event: 5 };
    refuse_all(nine, &table(9), 10, 18, Refusal::CannotHaveArisen);
    refuse(nine, &table(9), 10, 17, Refusal::CannotHaveArisen, Refusal::LentSize);
    refuse_all(full, &table(2), 3, 4, Refusal::NoSuchDesk);
    refuse_all(full, &table(2), 0, 4, Refusal::NoSuchDesk);
    refuse(full, &table(2), 1, 4, Refusal::DayFull, Refusal::DeskIdle);
    // Desk 1 owes the last 8 events: no call is taken, whoever calls.
    let mut busy = table(2);
    busy[0].task = Task::Page { turns: 0 };
    let closed = Day { desks: 2, event: LAST_EVENT - 8 };
    refuse(closed, &busy, 2, 4, Refusal::DayFull, Refusal::DeskIdle);
    refuse_calls(closed, &busy, 1, Refusal::DeskBusy);
    refuse_all(closed, &busy, 3, 4, Refusal::NoSuchDesk);
    refuse_all(full, &busy, 3, 4, Refusal::CannotHaveArisen);
    refuse(full, &busy, 3, 3, Refusal::CannotHaveArisen, Refusal::LentSize);
}

#[test]
fn days_that_cannot_have_arisen() {
    for n in 1..=8u32 {
        let day = Day { desks: n, event: 100 };
        let most = 2 * n * n;
        let changes: [fn(&mut Desk, u32); 6] = [
            |desk, _| desk.row.last = 101,
            |desk, _| desk.row.seq = 101,
            |desk, _| desk.row.at = 101,
            |desk, most| desk.task = Task::Page { turns: most },
            |desk, most| desk.task = Task::Entry { turns: most, word: 0 },
            |desk, most| desk.task = Task::Ready { turns: most + 1, word: 0, at: 0 },
        ];
        for change in changes {
            let mut damaged = table(n as usize);
            change(&mut damaged[n as usize - 1], most);
            refuse_all(day, &damaged, 1, 16, Refusal::CannotHaveArisen);
        }
    }
}

#[test]
fn the_last_numbers_that_can_arise() {
    for n in 1..=8u32 {
        let most = 2 * n * n;
        for task in [
            Task::Page { turns: most - 1 },
            Task::Entry { turns: most - 1, word: 0 },
            Task::Ready { turns: most, word: 0, at: 0 },
        ] {
            let mut lent = table(n as usize);
            lent[0].task = task;
            lent[0].row.last = 100;
            lent[0].row.seq = 100;
            lent[0].row.at = 100;
            let mut day = Day { desks: n, event: 100 };
            assert!(day.turn(&mut lent, 1, &mut [0; 16]).is_ok());
        }
    }
}

/// "a row's own such number, those in its view aside"
#[test]
fn numbers_above_the_event_number_that_are_no_rows_own() {
    for n in 1..=8u32 {
        let changes: [fn(&mut Desk); 5] = [
            |desk| desk.row.view = view(1, 101),
            |desk| desk.kept = view(1, u32::MAX),
            |desk| desk.first = [Row { last: 101, ..desk.row }; 8],
            |desk| desk.second = [Row { last: u32::MAX, ..desk.row }; 8],
            |desk| desk.second = [Row { view: view(1, 101), ..desk.row }; 8],
        ];
        for change in changes {
            let mut lent = table(n as usize);
            lent.iter_mut().for_each(change);
            let mut day = Day { desks: n, event: 100 };
            assert_eq!(day.page(&mut lent, 1), Ok(()));
            assert_eq!(day.turn(&mut lent, 1, &mut [0; 16]), Ok(Turn::Read));
        }
    }
}

/// A view of which only the first n places were set.
fn painted(n: usize, set: View, rest: View) -> View {
    let mut view = rest;
    view[..n].copy_from_slice(&set[..n]);
    view
}

#[test]
fn a_call_clears_the_first_n_of_everything() {
    for n in 1..=8usize {
        let mut day = Day { desks: n as u32, event: 1 };
        let mut lent = table(n);
        day.page(&mut lent, 1).unwrap();
        let before = rubbish();
        let blank = painted(n, view(0, 0), view(1, 1));
        let cleared = Row { word: 0, last: 0, seq: 0, at: 0, view: blank };
        let mut wanted = Desk {
            task: Task::Page { turns: 0 },
            marks: [false; 8],
            kept: blank,
            first_ended: 0,
            ..before
        };
        wanted.first[..n].fill(cleared);
        wanted.second[..n].fill(cleared);
        assert_eq!(lent[0], wanted);
        assert_eq!(lent[1..], table(n)[1..]);
    }
}

#[test]
fn a_read_replaces_the_first_n_of_its_place() {
    let mut day = Day { desks: 3, event: 9 };
    let mut lent = table(3);
    lent[2].row = Row { word: 5, last: 4, seq: 6, at: 7, view: view(8, 3) };
    for (turns, second) in [(2, false), (5, true)] {
        lent[0] = rubbish();
        lent[0].marks = [false; 8];
        lent[0].task = Task::Page { turns };
        let mut wanted = lent[0];
        let read = painted(3, view(8, 3), view(1, 1));
        let seen = Row { word: 5, last: 4, seq: 6, at: 7, view: read };
        wanted.task = Task::Page { turns: turns + 1 };
        if second {
            wanted.second[2] = seen;
            wanted.marks[2] = true;
        } else {
            wanted.first[2] = seen;
            wanted.first_ended = day.event + 1;
        }
        assert_eq!(day.turn(&mut lent, 1, &mut [0; 6]), Ok(Turn::Read));
        assert_eq!(lent[0], wanted);
    }
}

#[test]
fn a_write_leaves_what_is_past_n() {
    let mut day = Day { desks: 2, event: 9 };
    let mut lent = table(2);
    lent[1].kept = view(4, 3);
    lent[1].task = Task::Ready { turns: 3, word: 5, at: 6 };
    assert_eq!(day.turn(&mut lent, 2, &mut [0; 4]), Ok(Turn::Written { turns: 4 }));
    let written = painted(2, view(4, 3), view(1, 1));
    assert_eq!(lent[1].row, Row { word: 5, last: 10, seq: 2, at: 6, view: written });
    assert_eq!(lent[1].kept, painted(2, view(0, 0), view(4, 3)));
    assert_eq!(lent[1].task, Task::Idle);
}

#[test]
fn a_page_leaves_what_is_past_2n() {
    let mut day = Day { desks: 2, event: 9 };
    let mut lent = table(2);
    lent[0].task = Task::Page { turns: 3 };
    lent[0].second[0].last = 5;
    lent[1].row.last = 6;
    let mut page = [9; 7];
    let answer = Turn::Page { from: 0, at: 1, turns: 4 };
    assert_eq!(day.turn(&mut lent, 1, &mut page), Ok(answer));
    assert_eq!(page, [1, 1, 5, 6, 9, 9, 9]);
}

#[test]
fn an_entry_that_borrows_marks_the_desks_before_its_lender() {
    let mut day = Day { desks: 3, event: 9 };
    let mut lent = table(3);
    for desk in &mut lent {
        desk.row.seq = 2;
    }
    lent[1].task = Task::Entry { turns: 5, word: 7 };
    lent[1].marks = [false; 8];
    lent[1].marks[1] = true;
    lent[1].second[0].seq = 3;
    lent[1].second[1] = Row { word: 0, last: 8, seq: 3, at: 4, view: view(6, 2) };
    assert_eq!(day.turn(&mut lent, 2, &mut [0; 6]), Ok(Turn::Read));
    assert_eq!(lent[1].task, Task::Ready { turns: 6, word: 7, at: 4 });
    assert_eq!(lent[1].kept, painted(3, view(6, 2), view(1, 1)));
    assert_eq!(lent[1].marks[..4], [true, true, false, false]);
}
