//! The day's book of document 02, K1: books worked out by hand, and books that its claims refuse.

use model::automaton::{well_formed, Action, State};
use model::book::{self, Deed, History, Piece};
use model::claims::{self, each_once, finished_comes_first, in_order, is_a_run};
use model::dayfile::{self, Record};
use model::days::{full_day, latest_day, lending_day, random_day};
use model::papers::{CASES, ENDINGS};
use model::text;

/// Desks 2 and 3 borrow the page of desk 1's second entry, and the higher one is answered first.
const SHARED: &str = "open 3
page 2          # event 1
page 3          # event 2
turn 2 x3
turn 3 x3
entry 1 7       # event 9
turn 1 x7       # event 16 writes
turn 2 x3       # marks desk 1
turn 3 x3       # event 22 marks desk 1
turn 2 x3
turn 3 x3
entry 1 8       # event 29
turn 1 x7       # event 32 ends the first collect, event 36 writes
turn 3 x3       # event 39 answers
turn 2 x3       # event 42 answers";

fn history(lines: &str) -> History {
    History::of(&text::to_bytes(lines).unwrap())
}

fn case(name: &str) -> History {
    history(CASES.iter().find(|case| case.name == name).unwrap().day)
}

/// The book with its pieces changed, in the order of their new numbers.
fn changed(history: &History, change: fn(&mut Piece)) -> Vec<Piece> {
    let mut book = history.book();
    book.iter_mut().for_each(change);
    book.sort_by_key(|place| (place.number, place.answered));
    book
}

fn shows(history: &History, book: &[Piece]) -> Result<(), String> {
    claims::shows_what_is_above(history.rows.len(), book)
}

#[test]
fn the_papers_days() {
    for case in &CASES {
        assert_eq!(book::run(&text::to_bytes(case.day).unwrap()), case.book, "{}", case.name);
    }
    for (lines, _) in ENDINGS {
        assert_eq!(book::run(&text::to_bytes(lines).unwrap()), "end 0\n");
    }
}

#[test]
fn pages_of_one_number_stand_by_their_answers() {
    let wanted =
        "16 entry 1 7\n32 page 3 words 7 0 0\n32 page 2 words 7 0 0\n36 entry 1 8\nend 4\n";
    assert_eq!(book::text(&history(SHARED).book()), wanted);
}

#[test]
fn work_that_is_not_finished_is_left_out() {
    let day = "entry 1 5\nopen 2\nturn 1\nentry 1 7\nturn 1 x4";
    assert_eq!(book::text(&history(day).book()), "end 0\n");
    assert_eq!(book::text(&history(&format!("{day}\nturn 1")).book()), "6 entry 1 7\nend 1\n");
}

#[test]
fn a_file_that_breaks_off_has_the_book_of_the_records_before() {
    let whole = "open 1\nentry 1 7\nturn 1 x3\npage 1\nturn 1 x2";
    for (end, wanted) in [
        ("raw 04", "4 entry 1 7\n6 page 1 words 7\nend 2\n"),
        ("raw 04 00 09 00 01 00\nentry 1 9\nturn 1 x3", "4 entry 1 7\n6 page 1 words 7\nend 2\n"),
        ("raw 04 00 02 00 01 00\npage 1\nturn 1 x2", "4 entry 1 7\n6 page 1 words 7\nend 2\n"),
        ("page 1\nturn 1 x2", "4 entry 1 7\n6 page 1 words 7\n9 page 1 words 7\nend 3\n"),
    ] {
        assert_eq!(book::text(&history(&format!("{whole}\n{end}")).book()), wanted);
    }
}

#[test]
fn the_claims_hold() {
    let special = [full_day(1, 1), full_day(5, 5), latest_day(4)];
    let random = (1..=500).flat_map(|seed| [random_day(seed), lending_day(seed)]);
    for file in random.chain(special) {
        let history = History::of(&file);
        assert_eq!(claims::check(&history, &history.book()), Ok(()), "{}", text::to_text(&file));
    }
}

#[test]
fn a_page_at_its_answer_is_refused_if_a_write_lies_between() {
    let late: fn(&mut Piece) = |place| place.number = place.answered;
    let b = case("B");
    let book = changed(&b, late);
    assert!(is_a_run(&b, &book).unwrap_err().starts_with("at 21: Scan([0, 7]) of process 1"));
    assert!(shows(&b, &book).is_err());
    // Figure 1 has no objection where nothing is written between, K1 has.
    let d = case("D");
    assert_eq!(is_a_run(&d, &changed(&d, late)), Ok(()));
    assert!(in_order(&changed(&d, late)).is_err());
    assert!(each_once(&d, &changed(&d, late)).is_err());
}

#[test]
fn an_entry_at_its_call_is_refused_if_a_page_lies_between() {
    let early: fn(&mut Piece) = |place| {
        if let Deed::Entry { .. } = place.deed {
            place.number = place.called;
        }
    };
    let b = case("B");
    let book = changed(&b, early);
    assert!(is_a_run(&b, &book).unwrap_err().starts_with("at 16: Scan([0, 7]) of process 1"));
    assert!(shows(&b, &book).is_err());
    let d = case("D");
    assert_eq!(is_a_run(&d, &changed(&d, early)), Ok(()));
    assert!(in_order(&changed(&d, early)).is_err());
}

#[test]
fn pages_of_one_number_that_are_exchanged_are_a_run_but_no_book() {
    let history = history(SHARED);
    let mut book = history.book();
    book.swap(1, 2);
    assert_eq!(is_a_run(&history, &book), Ok(()));
    assert_eq!(each_once(&history, &book), Ok(()));
    assert!(in_order(&book).is_err());
}

#[test]
fn a_lost_piece_is_refused() {
    for name in ["A", "B", "C", "D", "H", "J"] {
        let history = case(name);
        for lost in 0..history.pieces.len() {
            let mut book = history.book();
            book.remove(lost);
            assert!(is_a_run(&history, &book).is_err());
            assert!(each_once(&history, &book).is_err());
        }
    }
}

#[test]
fn a_piece_that_stands_twice_is_refused() {
    for name in ["A", "B", "C", "D", "H", "J"] {
        let history = case(name);
        for twice in 0..history.pieces.len() {
            let mut book = history.book();
            book.insert(twice, book[twice].clone());
            assert!(is_a_run(&history, &book).is_err());
            assert!(each_once(&history, &book).is_err());
            assert!(in_order(&book).is_err());
        }
    }
}

#[test]
fn finished_work_below_later_work_is_refused() {
    let a = case("A");
    let mut book = a.book();
    assert_eq!(finished_comes_first(&book), Ok(()));
    book.swap(0, 1);
    assert!(finished_comes_first(&book).is_err());
    assert!(in_order(&book).is_err());
    assert!(shows(&a, &book).is_err());
}

#[test]
fn a_wrong_word_is_refused() {
    let wrong: fn(&mut Piece) = |place| match &mut place.deed {
        Deed::Entry { word } => *word += 1,
        Deed::Page { .. } => {}
    };
    let d = case("D");
    assert!(is_a_run(&d, &changed(&d, wrong)).is_err());
    assert!(shows(&d, &changed(&d, wrong)).is_err());
}

/// "each number that of its row's last writing": neither another's nor none.
#[test]
fn a_wrong_number_of_a_writing_is_refused() {
    for (name, row) in [("A", 0), ("B", 1), ("C", 1), ("D", 0), ("D", 1)] {
        let history = case(name);
        let numbers = |book: &[Piece]| claims::dates_what_is_above(history.rows.len(), book);
        assert_eq!(numbers(&history.book()), Ok(()));
        let wrong: [fn(u32) -> u32; 4] = [|_| 0, |last| last - 1, |last| last + 1, |_| u32::MAX];
        for wrong in wrong {
            let mut book = history.book();
            for place in &mut book {
                if let Deed::Page { last, .. } = &mut place.deed {
                    last[row] = wrong(last[row]);
                }
            }
            assert!(numbers(&book).is_err(), "{name}");
            // The words alone make the book.
            assert_eq!(shows(&history, &book), Ok(()));
            assert_eq!(book::text(&book), book::text(&history.book()));
        }
    }
}

#[test]
fn the_number_of_a_row_that_was_never_written_is_0() {
    let d = case("D");
    let mut book = d.book();
    let Some(Piece { deed: Deed::Page { last, .. }, .. }) = book.last_mut() else {
        panic!("day D's page stands last");
    };
    assert_eq!(*last, [10, 18, 0]);
    last[2] = 1;
    assert!(claims::dates_what_is_above(3, &book).is_err());
}

#[test]
fn the_run_ends_as_the_day_does() {
    let mut left = history("open 2\nentry 2 7\nturn 2 x5\npage 1\nturn 1\nentry 2 8");
    let book = left.book();
    assert_eq!(is_a_run(&left, &book), Ok(()));
    let ends_otherwise =
        |left: &History| is_a_run(left, &book).unwrap_err().starts_with("the run ends in");
    left.rows[1] = 8;
    assert!(ends_otherwise(&left));
    left.rows[1] = 7;
    for desk in 0..2 {
        let waits = std::mem::take(&mut left.tasks[desk]);
        assert!(ends_otherwise(&left));
        left.tasks[desk] = waits;
    }
}

#[test]
fn nobody_asks_twice() {
    let mut twice = history("open 2\npage 1");
    twice.calls.extend(twice.calls.clone());
    assert!(is_a_run(&twice, &[]).unwrap_err().starts_with("a desk asks twice"));
}

/// Every action of process 1 where it is enabled, and nowhere else.
#[test]
fn figure_1() {
    let (asks, scans) = (Action::UpdateRequest(7), Action::ScanRequest);
    let scan = |word| Action::Scan(vec![word, 0]);
    let shown = |word| Action::ScanReturn(vec![word, 0]);
    let mut state = State::initial(2);
    for (action, refused) in [
        (asks.clone(), vec![Action::Update(7), scan(0), Action::UpdateReturn, shown(0)]),
        (Action::Update(7), vec![Action::Update(8), scan(0), Action::UpdateReturn, shown(0)]),
        (Action::UpdateReturn, vec![Action::Update(7), scan(7), shown(7)]),
        (scans.clone(), vec![Action::Update(7), scan(7), Action::UpdateReturn, shown(7)]),
        (scan(7), vec![Action::Update(7), scan(0), Action::UpdateReturn, shown(7)]),
        (shown(7), vec![Action::Update(7), scan(7), Action::UpdateReturn, shown(0)]),
    ] {
        for other in refused {
            let before = state.clone();
            assert!(state.act(1, &other).is_err(), "{other:?} before {action:?}");
            assert_eq!(state, before);
        }
        assert_eq!(state.act(1, &action), Ok(()));
    }
    assert_eq!(state, State { mem: vec![7, 0], h: vec![None, None] });
    let both = [(1, &asks), (2, &scans), (2, &asks)];
    assert!(well_formed(2, both[..2].iter().copied()));
    assert!(!well_formed(2, both.iter().copied()));
}

#[test]
fn nothing_is_left_of_records_before_the_opening() {
    let mut file = Vec::new();
    for record in [Record::Page { desk: 1 }, Record::Turn { desk: 1 }, Record::Open { desks: 9 }] {
        dayfile::write(record, &mut file);
    }
    let day = text::to_bytes(CASES[0].day).unwrap();
    assert_eq!(book::run(&[file, day].concat()), CASES[0].book);
}
