//! Runs of turns, K4 of document 02: what they answer and leave, beside turns given one by one, and
//! what refuses a run itself.

use model::dayfile::Record;
use model::days::random_day;
use model::register::{Day, Desk, Refusal, Task, Turn};
use model::runner::{self, Register};
use model::runs::Answer;

/// What stands in the lent places at first: no turn is answered so.
const ANSWER: Option<Answer> = Some(Err(Refusal::CutShort));
const WORD: u32 = 9;

/// A day, its table, an answer table and a page table.
#[derive(Clone, Debug, PartialEq)]
struct Lent {
    day: Day,
    table: Vec<Desk>,
    answers: Vec<Option<Answer>>,
    pages: Vec<u32>,
}

impl Lent {
    fn new(day: Day, table: Vec<Desk>, places: usize, words: usize) -> Self {
        Lent { day, table, answers: vec![ANSWER; places], pages: vec![WORD; words] }
    }

    /// A day for n desks, all idle. It is past its opening by some events.
    fn idle(n: usize, places: usize, words: usize) -> Self {
        Lent::new(Day { desks: n as u32, event: 5 }, vec![Desk::default(); n], places, words)
    }

    fn run(&mut self, desks: &[u32]) -> Result<(), Refusal> {
        self.day.run(&mut self.table, desks, &mut self.answers, &mut self.pages)
    }

    /// The same turns one by one, each with the next 2n words as its page list.
    fn one_by_one(&mut self, desks: &[u32]) {
        let n = self.day.desks as usize;
        let mut pages = self.pages.chunks_exact_mut(2 * n);
        for (desk, answer) in desks.iter().zip(&mut self.answers) {
            let page = pages.next().unwrap();
            *answer = Some(self.day.turn(&mut self.table, *desk, page));
        }
    }

    /// A run that is refused so and changes nothing.
    fn refuse(&self, desks: &[u32], refusal: Refusal) {
        let mut now = self.clone();
        assert_eq!(now.run(desks), Err(refusal));
        assert_eq!(now, *self);
    }
}

#[test]
fn a_page_and_an_entry_with_refused_turns_between() {
    let (mut day, mut table) = (Day::default(), vec![Desk::default(); 2]);
    day.open(&mut table, 2).unwrap();
    day.page(&mut table, 1).unwrap();
    day.entry(&mut table, 2, 7).unwrap();
    let mut lent = Lent::new(day, table, 13, 52);
    assert_eq!(lent.run(&[1, 2, 3, 1, 2, 1, 2, 1, 1, 2, 2, 0]), Ok(()));
    let read = Ok(Turn::Read);
    let answers = [
        read,
        read,
        Err(Refusal::NoSuchDesk),
        read,
        read,
        read,
        read,
        Ok(Turn::Page { from: 0, at: 5, turns: 4 }),
        Err(Refusal::DeskIdle),
        read,
        Ok(Turn::Written { turns: 5 }),
        Err(Refusal::NoSuchDesk),
    ];
    assert_eq!(lent.answers[..12], answers.map(Some));
    assert_eq!(lent.answers[12..], [ANSWER]);
    // The page is the eighth turn's.
    let mut pages = [WORD; 52];
    pages[28..32].fill(0);
    assert_eq!(lent.pages, pages);
    assert_eq!(lent.day, Day { desks: 2, event: 11 });
    let row = lent.table[1].row;
    assert_eq!((row.word, row.last, row.seq), (7, 11, 1));
}

/// The desk of a turn.
fn turn(record: &Record) -> Option<u32> {
    match *record {
        Record::Turn { desk } => Some(desk.into()),
        _ => None,
    }
}

/// A file's turns that follow one another, as runs on what the records before left.
fn day_by_runs(file: &[u8]) -> usize {
    let mut records = Vec::new();
    runner::run_watched(file, |record, _, _| records.extend(record));
    let mut register = Register::default();
    let mut turns = 0;
    for chunk in records.chunk_by(|one, next| turn(one).is_some() && turn(next).is_some()) {
        let desks: Vec<u32> = chunk.iter().filter_map(turn).collect();
        let (day, words) = (register.day, desks.len() * 2 * register.day.desks as usize);
        let mut lent = Lent::new(day, register.table.clone(), desks.len(), words);
        if desks.is_empty() {
            let _ = register.apply(chunk[0]);
        } else if day.desks == 0 {
            lent.refuse(&desks, Refusal::OpenOrNot);
        } else {
            let mut other = lent.clone();
            assert_eq!(lent.run(&desks), Ok(()));
            other.one_by_one(&desks);
            assert_eq!(lent, other);
            turns += desks.len();
            (register.day, register.table) = (lent.day, lent.table);
        }
    }
    turns
}

#[test]
fn turns_one_by_one() {
    let turns: usize = (0..300).map(|seed| day_by_runs(&random_day(seed))).sum();
    assert!(turns > 20_000, "{turns}");
}

/// The edges of 13 for every n and for counts above 8, whose turns are refused: "Only 10, 6 and 13
/// refuse the run itself."
#[test]
fn tables_of_every_size() {
    for n in 1..=12 {
        for turns in 0..=3 {
            let desks = vec![1; turns];
            let answer = if n > 8 { Refusal::CannotHaveArisen } else { Refusal::DeskIdle };
            for places in 0..=turns + 2 {
                for words in 0..=turns * 2 * n + 2 {
                    let lent = Lent::idle(n, places, words);
                    if places < turns || words < turns * 2 * n {
                        lent.refuse(&desks, Refusal::TableShort);
                        continue;
                    }
                    let mut wanted = lent.clone();
                    wanted.answers[..turns].fill(Some(Err(answer)));
                    let mut now = lent;
                    assert_eq!(now.run(&desks), Ok(()));
                    assert_eq!(now, wanted);
                }
            }
        }
    }
}

#[test]
fn a_run_is_10_then_6_then_13() {
    let closed = |lent: Lent| Lent { day: Day { desks: 0, event: 5 }, ..lent };
    let cannot_arise = |lent: Lent| Lent { day: Day { desks: 2, event: 70_000 }, ..lent };
    for records in [0, 1, 3] {
        closed(Lent::idle(records, 0, 0)).refuse(&[1], Refusal::OpenOrNot);
        closed(Lent::idle(records, 0, 0)).refuse(&[], Refusal::OpenOrNot);
        cannot_arise(Lent::idle(records, 0, 0)).refuse(&[1], Refusal::LentSize);
        cannot_arise(Lent::idle(records, 4, 16)).refuse(&[1], Refusal::LentSize);
        cannot_arise(Lent::idle(records, 0, 0)).refuse(&[], Refusal::LentSize);
    }
    cannot_arise(Lent::idle(2, 1, 8)).refuse(&[1, 3], Refusal::TableShort);
    cannot_arise(Lent::idle(2, 2, 7)).refuse(&[1, 3], Refusal::TableShort);
    let mut long_enough = cannot_arise(Lent::idle(2, 2, 8));
    assert_eq!(long_enough.run(&[1, 3]), Ok(()));
    assert_eq!(long_enough.answers, [Some(Err(Refusal::CannotHaveArisen)); 2]);
}

/// A row whose at is above the event number: only the turns after it are refused with 11.
#[test]
fn a_day_that_cannot_have_arisen_any_more() {
    let mut lent = Lent::idle(2, 4, 16);
    lent.table[0].task = Task::Ready { turns: 4, word: 7, at: 8 };
    lent.table[1].task = Task::Page { turns: 0 };
    assert_eq!(lent.run(&[2, 1, 2, 3]), Ok(()));
    let refused = Err(Refusal::CannotHaveArisen);
    let answers = [Ok(Turn::Read), Ok(Turn::Written { turns: 5 }), refused, refused];
    assert_eq!(lent.answers, answers.map(Some));
    assert_eq!((lent.day.event, lent.table[1].task), (7, Task::Page { turns: 1 }));
    assert_eq!(lent.pages, [WORD; 16]);
}
