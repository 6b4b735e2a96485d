//! Demand 3 of random days and of ends of days, by document 01's tally: it is fed records, answers and
//! refusals, and sees neither the day nor its records. By K6 of document 02 "the accuracy rule now
//! speaks of words and these numbers together".

use model::dayfile::Record;
use model::days::{closing_day, last_day, random_day};
use model::register::{most_reads, Refusal, Shown, Turn};
use model::runner::{run_watched, Done};

/// "the call opens, with its word if it is an entry, its number e and no turns"
struct Call {
    word: Option<u32>,
    number: usize,
    turns: u32,
}

/// "It has a number e, a word for each row and for each desk at most one open call; at first zeros,
/// and none open."
#[derive(Default)]
struct Tally {
    n: usize,
    calls: [Option<Call>; 8],
    /// "The words after event e, zeros for 0, are those of instant e." The last ones are the tally's
    /// words, and their place is e. With each stands the number of its row's last writing until then.
    instants: Vec<[Shown; 8]>,
}

impl Tally {
    /// "The tally is fed the list in order: of each item its kind, its desk, its word if any, and its
    /// answer or refusal." "A refusal: nothing changes."
    fn feed(&mut self, record: Option<Record>, outcome: Result<Done, Refusal>, page: &[u32]) {
        let Ok(done) = outcome else { return };
        match (record.unwrap(), done) {
            (Record::Open { desks }, Done::Opened) => {
                *self = Tally { n: desks.into(), ..Tally::default() };
                self.instants.push([Shown::default(); 8]);
            }
            (Record::Entry { desk, word }, Done::Called) => self.call(desk, Some(word)),
            (Record::Page { desk }, Done::Called) => self.call(desk, None),
            (Record::Turn { desk }, Done::Turned(turn)) => self.turn(desk, turn, page),
            pair => panic!("{pair:?}"),
        }
    }

    /// "e grows by 1"
    fn event(&mut self) -> usize {
        self.instants.push(*self.instants.last().unwrap());
        self.instants.len() - 1
    }

    /// "An accepted call finds no open call of its desk".
    fn call(&mut self, desk: u16, word: Option<u32>) {
        let number = self.event();
        let open = self.calls[desk as usize - 1].replace(Call { word, number, turns: 0 });
        assert!(open.is_none());
    }

    /// "its desk's open call, if any, gains a turn. An entry's answer puts that call's word in the
    /// desk's row. A page's or an entry's answer closes the call."
    fn turn(&mut self, desk: u16, turn: Turn, page: &[u32]) {
        let desk = desk as usize - 1;
        let number = self.event();
        let mut call = self.calls[desk].take().unwrap();
        call.turns += 1;
        match turn {
            // "at no point of the list does a desk still wait that has had 2n² accepted turns for a
            // page, or 2n²+1 for an entry"
            Turn::Read => {
                let most = most_reads(self.n as u32) + u32::from(call.word.is_some());
                assert!(call.turns < most, "a desk still waits");
                self.calls[desk] = Some(call);
            }
            // "an answer finds one of its own kind. The turns in an answer are the tally's."
            Turn::Written { turns } => {
                assert_eq!(turns, call.turns);
                self.instants[number][desk] =
                    Shown { word: call.word.unwrap(), last: number as u32 };
            }
            // "exactly the n words that stood in the rows together at the page's stated instant, later
            // than its call and earlier than its answer", and "each number that of its row's last
            // writing at or before the page's instant"
            Turn::Page { at, turns, .. } => {
                let at = at as usize;
                assert!(call.word.is_none() && turns == call.turns);
                assert!(call.number < at && at < number);
                let rows = &self.instants[at][..self.n];
                let (words, last) = page.split_at(self.n);
                assert!(words.iter().eq(rows.iter().map(|row| &row.word)));
                assert!(last.iter().eq(rows.iter().map(|row| &row.last)));
            }
        }
    }
}

fn holds(day: &[u8]) {
    let mut tally = Tally::default();
    run_watched(day, |record, outcome, register| {
        tally.feed(record, outcome, &register.page);
        // "After the list the day's event number and the rows' words are the tally's." So are their
        // numbers.
        if let Some(shown) = tally.instants.last() {
            assert_eq!(register.day.event as usize, tally.instants.len() - 1);
            let rows = register.table.iter().take(tally.n).map(|desk| desk.row);
            let rows = rows.map(|row| Shown { word: row.word, last: row.last });
            assert!(rows.eq(shown[..tally.n].iter().copied()));
        }
    });
}

#[test]
fn every_page_stood_at_its_instant() {
    (1..=4_000).for_each(|seed| holds(&random_day(seed)));
}

#[test]
fn up_to_the_end_of_the_day() {
    for n in 1..=8 {
        holds(&last_day(n));
        holds(&closing_day(n.into()));
    }
}
