//! What runs of turns have reached, and what they must reach.

use super::{causes, Counts, UNKNOWN_TASK};
use crate::record::{IDLE, KIND, READY};
use crate::state::*;
use model::register::LAST_EVENT;

pub const REQUIRED: &[(&str, usize, usize)] = &[
    ("runs of a grown day's turns", 1, 8),
    ("runs with a clean page", 1, 8),
    ("runs with a borrowed page", 1, 8),
    ("runs with two pages", 2, 8),
    ("runs with an entry", 1, 8),
    ("runs with a page and an entry", 2, 8),
    ("runs that read after an entry", 2, 8),
    ("runs with a page behind a refused turn", 1, 8),
    ("runs with a page whose numbers are not its words", 1, 8),
    ("runs with a page in the last place of two tables just long enough", 1, 8),
    ("runs that go on after refusal 2", 1, 8),
    ("runs that go on after refusal 4", 2, 8),
    ("runs with refusal 4 after an answer", 1, 8),
    ("runs with refusal 11 after an accepted turn", 1, 8),
    ("runs with nothing but refusal 11", 1, 12),
    ("runs with nothing but refusal 11 by an unknown task kind alone", 1, 8),
    ("runs with all turns of a page", 1, 8),
    ("runs with all turns of an entry", 1, 8),
    ("runs that answer every desk", 1, 8),
    ("runs of more than 65,536 turns, with a page past them", 1, 8),
    ("runs to event 65,535", 1, 8),
    ("runs with just as many places", 1, 12),
    ("runs with more places", 1, 12),
    ("runs with just 2n words a turn", 1, 12),
    ("runs with more words", 1, 12),
    ("runs with both tables just long enough", 1, 12),
    ("empty lists", 1, 12),
    ("empty lists with empty tables", 1, 12),
    ("empty lists on a day that cannot have arisen", 1, 12),
    ("runs refused 13 by one place", 1, 12),
    ("runs refused 13 by one word", 1, 12),
    ("runs refused 13 by one place and one word", 1, 12),
    ("runs refused 13 with n words a turn", 1, 12),
    ("runs refused 13 on a day that cannot have arisen", 1, 12),
    ("runs of more than 65,536 turns refused 13 by one place", 1, 8),
    ("runs of more than 65,536 turns refused 13 by one word", 1, 8),
    ("runs refused 13 that need 2^32 words", 0, 0),
    ("runs refused 6", 1, 12),
    ("runs refused 6 where 13 is met", 1, 12),
    ("runs refused 10", 0, 0),
    ("runs refused 10 where 6 and 13 are met", 0, 0),
    ("unknown task kinds behind refusal 10 of a run", 0, 0),
    ("unknown task kinds behind refusal 6 of a run", 1, 8),
    ("unknown task kinds behind refusal 13 of a run", 1, 8),
];

impl Counts {
    /// A run of turns that are given one by one on a grown day.
    pub fn grown_run(&mut self, n: u32) {
        self.add("runs of a grown day's turns", n as usize);
    }

    /// Takes in a run on a state, and its outcome.
    pub fn watch_run(&mut self, before: &State, run: &Run, ran: &Ran) {
        let unknown_task = before.table.iter().any(|words| words[KIND] > READY);
        match ran.outcome.reply.refusal {
            0 if run.desks.is_empty() => self.empty_list(before, run),
            0 => self.given(before, ran),
            refusal => self.run_refused(before, run, refusal, unknown_task),
        }
    }

    fn run_refused(&mut self, before: &State, run: &Run, refusal: u32, unknown_task: bool) {
        let n = before.count as usize;
        let (turns, places, words) = (run.desks.len(), run.answers.len(), run.pages.len());
        let short = places < turns || (words as u128) < 2 * turns as u128 * n as u128;
        match refusal {
            10 => {
                self.add("runs refused 10", n);
                let others = !before.table.is_empty() && short;
                self.add_if(others, "runs refused 10 where 6 and 13 are met", n);
                self.add_if(unknown_task, "unknown task kinds behind refusal 10 of a run", n);
            }
            6 => {
                self.add("runs refused 6", n);
                self.add_if(short, "runs refused 6 where 13 is met", n);
                self.add_if(unknown_task, "unknown task kinds behind refusal 6 of a run", n);
            }
            _ => {
                self.table_short(n, run);
                let damaged = !causes(before).is_empty();
                self.add_if(damaged, "runs refused 13 on a day that cannot have arisen", n);
                self.add_if(unknown_task, "unknown task kinds behind refusal 13 of a run", n);
            }
        }
    }

    /// A run that is refused with 13. There is a record for each of the n desks.
    fn table_short(&mut self, n: usize, run: &Run) {
        let (turns, places, words) = (run.desks.len(), run.answers.len(), run.pages.len());
        let needed = 2 * turns * n;
        let (place, word) = (places + 1 == turns, words + 1 == needed);
        self.add_if(place && word, "runs refused 13 by one place and one word", n);
        let (by_place, by_word) = (place && words >= needed, word && places >= turns);
        self.add_if(by_place, "runs refused 13 by one place", n);
        self.add_if(by_word, "runs refused 13 by one word", n);
        let no_numbers = places >= turns && words == turns * n;
        self.add_if(no_numbers, "runs refused 13 with n words a turn", n);
        if turns > 1 << 16 {
            self.add_if(by_place, "runs of more than 65,536 turns refused 13 by one place", n);
            self.add_if(by_word, "runs of more than 65,536 turns refused 13 by one word", n);
        }
        let vast = places >= turns && needed == 1 << 32;
        self.add_if(vast, "runs refused 13 that need 2^32 words", 0);
    }

    fn empty_list(&mut self, before: &State, run: &Run) {
        let n = before.count as usize;
        self.add("empty lists", n);
        let empty = run.answers.is_empty() && run.pages.is_empty();
        self.add_if(empty, "empty lists with empty tables", n);
        let damaged = !causes(before).is_empty();
        self.add_if(damaged, "empty lists on a day that cannot have arisen", n);
    }

    /// A run that is not refused, of at least one turn.
    fn given(&mut self, before: &State, ran: &Ran) {
        let n = before.count as usize;
        let turns = ran.run.desks.len();
        let (places, words) = (ran.run.answers.len() - turns, ran.run.pages.len() - 2 * turns * n);
        self.add_if(places == 0, "runs with just as many places", n);
        self.add_if(places > 0, "runs with more places", n);
        self.add_if(words == 0, "runs with just 2n words a turn", n);
        self.add_if(words > 0, "runs with more words", n);
        let just = places == 0 && words == 0;
        self.add_if(just, "runs with both tables just long enough", n);
        let replies = &ran.run.answers[..turns];
        let page = kind(&replies[turns - 1]) == PAGE_ANSWER;
        let name = "runs with a page in the last place of two tables just long enough";
        self.add_if(just && page, name, n);
        let idle = |state: &State| state.table.iter().filter(|words| words[KIND] == IDLE).count();
        let every = idle(before) == 0 && idle(&ran.outcome.after) == n;
        self.add_if(every, "runs that answer every desk", n);
        self.answers(before, replies);
        self.pages(n, &ran.run);
        self.order(n, &ran.run.desks, replies);
    }

    /// What is among the answers of a run.
    fn answers(&mut self, before: &State, replies: &[Place]) {
        let n = before.count as usize;
        let count = |wanted| replies.iter().filter(|reply| kind(reply) == wanted).count();
        let (pages, entries) = (count(PAGE_ANSWER), count(WRITTEN));
        let accepted = replies.len() - count(REFUSED);
        let borrowed = |reply: &&Place| kind(reply) == PAGE_ANSWER && reply[4] != 0;
        let borrowed = replies.iter().filter(borrowed).count();
        self.add_if(borrowed < pages, "runs with a clean page", n);
        self.add_if(borrowed > 0, "runs with a borrowed page", n);
        self.add_if(pages > 1, "runs with two pages", n);
        self.add_if(entries > 0, "runs with an entry", n);
        self.add_if(pages > 0 && entries > 0, "runs with a page and an entry", n);
        let last = accepted > 0 && replies[replies.len() - 1][1] == LAST_EVENT;
        self.add_if(last, "runs to event 65,535", n);
        if replies.iter().all(|reply| refusal(reply) == 11) {
            self.add("runs with nothing but refusal 11", n);
            let alone = causes(before) == [UNKNOWN_TASK];
            let name = "runs with nothing but refusal 11 by an unknown task kind alone";
            self.add_if(alone, name, n);
        }
    }

    /// The pages of a run: turn i's begins at word 2n · i.
    fn pages(&mut self, n: usize, run: &Run) {
        let mut pages = run.pages.chunks(2 * n).zip(&run.answers).take(run.desks.len());
        let apart = |(page, reply): (&[u32], &Place)| {
            kind(reply) == PAGE_ANSWER && page[..n] != page[n..2 * n]
        };
        self.add_if(pages.any(apart), "runs with a page whose numbers are not its words", n);
    }

    /// Which answers of a run come after which.
    fn order(&mut self, n: usize, desks: &[u32], replies: &[Place]) {
        let is = |wanted| move |reply: &Place| kind(reply) == wanted;
        let refused = |number| move |reply: &Place| refusal(reply) == number;
        let accepted = |reply: &Place| kind(reply) != REFUSED;
        let page_behind = follows(replies, is(REFUSED), is(PAGE_ANSWER));
        self.add_if(page_behind, "runs with a page behind a refused turn", n);
        let read = follows(replies, is(WRITTEN), is(READ));
        self.add_if(read, "runs that read after an entry", n);
        let after_2 = follows(replies, refused(2), accepted);
        self.add_if(after_2, "runs that go on after refusal 2", n);
        let after_4 = follows(replies, refused(4), accepted);
        self.add_if(after_4, "runs that go on after refusal 4", n);
        let cannot_arise = follows(replies, accepted, refused(11));
        self.add_if(cannot_arise, "runs with refusal 11 after an accepted turn", n);
        self.add_if(idle_again(desks, replies), "runs with refusal 4 after an answer", n);
        let page = whole(desks, replies, PAGE_ANSWER);
        self.add_if(page, "runs with all turns of a page", n);
        let entry = whole(desks, replies, WRITTEN);
        self.add_if(entry, "runs with all turns of an entry", n);
        let past = replies.iter().skip(1 << 16).any(is(PAGE_ANSWER));
        self.add_if(past, "runs of more than 65,536 turns, with a page past them", n);
    }
}

/// Whether an answer of one sort comes somewhere after one of another.
fn follows(
    replies: &[Place],
    first: impl Fn(&Place) -> bool,
    then: impl Fn(&Place) -> bool,
) -> bool {
    let mut replies = replies.iter();
    replies.any(first) && replies.any(then)
}

/// Whether a desk that was answered gets a further turn, which is refused with 4.
fn idle_again(desks: &[u32], replies: &[Place]) -> bool {
    let mut answered = Vec::new();
    desks.iter().zip(replies).any(|(desk, reply)| {
        if [PAGE_ANSWER, WRITTEN].contains(&kind(reply)) {
            answered.push(desk);
        }
        refusal(reply) == 4 && answered.contains(&desk)
    })
}

/// Whether an answer of this kind has all of its turns in the run.
fn whole(desks: &[u32], replies: &[Place], wanted: u32) -> bool {
    let turn_of = |desk: u32| {
        move |(other, reply): &(&u32, &Place)| **other == desk && kind(reply) != REFUSED
    };
    (0..replies.len()).filter(|&i| kind(&replies[i]) == wanted).any(|i| {
        let until = desks[..=i].iter().zip(replies);
        until.filter(turn_of(desks[i])).count() == replies[i][6] as usize
    })
}

fn kind(reply: &Place) -> u32 {
    reply[2]
}

fn refusal(reply: &Place) -> u32 {
    reply[3]
}
