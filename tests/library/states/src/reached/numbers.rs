//! What the event numbers of last writings have reached, and what they must reach.

use super::{view, Counts};
use crate::record::*;
use crate::state::*;
use model::register::LAST_EVENT;

pub const REQUIRED: &[(&str, usize, usize)] = &[
    ("accepted with a row's last as large as the event number", 1, 8),
    ("accepted with a number above the event number in a row's view", 1, 8),
    ("accepted with a number above the event number in a row collected", 1, 8),
    ("accepted with a number above the event number in the view of a row collected", 1, 8),
    ("accepted with a number above the event number in a view kept", 1, 8),
    ("calls refused 11 alone by a last of the event number plus 1", 1, 8),
    ("turns refused 11 alone by a last of the event number plus 1", 1, 8),
    ("clean pages with a row never written beside a written one", 2, 8),
    ("clean pages with a written word 0", 1, 8),
    ("clean pages with numbers other than the first collect's", 1, 8),
    ("clean pages with numbers other than those of any row's view", 1, 8),
    ("borrowed pages with numbers other than the second collect's", 1, 8),
    ("borrowed pages with numbers other than the first collect's", 1, 8),
    ("borrowed pages with a number older than its row's", 1, 8),
    ("pages with a number above the event number", 1, 8),
    ("pages with numbers other than their words", 1, 8),
    ("entries that kept numbers other than the second collect's", 1, 8),
    ("entries that kept the second collect's numbers", 1, 8),
    ("rows written for the first time", 1, 8),
    ("rows written again", 1, 8),
    ("rows written by event 65,535", 0, 0),
];

impl Counts {
    /// A call or turn that is refused with 11 for a row's number alone.
    pub(super) fn last_above(&mut self, before: &State, turn: bool) {
        let n = before.count as usize;
        // One alone, and by one alone.
        let mut above = before.table.iter().filter(|words| words[LAST] > before.event);
        let just = above.next().is_some_and(|words| words[LAST] == before.event + 1);
        let just = just && above.next().is_none();
        let calls = "calls refused 11 alone by a last of the event number plus 1";
        let turns = "turns refused 11 alone by a last of the event number plus 1";
        self.add_if(just, if turn { turns } else { calls }, n);
    }

    /// An accepted call or turn: 11 looks at the rows' own numbers and at no other.
    pub(super) fn numbers_accepted(&mut self, before: &State) {
        let (n, event) = (before.count as usize, before.event);
        let any = |met: &dyn Fn(&Words) -> bool| before.table.iter().any(met);
        let equal = any(&|words| words[LAST] == event);
        self.add_if(equal, "accepted with a row's last as large as the event number", n);
        let above = |number: u32| number > event;
        let rows = any(&|words| numbers(view(words, ROW), n).any(above));
        self.add_if(rows, "accepted with a number above the event number in a row's view", n);
        let kept = any(&|words| words[KIND] == READY && numbers(&words[KEPT..], n).any(above));
        self.add_if(kept, "accepted with a number above the event number in a view kept", n);
        let read = any(&|words| places(n).any(|at| above(words[at + LAST])));
        self.add_if(read, "accepted with a number above the event number in a row collected", n);
        let views = any(&|words| places(n).any(|at| numbers(view(words, at), n).any(above)));
        let name = "accepted with a number above the event number in the view of a row collected";
        self.add_if(views, name, n);
    }

    /// A page that was answered.
    pub(super) fn numbers_shown(&mut self, before: &State, request: Request, outcome: &Outcome) {
        let n = before.count as usize;
        let own = &before.table[request.process as usize - 1];
        let (words, shown) = outcome.after.page[..2 * n].split_at(n);
        let first = |j: usize| own[place(FIRST, j) + LAST];
        // The last row of the second collect is read by this turn.
        let second = |j: usize| match j + 1 == n {
            true => before.table[j][LAST],
            false => own[place(SECOND, j) + LAST],
        };
        let not_first = (0..n).any(|j| shown[j] != first(j));
        let not_second = (0..n).any(|j| shown[j] != second(j));
        if outcome.reply.lender == 0 {
            assert!(!not_second, "the model's clean page");
            self.add_if(not_first, "clean pages with numbers other than the first collect's", n);
            self.clean_numbers(before, words, shown);
        } else {
            let name = "borrowed pages with numbers other than the second collect's";
            self.add_if(not_second, name, n);
            self.add_if(not_first, "borrowed pages with numbers other than the first collect's", n);
            let older = (0..n).any(|j| shown[j] < before.table[j][LAST]);
            self.add_if(older, "borrowed pages with a number older than its row's", n);
        }
        let above = shown.iter().any(|&number| number > outcome.after.event);
        self.add_if(above, "pages with a number above the event number", n);
        self.add_if(words != shown, "pages with numbers other than their words", n);
    }

    fn clean_numbers(&mut self, before: &State, words: &[u32], shown: &[u32]) {
        let n = shown.len();
        let beside = shown.contains(&0) && shown.iter().any(|&number| number > 0);
        self.add_if(beside, "clean pages with a row never written beside a written one", n);
        let zero = words.iter().zip(shown).any(|(&word, &number)| word == 0 && number > 0);
        self.add_if(zero, "clean pages with a written word 0", n);
        let other = |row: &Words| !numbers(view(row, ROW), n).eq(shown.iter().copied());
        let others = before.table.iter().all(other);
        self.add_if(others, "clean pages with numbers other than those of any row's view", n);
    }

    /// An entry that is ready to write after this turn.
    pub(super) fn numbers_kept(&mut self, n: usize, after: &Words) {
        let collected = (0..n).map(|j| after[place(SECOND, j) + LAST]);
        let other = !numbers(&after[KEPT..], n).eq(collected);
        self.add_if(other, "entries that kept numbers other than the second collect's", n);
        self.add_if(!other, "entries that kept the second collect's numbers", n);
    }

    /// A row that was written, with its record before.
    pub(super) fn number_written(&mut self, own: &Words, outcome: &Outcome) {
        let n = outcome.after.count as usize;
        self.add_if(own[LAST] == 0, "rows written for the first time", n);
        self.add_if(own[LAST] != 0, "rows written again", n);
        self.add_if(outcome.after.event == LAST_EVENT, "rows written by event 65,535", 0);
    }
}

/// The first n numbers of a view.
fn numbers(view: &[u32], n: usize) -> impl Iterator<Item = u32> + '_ {
    view.chunks(PAIR).take(n).map(|pair| pair[1])
}

/// Where the rows of both collects begin.
fn places(n: usize) -> impl Iterator<Item = usize> {
    (0..n).flat_map(|j| [place(FIRST, j), place(SECOND, j)])
}
