//! What K1 of document 02 says of a day's book, and K6 of the numbers on its pages, checked on the book
//! of one day: each check answers what is wrong.

use crate::automaton::{well_formed, Action, State};
use crate::book::{Call, Deed, History, Piece};
use crate::register::Task;

pub fn check(history: &History, book: &[Piece]) -> Result<(), String> {
    each_once(history, book)?;
    in_order(book)?;
    shows_what_is_above(history.rows.len(), book)?;
    dates_what_is_above(history.rows.len(), book)?;
    finished_comes_first(book)?;
    is_a_run(history, book)
}

/// "write the finished work as a book": every piece stands in it once, and nothing else. No two calls
/// have the same number.
pub fn each_once(history: &History, book: &[Piece]) -> Result<(), String> {
    let mut finished: Vec<&Piece> = history.pieces.iter().collect();
    let mut placed: Vec<&Piece> = book.iter().collect();
    finished.sort_by_key(|piece| piece.called);
    placed.sort_by_key(|piece| piece.called);
    match finished == placed {
        true => Ok(()),
        false => Err("the places are not the finished pieces of work".into()),
    }
}

/// "each entry at the number of its writing turn, each page at its *at*, ascending, pages with the
/// same number by the number of their answer". A page's *at* is "later than its call and earlier than
/// its answer". An entry shares its number with no place: it is a writing turn's, an *at* a reading
/// turn's.
pub fn in_order(book: &[Piece]) -> Result<(), String> {
    for place in book {
        let right = match place.deed {
            Deed::Entry { .. } => place.number == place.answered,
            Deed::Page { .. } => place.called < place.number && place.number < place.answered,
        };
        if !right {
            return Err(format!("its number is wrong: {place:?}"));
        }
    }
    for pair in book.windows(2) {
        let pages = pair.iter().all(|place| matches!(place.deed, Deed::Page { .. }));
        let same = pair[0].number == pair[1].number;
        let ascending = pair[0].number < pair[1].number;
        if !ascending && !(same && pages && pair[0].answered < pair[1].answered) {
            return Err(format!("they are not in order: {pair:?}"));
        }
    }
    Ok(())
}

/// "Read from the top over rows of zeros, every page in the book shows the last word written above it
/// in each row."
pub fn shows_what_is_above(n: usize, book: &[Piece]) -> Result<(), String> {
    let mut rows = vec![0; n];
    for place in book {
        match &place.deed {
            Deed::Entry { word } => rows[place.desk as usize - 1] = *word,
            Deed::Page { words, .. } if *words == rows => {}
            Deed::Page { .. } => return Err(format!("{rows:?} stands above {place:?}")),
        }
    }
    Ok(())
}

/// "each number that of its row's last writing at or before the page's instant": an entry stands at the
/// number of its writing turn and a page at its instant, so that the last one above a page counts.
pub fn dates_what_is_above(n: usize, book: &[Piece]) -> Result<(), String> {
    let mut rows = vec![0; n];
    for place in book {
        match &place.deed {
            Deed::Entry { .. } => rows[place.desk as usize - 1] = place.number,
            Deed::Page { last, .. } if *last == rows => {}
            Deed::Page { .. } => return Err(format!("{rows:?} were last written above {place:?}")),
        }
    }
    Ok(())
}

/// "Work finished before other work was called comes first": no place was answered before one above
/// it was called.
pub fn finished_comes_first(book: &[Piece]) -> Result<(), String> {
    let mut last_call = 0;
    for place in book {
        if place.answered < last_call {
            return Err(format!("it was finished before event {last_call}: {place:?}"));
        }
        last_call = last_call.max(place.called);
    }
    Ok(())
}

/// "With every call and answer at its number this is a run of the canonical automaton in source
/// document 000, Figure 1", a well-formed one, and it leaves what the day leaves: the rows' words and
/// what the desks wait for.
pub fn is_a_run(history: &History, book: &[Piece]) -> Result<(), String> {
    let n = history.rows.len();
    let actions = actions(history, book);
    if !well_formed(n, actions.iter().map(|(_, desk, action)| (*desk, action))) {
        return Err("a desk asks twice without an answer between".into());
    }
    let mut state = State::initial(n);
    for (number, desk, action) in &actions {
        state.act(*desk, action).map_err(|why| format!("at {number}: {why}"))?;
    }
    let h = history.tasks.iter().map(waiting).collect();
    let left = State { mem: history.rows.clone(), h };
    match state == left {
        true => Ok(()),
        false => Err(format!("the run ends in {state:?}, the day in {left:?}")),
    }
}

/// The calls and the answers of a day at their numbers, and between them the places of its book:
/// number, desk and action. An entry stands at its answer's own number, before the answer.
fn actions(history: &History, book: &[Piece]) -> Vec<(u32, u32, Action)> {
    let calls = history.calls.iter().map(|call| (call.number, call.desk, request(call)));
    let places = book.iter().map(|place| (place.number, place.desk, access(&place.deed)));
    let answers = history.pieces.iter().map(|piece| (piece.answered, piece.desk, answer(piece)));
    let mut actions: Vec<_> = calls.chain(places).chain(answers).collect();
    // Those of one number remain in the order in which they stand here.
    actions.sort_by_key(|&(number, _, _)| number);
    actions
}

fn request(call: &Call) -> Action {
    match call.word {
        Some(word) => Action::UpdateRequest(word),
        None => Action::ScanRequest,
    }
}

fn waiting(task: &Task) -> Option<Action> {
    match task {
        Task::Idle => None,
        Task::Page { .. } => Some(Action::ScanRequest),
        Task::Entry { word, .. } | Task::Ready { word, .. } => Some(Action::UpdateRequest(*word)),
    }
}

fn access(deed: &Deed) -> Action {
    match deed {
        Deed::Entry { word } => Action::Update(*word),
        Deed::Page { words, .. } => Action::Scan(words.clone()),
    }
}

fn answer(piece: &Piece) -> Action {
    match &piece.deed {
        Deed::Entry { .. } => Action::UpdateReturn,
        Deed::Page { words, .. } => Action::ScanReturn(words.clone()),
    }
}
