//! What differs between two outcomes, and the state and request or run or the file of it, to be read by
//! people.

use crate::damage::MOST_RECORDS;
use crate::record::*;
use crate::state::*;
use std::fmt::{Debug, Write};

/// All that the library did otherwise than the model, one line each.
pub fn differences(model: &Outcome, library: &Outcome) -> Vec<String> {
    let mut lines = Vec::new();
    if model.reply != library.reply {
        lines.push(format!("reply: model {:?}, library {:?}", model.reply, library.reply));
    }
    let (wanted, given) = (&model.after, &library.after);
    if (wanted.count, wanted.event) != (given.count, given.event) {
        lines.push(format!(
            "day: model count {} event {}, library count {} event {}",
            wanted.count, wanted.event, given.count, given.event
        ));
    }
    for (i, (one, other)) in wanted.table.iter().zip(&given.table).enumerate() {
        for word in (0..WORDS).filter(|&word| one[word] != other[word]) {
            let (what, one, other) = (name(word), one[word], other[word]);
            lines.push(format!("record {}, {what}: model {one}, library {other}", i + 1));
        }
    }
    for (i, (one, other)) in wanted.page.iter().zip(&given.page).enumerate() {
        if one != other {
            lines.push(format!("page list, word {}: model {one}, library {other}", i + 1));
        }
    }
    lines
}

/// All that the library did otherwise than the model in a run.
pub fn run_differences(model: &Ran, library: &Ran) -> Vec<String> {
    let mut lines = differences(&model.outcome, &library.outcome);
    for (i, (one, other)) in model.run.answers.iter().zip(&library.run.answers).enumerate() {
        for word in (0..one.len()).filter(|&word| one[word] != other[word]) {
            let (what, one, other) = (PLACE_NAMES[word], one[word], other[word]);
            lines.push(format!("answer {}, {what}: model {one}, library {other}", i + 1));
        }
    }
    for (i, (one, other)) in model.run.pages.iter().zip(&library.run.pages).enumerate() {
        if one != other {
            lines.push(format!("page table, word {}: model {one}, library {other}", i + 1));
        }
    }
    lines
}

/// All that the library did otherwise than the model in a mending.
pub fn mend_differences(model: &Mending, library: &Mending) -> Vec<String> {
    let mut lines = Vec::new();
    if model.reply != library.reply {
        lines.push(format!("reply: model {:?}, library {:?}", model.reply, library.reply));
    }
    for (i, (one, other)) in model.rooms.room.iter().zip(&library.rooms.room).enumerate() {
        if one != other {
            lines.push(format!("room, byte {i}: model {one}, library {other}"));
        }
    }
    for (i, (one, other)) in model.rooms.rows.iter().zip(&library.rooms.rows).enumerate() {
        for word in (0..one.len()).filter(|&word| one[word] != other[word]) {
            let (what, one, other) = (ROW_NAMES[word], one[word], other[word]);
            lines.push(format!("row {i}, {what}: model {one}, library {other}"));
        }
    }
    lines
}

/// A file and what is lent beside it: all of it, but of much only the first.
pub fn mend_lines(file: &[u8], rooms: &Rooms) -> String {
    let (bytes, room, rows) = (some(file), some(&rooms.room), some(&rooms.rows));
    let (length, places, count) = (file.len(), rooms.room.len(), rooms.rows.len());
    format!(
        "file of {length} bytes: {bytes}\n{places} bytes of room: {room}\n{count} rows: {rows}\n"
    )
}

/// A run: all of its words, but of a long one only the first.
pub fn run_lines(run: &Run) -> String {
    let (desks, answers, pages) = (some(&run.desks), some(&run.answers), some(&run.pages));
    format!("run of turns: {desks}\nanswer table: {answers}\npage table: {pages}\n")
}

fn some<T: Debug>(list: &[T]) -> String {
    match list.len() {
        0..=2000 => format!("{list:?}"),
        length => format!("{:?}, the first 20 of {length}", &list[..20]),
    }
}

/// A request in a line.
pub fn request_line(request: Request) -> String {
    let Request { kind, process, word } = request;
    match kind {
        OPENING => format!("opening for {process}"),
        ENTRY_CALL => format!("entry call of desk {process}, word {word}"),
        PAGE_CALL => format!("page call of desk {process}"),
        TURN => format!("turn of desk {process}"),
        _ => format!("kind {kind}, process {process}, word {word}"),
    }
}

/// A state: all of its words, but of a long table only the first records.
pub fn state_lines(state: &State) -> String {
    let (count, event, records) = (state.count, state.event, state.table.len());
    let mut text = format!("day: count {count}, event {event}, {records} records\n");
    for (i, words) in state.table.iter().take(MOST_RECORDS).enumerate() {
        let _ = writeln!(text, "record {}: row {}", i + 1, row_text(words, ROW));
        let _ = writeln!(text, "  task {}", task_text(words));
        for (collect, called) in [(FIRST, "first"), (SECOND, "second")] {
            for j in 0..8 {
                let row = row_text(words, place(collect, j));
                let _ = writeln!(text, "  {called} collect, row {}: {row}", j + 1);
            }
        }
        let _ = writeln!(text, "  first collect ended by turn {}", words[FIRST_ENDED]);
        let _ = writeln!(text, "  kept view {}", view_text(&words[KEPT..MARKS]));
        let _ = writeln!(text, "  marks {:?}", &words[MARKS..]);
    }
    let _ = writeln!(text, "page list: {:?}", state.page);
    text
}

fn row_text(words: &Words, at: usize) -> String {
    let row = &words[at..at + ROW_WORDS];
    let (word, last, seq, at) = (row[ROW], row[LAST], row[SEQ], row[AT]);
    format!("word {word}, last {last}, seq {seq}, view {}, at {at}", view_text(&row[VIEW..AT]))
}

/// The pairs of a view, word and number.
fn view_text(view: &[u32]) -> String {
    let pairs: Vec<&[u32]> = view.chunks(PAIR).collect();
    format!("{pairs:?}")
}

fn task_text(words: &Words) -> String {
    let called = match words[KIND] {
        IDLE => "idle",
        PAGE => "page",
        ENTRY => "entry",
        READY => "entry ready to write",
        _ => "unknown",
    };
    let (kind, word, at, turns) = (words[KIND], words[TASK_WORD], words[TASK_AT], words[TURNS]);
    format!("{called} (kind {kind}), word {word}, at {at}, turns {turns}")
}
