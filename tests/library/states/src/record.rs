//! A desk record as the library's 369 words: which word is which, and the model's record packed into
//! them and back.

use model::register::{Desk, Row, Shown, Task, View, PLACES};

pub const WORDS: usize = 369;

/// The words of one desk record.
pub type Words = [u32; WORDS];

/// 0 word, 1 event number of its last writing, 2 seq, 3..18 view, 19 at: the desk's row.
pub const ROW: usize = 0;
pub const LAST: usize = 1;
pub const SEQ: usize = 2;
pub const VIEW: usize = 3;
pub const AT: usize = 19;
pub const ROW_WORDS: usize = 20;
/// A view has eight pairs: a row's word, and the event number of its last writing.
pub const PAIR: usize = 2;
/// 20 kind (0 idle, 1 page, 2 entry, 3 entry ready to write), 21 word, 22 at, 23 turns: its task.
pub const KIND: usize = 20;
pub const TASK_WORD: usize = 21;
pub const TASK_AT: usize = 22;
pub const TURNS: usize = 23;
/// 24..183 first collect, 8 rows of 20 words; 184..343 second collect, likewise.
pub const FIRST: usize = 24;
pub const SECOND: usize = 184;
/// 344 number of the turn that ended the first collect.
pub const FIRST_ENDED: usize = 344;
/// 345..360 the view that an entry has found and keeps.
pub const KEPT: usize = 345;
/// 361..368 marks (0: none; any other number: a mark).
pub const MARKS: usize = 361;

/// The kinds of task.
pub const IDLE: u32 = 0;
pub const PAGE: u32 = 1;
pub const ENTRY: u32 = 2;
pub const READY: u32 = 3;

/// Where row j (from 0) of a collect begins.
pub fn place(collect: usize, j: usize) -> usize {
    collect + j * ROW_WORDS
}

/// The model's record of these words, if their task kind is one: the model has no other task.
pub fn unpack(words: &Words) -> Option<Desk> {
    let row = |collect| move |j| unpack_row(&words[place(collect, j)..]);
    Some(Desk {
        row: unpack_row(&words[ROW..]),
        task: unpack_task(words)?,
        marks: std::array::from_fn(|j| words[MARKS + j] != 0),
        kept: unpack_view(&words[KEPT..]),
        first: std::array::from_fn(row(FIRST)),
        second: std::array::from_fn(row(SECOND)),
        first_ended: words[FIRST_ENDED],
    })
}

/// Words 21, 22 and 23 that a kind does not have are ignored.
pub fn unpack_task(words: &Words) -> Option<Task> {
    let (word, at, turns) = (words[TASK_WORD], words[TASK_AT], words[TURNS]);
    match words[KIND] {
        IDLE => Some(Task::Idle),
        PAGE => Some(Task::Page { turns }),
        ENTRY => Some(Task::Entry { turns, word }),
        READY => Some(Task::Ready { turns, word, at }),
        _ => None,
    }
}

fn unpack_row(words: &[u32]) -> Row {
    let (word, last, seq, at) = (words[ROW], words[LAST], words[SEQ], words[AT]);
    Row { word, last, seq, view: unpack_view(&words[VIEW..]), at }
}

fn unpack_view(words: &[u32]) -> View {
    std::array::from_fn(|j| Shown { word: words[PAIR * j], last: words[PAIR * j + 1] })
}

/// The words of a record: all 369 words, marks as 0 or 1, words that its task does not have as 0.
pub fn pack(desk: &Desk) -> Words {
    let mut words = [0; WORDS];
    pack_row(&desk.row, &mut words[ROW..]);
    let (kind, word, at, turns) = match desk.task {
        Task::Idle => (IDLE, 0, 0, 0),
        Task::Page { turns } => (PAGE, 0, 0, turns),
        Task::Entry { turns, word } => (ENTRY, word, 0, turns),
        Task::Ready { turns, word, at } => (READY, word, at, turns),
    };
    words[KIND] = kind;
    words[TASK_WORD] = word;
    words[TASK_AT] = at;
    words[TURNS] = turns;
    for j in 0..PLACES {
        pack_row(&desk.first[j], &mut words[place(FIRST, j)..]);
        pack_row(&desk.second[j], &mut words[place(SECOND, j)..]);
        words[MARKS + j] = u32::from(desk.marks[j]);
    }
    pack_view(&desk.kept, &mut words[KEPT..]);
    words[FIRST_ENDED] = desk.first_ended;
    words
}

fn pack_row(row: &Row, words: &mut [u32]) {
    words[ROW] = row.word;
    words[LAST] = row.last;
    words[SEQ] = row.seq;
    pack_view(&row.view, &mut words[VIEW..]);
    words[AT] = row.at;
}

fn pack_view(view: &View, words: &mut [u32]) {
    for (j, shown) in view.iter().enumerate() {
        words[PAIR * j] = shown.word;
        words[PAIR * j + 1] = shown.last;
    }
}

/// What a word of a record is, to be read by people.
pub fn name(word: usize) -> String {
    match word {
        0..KIND => format!("row, {}", row_name(word)),
        KIND => "task's kind".to_string(),
        TASK_WORD => "task's word".to_string(),
        TASK_AT => "task's at".to_string(),
        TURNS => "task's turns".to_string(),
        FIRST..SECOND => format!("first collect, {}", collect_name(word - FIRST)),
        SECOND..FIRST_ENDED => format!("second collect, {}", collect_name(word - SECOND)),
        FIRST_ENDED => "turn that ended the first collect".to_string(),
        KEPT..MARKS => format!("kept view, {}", view_name(word - KEPT)),
        _ => format!("mark {}", word - MARKS + 1),
    }
}

fn collect_name(word: usize) -> String {
    format!("row {}, {}", word / ROW_WORDS + 1, row_name(word % ROW_WORDS))
}

fn row_name(word: usize) -> String {
    match word {
        ROW => "word".to_string(),
        LAST => "last".to_string(),
        SEQ => "seq".to_string(),
        AT => "at".to_string(),
        _ => format!("view, {}", view_name(word - VIEW)),
    }
}

fn view_name(word: usize) -> String {
    let part = ["word", "last"][word % PAIR];
    format!("{part} {}", word / PAIR + 1)
}
