//! The packing of a desk record into 369 words and back.

use model::random::Random;
use model::register::{Desk, Row, Shown, Task, View};
use states::record::{name, pack, unpack, Words, WORDS};

/// Words each of which is its own number, but for a kind and marks that can be.
fn numbered(kind: u32) -> Words {
    let mut words: Words = std::array::from_fn(|word| word as u32);
    words[20] = kind;
    for mark in 361..369 {
        words[mark] = (mark as u32) % 2;
    }
    words
}

/// A view whose pairs begin at this number.
fn view(from: u32) -> View {
    std::array::from_fn(|j| Shown { word: from + 2 * j as u32, last: from + 2 * j as u32 + 1 })
}

fn row(from: u32) -> Row {
    Row { word: from, last: from + 1, seq: from + 2, view: view(from + 3), at: from + 19 }
}

#[test]
fn each_word_has_its_place() {
    let desk = unpack(&numbered(3)).unwrap();
    let wanted = Desk {
        row: row(0),
        task: Task::Ready { word: 21, at: 22, turns: 23 },
        first: std::array::from_fn(|j| row(24 + 20 * j as u32)),
        second: std::array::from_fn(|j| row(184 + 20 * j as u32)),
        first_ended: 344,
        kept: view(345),
        marks: [true, false, true, false, true, false, true, false],
    };
    assert_eq!(desk, wanted);
    assert_eq!(pack(&desk), numbered(3));
}

#[test]
fn tasks_have_some_of_the_words() {
    let tasks = [
        (0, Task::Idle, [0, 0, 0]),
        (1, Task::Page { turns: 23 }, [0, 0, 23]),
        (2, Task::Entry { word: 21, turns: 23 }, [21, 0, 23]),
        (3, Task::Ready { word: 21, at: 22, turns: 23 }, [21, 22, 23]),
    ];
    for (kind, task, words) in tasks {
        let desk = unpack(&numbered(kind)).unwrap();
        assert_eq!(desk.task, task);
        assert_eq!(pack(&desk)[20..24], [&[kind], words.as_slice()].concat());
    }
}

#[test]
fn a_kind_that_is_none_has_no_task() {
    for kind in [4, 5, 255, 256, 1 << 16, u32::MAX] {
        assert_eq!(unpack(&numbered(kind)), None);
    }
}

#[test]
fn any_number_but_0_is_a_mark() {
    let mut words = [0; WORDS];
    words[361] = 2;
    words[368] = u32::MAX;
    let desk = unpack(&words).unwrap();
    assert_eq!(desk.marks, [true, false, false, false, false, false, false, true]);
    assert_eq!(pack(&desk)[361..], [1, 0, 0, 0, 0, 0, 0, 1]);
}

#[test]
fn a_record_comes_back() {
    let mut random = Random::new(1);
    for _ in 0..1_000 {
        let mut words: Words = std::array::from_fn(|_| random.draw() as u32);
        words[20] %= 4;
        let desk = unpack(&words).unwrap();
        assert_eq!(unpack(&pack(&desk)), Some(desk));
    }
}

#[test]
fn a_new_record_is_all_0() {
    assert_eq!(pack(&Desk::default()), [0; WORDS]);
}

/// Where the parts of a record end, and that the words between are named in pairs.
#[test]
fn names_of_words() {
    for (word, wanted) in [
        (0, "row, word"),
        (1, "row, last"),
        (2, "row, seq"),
        (3, "row, view, word 1"),
        (4, "row, view, last 1"),
        (18, "row, view, last 8"),
        (19, "row, at"),
        (20, "task's kind"),
        (24, "first collect, row 1, word"),
        (183, "first collect, row 8, at"),
        (184, "second collect, row 1, word"),
        (343, "second collect, row 8, at"),
        (344, "turn that ended the first collect"),
        (345, "kept view, word 1"),
        (360, "kept view, last 8"),
        (361, "mark 1"),
        (368, "mark 8"),
    ] {
        assert_eq!(name(word), wanted);
    }
}

#[test]
fn every_word_has_a_name_of_its_own() {
    let mut names: Vec<String> = (0..WORDS).map(name).collect();
    names.sort();
    names.dedup();
    assert_eq!(names.len(), WORDS);
}
