//! Runs of turns, beside the same turns one by one, and what refuses a run.

use nelvaquist::{Answer, DayFile, Record, Refusal, Register, Request, Task};
use std::fs;
use std::path::Path;

/// What lies in an answer table before a run: no turn is answered so.
const BEFORE: Result<Answer, Refusal> = Err(Refusal::CutShort);

/// What lies in a page table before a run.
const WORD: u32 = 9;

/// Gives a run, and looks whether its turns are answered alike and leave the same one by one, and with
/// two lent tables.
fn ran(register: &mut Register, desks: &[u32]) -> Vec<Result<Answer, Refusal>> {
    let before = register.clone();
    let answers = register.run(desks).unwrap();
    let mut other = before.clone();
    let one_by_one: Vec<_> = desks.iter().map(|&desk| other.turn(desk)).collect();
    assert_eq!(answers, one_by_one);
    assert_eq!(*register, other);
    for (more_places, more_words) in [(0, 0), (1, 0), (0, 1), (3, 17)] {
        into_tables(before.clone(), desks, more_places, more_words, &answers, register);
    }
    if !desks.is_empty() {
        too_short(&before, desks);
    }
    answers
}

/// Gives a run with tables that are longer than it needs by so much, and looks at every place of them.
fn into_tables(
    mut register: Register,
    desks: &[u32],
    more_places: usize,
    more_words: usize,
    answers: &[Result<Answer, Refusal>],
    after: &Register,
) {
    let words = 2 * register.desks() as usize;
    let mut table = vec![BEFORE; desks.len() + more_places];
    let mut pages = vec![WORD; desks.len() * words + more_words];
    register.run_into(desks, &mut table, &mut pages).unwrap();
    assert_eq!(register, *after);
    assert_eq!(table, [answers, &vec![BEFORE; more_places]].concat());
    let shown = |answer: &Result<Answer, Refusal>| match answer {
        Ok(Answer::Page(page)) => [page.words(), page.last()].concat(),
        _ => vec![WORD; words],
    };
    let mut wanted: Vec<u32> = answers.iter().flat_map(shown).collect();
    wanted.extend(vec![WORD; more_words]);
    assert_eq!(pages, wanted);
}

/// Runs whose tables are too short by a place, a word or both: refused, and nothing changes.
fn too_short(before: &Register, desks: &[u32]) {
    let (turns, words) = (desks.len(), desks.len() * 2 * before.desks() as usize);
    let short = [(turns - 1, words), (turns, words - 1), (turns - 1, words - 1), (0, 0)];
    // Also with a word for each desk, but none for the number of its row's last writing.
    let rooms = short.into_iter().chain([(turns, words / 2)]);
    for (places, words) in rooms {
        let mut register = before.clone();
        let (mut table, mut pages) = (vec![BEFORE; places], vec![WORD; words]);
        let refused = register.run_into(desks, &mut table, &mut pages);
        assert_eq!(refused, Err(Refusal::TableShort));
        assert_eq!(register, *before);
        assert_eq!((table, pages), (vec![BEFORE; places], vec![WORD; words]));
    }
}

#[test]
fn a_page_and_an_entry_with_refused_turns_between() {
    let mut register = Register::new();
    register.open(2).unwrap();
    register.entry(1, 11).unwrap();
    assert_eq!(ran(&mut register, &[1; 5])[4], Ok(Answer::Written { turns: 5 }));
    register.page(1).unwrap();
    register.entry(2, 22).unwrap();
    let answers = ran(&mut register, &[1, 2, 3, 1, 2, 1, 2, 1, 1, 2, 2, 0]);
    for (i, answer) in answers.into_iter().enumerate() {
        match (i, answer) {
            (2 | 11, answer) => assert_eq!(answer, Err(Refusal::NoSuchDesk)),
            (7, Ok(Answer::Page(page))) => {
                assert_eq!((page.words(), page.last()), (&[11, 0][..], &[6, 0][..]));
                assert_eq!((page.lender(), page.at(), page.turns()), (None, 11, 4));
            }
            (8, answer) => assert_eq!(answer, Err(Refusal::DeskIdle)),
            (10, answer) => assert_eq!(answer, Ok(Answer::Written { turns: 5 })),
            (_, answer) => assert_eq!(answer, Ok(Answer::Read), "{i}"),
        }
    }
    assert_eq!((register.event(), register.records()[1].word()), (17, 22));
    assert_eq!(register.records()[1].last(), 17);
}

#[test]
fn samples_by_runs() {
    let samples = Path::new(env!("CARGO_MANIFEST_DIR")).join("../../samples");
    let mut turns = 0;
    for entry in fs::read_dir(samples).unwrap() {
        let path = entry.unwrap().path();
        // The damaged day has a record that no reading gives.
        if path.extension() != Some("day".as_ref()) || path.file_stem() == Some("damaged".as_ref())
        {
            continue;
        }
        let mut register = Register::new();
        let mut desks = Vec::new();
        for request in DayFile::new(&fs::read(&path).unwrap()) {
            match request.unwrap() {
                Request::Turn { desk } => desks.push(desk),
                other => {
                    turns += desks.len();
                    if register.is_open() {
                        ran(&mut register, &desks);
                    }
                    desks.clear();
                    let _ = register.step(other, &mut []);
                }
            }
        }
        if register.is_open() {
            turns += ran(&mut register, &desks).len();
        }
    }
    assert!(turns > 60, "{turns}");
}

#[test]
fn every_desk_to_its_end() {
    let mut random = 1u64;
    for n in 1..=8 {
        let mut register = Register::new();
        register.open(n).unwrap();
        for desk in 1..=n {
            if desk % 2 == 0 {
                register.page(desk).unwrap();
            } else {
                register.entry(desk, 100 + desk).unwrap();
            }
        }
        // As many turns for each as it can need, in some order.
        let mut desks: Vec<u32> = (0..n * (2 * n * n + 1)).map(|turn| turn % n + 1).collect();
        desks.sort_by_cached_key(|_| {
            random = random.wrapping_mul(6_364_136_223_846_793_005).wrapping_add(1);
            random >> 33
        });
        let answers = ran(&mut register, &desks);
        for desk in 1..=n {
            assert_eq!(register.task(desk), Some(Task::Idle));
        }
        let pages = answers.iter().filter(|answer| matches!(answer, Ok(Answer::Page(_)))).count();
        assert_eq!(pages as u32, n / 2);
    }
}

#[test]
fn no_turns() {
    let mut register = Register::new();
    register.open(2).unwrap();
    register.page(1).unwrap();
    assert_eq!(ran(&mut register, &[]), []);
    assert_eq!(register.event(), 1);
}

/// A day as it was taken up, blank but for its numbers.
fn taken_up(desks: u32, event: u32, records: usize) -> Register {
    Register::from_parts(desks, event, vec![Record::default(); records])
}

#[test]
fn refused() {
    let refused = |mut register: Register, desks: &[u32]| {
        let before = register.clone();
        let refusal = register.run(desks).unwrap_err();
        // The tables of the second are too short, unless there is no turn.
        assert_eq!(register.run_into(desks, &mut [], &mut []), Err(refusal));
        assert_eq!(register, before);
        refusal.number()
    };
    for desks in [&[][..], &[1], &[1, 0, 3]] {
        assert_eq!(refused(Register::new(), desks), 10);
        assert_eq!(refused(taken_up(0, 70_000, 2), desks), 10);
        for records in [0, 1, 3, 9] {
            assert_eq!(refused(taken_up(2, 70_000, records), desks), 6);
            assert_eq!(refused(taken_up(u32::MAX, 70_000, records), desks), 6);
        }
    }
}

#[test]
fn turns_of_a_day_that_cannot_have_arisen() {
    let answers = ran(&mut taken_up(2, 65_536, 2), &[1, 2, 3]);
    assert_eq!(answers, [Err(Refusal::CannotArise); 3]);
    for desks in 9..=12 {
        let day = taken_up(desks, 0, desks as usize);
        let mut register = day.clone();
        assert_eq!(ran(&mut register, &[]), []);
        assert_eq!(ran(&mut register, &[1, 0, 13]), [Err(Refusal::CannotArise); 3]);
        assert_eq!(register, day);
    }
}
