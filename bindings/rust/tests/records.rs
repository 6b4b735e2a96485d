//! Records kept and taken up again, and words that were damaged.

use nelvaquist::{Answer, DayFile, Record, Register, Request, Task};
use std::collections::HashSet;
use std::sync::Mutex;

/// Numbers that look random, the same ones on every run.
struct Random(u64);

impl Random {
    fn next(&mut self) -> u32 {
        self.0 =
            self.0.wrapping_mul(6_364_136_223_846_793_005).wrapping_add(1_442_695_040_888_963_407);
        (self.0 >> 33) as u32
    }

    fn below(&mut self, bound: u32) -> u32 {
        self.next() % bound
    }
}

/// A record by what its manual says of its words; all others are 0.
fn record(parts: &[(usize, &[u32])]) -> Record {
    let mut words = [0; Record::WORDS];
    for &(place, part) in parts {
        words[place..place + part.len()].copy_from_slice(part);
    }
    Record::from_words(words)
}

#[test]
fn laid_out_as_the_manual_says() {
    // Day B up to event 18: desk 1 is in its second double collect, desk 2 ready to write 9.
    let file = include_bytes!("../../../samples/b.day");
    let mut register = Register::new();
    for request in DayFile::new(file).take(1 + 18) {
        register.step(request.unwrap(), &mut [0; 16]).unwrap();
    }
    // Written by event 9, after a page of nothing.
    let row_2: &[u32] = &[7, 9, 1, 0, 0, 0, 0, 0, 0, 0, 0, 0, 0, 0, 0, 0, 0, 0, 0, 6];
    let desk_1 = record(&[
        (20, &[1, 0, 0, 6]),
        (24 + 20, row_2),
        (184 + 20, row_2),
        (344, &[13]),
        (361, &[0, 1]),
    ]);
    let desk_2 = record(&[
        (0, row_2),
        (20, &[3, 9, 16, 4]),
        (24 + 20, row_2),
        (184 + 20, row_2),
        (344, &[16]),
        (345, &[0, 0, 7, 9]),
    ]);
    assert_eq!(register.records(), [desk_1, desk_2]);

    // Event 19 writes row 2: 9, with a page of its 7.
    register.turn(2).unwrap();
    let desk_2 = record(&[(0, &[9, 19, 2, 0, 0, 7, 9]), (19, &[16])]);
    assert_eq!(register.records()[1], desk_2);
    assert_eq!((Record::WORDS, std::mem::size_of::<Record>()), (369, 4 * 369));
}

#[test]
fn eight_rows_in_their_places() {
    let mut register = Register::new();
    register.open(8).unwrap();
    for desk in 1..=8 {
        register.entry(desk, 10 * desk).unwrap();
        while register.turn(desk).unwrap() == Answer::Read {}
    }
    // Row d was written by event 18d. Desk 1 is now ready to write it again.
    register.entry(1, 7).unwrap();
    for _ in 0..16 {
        register.turn(1).unwrap();
    }
    let words = register.records()[0].words();
    for (row, desk) in (0..).zip(1..=8) {
        let value = [10 * desk, 18 * desk];
        assert_eq!(words[24 + 20 * row..][..2], value);
        assert_eq!(words[184 + 20 * row..][..2], value);
        assert_eq!(words[345 + 2 * row..][..2], value);
    }
    let kept = words[345..361].to_vec();
    assert_eq!(register.turn(1), Ok(Answer::Written { turns: 17 }));
    let words = register.records()[0].words();
    assert_eq!((words[..3].to_vec(), words[3..19].to_vec()), (vec![7, 162, 2], kept));
}

/// A task by the numbers of a record: its kind, its word, its instant and its turns.
fn task(numbers: [u32; 4]) -> Task {
    record(&[(20, &numbers)]).task()
}

#[test]
fn tasks_by_their_numbers() {
    assert_eq!(Record::default().task(), Task::Idle);
    assert_eq!(task([0, 8, 9, 4]), Task::Idle);
    assert_eq!(task([1, 8, 9, 4]), Task::Page { turns: 4 });
    assert_eq!(task([2, 8, 9, 4]), Task::Entry { word: 8, turns: 4 });
    assert_eq!(task([3, 8, 9, 4]), Task::Ready { word: 8, at: 9, turns: 4 });
    for kind in [4, u32::MAX] {
        assert_eq!(task([kind, 8, 9, 4]), Task::Unknown { kind });
    }
}

#[test]
fn tasks_of_a_day() {
    let mut register = Register::new();
    assert_eq!((register.is_open(), register.task(0), register.task(1)), (false, None, None));
    register.open(1).unwrap();
    assert_eq!((register.is_open(), register.task(1)), (true, Some(Task::Idle)));
    register.page(1).unwrap();
    assert_eq!(register.task(1), Some(Task::Page { turns: 0 }));
    register.turn(1).unwrap();
    assert_eq!(register.task(1), Some(Task::Page { turns: 1 }));
    register.turn(1).unwrap();
    assert_eq!(register.task(1), Some(Task::Idle));
    register.entry(1, 7).unwrap();
    register.turn(1).unwrap();
    assert_eq!(register.task(1), Some(Task::Entry { word: 7, turns: 1 }));
    register.turn(1).unwrap();
    assert_eq!(register.task(1), Some(Task::Ready { word: 7, at: 5, turns: 2 }));
    assert_eq!((register.records()[0].word(), register.records()[0].seq()), (0, 0));
    assert_eq!(register.records()[0].last(), 0);
    register.turn(1).unwrap();
    assert_eq!(register.task(1), Some(Task::Idle));
    assert_eq!((register.records()[0].word(), register.records()[0].seq()), (7, 1));
    assert_eq!(register.records()[0].last(), 7);
    for desk in [0, 2, u32::MAX] {
        assert_eq!(register.task(desk), None);
    }
}

#[test]
fn desks_of_a_damaged_day() {
    let blank = vec![Record::default(); 2];
    let tasks = |desks| {
        let register = Register::from_parts(desks, 0, blank.clone());
        [0, 1, 2, 3, u32::MAX].map(|desk| register.task(desk).is_some())
    };
    assert_eq!(tasks(0), [false; 5]);
    assert_eq!(tasks(1), [false, true, false, false, false]);
    assert_eq!(tasks(u32::MAX), [false, true, true, false, false]);
}

#[test]
fn shown_in_short() {
    let shown = record(&[(0, &[7, 6, 1, 5]), (20, &[3, 8, 9, 4]), (361, &[1])]);
    let wanted =
        "Record { word: 7, last: 6, seq: 1, task: Ready { word: 8, at: 9, turns: 4 }, .. }";
    assert_eq!(format!("{shown:?}"), wanted);
    let register = Register::from_parts(1, 9, vec![shown]);
    let wanted = format!("Register {{ desks: 1, event: 9, records: [{wanted}] }}");
    assert_eq!(format!("{register:?}"), wanted);
}

#[test]
fn parts() {
    let mut words = [0; Record::WORDS];
    (0..).zip(&mut words).for_each(|(place, word)| *word = place);
    let record = Record::from(words);
    assert_eq!(record, Record::from_words(words));
    assert_eq!((record.words(), record.clone().into_words()), (&words, words));
    assert_eq!((record.word(), record.last(), record.seq()), (0, 1, 2));
    let register = Register::from_parts(3, 70_000, vec![record.clone()]);
    assert_eq!(register.into_parts(), (3, 70_000, vec![record]));
}

#[test]
fn days_as_keys() {
    let mut seen = HashSet::from([Register::new()]);
    let mut register = Register::default();
    assert!(seen.contains(&register));
    register.open(1).unwrap();
    assert!(seen.insert(register.clone()));
    register.page(1).unwrap();
    assert!(seen.insert(register));
}

#[test]
fn a_day_that_is_shared() {
    static SHARED: Mutex<Register> = Mutex::new(Register::new());
    SHARED.lock().unwrap().open(8).unwrap();
    std::thread::scope(|threads| {
        for desk in 1..=8 {
            threads.spawn(move || {
                SHARED.lock().unwrap().entry(desk, desk).unwrap();
                while SHARED.lock().unwrap().turn(desk).unwrap() == Answer::Read {}
            });
        }
    });
    let register = SHARED.lock().unwrap();
    let words: Vec<u32> = register.records().iter().map(Record::word).collect();
    assert_eq!(words, [1, 2, 3, 4, 5, 6, 7, 8]);
}

#[test]
fn marks_and_words_without_a_meaning() {
    // A page has no word of its own and no instant, and any number is a mark.
    let before = record(&[(0, &[3]), (20, &[1, 8, 9, 1]), (361, &[7, 0, u32::MAX])]);
    let mut register = Register::from_parts(3, 5, vec![before, record(&[]), record(&[])]);
    assert_eq!(register.turn(1), Ok(Answer::Read));
    let after = record(&[(0, &[3]), (20, &[1, 0, 0, 2]), (361, &[1, 0, 1])]);
    assert_eq!(register.records(), [after, record(&[]), record(&[])]);
}

#[test]
fn a_damaged_collect_and_a_damaged_view() {
    // The last turn of a double collect of two desks, whose numbers no event has.
    let first: &[u32] = &[5, 70_000, 1];
    let second: &[u32] = &[6, 80_000, 1];
    let reading = record(&[(20, &[1, 0, 0, 3]), (24, first), (184, second)]);
    let mut register = Register::from_parts(2, 5, vec![reading, record(&[])]);
    let Ok(Answer::Page(page)) = register.turn(1) else { panic!("no page") };
    assert_eq!((page.lender(), page.words(), page.last()), (None, &[6, 0][..], &[80_000, 0][..]));
    // Desk 2 was seen to write before, and lends its view as it is.
    let reading = record(&[(20, &[1, 0, 0, 3]), (361, &[0, 1])]);
    let lender = record(&[(0, &[9, 5, 1, 7, 70_000, 8, 80_000]), (19, &[4])]);
    let mut register = Register::from_parts(2, 5, vec![reading, lender]);
    let Ok(Answer::Page(page)) = register.turn(1) else { panic!("no page") };
    assert_eq!((page.words(), page.last()), (&[7, 8][..], &[70_000, 80_000][..]));
    assert_eq!((page.lender(), page.at()), (Some(2), 4));
}

/// Keeps a register as bytes and takes it up from them.
fn through_bytes(register: &Register) -> Register {
    let bytes: Vec<u8> = [register.desks(), register.event()]
        .iter()
        .chain(register.records().iter().flat_map(Record::words))
        .flat_map(|word| word.to_le_bytes())
        .collect();
    let words: Vec<u32> =
        bytes.chunks_exact(4).map(|word| u32::from_le_bytes(word.try_into().unwrap())).collect();
    let records = words[2..]
        .chunks_exact(Record::WORDS)
        .map(|words| Record::from_words(words.try_into().unwrap()))
        .collect();
    Register::from_parts(words[0], words[1], records)
}

#[test]
fn kept_at_every_event() {
    let file = include_bytes!("../../../samples/d.day");
    let (mut register, mut kept) = (Register::new(), Register::new());
    for request in DayFile::new(file) {
        let (request, mut page, mut kept_page) = (request.unwrap(), [0; 16], [0; 16]);
        let answer = register.step(request, &mut page);
        assert_eq!(kept.step(request, &mut kept_page), answer);
        assert_eq!((&kept, kept_page), (&register, page));
        kept = through_bytes(&kept);
        assert_eq!(kept, register);
    }
    assert_eq!(register.event(), 29);
}

#[test]
fn a_day_goes_on_in_another_thread() {
    let mut register = Register::new();
    register.open(2).unwrap();
    register.entry(1, 7).unwrap();
    let written = std::thread::spawn(move || {
        while register.turn(1) == Ok(Answer::Read) {}
        register
    });
    let register = written.join().unwrap();
    assert_eq!((register.event(), register.records()[0].words()[0]), (6, 7));
}

/// A word that is often one that decides something.
fn word(random: &mut Random) -> u32 {
    match random.below(4) {
        0 => random.next() << 1 | random.below(2),
        1 => u32::MAX - random.below(3),
        _ => random.below(200),
    }
}

/// A record of any words, or one that a day of so many desks and events could have but for what its
/// desk has read.
fn damaged(random: &mut Random, desks: u32, event: u32, fits: bool) -> Record {
    let mut words = [0; Record::WORDS];
    words.fill_with(|| word(random));
    if fits {
        words[1] = random.below(event + 1);
        words[2] = random.below(event + 1);
        words[19] = random.below(event + 1);
        words[20] = random.below(4);
        words[23] = random.below(2 * desks * desks);
        if random.below(2) == 0 {
            // The next turn ends a double collect.
            words[23] = 2 * desks * (1 + random.below(desks)) - 1;
        }
        if random.below(2) == 0 {
            // Nobody is seen to have written.
            for place in 24..184 {
                words[place + 160] = words[place];
            }
        }
    }
    Record::from_words(words)
}

#[test]
fn damaged_words() {
    let mut random = Random(1);
    let mut outcomes = [0; 19];
    for _ in 0..10_000 {
        let fits = random.below(4) != 0;
        let desks = if fits { 1 + random.below(8) } else { random.below(12) * random.below(2) };
        let event = match random.below(8) {
            _ if !fits => word(&mut random),
            // Near the end of the day, whatever is owed.
            0..=2 => 65_535 - random.below(desks * (2 * desks * desks + 2)),
            _ => random.below(65_536),
        };
        let count = if random.below(20) == 0 { random.below(12) } else { desks };
        let records = (0..count).map(|_| damaged(&mut random, desks, event, fits)).collect();
        let mut register = Register::from_parts(desks, event, records);
        for _ in 0..6 {
            let desk = if random.below(20) == 0 { word(&mut random) } else { 1 + random.below(9) };
            let request = match random.below(8) {
                0 => Request::Open { desks: desk },
                1 => Request::Entry { desk, word: word(&mut random) },
                2 => Request::Page { desk },
                _ => Request::Turn { desk },
            };
            let words = if random.below(10) == 0 { random.below(24) } else { 16 };
            let mut page = vec![5; words as usize];
            let before = register.clone();
            let outcome = register.step(request, &mut page);
            outcomes[looked_at(&before, &register, request, outcome, &page)] += 1;
        }
    }
    // Every refusal but those of day files and runs, and every answer, came up often.
    for (outcome, &count) in outcomes.iter().enumerate() {
        assert_eq!(count > 50, !matches!(outcome, 0 | 7..=9 | 12..=13), "{outcomes:?}");
    }
}

/// Checks what a request on any words may have changed, and counts its outcome.
fn looked_at(
    before: &Register,
    after: &Register,
    request: Request,
    outcome: Result<Answer, nelvaquist::Refusal>,
    page: &[u32],
) -> usize {
    let answer = match outcome {
        Err(refusal) => {
            assert_eq!(before, after);
            assert!(page.iter().all(|&word| word == 5));
            return refusal.number() as usize;
        }
        Ok(answer) => answer,
    };
    let unwritten = match answer {
        Answer::Page(shown) => {
            let (words, rest) = page.split_at(after.desks() as usize);
            let (last, rest) = rest.split_at(after.desks() as usize);
            assert_eq!((shown.words(), shown.last()), (words, last));
            rest
        }
        _ => page,
    };
    assert!(unwritten.iter().all(|&word| word == 5));
    match request {
        Request::Open { desks } => {
            assert_eq!(answer, Answer::Opened);
            assert_eq!((after.desks(), after.event()), (desks, 0));
            assert_eq!(after.records(), vec![Record::default(); desks as usize]);
        }
        Request::Entry { desk, .. } | Request::Page { desk } | Request::Turn { desk } => {
            assert_eq!((after.desks(), after.event()), (before.desks(), before.event() + 1));
            for (i, (was, is)) in before.records().iter().zip(after.records()).enumerate() {
                assert!(i + 1 == desk as usize || was == is, "record {i} changed");
            }
            assert_eq!(before.records().len(), after.records().len());
        }
        _ => {}
    }
    match answer {
        Answer::Opened => 14,
        Answer::Called => 15,
        Answer::Read => 16,
        Answer::Page(_) => 17,
        _ => 18,
    }
}
