//! Days of the specification: A and B call by call, and every sample as the day runner prints it.

use nelvaquist::{Answer, DayFile, Refusal, Register, Request, Task};
use std::fmt::Write;
use std::fs;
use std::path::Path;

fn turns(register: &mut Register, desk: u32, count: u32) -> Vec<Answer> {
    (0..count).map(|_| register.turn(desk).unwrap()).collect()
}

#[test]
fn case_a() {
    let mut register = Register::new();
    assert_eq!(register.open(1), Ok(()));
    assert_eq!(register.entry(1, 7), Ok(()));
    let written = Answer::Written { turns: 3 };
    assert_eq!(turns(&mut register, 1, 3), [Answer::Read, Answer::Read, written]);
    assert_eq!(register.page(1), Ok(()));
    assert_eq!(register.turn(1), Ok(Answer::Read));
    let Ok(Answer::Page(page)) = register.turn(1) else { panic!("no page") };
    assert_eq!((page.words(), page.last()), (&[7][..], &[4][..]));
    assert_eq!((page.lender(), page.at(), page.turns()), (None, 6, 2));
    assert_eq!(register.records()[0].last(), 4);
    assert_eq!(register.turn(1), Err(Refusal::DeskIdle));
    assert_eq!((register.desks(), register.event()), (1, 7));
}

#[test]
fn case_b() {
    let mut register = Register::new();
    register.open(2).unwrap();
    register.page(1).unwrap();
    assert_eq!(turns(&mut register, 1, 2), [Answer::Read; 2]);
    register.entry(2, 7).unwrap();
    assert_eq!(turns(&mut register, 2, 5)[4], Answer::Written { turns: 5 });
    assert_eq!(turns(&mut register, 1, 4), [Answer::Read; 4]);
    register.entry(2, 9).unwrap();
    assert_eq!(turns(&mut register, 2, 5)[4], Answer::Written { turns: 5 });
    assert_eq!(register.turn(1), Ok(Answer::Read));
    let Ok(Answer::Page(page)) = register.turn(1) else { panic!("no page") };
    assert_eq!(page.words(), [0, 7]);
    assert_eq!((page.lender(), page.at(), page.turns()), (Some(2), 16, 8));
    assert_eq!(register.event(), 21);
    assert_eq!(register.records()[1].word(), 9);
    // Row 1 was never written; event 9 wrote the 7, which stood until event 19.
    assert_eq!(page.last(), [0, 9]);
    assert_eq!(register.records()[1].last(), 19);
    assert_eq!(
        format!("{page:?}"),
        "Page { words: [0, 7], last: [0, 9], lender: Some(2), at: 16, turns: 8 }"
    );
}

#[test]
fn rows_written_after_they_were_read() {
    let mut register = Register::new();
    register.open(2).unwrap();
    register.entry(1, 11).unwrap();
    assert_eq!(turns(&mut register, 1, 5)[4], Answer::Written { turns: 5 });
    // Events 7 to 17: desk 1 writes row 1 by event 16, when the page has read it for the last time.
    register.entry(1, 13).unwrap();
    assert_eq!(turns(&mut register, 1, 4), [Answer::Read; 4]);
    register.page(2).unwrap();
    assert_eq!(turns(&mut register, 2, 3), [Answer::Read; 3]);
    assert_eq!(register.turn(1), Ok(Answer::Written { turns: 5 }));
    let Ok(Answer::Page(page)) = register.turn(2) else { panic!("no page") };
    assert_eq!((page.words(), page.last()), (&[11, 0][..], &[6, 0][..]));
    assert_eq!((page.lender(), page.at(), register.records()[0].last()), (None, 14, 16));
    // Events 18 to 28: and by event 27, when an entry has read it. It keeps the page that it found.
    register.entry(1, 15).unwrap();
    assert_eq!(turns(&mut register, 1, 4), [Answer::Read; 4]);
    register.entry(2, 22).unwrap();
    assert_eq!(turns(&mut register, 2, 3), [Answer::Read; 3]);
    assert_eq!(register.turn(1), Ok(Answer::Written { turns: 5 }));
    assert_eq!(register.turn(2), Ok(Answer::Read));
    assert_eq!(register.records()[1].words()[345..349], [13, 16, 0, 0]);
    assert_eq!(register.task(2), Some(Task::Ready { word: 22, at: 25, turns: 4 }));
    assert_eq!(register.records()[0].last(), 27);
}

/// The day runner's line for a request and its outcome.
fn line(register: &Register, request: Request, outcome: Result<Answer, Refusal>) -> String {
    let event = register.event();
    match (request, outcome) {
        (_, Err(refusal)) => format!("refused {}", refusal.number()),
        (Request::Open { desks }, Ok(Answer::Opened)) => format!("open {desks}"),
        (Request::Entry { desk, word }, Ok(Answer::Called)) => {
            format!("{event} entry {desk} {word}")
        }
        (Request::Page { desk }, Ok(Answer::Called)) => format!("{event} asked {desk}"),
        (Request::Turn { desk }, Ok(Answer::Read)) => format!("{event} read {desk}"),
        (Request::Turn { desk }, Ok(Answer::Written { turns })) => {
            format!("{event} written {desk} turns {turns}")
        }
        (Request::Turn { desk }, Ok(Answer::Page(page))) => {
            let (from, at, turns) = (page.lender().unwrap_or(0), page.at(), page.turns());
            let mut line = format!("{event} page {desk} from {from} at {at} turns {turns} words");
            for word in page.words() {
                write!(line, " {word}").unwrap();
            }
            line += " last";
            for event in page.last() {
                write!(line, " {event}").unwrap();
            }
            line
        }
        other => panic!("{other:?}"),
    }
}

fn printed(file: &[u8]) -> String {
    let mut register = Register::new();
    let mut page = [0; Register::MOST_PAGE_WORDS];
    let mut printed = String::new();
    for record in DayFile::new(file) {
        let line = match record {
            Ok(request) => {
                let outcome = register.step(request, &mut page);
                line(&register, request, outcome)
            }
            Err(refusal) => format!("refused {}", refusal.number()),
        };
        printed += &line;
        printed += "\n";
    }
    writeln!(printed, "end {}", register.event()).unwrap();
    printed
}

#[test]
fn samples() {
    let samples = Path::new(env!("CARGO_MANIFEST_DIR")).join("../../samples");
    let mut compared = 0;
    for entry in fs::read_dir(samples).unwrap() {
        let path = entry.unwrap().path();
        if path.extension() == Some("day".as_ref()) {
            let wanted = fs::read_to_string(path.with_extension("out")).unwrap();
            assert_eq!(printed(&fs::read(&path).unwrap()), wanted, "{}", path.display());
            compared += 1;
        }
    }
    assert_eq!(compared, 10);
}

#[test]
fn waiting_ends_in_time() {
    for n in 1..=8 {
        let mut register = Register::new();
        register.open(n).unwrap();
        for desk in 1..=n {
            register.entry(desk, 100 + desk).unwrap();
        }
        // Every desk in turn, so that they disturb one another as they can.
        let mut waiting: Vec<u32> = (1..=n).collect();
        let mut last = vec![0; n as usize];
        let mut given = 0;
        while !waiting.is_empty() {
            given += 1;
            waiting.retain(|&desk| {
                let reads = register.turn(desk).unwrap() == Answer::Read;
                if !reads {
                    last[desk as usize - 1] = register.event();
                }
                reads
            });
        }
        assert!(given <= 2 * n * n + 1, "{given} turns for {n} desks");
        register.page(n).unwrap();
        let page = loop {
            if let Answer::Page(page) = register.turn(n).unwrap() {
                break page;
            }
        };
        let wanted: Vec<u32> = (1..=n).map(|desk| 100 + desk).collect();
        assert_eq!(page.words(), wanted);
        assert_eq!(page.last(), last);
        assert_eq!(page.turns(), 2 * n);
    }
}
