//! Each refusal by its cause, and that it changes nothing.

use nelvaquist::{Answer, DayFile, Record, Refusal, Register, Request};
use std::collections::HashSet;

fn opened(desks: u32) -> Register {
    let mut register = Register::new();
    register.open(desks).unwrap();
    register
}

/// Asks for something that is refused, and looks whether anything has changed.
fn refused(register: &mut Register, request: Request, page: &mut [u32]) -> u32 {
    let (before, page_before) = (register.clone(), page.to_vec());
    let refusal = register.step(request, page).unwrap_err();
    assert_eq!(*register, before);
    assert_eq!(page, page_before);
    refusal.number()
}

#[test]
fn numbers_and_sentences() {
    const TENTH: Option<Refusal> = Refusal::from_number(10);
    let all: Vec<u32> = (1..=13).collect();
    let refusals: Vec<Refusal> = all.iter().map(|&n| Refusal::from_number(n).unwrap()).collect();
    let numbers: Vec<u32> = refusals.iter().map(|refusal| refusal.number()).collect();
    assert_eq!(numbers, all);
    assert_eq!(numbers, refusals.iter().map(|&refusal| u32::from(refusal)).collect::<Vec<u32>>());
    let sentences: HashSet<String> = refusals.iter().map(Refusal::to_string).collect();
    assert_eq!(sentences.len(), all.len());
    for number in [0, 14, u32::MAX] {
        assert_eq!(Refusal::from_number(number), None);
    }
    assert_eq!(TENTH, Some(Refusal::OpenState));
    assert_eq!(
        Refusal::OpenState.to_string(),
        "an opening of an open day, or another request before the opening"
    );
    let error: Box<dyn std::error::Error + Send + Sync> = Box::new(Refusal::DayFull);
    assert_eq!(error.to_string(), "the day has too few events left for another call");
}

#[test]
fn openings() {
    for desks in [0, 9, 10, 1 << 31, u32::MAX] {
        assert_eq!(refused(&mut Register::new(), Request::Open { desks }, &mut []), 1);
        assert_eq!(refused(&mut opened(3), Request::Open { desks }, &mut []), 10);
    }
    for desks in 1..=8 {
        let register = opened(desks);
        assert_eq!((register.desks(), register.event()), (desks, 0));
        assert_eq!(register.records(), vec![Record::default(); desks as usize]);
        assert_eq!(refused(&mut register.clone(), Request::Open { desks }, &mut []), 10);
    }
}

#[test]
fn days_that_are_not_open() {
    let mut blank = Register::new();
    assert_eq!(refused(&mut blank, Request::Entry { desk: 1, word: 7 }, &mut []), 10);
    assert_eq!(refused(&mut blank, Request::Page { desk: 1 }, &mut []), 10);
    assert_eq!(refused(&mut blank, Request::Turn { desk: 1 }, &mut []), 10);
}

#[test]
fn desks() {
    let mut register = opened(2);
    for desk in [0, 3, u32::MAX] {
        assert_eq!(register.entry(desk, 7), Err(Refusal::NoSuchDesk));
        assert_eq!(register.page(desk), Err(Refusal::NoSuchDesk));
        assert_eq!(register.turn(desk), Err(Refusal::NoSuchDesk));
    }
    assert_eq!(register.turn(1), Err(Refusal::DeskIdle));
    register.page(1).unwrap();
    assert_eq!(refused(&mut register, Request::Page { desk: 1 }, &mut []), 3);
    assert_eq!(refused(&mut register, Request::Entry { desk: 1, word: 7 }, &mut []), 3);
    assert_eq!(register.turn(2), Err(Refusal::DeskIdle));
    assert_eq!(register.event(), 1);
}

#[test]
fn page_lists() {
    for desks in 1..=8 {
        let n = desks as usize;
        let mut register = opened(desks);
        register.page(1).unwrap();
        for words in 0..2 * n {
            let mut short = vec![5; words];
            assert_eq!(refused(&mut register, Request::Turn { desk: 1 }, &mut short), 6);
        }
        let mut list = [5; 20];
        for _ in 1..2 * n {
            let answer = register.step(Request::Turn { desk: 1 }, &mut list[..2 * n]);
            assert_eq!(answer, Ok(Answer::Read));
            assert_eq!(list, [5; 20]);
        }
        // The turn that ends the page needs as long a list as the others.
        assert_eq!(refused(&mut register, Request::Turn { desk: 1 }, &mut list[..2 * n - 1]), 6);
        let Ok(Answer::Page(page)) = register.step(Request::Turn { desk: 1 }, &mut list) else {
            panic!("no page")
        };
        assert_eq!(page.words(), &list[..n]);
        assert_eq!(page.words(), vec![0; n]);
        assert_eq!(page.last(), &list[n..2 * n]);
        assert_eq!(page.last(), vec![0; n]);
        assert_eq!(list[2 * n..], [5; 20][2 * n..]);
    }
    assert_eq!(Register::MOST_PAGE_WORDS, 16);
}

/// A day for two desks, of which the first has had some turns of a page, which can need 8.
fn reading(event: u32, turns: u32) -> Register {
    let mut words = [0; Record::WORDS];
    (words[20], words[23]) = (1, turns);
    Register::from_parts(2, event, vec![Record::from_words(words), Record::default()])
}

#[test]
fn full_days() {
    for (turns, owed) in [(0, 8), (3, 5), (7, 1)] {
        // A page of desk 2 can need 8 turns, its entry 9.
        let last = 65_535 - owed - 9;
        assert_eq!(reading(last, turns).page(2), Ok(()));
        assert_eq!(reading(last - 1, turns).entry(2, 7), Ok(()));
        assert_eq!(reading(last, turns).entry(2, 7), Err(Refusal::DayFull));
        assert_eq!(reading(last + 1, turns).page(2), Err(Refusal::DayFull));

        let mut full = reading(65_535 - owed, turns);
        assert_eq!(refused(&mut full, Request::Page { desk: 2 }, &mut []), 5);
        assert_eq!(refused(&mut full, Request::Entry { desk: 2, word: 7 }, &mut []), 5);
        assert_eq!(full.page(1), Err(Refusal::DeskBusy));
        assert_eq!(full.turn(2), Err(Refusal::DeskIdle));
        while full.turn(1).unwrap() == Answer::Read {}
        assert!(full.event() <= 65_535);

        let mut past = reading(65_536 - owed, turns);
        for desk in [1, 2] {
            assert_eq!(refused(&mut past, Request::Page { desk }, &mut []), 11);
            assert_eq!(refused(&mut past, Request::Turn { desk }, &mut [5; 16]), 11);
        }
    }
}

#[test]
fn the_last_event() {
    let idle = || vec![Record::default()];
    let mut register = Register::from_parts(1, 65_532, idle());
    assert_eq!(register.entry(1, 7), Err(Refusal::DayFull));
    register.page(1).unwrap();
    assert_eq!(register.turn(1), Ok(Answer::Read));
    assert!(matches!(register.turn(1), Ok(Answer::Page(_))));
    assert_eq!(register.event(), 65_535);
    assert_eq!(register.page(1), Err(Refusal::DayFull));
    assert_eq!(register.entry(1, 7), Err(Refusal::DayFull));
    assert_eq!(register.turn(1), Err(Refusal::DeskIdle));
    let mut past = Register::from_parts(1, 65_536, idle());
    assert_eq!(past.turn(1), Err(Refusal::CannotArise));
}

/// A day for two desks at event 5, idle and blank but for a word of the second's record.
fn with_word(place: usize, word: u32) -> Register {
    let mut words = [0; Record::WORDS];
    words[place] = word;
    Register::from_parts(2, 5, vec![Record::default(), Record::from_words(words)])
}

#[test]
fn numbers_that_are_not_judged() {
    // The last writings in the row's view, in a collected row and its view, and in the kept view.
    for place in [4, 6, 18, 25, 28, 45, 185, 188, 346, 348] {
        let mut register = with_word(place, 70_000);
        assert_eq!(register.entry(2, 7), Ok(()), "{place}");
        while register.turn(2).unwrap() == Answer::Read {}
        assert_eq!((register.records()[1].word(), register.records()[1].last()), (7, 11));
    }
    // A ready entry writes the view that it keeps, whatever its numbers, and the day goes on.
    let mut words = [0; Record::WORDS];
    (words[20], words[346]) = (3, 70_000);
    let records = vec![Record::default(), Record::from_words(words)];
    let mut register = Register::from_parts(2, 5, records);
    assert_eq!(register.turn(2), Ok(Answer::Written { turns: 1 }));
    assert_eq!((register.records()[1].words()[4], register.records()[1].last()), (70_000, 6));
    assert_eq!(register.page(1), Ok(()));
}

#[test]
fn days_that_cannot_have_arisen() {
    let blank = |desks: usize| vec![Record::default(); desks];
    let mut nine = Register::from_parts(9, 0, blank(9));
    assert_eq!(nine.page(1), Err(Refusal::CannotArise));
    assert_eq!(refused(&mut nine, Request::Turn { desk: 1 }, &mut [5; 18]), 11);
    assert_eq!(refused(&mut nine, Request::Turn { desk: 1 }, &mut [5; 17]), 6);
    assert_eq!(nine.turn(1), Err(Refusal::CannotArise));
    for records in [0, 1, 3, 9] {
        let mut register = Register::from_parts(2, 0, blank(records));
        assert_eq!(refused(&mut register, Request::Page { desk: 1 }, &mut []), 6);
        assert_eq!(refused(&mut register, Request::Turn { desk: 1 }, &mut [5; 16]), 6);
    }
    // The row's last, seq and at, an unknown task, and too many turns, in the record of another desk.
    for (place, word) in [(1, 6), (2, 6), (19, 6), (20, 4), (20, u32::MAX)] {
        let mut register = with_word(place, word);
        assert_eq!(refused(&mut register, Request::Page { desk: 1 }, &mut []), 11);
        assert_eq!(refused(&mut register, Request::Turn { desk: 1 }, &mut [5; 4]), 11);
        assert_eq!(with_word(place, word).run(&[1, 2]), Ok(vec![Err(Refusal::CannotArise); 2]));
    }
    for place in [1, 2, 19] {
        assert_eq!(with_word(place, 5).page(1), Ok(()));
    }
    for (task, most) in [(1, 7), (2, 7), (3, 8)] {
        for (turns, wanted) in [(most, Ok(())), (most + 1, Err(Refusal::CannotArise))] {
            let mut words = [0; Record::WORDS];
            (words[20], words[23]) = (task, turns);
            let records = vec![Record::default(), Record::from_words(words)];
            assert_eq!(Register::from_parts(2, 5, records).page(1), wanted);
        }
    }
}

#[test]
fn day_files() {
    let read = |bytes: &[u8]| DayFile::new(bytes).collect::<Vec<_>>();
    assert_eq!(read(&[]), []);
    assert_eq!(read(&[4]), [Err(Refusal::CutShort)]);
    assert_eq!(read(&[4, 0, 1, 0, 2]), [Err(Refusal::CutShort)]);
    assert_eq!(read(&[4, 0, 9, 0, 1, 0]), [Err(Refusal::UnknownKind)]);
    assert_eq!(read(&[4, 0, 2, 0, 1, 0]), [Err(Refusal::WrongLength)]);
    assert_eq!(read(&[3, 0]), [Err(Refusal::WrongLength)]);
    assert_eq!(read(&[255, 255, 1]), [Err(Refusal::WrongLength)]);
    let whole = [8, 0, 2, 0, 1, 0, 4, 3, 2, 1, 4, 0, 4, 0, 255, 255];
    let requests = [Request::Entry { desk: 1, word: 0x0102_0304 }, Request::Turn { desk: 65_535 }];
    assert_eq!(read(&whole), requests.map(Ok));
    for cut in 0..whole.len() {
        let mut file = DayFile::new(&whole[..cut]);
        let came: Vec<_> = file.by_ref().collect();
        let records = usize::from(cut >= 10);
        let left = cut - 10 * records;
        assert_eq!(came.len(), records + usize::from(left > 0), "{cut}");
        assert_eq!(came.last() == Some(&Err(Refusal::CutShort)), left > 0);
        assert_eq!(file.rest().len(), left);
        assert_eq!(file.next(), None);
    }
}
