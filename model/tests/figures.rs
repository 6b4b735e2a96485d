//! The figures for the quarter of document 02, K5: worked out by hand.

use model::figures::{figures, line, number, Answer, DayPages, Figures, Fraction, MOST_ANSWERS};
use model::papers;
use model::register::Refusal;
use model::text;

fn answers(days: &str) -> Vec<Answer> {
    days.chars().flat_map(|name| DayPages::of(&papers::day(&name.to_string())).answers).collect()
}

fn printed(answers: &[Answer], asked: u32) -> String {
    line(&figures(answers, asked)).trim_end().to_string()
}

fn page(desks: u32, turns: u32, from: u32) -> Answer {
    Answer { desks, turns, from }
}

#[test]
fn the_papers_answers() {
    assert_eq!(answers("A"), [page(1, 2, 0)]);
    assert_eq!(answers("B"), [page(2, 8, 2)]);
    assert_eq!(answers("C"), [page(2, 8, 0)]);
    assert_eq!(answers("D"), [page(3, 12, 0)]);
    assert_eq!(answers("EFG"), []);
    assert_eq!(answers("HJ"), [page(2, 4, 0), page(1, 2, 0)]);
}

#[test]
fn the_papers_days_as_a_quarter() {
    let all = answers("ABCDEFGHJ");
    assert_eq!(printed(&all, 1), "desks 1 pages 2 mean 2/1 borrowed 0/1 largest 2");
    // 8 + 8 + 4 turns
    assert_eq!(printed(&all, 2), "desks 2 pages 3 mean 20/3 borrowed 1/3 largest 8");
    assert_eq!(printed(&all, 3), "desks 3 pages 1 mean 12/1 borrowed 0/1 largest 12");
    for asked in 4..=8 {
        assert_eq!(printed(&all, asked), "refused 14");
    }
    // 8 + 8 + 8 + 4 + 4 turns
    let some = answers("BBCHH");
    assert_eq!(printed(&some, 2), "desks 2 pages 5 mean 32/5 borrowed 2/5 largest 8");
}

#[test]
fn fractions_in_lowest_terms() {
    for ((over, under), (lowest, beneath)) in [
        ((0, 1), (0, 1)),
        ((0, 65_535), (0, 1)),
        ((7, 1), (7, 1)),
        ((7, 7), (1, 1)),
        ((12, 8), (3, 2)),
        ((32, 5), (32, 5)),
        ((30, 42), (5, 7)),
        ((49, 35), (7, 5)),
        // 2 · 3 · 5 · 7 · 11 · 13 over 3 · 5 · 17 · 257
        ((30_030, 65_535), (2_002, 4_369)),
        ((65_534, 65_535), (65_534, 65_535)),
        // 2⁶⁴ - 1 is 65,535 times this.
        ((u64::MAX, 65_535), (281_479_271_743_489, 1)),
        ((u64::MAX - 15, 48), (384_307_168_202_282_325, 1)),
    ] {
        assert_eq!(Fraction::lowest(over, under), Fraction { over: lowest, under: beneath });
    }
}

#[test]
fn means_and_shares_are_reduced_apart() {
    // 8 + 8 + 4 + 4 turns, two borrowed
    let half = [page(2, 8, 1), page(2, 4, 0), page(2, 8, 2), page(2, 4, 0)];
    assert_eq!(printed(&half, 2), "desks 2 pages 4 mean 6/1 borrowed 1/2 largest 8");
    // 6 + 6 + 12 + 18 + 6 + 12 turns, four borrowed
    let turns = [(6, 0), (6, 0), (12, 1), (18, 3), (6, 2), (12, 2)];
    let six = turns.map(|(turns, from)| page(3, turns, from));
    assert_eq!(printed(&six, 3), "desks 3 pages 6 mean 10/1 borrowed 2/3 largest 18");
    // 48 turns, 42 turns, 48 turns
    assert_eq!(printed(&six[..5], 3), "desks 3 pages 5 mean 48/5 borrowed 3/5 largest 18");
    assert_eq!(printed(&six[..4], 3), "desks 3 pages 4 mean 21/2 borrowed 1/2 largest 18");
    assert_eq!(printed(&six[2..], 3), "desks 3 pages 4 mean 12/1 borrowed 1/1 largest 18");
}

#[test]
fn other_desk_counts_add_nothing() {
    let mixed = [page(2, 4, 0), page(8, 128, 3), page(1, 2, 0), page(2, 6, 0)];
    assert_eq!(printed(&mixed, 2), "desks 2 pages 2 mean 5/1 borrowed 0/1 largest 6");
    assert_eq!(printed(&mixed, 8), "desks 8 pages 1 mean 128/1 borrowed 1/1 largest 128");
    assert_eq!(printed(&mixed, 3), "refused 14");
}

/// "Every number kept is unsigned, 32 bits": no file has such turn counts, but a list may.
#[test]
fn sums_pass_32_bits() {
    let most = page(1, u32::MAX, 0);
    let wanted = "desks 1 pages 3 mean 4294967295/1 borrowed 0/1 largest 4294967295";
    assert_eq!(printed(&[most; 3], 1), wanted);
    // 2 · (2³² - 1) + 1 = 8,589,934,591, and one more is 2³³.
    let wanted = "desks 1 pages 3 mean 8589934591/3 borrowed 0/1 largest 4294967295";
    assert_eq!(printed(&[most, page(1, 1, 0), most], 1), wanted);
    let wanted = "desks 1 pages 4 mean 2147483648/1 borrowed 1/4 largest 4294967295";
    assert_eq!(printed(&[most, page(1, 1, 1), most, page(1, 1, 0)], 1), wanted);
    // 65,534 · (2³² - 1) + 2³² - 2 = 65,535 · (2³² - 1) - 1
    let mut many = vec![page(8, u32::MAX, 5); MOST_ANSWERS];
    many[7].turns -= 1;
    let found = figures(&many, 8).unwrap();
    assert_eq!(found.mean, Fraction { over: 281_470_681_677_824, under: 65_535 });
    assert_eq!((found.pages, found.largest), (65_535, u32::MAX));
}

#[test]
fn as_many_answers_as_there_may_be_and_one_more() {
    let mut answers = vec![page(1, 2, 0); 65_535];
    let wanted = "desks 1 pages 65535 mean 2/1 borrowed 0/1 largest 2";
    assert_eq!(printed(&answers, 1), wanted);
    assert_eq!(printed(&answers, 2), "refused 14");
    assert_eq!(printed(&answers, 9), "refused 1");
    answers[100] = page(2, 8, 1);
    assert_eq!(printed(&answers, 2), "desks 2 pages 1 mean 8/1 borrowed 1/1 largest 8");
    answers.push(page(3, 6, 0));
    for asked in 1..=8 {
        assert_eq!(figures(&answers, asked), Err(Refusal::TooManyAnswers));
    }
    for asked in [0, 9, u32::MAX] {
        assert_eq!(figures(&answers, asked), Err(Refusal::DeskCount));
    }
}

#[test]
fn a_quarter_without_days() {
    for asked in 1..=8 {
        assert_eq!(figures(&[], asked), Err(Refusal::NoPage));
    }
    for asked in [0, 9, u32::MAX] {
        assert_eq!(figures(&[], asked), Err(Refusal::DeskCount));
    }
    assert_eq!(Refusal::NoPage as u32, 14);
    assert_eq!(Refusal::TooManyAnswers as u32, 15);
}

#[test]
fn a_file_that_breaks_off_gives_the_pages_before() {
    let day = "open 1\npage 1\nturn 1 x2\nturn 2";
    for (end, number) in [("raw 04", 7), ("raw 04 00 09 00 01 00", 8), ("raw 04 00 02 00 01 00", 9)]
    {
        let more = if number == 7 { "" } else { "page 1\nturn 1 x2" };
        let file = text::to_bytes(&format!("{day}\n{end}\n{more}")).unwrap();
        let pages = DayPages::of(&file);
        assert_eq!(pages.answers, [page(1, 2, 0)]);
        assert_eq!(pages.ended_by.map(|refusal| refusal as u32), Some(number));
        assert_eq!(pages.refused, 1);
    }
    let whole = DayPages::of(&text::to_bytes(day).unwrap());
    assert_eq!((whole.answers.len(), whole.ended_by), (1, None));
}

#[test]
fn desk_counts_as_words() {
    for (word, wanted) in [("0", 0), ("8", 8), ("02", 2), ("0000000000000000000008", 8)] {
        assert_eq!(number(word.as_bytes()), Some(wanted));
    }
    for word in ["4294967298", "18446744073709551618", "99999999999999999999999"] {
        let asked = number(word.as_bytes()).unwrap();
        assert_eq!(figures(&answers("B"), asked), Err(Refusal::DeskCount));
    }
    for word in ["", "-2", "+2", " 2", "2 ", "2.0", "two", "2:", "/2", "٢"] {
        assert_eq!(number(word.as_bytes()), None);
    }
}

#[test]
fn the_parts_of_the_figures() {
    let wanted = Figures {
        desks: 2,
        pages: 2,
        mean: Fraction { over: 8, under: 1 },
        borrowed: Fraction { over: 1, under: 2 },
        largest: 8,
    };
    assert_eq!(figures(&answers("BC"), 2), Ok(wanted));
}
