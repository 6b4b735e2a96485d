//! The days of document 01, A to J, by their stated results, I as K2 of document 02 keeps it.

use model::dayfile::{self, Record};
use model::days::{last_day, pages_day};
use model::papers::{missing, Case, CASES, ENDINGS};
use model::register::{most_reads, Day, Desk, Refusal, Turn, LAST_EVENT};
use model::{runner, text};

fn printed(file: &[u8]) -> String {
    runner::run(file)
}

fn case(name: &str) -> &'static Case {
    CASES.iter().find(|case| case.name == name).unwrap()
}

fn states(name: &str) {
    let printed = printed(&text::to_bytes(case(name).day).unwrap());
    assert_eq!(missing(case(name), &printed), None, "{printed}");
}

fn opened(n: u32) -> (Day, Vec<Desk>) {
    let mut day = Day::default();
    let mut table = vec![Desk::default(); n as usize];
    day.open(&mut table, n).unwrap();
    (day, table)
}

#[test]
fn a_one_desk_enters_and_reads() {
    states("A");
    let wanted = case("A").prints.join("\n") + "\n";
    assert_eq!(printed(&text::to_bytes(case("A").day).unwrap()), wanted);
}

#[test]
fn b_a_page_is_borrowed() {
    states("B");
}

#[test]
fn b_row_2_holds_9_at_its_end() {
    let mut row = 0;
    let file = text::to_bytes(case("B").day).unwrap();
    runner::run_watched(&file, |_, _, now| row = now.table[1].row.word);
    assert_eq!(row, 9);
}

#[test]
fn c_the_seq_shows_what_the_word_hides() {
    states("C");
}

#[test]
fn d_two_desks_move_in_one_double_collect() {
    states("D");
}

#[test]
fn e_f_desk_counts() {
    states("E");
    states("F");
    for n in [0, 9, 10, u32::MAX] {
        let mut table = vec![Desk::default(); 9];
        assert_eq!(Day::default().open(&mut table, n), Err(Refusal::DeskCount));
    }
    for n in 1..=8 {
        opened(n);
    }
}

#[test]
fn g_desks_that_are_not_there() {
    states("G");
    for n in 1..=8 {
        let (mut day, mut table) = opened(n);
        for desk in [0, n + 1, u32::MAX] {
            assert_eq!(day.turn(&mut table, desk, &mut [0; 16]), Err(Refusal::NoSuchDesk));
        }
    }
}

/// "case H now ask[s] for 2n places where [it] asked for n"
#[test]
fn h_page_lists() {
    states("H");
    for n in 1..=8 {
        let (mut day, mut table) = opened(n);
        day.page(&mut table, 1).unwrap();
        let mut page = vec![5; 2 * n as usize];
        for short in 0..page.len() {
            let turn = day.turn(&mut table, 1, &mut page[..short]);
            assert_eq!(turn, Err(Refusal::LentSize));
        }
        assert_eq!(day.turn(&mut table, 1, &mut page), Ok(Turn::Read));
        assert_eq!(page, vec![5; 2 * n as usize]);
    }
}

/// "Case I keeps its call and its idle desk only."
#[test]
fn i_the_last_event() {
    for n in 1..=8 {
        let printed = printed(&last_day(n));
        let lines: Vec<&str> = printed.lines().collect();
        let first = format!("{LAST_EVENT} ");
        let last = lines.iter().position(|line| line.starts_with(&first)).unwrap();
        let after = &lines[last + 1..];
        assert_eq!(after.last(), Some(&"end 65535"));
        // Desks 0 and n+1 with three records each, an opening and the end.
        let desks = &after[3..after.len() - 5];
        assert_eq!(desks, ["refused 5", "refused 5", "refused 4"].repeat(n.into()));
    }
}

#[test]
fn i_pages_of_one_desk() {
    let mut file = pages_day(1, None);
    for record in [Record::Page { desk: 1 }, Record::Turn { desk: 1 }] {
        dayfile::write(record, &mut file);
    }
    let printed = printed(&file);
    let lines: Vec<&str> = printed.lines().collect();
    let last = "65535 page 1 from 0 at 65534 turns 2 words 0 last 0";
    assert_eq!(lines[lines.len() - 4..], [last, "refused 5", "refused 4", "end 65535"]);
    assert_eq!(lines.iter().filter(|line| line.contains("page")).count(), 21_845);
}

#[test]
fn j_a_second_call() {
    states("J");
    let with = printed(&text::to_bytes(case("J").day).unwrap());
    let without = printed(&text::to_bytes("open 1\npage 1\nturn 1 x2").unwrap());
    assert_eq!(with.replace("refused 3\n", ""), without);
}

#[test]
fn files_that_break_off() {
    for (lines, wanted) in ENDINGS {
        assert_eq!(printed(&text::to_bytes(lines).unwrap()), wanted);
    }
}

#[test]
fn the_most_reads() {
    let stated = [2, 8, 18, 32, 50, 72, 98, 128];
    assert_eq!((1..=8).map(most_reads).collect::<Vec<u32>>(), stated);
}
