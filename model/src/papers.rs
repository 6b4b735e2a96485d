//! The days that document 01 gives to check by hand, with what it states about them, the numbers of
//! last writings that K6 of document 02 adds, and their books by document 02, worked out by hand.
//! Day I has 65,535 events and is made by `days::last_day`.

use crate::text;

pub struct Case {
    pub name: &'static str,
    /// In the lines of `text`.
    pub day: &'static str,
    /// Lines that the day prints, in this order. For A the paper states all.
    pub prints: &'static [&'static str],
    pub book: &'static str,
}

pub const CASES: [Case; 9] = [
    Case {
        name: "A",
        day: include_str!("../../samples/a.txt"),
        prints: &[
            "open 1",
            "1 entry 1 7",
            "2 read 1",
            "3 read 1",
            "4 written 1 turns 3",
            "5 asked 1",
            "6 read 1",
            "7 page 1 from 0 at 6 turns 2 words 7 last 4",
            "refused 4",
            "end 7",
        ],
        book: "4 entry 1 7\n6 page 1 words 7\nend 2\n",
    },
    Case {
        name: "B",
        day: include_str!("../../samples/b.txt"),
        prints: &["11 read 1", "21 page 1 from 2 at 16 turns 8 words 0 7 last 0 9", "end 21"],
        book: "9 entry 2 7\n16 page 1 words 0 7\n19 entry 2 9\nend 3\n",
    },
    Case {
        name: "C",
        day: include_str!("../../samples/c.txt"),
        prints: &["11 read 1", "15 page 1 from 0 at 13 turns 8 words 0 0 last 0 9", "end 15"],
        book: "9 entry 2 0\n13 page 1 words 0 0\nend 2\n",
    },
    Case {
        name: "D",
        day: include_str!("../../samples/d.txt"),
        prints: &["29 page 3 from 0 at 26 turns 12 words 5 6 0 last 10 18 0", "end 29"],
        book: "10 entry 1 5\n18 entry 2 6\n26 page 3 words 5 6 0\nend 3\n",
    },
    Case {
        name: "E",
        day: include_str!("../../samples/e.txt"),
        prints: &["open 8", "end 0"],
        book: "end 0\n",
    },
    Case {
        name: "F",
        day: include_str!("../../samples/f.txt"),
        prints: &["refused 1", "refused 1", "end 0"],
        book: "end 0\n",
    },
    Case {
        name: "G",
        day: include_str!("../../samples/g.txt"),
        prints: &["open 2", "refused 2", "refused 2", "end 0"],
        book: "end 0\n",
    },
    Case {
        name: "H",
        day: include_str!("../../samples/h.txt"),
        prints: &["5 page 1 from 0 at 3 turns 4 words 0 0 last 0 0", "end 5"],
        book: "3 page 1 words 0 0\nend 1\n",
    },
    Case {
        name: "J",
        day: include_str!("../../samples/j.txt"),
        prints: &["refused 3", "refused 3", "3 page 1 from 0 at 2 turns 2 words 0 last 0", "end 3"],
        book: "2 page 1 words 0\nend 1\n",
    },
];

/// The empty file and the paper's small examples of refusals 7, 8 and 9, with what they print.
pub const ENDINGS: [(&str, &str); 4] = [
    ("", "end 0\n"),
    ("raw 04", "refused 7\nend 0\n"),
    ("raw 04 00 09 00 01 00", "refused 8\nend 0\n"),
    ("raw 04 00 02 00 01 00", "refused 9\nend 0\n"),
];

/// The day file of a case.
pub fn day(name: &str) -> Vec<u8> {
    let case = CASES.iter().find(|case| case.name == name).expect("a day of document 01");
    text::to_bytes(case.day).expect("good lines")
}

/// The first stated line that a printout lacks. For A the printout must be the lines alone.
pub fn missing(case: &Case, printed: &str) -> Option<&'static str> {
    let mut lines = printed.lines();
    let missing = case.prints.iter().find(|&stated| !lines.any(|line| line == *stated));
    let whole = case.name != "A" || printed.lines().count() == case.prints.len();
    missing.copied().or(if whole { None } else { Some("nothing but the stated lines") })
}
