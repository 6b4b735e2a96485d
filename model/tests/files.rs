//! The reader of day files, the readable lines, and files that break off.

use model::dayfile::{read, write, Record};
use model::days::random_day;
use model::register::Refusal;
use model::{runner, text};

#[test]
fn records_are_read_as_written() {
    for record in [
        Record::Open { desks: 8 },
        Record::Entry { desk: 513, word: 0x0403_0201 },
        Record::Page { desk: 65_535 },
        Record::Turn { desk: 0 },
    ] {
        let mut file = Vec::new();
        write(record, &mut file);
        let length = file.len();
        file.push(4);
        assert_eq!(read(&file), Ok(Some((record, length))));
    }
}

#[test]
fn the_order_of_7_8_and_9() {
    let cases: [(&[u8], Refusal); 14] = [
        (&[4], Refusal::CutShort),
        (&[200], Refusal::CutShort),
        (&[3, 0], Refusal::WrongLength),
        (&[9, 0], Refusal::WrongLength),
        (&[0, 0], Refusal::WrongLength),
        (&[4, 1, 4, 0, 1, 0], Refusal::WrongLength),
        (&[4, 0], Refusal::CutShort),
        (&[4, 0, 9, 0, 1], Refusal::CutShort),
        (&[8, 0, 9, 0, 1, 0], Refusal::CutShort),
        (&[4, 0, 9, 0, 1, 0], Refusal::UnknownKind),
        (&[5, 0, 0, 0, 1, 0, 0], Refusal::UnknownKind),
        (&[4, 0, 4, 1, 1, 0], Refusal::UnknownKind),
        (&[4, 0, 2, 0, 1, 0], Refusal::WrongLength),
        (&[8, 0, 4, 0, 1, 0, 0, 0, 0, 0], Refusal::WrongLength),
    ];
    for (bytes, refusal) in cases {
        assert_eq!(read(bytes), Err(refusal), "{bytes:?}");
    }
    assert_eq!(read(&[]), Ok(None));
}

#[test]
fn lines_and_bytes_stand_for_each_other() {
    for seed in 1..=500 {
        let file = random_day(seed);
        assert_eq!(text::to_bytes(&text::to_text(&file)), Ok(file));
    }
    let lines = "open 2\nentry 1 4294967295\nturn 1 x5\npage 2\nraw 04 00 09\n";
    assert_eq!(text::to_text(&text::to_bytes(lines).unwrap()), lines);
}

#[test]
fn bad_lines_are_named() {
    for bad in ["open", "open 65536", "entry 1", "entry 1 4294967296", "turn x", "raw 4", "close 1"]
    {
        let lines = format!("# a comment\n\nopen 1 # another\n{bad}\nturn 1");
        assert_eq!(text::to_bytes(&lines).unwrap_err().0, 4, "{bad}");
    }
}

#[test]
fn a_failing_read_leaves_the_lines_of_the_whole_records() {
    let file = text::to_bytes("open 1\nentry 1 7\nturn 1 x3\npage 1\nturn 1").unwrap();
    let ends = [0, 6, 16, 22, 28, 34, 40, 46];
    for cut in 0..=file.len() {
        let whole = ends.iter().filter(|&&end| end <= cut).count() - 1;
        let wanted = runner::run(&file[..ends[whole]]);
        let lines: Vec<&str> = wanted.split_inclusive('\n').collect();
        assert_eq!(runner::run_cut_off(&file[..cut]), lines[..whole].concat(), "cut after {cut}");
    }
}
