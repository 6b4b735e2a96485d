//! The mending of damaged day files, K7 of document 02: files worked out by hand, what K7 says of every
//! mended file, and wrong menders that this tells from a right one.

use model::dayfile::{self, Record};
use model::days::{
    damage_places, damaged, damaged_day, edges, full_day, last_day, long_file, noise, pages_day,
    random_day, sound_day, DAMAGES,
};
use model::mend_claims::{drops, drops_nothing, same_events, together};
use model::mend_examples::{Example, EXAMPLES};
use model::mending::{mend, mend_into, pieces, text, Dropped, Mended, Piece, MOST_BYTES, TOO_LONG};
use model::register::Refusal;
use model::runner::{self, Register};
use model::text::to_bytes;

fn bytes(lines: &str) -> Vec<u8> {
    to_bytes(lines).unwrap()
}

fn drop_of(first: usize, count: usize, number: u32) -> Dropped {
    Dropped { first, count, number }
}

#[test]
fn files_worked_out_by_hand() {
    for example in &EXAMPLES {
        let mended = mend(&bytes(example.file));
        assert_eq!(text(&mended.dropped), example.dropped, "{}", example.name);
        assert_eq!(mended.kept, bytes(example.kept), "{}", example.name);
    }
}

/// "first byte (from 0), byte count, refusal number"
#[test]
fn the_parts_of_a_drop() {
    let mended = mend(&bytes("open 2\npage 1\nraw 04 00 02 00 01 00\nturn 1\nraw 04"));
    assert_eq!(mended.dropped, [drop_of(12, 6, 9), drop_of(24, 1, 7)]);
    assert_eq!(text(&mended.dropped), "dropped 6 at 12 refused 9\ndropped 1 at 24 refused 7\n");
    assert_eq!(text(&[]), "");
}

#[test]
fn pieces_are_records_or_what_the_reader_drops() {
    let file = bytes("open 1\nraw 01 00 05\nturn 9\nraw 04 00 09 00 01 00\nraw 08");
    let found: Vec<_> = pieces(&file).iter().map(|p| (p.first, p.count, p.read)).collect();
    let wanted = [
        (0, 6, Ok(Record::Open { desks: 1 })),
        (6, 3, Err(Refusal::WrongLength)),
        (9, 6, Ok(Record::Turn { desk: 9 })),
        (15, 6, Err(Refusal::UnknownKind)),
        (21, 1, Err(Refusal::CutShort)),
    ];
    assert_eq!(found, wanted);
}

/// A day up to event 65,535 has an opening and as many records of 6 bytes.
#[test]
fn a_full_day_and_two_records_more() {
    let mut file = pages_day(1, None);
    let day = file.clone();
    assert_eq!(mend(&file), Mended { kept: day.clone(), dropped: vec![] });
    for record in [Record::Page { desk: 1 }, Record::Turn { desk: 1 }] {
        dayfile::write(record, &mut file);
    }
    let dropped = vec![drop_of(393_216, 6, 5), drop_of(393_222, 6, 4)];
    assert_eq!(mend(&file), Mended { kept: day, dropped });
}

#[test]
fn days_without_a_refused_record_are_kept_whole() {
    for n in 1..=8 {
        for seed in 1..=20 {
            let day = sound_day(n, seed);
            assert_eq!(mend(&day), Mended { kept: day, dropped: vec![] });
        }
    }
}

/// An empty piece has two bytes, and one byte at the end is a drop too.
#[test]
fn as_many_drops_as_there_can_be() {
    for (length, drops) in [(0, 0), (1, 1), (2, 1), (3, 2), (99, 50), (100, 50)] {
        let mended = mend(&vec![0; length]);
        assert_eq!((mended.kept.len(), mended.dropped.len()), (0, drops));
    }
    let mended = mend(&vec![0; MOST_BYTES]);
    assert_eq!(mended.dropped.len(), 3_145_728);
    assert_eq!(mended.dropped.last(), Some(&drop_of(6_291_454, 2, 9)));
    assert_eq!(TOO_LONG, format!("day_mend: the day file has more than {MOST_BYTES} bytes\n"));
}

/// "12 when either lent output is too small for the result, tested before anything is written", and
/// "the counts written are returned and later places remain".
#[test]
fn lent_outputs() {
    let file = bytes("open 1\nraw 00 00\npage 1\nturn 2\nturn 1");
    let wanted = mend(&file);
    assert_eq!((wanted.kept.len(), wanted.dropped.len()), (18, 2));
    let other = drop_of(7, 7, 7);
    for room in [0, 1, 17, 18, 19, 30] {
        for places in [0, 1, 2, 3, 9] {
            let (mut kept, mut dropped) = (vec![0xaa; room], vec![other; places]);
            let answer = mend_into(&file, &mut kept, &mut dropped);
            if room < 18 || places < 2 {
                assert_eq!(answer, Err(Refusal::RoomShort));
                assert_eq!((kept, dropped), (vec![0xaa; room], vec![other; places]));
            } else {
                assert_eq!(answer, Ok((18, 2)));
                assert_eq!(kept, [wanted.kept.clone(), vec![0xaa; room - 18]].concat());
                assert_eq!(dropped, [wanted.dropped.clone(), vec![other; places - 2]].concat());
            }
        }
    }
    assert_eq!(mend_into(&[], &mut [], &mut []), Ok((0, 0)));
    assert_eq!(mend_into(&[4], &mut [], &mut [other]), Ok((0, 1)));
    assert_eq!(Refusal::RoomShort as u32, 12);
}

/// What K7 says of every mended file, said of what a mender makes of one.
fn claims(file: &[u8], mender: &dyn Fn(&[u8]) -> Mended) -> Result<(), String> {
    let mended = mender(file);
    together(file, &mended)?;
    same_events(file, &mended, &runner::run(&mended.kept))?;
    drops_nothing(&mended, &mender(&mended.kept))
}

#[test]
fn the_claims_hold() {
    let random = (1..=500).flat_map(|seed| [damaged_day(seed), noise(seed), random_day(seed)]);
    let special = [full_day(2, 2), last_day(5), long_file(100_003, 1), vec![0; 1_001]];
    for file in random.chain(special) {
        assert_eq!(claims(&file, &mend), Ok(()), "{}", model::text::to_text(&file));
    }
}

#[test]
fn the_claims_hold_for_each_damage_at_each_place() {
    for n in 1..=8 {
        let day = sound_day(n, 7);
        for (third, spot) in damage_places() {
            for damage in DAMAGES {
                let damaged = damaged(&day, damage, spot, third, n.into());
                assert_ne!(damaged.file, day);
                assert_eq!(claims(&damaged.file, &mend), Ok(()));
                // The records behind the damage are as they were.
                for edge in edges(&day) {
                    if let Some(place) = damaged.moved(edge) {
                        assert_eq!(damaged.file[place..], day[edge..]);
                    }
                }
            }
        }
    }
}

#[test]
fn lines_that_name_drops() {
    let lines = "dropped 6 at 12 refused 9\ndropped 1 at 24 refused 7\n";
    assert_eq!(drops(lines), Ok(vec![drop_of(12, 6, 9), drop_of(24, 1, 7)]));
    assert_eq!(drops(""), Ok(vec![]));
    for bad in [
        "\n",
        "dropped 6 at 12 refused 9",
        "dropped 6 at 12 refused 9\n\n",
        "dropped 6 at 12 refused 9 \n",
        "dropped 6 at 12\n",
        "dropped six at 12 refused 9\n",
        "dropped -6 at 12 refused 9\n",
        "dropped 6 from 12 refused 9\n",
        "dropped  6 at 12 refused 9\n",
        "end 6\n",
    ] {
        assert!(drops(bad).is_err(), "{bad:?}");
    }
}

/// Bytes that are not together the file: lost, twice, exchanged, not in order, none.
#[test]
fn pieces_that_are_not_the_file() {
    let file = bytes("open 1\nraw 05 00 09 00 01 00 06\npage 1\nturn 2");
    let right = mend(&file);
    assert_eq!(right.dropped, [drop_of(6, 7, 8), drop_of(19, 6, 2)]);
    assert_eq!(together(&file, &right), Ok(()));
    let refused = |change: fn(&mut Mended)| {
        let mut wrong = right.clone();
        change(&mut wrong);
        assert!(together(&file, &wrong).is_err(), "{wrong:?}");
    };
    refused(|wrong| wrong.kept.truncate(11));
    refused(|wrong| wrong.kept.push(4));
    refused(|wrong| wrong.kept.swap(0, 1));
    refused(|wrong| wrong.dropped.truncate(1));
    refused(|wrong| wrong.dropped.push(wrong.dropped[1]));
    refused(|wrong| wrong.dropped.swap(0, 1));
    refused(|wrong| wrong.dropped.push(drop_of(25, 0, 7)));
    refused(|wrong| wrong.dropped[0].first += 1);
    refused(|wrong| wrong.dropped[0].count += 1);
    refused(|wrong| wrong.dropped[1].count += 1);
    refused(|wrong| wrong.dropped[1].count = usize::MAX);
    refused(|wrong| wrong.dropped.insert(1, drop_of(13, 0, 8)));
}

#[test]
fn a_mended_file_that_runs_otherwise() {
    let file = bytes("open 1\nraw 04 00 09 00 01 00\npage 1\nturn 2\nturn 1");
    let right = mend(&file);
    let printed = runner::run(&right.kept);
    assert_eq!(printed, "open 1\n1 asked 1\n2 read 1\nend 2\n");
    assert_eq!(same_events(&file, &right, &printed), Ok(()));
    for other in [
        "open 1\n1 asked 1\nrefused 2\n2 read 1\nend 2\n",
        "open 1\n1 asked 1\nend 1\n",
        "open 1\n1 asked 1\n2 read 1\n3 read 1\nend 3\n",
        "open 1\n1 asked 1\n2 read 1\nend 2\nend 2\n",
        "",
    ] {
        assert!(same_events(&file, &right, other).is_err(), "{other}");
    }
    let mut wrong = right.clone();
    wrong.dropped[1].number = 3;
    assert!(same_events(&file, &wrong, &printed).is_err());
    let mut again = right.clone();
    again.dropped.clear();
    assert_eq!(drops_nothing(&right, &again), Ok(()));
    assert!(drops_nothing(&right, &right).is_err());
    again.kept.pop();
    assert!(drops_nothing(&right, &again).is_err());
}

/// A mender that drops so many bytes where the reader refuses the rest, and keeps what it keeps.
fn mend_so(
    file: &[u8],
    dropped_on: impl Fn(Refusal, &[u8]) -> usize,
    keeps: impl Fn(Refusal) -> bool,
) -> Mended {
    let mut register = Register::default();
    let mut mended = Mended::default();
    let mut first = 0;
    loop {
        let rest = &file[first..];
        let (outcome, count) = match dayfile::read(rest) {
            Ok(None) => return mended,
            Ok(Some((record, count))) => (register.apply(record).map(drop), count),
            Err(refusal) => (Err(refusal), dropped_on(refusal, rest).min(rest.len())),
        };
        match outcome {
            Err(refusal) if !keeps(refusal) => {
                mended.dropped.push(drop_of(first, count, refusal as u32));
            }
            _ => mended.kept.extend_from_slice(&rest[..count]),
        }
        first += count;
    }
}

fn nothing(_: Refusal) -> bool {
    false
}

/// The right number of bytes.
fn as_said(refusal: Refusal, rest: &[u8]) -> usize {
    match refusal {
        Refusal::CutShort => rest.len(),
        _ => 2 + said(rest),
    }
}

fn said(rest: &[u8]) -> usize {
    rest[0] as usize + 256 * rest[1] as usize
}

fn two_on_7(refusal: Refusal, rest: &[u8]) -> usize {
    match refusal {
        Refusal::CutShort => 2,
        _ => 2 + said(rest),
    }
}

/// On 8 and 9 as many bytes as are told, on 7 the rest.
fn skipping(file: &[u8], skip: fn(&[u8]) -> usize) -> Mended {
    let dropped_on = |refusal: Refusal, rest: &[u8]| match refusal {
        Refusal::CutShort => rest.len(),
        _ => skip(rest),
    };
    mend_so(file, dropped_on, nothing)
}

/// Neighbouring drops as one, with the number of the first.
fn merged(file: &[u8]) -> Mended {
    let Mended { kept, dropped } = mend(file);
    let mut fewer: Vec<Dropped> = Vec::new();
    for drop in dropped {
        match fewer.last_mut().filter(|last| last.first + last.count == drop.first) {
            Some(last) => last.count += drop.count,
            None => fewer.push(drop),
        }
    }
    Mended { kept, dropped: fewer }
}

/// The reader's drops before those of the run.
fn in_two_lists(file: &[u8]) -> Mended {
    let mut mended = mend(file);
    mended.dropped.sort_by_key(|drop| !(7..=9).contains(&drop.number));
    mended
}

/// Behind the first drop of the reader nothing is run, and every record is kept.
fn not_run(file: &[u8]) -> Mended {
    let broken = pieces(file).into_iter().find(|piece| piece.read.is_err());
    let (run, rest) = file.split_at(broken.map_or(file.len(), |piece| piece.first));
    let Mended { mut kept, mut dropped } = mend(run);
    for Piece { first, count, read } in pieces(rest) {
        match read {
            Ok(_) => kept.extend_from_slice(&rest[first..first + count]),
            Err(refusal) => dropped.push(drop_of(run.len() + first, count, refusal as u32)),
        }
    }
    Mended { kept, dropped }
}

fn from_one(file: &[u8]) -> Mended {
    let mut mended = mend(file);
    mended.dropped.iter_mut().for_each(|drop| drop.first += 1);
    mended
}

/// What tells a mender from a right one: what was worked out by hand, or a claim about one of the files.
fn told_by(mender: &dyn Fn(&[u8]) -> Mended, files: &[Vec<u8>]) -> Vec<&'static str> {
    let mut told = Vec::new();
    let by_hand = |example: &Example| {
        let mended = mender(&bytes(example.file));
        text(&mended.dropped) == example.dropped && mended.kept == bytes(example.kept)
    };
    if !EXAMPLES.iter().all(by_hand) {
        told.push("by hand");
    }
    let mended: Vec<(&[u8], Mended)> = files.iter().map(|file| (&file[..], mender(file))).collect();
    if !mended.iter().all(|(file, mended)| together(file, mended).is_ok()) {
        told.push("together");
        // Such drops cannot be cut out.
        return told;
    }
    let runs = |mended: &Mended| runner::run(&mended.kept);
    if !mended.iter().all(|(file, mended)| same_events(file, mended, &runs(mended)).is_ok()) {
        told.push("events");
    }
    let again = |mended: &Mended| mender(&mended.kept);
    if !mended.iter().all(|(_, mended)| drops_nothing(mended, &again(mended)).is_ok()) {
        told.push("again");
    }
    told
}

#[test]
fn wrong_menders_are_told_apart() {
    let files: Vec<Vec<u8>> = (1..=100).map(damaged_day).collect();
    assert!(told_by(&|file| mend_so(file, as_said, nothing), &files).is_empty());
    let wrong: [(&str, &dyn Fn(&[u8]) -> Mended, &[&str]); 17] = [
        ("one byte too few", &|file| skipping(file, |rest| 1 + said(rest)), &["by hand"]),
        ("one byte too many", &|file| skipping(file, |rest| 3 + said(rest)), &["by hand"]),
        (
            "without the length bytes",
            &|file| skipping(file, |rest| said(rest).max(1)),
            &["by hand"],
        ),
        ("the length bytes alone", &|file| skipping(file, |_| 2), &["by hand"]),
        ("byte by byte", &|file| skipping(file, |_| 1), &["by hand"]),
        (
            "the length's first byte",
            &|file| skipping(file, |rest| 2 + rest[0] as usize),
            &["by hand"],
        ),
        ("the rest on 8 and 9", &|file| skipping(file, |rest| rest.len()), &["by hand"]),
        ("two bytes on 7", &|file| mend_so(file, two_on_7, nothing), &["by hand"]),
        (
            "the rest kept on 7",
            &|file| mend_so(file, as_said, |refusal| refusal == Refusal::CutShort),
            &["by hand", "events"],
        ),
        (
            "what the reader drops kept",
            &|file| mend_so(file, as_said, |refusal| (7..=9).contains(&(refusal as u32))),
            &["by hand", "events"],
        ),
        (
            "an idle desk's turn kept",
            &|file| mend_so(file, as_said, |refusal| refusal == Refusal::DeskIdle),
            &["by hand", "events"],
        ),
        (
            "a second opening kept",
            &|file| mend_so(file, as_said, |refusal| refusal == Refusal::OpenOrNot),
            &["by hand", "events"],
        ),
        ("counted from 1", &from_one, &["by hand", "together"]),
        ("merged", &merged, &["by hand", "events"]),
        ("in two lists", &in_two_lists, &["by hand", "together"]),
        ("not run", &not_run, &["by hand", "events", "again"]),
        ("nothing mended", &|file| mend_so(file, as_said, |_| true), &["by hand", "events"]),
    ];
    for (name, mender, by) in wrong {
        assert_eq!(told_by(mender, &files), by, "{name}");
    }
}
