//! Day files mended: by hand, the samples, and damaged ones beside a mender of the crate's other parts.

use nelvaquist::{mend, mend_into, Answer, DayFile, Dropped, Mended, Refusal, Register, Request};
use std::fs;
use std::path::Path;

/// What lies in room before a mending.
const BYTE: u8 = 0xa5;

/// What lies in a place for a drop before a mending.
const PLACE: Dropped = Dropped { first: 77, count: 0, refusal: Refusal::RoomShort };

fn drop_of(first: usize, count: usize, number: u32) -> Dropped {
    Dropped { first, count, refusal: Refusal::from_number(number).unwrap() }
}

/// A request as it stands in a day file.
fn record(request: Request) -> Vec<u8> {
    let (kind, desk, word) = match request {
        Request::Open { desks } => (1, desks, None),
        Request::Entry { desk, word } => (2, desk, Some(word)),
        Request::Page { desk } => (3, desk, None),
        Request::Turn { desk } => (4, desk, None),
        other => panic!("{other:?}"),
    };
    let body = [[kind, 0], (desk as u16).to_le_bytes()].concat();
    let body = [body, word.map_or(Vec::new(), |word| word.to_le_bytes().to_vec())].concat();
    [&(body.len() as u16).to_le_bytes()[..], &body].concat()
}

fn open(desks: u32) -> Vec<u8> {
    record(Request::Open { desks })
}

fn entry(desk: u32, word: u32) -> Vec<u8> {
    record(Request::Entry { desk, word })
}

fn page(desk: u32) -> Vec<u8> {
    record(Request::Page { desk })
}

fn turn(desk: u32) -> Vec<u8> {
    record(Request::Turn { desk })
}

/// Mends a file, and looks whether the same comes into lent room of several sizes, and what is too
/// short is refused.
fn mended(file: &[u8]) -> Mended {
    let mended = mend(file);
    let (kept, drops) = (mended.kept.len(), mended.dropped.len());
    let more = [(kept, drops), (kept + 1, drops), (kept, drops + 1), (file.len(), drops)];
    for (places, count) in more.into_iter().chain([(file.len() + 3, file.len() / 2 + 1)]) {
        let (mut room, mut rows) = (vec![BYTE; places], vec![PLACE; count]);
        assert_eq!(mend_into(file, &mut room, &mut rows), Ok((kept, drops)));
        assert_eq!(room, [mended.kept.clone(), vec![BYTE; places - kept]].concat());
        assert_eq!(rows, [mended.dropped.clone(), vec![PLACE; count - drops]].concat());
    }
    let byte = kept.checked_sub(1).map(|short| (short, file.len()));
    let row = drops.checked_sub(1).map(|short| (file.len(), short));
    let both = kept.checked_sub(1).zip(drops.checked_sub(1));
    let none = (kept + drops > 0).then_some((0, 0));
    for (places, count) in [byte, row, both, none].into_iter().flatten() {
        let (mut room, mut rows) = (vec![BYTE; places], vec![PLACE; count]);
        assert_eq!(mend_into(file, &mut room, &mut rows), Err(Refusal::RoomShort));
        assert_eq!((room, rows), (vec![BYTE; places], vec![PLACE; count]));
    }
    mended
}

#[test]
fn by_hand() {
    // What stands between an opening and a page call for a day of two desks, and what is dropped of it.
    let cases: [(&[u8], &[Dropped]); 12] = [
        (&[], &[]),
        (&[0, 0], &[drop_of(6, 2, 9)]),
        (&[0, 0, 0, 0], &[drop_of(6, 2, 9), drop_of(8, 2, 9)]),
        (&[3, 0, 4, 0, 4], &[drop_of(6, 5, 9)]),
        (&[9, 0, 4, 0, 1, 0, 0, 0, 0, 0, 0], &[drop_of(6, 11, 9)]),
        (&[4, 0, 2, 0, 1, 0], &[drop_of(6, 6, 9)]),
        (&[4, 0, 9, 0, 1, 0], &[drop_of(6, 6, 8)]),
        (&[8, 0, 2, 1, 1, 0, 7, 0, 0, 0], &[drop_of(6, 10, 8)]),
        (&[4, 0, 1, 0, 2, 0], &[drop_of(6, 6, 10)]),
        (&[4, 0, 3, 0, 3, 0], &[drop_of(6, 6, 2)]),
        (&[8, 0, 2, 0, 0, 0, 7, 0, 0, 0], &[drop_of(6, 10, 2)]),
        (&[4, 0, 4, 0, 1, 0], &[drop_of(6, 6, 4)]),
    ];
    for (damage, drops) in cases {
        let kept = [open(2), page(1)].concat();
        let result = mended(&[&open(2), damage, &page(1)].concat());
        assert_eq!(result, Mended { kept, dropped: drops.to_vec() });
    }
    // What stands behind them.
    let cases: [(&[u8], &[Dropped]); 9] = [
        (&[4], &[drop_of(12, 1, 7)]),
        (&[4, 0], &[drop_of(12, 2, 7)]),
        (&[8, 0, 2, 0, 2, 0, 7, 0, 0], &[drop_of(12, 9, 7)]),
        (&[1, 0], &[drop_of(12, 2, 9)]),
        (&[255, 255, 4, 0, 4], &[drop_of(12, 5, 9)]),
        (&[10, 0, 4, 0, 4, 0, 1, 0], &[drop_of(12, 8, 9)]),
        (&[2, 0, 4, 0, 4], &[drop_of(12, 4, 9), drop_of(16, 1, 7)]),
        (&[4, 0, 3, 0, 1, 0], &[drop_of(12, 6, 3)]),
        (&[4, 0, 4, 0, 2, 0, 0, 0, 8], &[drop_of(12, 6, 4), drop_of(18, 2, 9), drop_of(20, 1, 7)]),
    ];
    for (damage, drops) in cases {
        let kept = [open(2), page(1)].concat();
        let result = mended(&[&kept, damage].concat());
        assert_eq!(result, Mended { kept, dropped: drops.to_vec() });
    }
}

#[test]
fn before_the_opening() {
    assert_eq!(mended(&[]), Mended::default());
    let file = [open(9), page(1), open(0), open(1), turn(1), page(1)].concat();
    let dropped = vec![drop_of(0, 6, 1), drop_of(6, 6, 10), drop_of(12, 6, 1), drop_of(24, 6, 4)];
    assert_eq!(mended(&file), Mended { kept: [open(1), page(1)].concat(), dropped });
    for length in 0..10 {
        let result = mended(&vec![0; length]);
        assert_eq!((result.kept.len(), result.dropped.len()), (0, length / 2 + length % 2));
    }
}

#[test]
fn a_full_day() {
    let events = [page(1), turn(1), turn(1)].concat().repeat(65_535 / 3);
    let day = [open(1), events].concat();
    assert_eq!(mended(&day), Mended { kept: day.clone(), dropped: Vec::new() });
    let more = [&day[..], &entry(1, 7), &page(1), &turn(1)].concat();
    let end = day.len();
    let dropped = vec![drop_of(end, 10, 5), drop_of(end + 10, 6, 5), drop_of(end + 16, 6, 4)];
    assert_eq!(mended(&more), Mended { kept: day.clone(), dropped });
    // A length that says more than 16 bits count, with its own two bytes.
    let wrong = [&day[..6], &[255, 255], &day[6..]].concat();
    let result = mended(&wrong);
    assert_eq!(result.dropped[0], drop_of(6, 65_537, 9));
    assert_eq!(result, by_parts(&wrong).0);
}

/// What is kept and dropped, by the crate's other parts, and what the requests are answered.
fn by_parts(file: &[u8]) -> (Mended, Vec<Answer>) {
    let mut register = Register::new();
    let (mut mended, mut answers) = (Mended::default(), Vec::new());
    let mut first = 0;
    while first < file.len() {
        let mut records = DayFile::new(&file[first..]);
        let read = records.next().unwrap();
        let outcome = read.and_then(|request| register.step(request, &mut [0; 16]));
        let left = file.len() - first;
        let count = match read {
            Ok(_) => left - records.rest().len(),
            Err(Refusal::CutShort) => left,
            Err(_) => left.min(2 + usize::from(u16::from_le_bytes([file[first], file[first + 1]]))),
        };
        match outcome {
            Ok(answer) => {
                mended.kept.extend(&file[first..first + count]);
                answers.push(answer);
            }
            Err(refusal) => mended.dropped.push(Dropped { first, count, refusal }),
        }
        first += count;
    }
    (mended, answers)
}

/// Looks at what is said of every mended file: kept and dropped bytes together are the file, what is
/// kept is run without a refusal and answered as in the file, and mended again, nothing is dropped.
fn holds(file: &[u8], mended: &Mended, answers: &[Answer]) {
    let (mut kept, mut at) = (mended.kept.as_slice(), 0);
    for drop in &mended.dropped {
        let (before, rest) = kept.split_at(drop.first - at);
        assert_eq!(before, &file[at..drop.first]);
        assert!(drop.count > 0);
        (kept, at) = (rest, drop.first + drop.count);
    }
    assert_eq!(kept, &file[at..]);

    let mut register = Register::new();
    let requests = DayFile::new(&mended.kept).map(Result::unwrap);
    let again: Vec<_> = requests.map(|r| register.step(r, &mut [0; 16]).unwrap()).collect();
    assert_eq!(again, answers);
    assert_eq!(mend(&mended.kept), Mended { kept: mended.kept.clone(), dropped: Vec::new() });
}

/// The sample days that are not damaged.
fn samples() -> Vec<Vec<u8>> {
    let samples = Path::new(env!("CARGO_MANIFEST_DIR")).join("../../samples");
    let paths = fs::read_dir(samples).unwrap().map(|entry| entry.unwrap().path());
    let days = paths.filter(|path| path.extension() == Some("day".as_ref()));
    let days = days.filter(|path| path.file_stem() != Some("damaged".as_ref()));
    let days: Vec<Vec<u8>> = days.map(|path| fs::read(path).unwrap()).collect();
    assert_eq!(days.len(), 9);
    days
}

#[test]
fn days_without_damage() {
    for file in samples() {
        let result = mended(&file);
        let (wanted, answers) = by_parts(&file);
        assert_eq!(result, wanted);
        // Only the day refuses, and only single records.
        assert!(result.dropped.iter().all(|drop| matches!(drop.refusal.number(), 1..=4 | 10)));
        assert_eq!(answers.len() + result.dropped.len(), DayFile::new(&file).count());
        holds(&file, &result, &answers);
    }
}

/// Numbers that look random, the same ones on every run.
struct Random(u64);

impl Random {
    fn below(&mut self, bound: usize) -> usize {
        self.0 = self.0.wrapping_mul(6_364_136_223_846_793_005).wrapping_add(1);
        (self.0 >> 33) as usize % bound
    }
}

/// Damages a byte: it is lost, changed, or has another one before it.
fn damage(random: &mut Random, file: &mut Vec<u8>) {
    let at = random.below(file.len());
    match random.below(4) {
        0 => drop(file.remove(at)),
        1 => file.insert(at, random.below(12) as u8),
        2 => file[at] = random.below(12) as u8,
        _ => file[at] ^= 1 << random.below(8),
    }
}

#[test]
fn damaged_days() {
    let (mut random, mut numbers) = (Random(1), [0; 14]);
    for sample in samples() {
        for _ in 0..300 {
            let mut file = sample.clone();
            for _ in 0..=random.below(3) {
                damage(&mut random, &mut file);
            }
            let result = mended(&file);
            let (wanted, answers) = by_parts(&file);
            assert_eq!(result, wanted);
            holds(&file, &result, &answers);
            for drop in result.dropped {
                numbers[drop.refusal.number() as usize] += 1;
            }
        }
    }
    // Every refusal that a file of some records can meet.
    for (number, &count) in numbers.iter().enumerate() {
        assert_eq!(count > 10, matches!(number, 1..=4 | 7..=10), "{number}: {count}");
    }
}
