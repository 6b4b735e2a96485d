//! Files to be mended, and rooms of about the size that they need.

use crate::bytes;
use crate::state::Rooms;
use model::dayfile::{self, Record};
use model::days::{self, DAMAGES};
use model::mending::Mended;
use model::random::Random;
use model::register::PLACES;

/// The most bytes and rows beyond those that are needed.
const MOST_MORE: usize = 4;

/// A file: mostly a few records, now and then a damaged day, one without damage, or noise.
pub fn file(random: &mut Random) -> Vec<u8> {
    let seed = random.draw();
    match random.below(60) {
        0 => days::damaged_day(seed),
        1 => days::sound_day(1 + random.below(PLACES) as u16, seed),
        2 => {
            let day = days::sound_day(1 + random.below(PLACES) as u16, seed);
            let (third, spot) = random.pick(&days::damage_places());
            days::damaged(&day, random.pick(&DAMAGES), spot, third, seed).file
        }
        3 | 4 => days::noise(seed),
        _ => records(random),
    }
}

/// Some records for n desks, most of them of one, with others between that are refused or cannot be
/// read, and sometimes a bad end.
fn records(random: &mut Random) -> Vec<u8> {
    let n = 1 + random.below(PLACES);
    let mut file = Vec::new();
    while random.once_in(4) {
        stray(random, n, &mut file);
    }
    if !random.once_in(12) {
        dayfile::write(Record::Open { desks: n as u16 }, &mut file);
    }
    let rarely = random.pick(&[2, 6, 20, 1_000]);
    let favourite = 1 + random.below(n) as u16;
    for _ in 0..random.below(10 + 6 * n) {
        match random.once_in(rarely) {
            true => stray(random, n, &mut file),
            false => dayfile::write(likely(random, n, favourite), &mut file),
        }
    }
    match random.below(6) {
        0 => file.truncate(file.len().saturating_sub(1 + random.below(9))),
        1 | 2 => {
            let length = random.pick(&[0, 1, 2, 3, 9, 10, 200]);
            let left = (length + random.below(3)).saturating_sub(1);
            file.extend([length as u8, 0]);
            file.extend((0..left).map(|_| random.below(6) as u8));
        }
        _ => {}
    }
    file
}

/// A record that a day for n desks may well take.
fn likely(random: &mut Random, n: usize, favourite: u16) -> Record {
    let desk = match random.once_in(8) {
        true => 1 + random.below(n) as u16,
        false => favourite,
    };
    match random.below(12) {
        0 => Record::Entry { desk, word: random.draw() as u32 },
        1 => Record::Page { desk },
        _ => Record::Turn { desk },
    }
}

/// A record of a desk that there is or not, an opening, a small length with as many bytes, which are
/// small fields, one of none, or any bytes.
fn stray(random: &mut Random, n: usize, file: &mut Vec<u8>) {
    let desk = random.below(n + 3) as u16;
    match random.below(6) {
        0 => dayfile::write(Record::Page { desk }, file),
        1 => dayfile::write(Record::Turn { desk }, file),
        2 => dayfile::write(Record::Open { desks: random.below(PLACES + 3) as u16 }, file),
        3 => {
            let length = random.below(12) as u8;
            file.extend([length, 0]);
            file.extend((0..length).map(|byte| (1 - byte % 2) * random.below(6) as u8));
        }
        4 => file.extend([0, 0]),
        _ => {
            let mut bytes = bytes::some(random);
            // The model makes as many records as an opening asks for, so that many take their time.
            if let Some(high) = bytes.get_mut(5) {
                *high %= 2;
            }
            file.extend(bytes);
        }
    }
}

/// Rooms for a file of so many bytes: longer than it needs, just enough, as much as is always enough,
/// just less or more, too short by a byte, by a row, by both, by any number, or none.
pub fn rooms(random: &mut Random, length: usize, mended: &Mended) -> Rooms {
    let (kept, drops) = (mended.kept.len(), mended.dropped.len());
    let (more_bytes, more_rows) = (kept + random.below(MOST_MORE), drops + random.below(MOST_MORE));
    let (byte_short, row_short) = (kept.saturating_sub(1), drops.saturating_sub(1));
    let (places, rows) = match random.below(18) {
        0 => (kept, drops),
        1 => (kept, more_rows),
        2 => (more_bytes, drops),
        3 => (byte_short, drops),
        4 => (byte_short, more_rows),
        5 => (byte_short, length / 2 + 1),
        6 => (kept, row_short),
        7 => (more_bytes, row_short),
        8 => (length, row_short),
        9 => (byte_short, row_short),
        10 => (0, 0),
        11 => (length, length / 2 + 1),
        12 => (length, length / 2),
        13 => (length.saturating_sub(1), length / 2 + 1),
        14 => (length + random.below(20), length / 2 + 1 + random.below(20)),
        15 => (random.below(kept + 1), random.below(drops + 1)),
        _ => (more_bytes, more_rows),
    };
    lent(random, places, rows)
}

/// Rooms of these sizes, in which anything stands.
pub fn lent(random: &mut Random, places: usize, rows: usize) -> Rooms {
    let mut room: Vec<u8> =
        (0..places.div_ceil(8)).flat_map(|_| random.draw().to_le_bytes()).collect();
    room.truncate(places);
    let rows = (0..rows).map(|_| std::array::from_fn(|_| random.draw())).collect();
    Rooms { room, rows }
}

/// Full days, with calls behind them.
pub fn full_days(random: &mut Random) -> Vec<Vec<u8>> {
    (1..=PLACES as u16).map(|n| days::full_day(n, random.draw())).collect()
}

/// A length of 65,535 with all of its bytes, and with the last one missing; and more drops than 16 bits
/// count.
pub fn long(random: &mut Random) -> [Vec<u8>; 3] {
    let open = [4, 0, 1, 0, 1 + random.below(PLACES) as u8, 0];
    let page = [4, 0, 3, 0, 1, 0];
    let skipped = vec![random.below(9) as u8; (1 << 16) - 1];
    [
        [&open[..], &[255, 255], &skipped, &page].concat(),
        [&open[..], &[255, 255], &skipped[1..]].concat(),
        [&open[..], &[0; (2 << 16) + 1]].concat(),
    ]
}

/// The sizes that a file needs, and what is always enough.
pub fn enough(length: usize, mended: &Mended) -> [(usize, usize); 2] {
    [(mended.kept.len(), mended.dropped.len()), (length, length / 2 + 1)]
}

/// The sizes that a file needs, of which it keeps and drops something, each short by one.
pub fn short(mended: &Mended) -> [(usize, usize); 2] {
    let (kept, drops) = (mended.kept.len(), mended.dropped.len());
    [(kept - 1, drops), (kept, drops - 1)]
}
