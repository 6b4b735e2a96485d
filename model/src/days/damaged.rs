//! Days of which bytes are lost, changed, doubled or exchanged, and noise.

use super::{damage, lending_day, random_day, Draft};
use crate::dayfile;
use crate::mending;
use crate::random::Random;
use crate::register::PLACES;
use crate::runner;
use std::ops::Range;

#[derive(Clone, Copy, Debug)]
pub enum Damage {
    Lost,
    Changed,
    Doubled,
    Exchanged,
}

pub const DAMAGES: [Damage; 4] =
    [Damage::Lost, Damage::Changed, Damage::Doubled, Damage::Exchanged];

/// Which bytes: some of one part of a record, where an opening has its desk count for a desk; some on
/// both sides of the edge between two records; or whole records.
#[derive(Clone, Copy, Debug)]
pub enum Spot {
    Length,
    Kind,
    Desk,
    Word,
    Edge,
    Records,
}

pub const SPOTS: [Spot; 6] =
    [Spot::Length, Spot::Kind, Spot::Desk, Spot::Word, Spot::Edge, Spot::Records];

/// Of which records: the opening, or a third of the others.
#[derive(Clone, Copy, Debug)]
pub enum Third {
    Opening,
    Beginning,
    Middle,
    End,
}

pub const THIRDS: [Third; 4] = [Third::Opening, Third::Beginning, Third::Middle, Third::End];

/// Every such place. An opening has no word.
pub fn damage_places() -> Vec<(Third, Spot)> {
    let all = THIRDS.into_iter().flat_map(|third| SPOTS.map(|spot| (third, spot)));
    all.filter(|place| !matches!(place, (Third::Opening, Spot::Word))).collect()
}

/// The file that is left of a day: from `first` on so many bytes of the day are damaged, and so many
/// stand in their place.
pub struct Damaged {
    pub file: Vec<u8>,
    first: usize,
    before: usize,
    after: usize,
}

impl Damaged {
    fn new(day: &[u8], damaged: Range<usize>, left: &[u8]) -> Self {
        let file = [&day[..damaged.start], left, &day[damaged.end..]].concat();
        Damaged { file, first: damaged.start, before: damaged.len(), after: left.len() }
    }

    /// Where a byte of the day stands in the file, if it stands behind the damage.
    pub fn moved(&self, place: usize) -> Option<usize> {
        Some(place.checked_sub(self.first + self.before)? + self.first + self.after)
    }
}

/// A day for n desks without a refused record, in which several desks also borrow pages.
pub fn sound_day(n: u16, seed: u64) -> Vec<u8> {
    let mut draft = Draft::opened(n, seed);
    draft.borrowing();
    draft.paced();
    draft.borrowing();
    let mut day = Vec::new();
    runner::run_watched(&draft.file, |record, outcome, _| {
        if let (Some(record), Ok(_)) = (record, outcome) {
            dayfile::write(record, &mut day);
        }
    });
    day
}

/// One damage of a day, the same for the same seed. There are records that have such bytes.
pub fn damaged(day: &[u8], damage: Damage, spot: Spot, third: Third, seed: u64) -> Damaged {
    let mut random = Random::new(seed);
    let edges = edges(day);
    loop {
        let Some((bytes, middle)) = bytes_at(&mut random, &edges, spot, third) else { continue };
        let left = left_of(&mut random, &day[bytes.clone()], middle - bytes.start, damage);
        // Bytes that are alike may have been exchanged.
        if left != day[bytes.clone()] {
            return Damaged::new(day, bytes, &left);
        }
    }
}

/// Some bytes of that kind, if the record that is drawn has such, and a place among them.
fn bytes_at(
    random: &mut Random,
    edges: &[usize],
    spot: Spot,
    third: Third,
) -> Option<(Range<usize>, usize)> {
    let records = records_of(third, edges.len() - 1);
    let i = records.start + random.below(records.len());
    let (start, end) = (edges[i], edges[i + 1]);
    match spot {
        Spot::Length => Some(some_of(random, start..start + 2)),
        Spot::Kind => Some(some_of(random, start + 2..start + 4)),
        Spot::Desk => Some(some_of(random, start + 4..start + 6)),
        Spot::Word if end - start == 10 => Some(some_of(random, start + 6..end)),
        Spot::Word => None,
        Spot::Edge if i + 2 == edges.len() => None,
        // The shortest record has six bytes.
        Spot::Edge => Some((end - 1 - random.below(5)..end + 1 + random.below(5), end)),
        Spot::Records => edges.get(i + 1 + random.below(3)).map(|&last| (start..last, end)),
    }
}

/// The first byte of each record, and the end.
pub fn edges(day: &[u8]) -> Vec<usize> {
    let records = mending::pieces(day).into_iter().map(|piece| piece.first);
    records.chain([day.len()]).collect()
}

fn records_of(third: Third, count: usize) -> Range<usize> {
    let after = |thirds| 1 + (count - 1) * thirds / 3;
    match third {
        Third::Opening => 0..1,
        Third::Beginning => after(0)..after(1),
        Third::Middle => after(1)..after(2),
        Third::End => after(2)..after(3),
    }
}

fn some_of(random: &mut Random, bytes: Range<usize>) -> (Range<usize>, usize) {
    let start = bytes.start + random.below(bytes.len());
    let end = start + 1 + random.below(bytes.end - start);
    (start..end, start + random.below(end - start))
}

/// What a damage leaves of some bytes. Those before `middle` are exchanged with the others.
fn left_of(random: &mut Random, bytes: &[u8], middle: usize, damage: Damage) -> Vec<u8> {
    match damage {
        Damage::Lost => Vec::new(),
        Damage::Changed => bytes.iter().map(|_| byte(random)).collect(),
        Damage::Doubled => bytes.repeat(2),
        Damage::Exchanged => [&bytes[middle..], &bytes[..middle]].concat(),
    }
}

/// Often a small one, as records have them.
fn byte(random: &mut Random) -> u8 {
    match random.once_in(2) {
        true => random.below(12) as u8,
        false => random.draw() as u8,
    }
}

/// A random day with some damages anywhere, the same for the same seed.
pub fn damaged_day(seed: u64) -> Vec<u8> {
    let mut random = Random::new(seed);
    let mut file = match random.below(3) {
        0 => random_day(random.draw()),
        1 => lending_day(random.draw()),
        _ => sound_day(1 + random.below(PLACES) as u16, random.draw()),
    };
    for _ in 0..1 + random.below(5) {
        if file.is_empty() {
            break;
        } else if random.once_in(3) {
            damage(&mut random, &mut file);
        } else {
            damage_some(&mut random, &mut file);
        }
    }
    file
}

/// One damage of up to 21 bytes.
fn damage_some(random: &mut Random, file: &mut Vec<u8>) {
    let start = random.below(file.len());
    let end = file.len().min(start + 2 + random.below(20));
    let (bytes, middle) = some_of(random, start..end);
    let damage = random.pick(&DAMAGES);
    let left = left_of(random, &file[bytes.clone()], middle - bytes.start, damage);
    file.splice(bytes, left);
}

/// Bytes that were never a day: any, small ones, fields of 16 bits with small numbers, or records with
/// wrong lengths, kinds and desks, sometimes out of step. Half of them have an opening in front.
pub fn noise(seed: u64) -> Vec<u8> {
    let mut random = Random::new(seed);
    let most = random.pick(&[10, 100, 1_000, 3_000]);
    let length = random.below(most + 1);
    let kind = random.below(6);
    let mut file = Vec::new();
    if random.once_in(2) {
        file.extend([4, 0, 1, 0, 1 + random.below(PLACES) as u8, 0]);
    }
    while file.len() < length {
        match kind {
            0 => file.push(random.draw() as u8),
            1 => file.push(random.below(10) as u8),
            2 => file.extend([random.below(10) as u8, 0]),
            3 if random.once_in(40) => file.push(random.below(10) as u8),
            _ => near_record(&mut random, &mut file),
        }
    }
    file.truncate(length);
    file
}

/// As many bytes as a small length says.
fn near_record(random: &mut Random, file: &mut Vec<u8>) {
    let length = random.pick(&[0, 1, 2, 3, 4, 4, 4, 4, 4, 5, 6, 7, 8, 8, 9, 10]);
    let kind = random.below(6) as u8;
    let mut bytes = vec![length, 0, kind, 0, random.below(10) as u8, 0];
    bytes.resize_with(2 + length as usize, || byte(random));
    file.extend(bytes);
}
