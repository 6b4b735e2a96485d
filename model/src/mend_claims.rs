//! What K7 of document 02 says of a mended file and of what was dropped, checked on what a program
//! wrote: each check answers what is wrong. None of them asks how the model would mend the file.

use crate::mending::{Dropped, Mended};
use crate::runner;

/// The drops that the lines on standard error name.
pub fn drops(lines: &str) -> Result<Vec<Dropped>, String> {
    let lines = lines.split_inclusive('\n');
    lines.map(|line| drop_in(line).ok_or_else(|| format!("it names no drop: {line:?}"))).collect()
}

fn drop_in(line: &str) -> Option<Dropped> {
    let mut words = line.strip_suffix('\n')?.split(' ');
    let mut after = |name| words.next().filter(|word| *word == name).and_then(|_| words.next());
    let (count, first, number) = (after("dropped")?, after("at")?, after("refused")?);
    let dropped = Dropped {
        first: first.parse().ok()?,
        count: count.parse().ok()?,
        number: number.parse().ok()?,
    };
    words.next().is_none().then_some(dropped)
}

/// "Kept and dropped bytes together are the file, in order." Each drop stands behind the one before,
/// and none is empty.
pub fn together(file: &[u8], mended: &Mended) -> Result<(), String> {
    let mut laid = Vec::new();
    let mut kept = mended.kept.as_slice();
    for drop in &mended.dropped {
        let before = drop.first.checked_sub(laid.len());
        let Some((placed, rest)) = before.and_then(|before| kept.split_at_checked(before)) else {
            return Err(format!("what comes before it does not fit: {drop:?}"));
        };
        let end = drop.first.saturating_add(drop.count);
        let Some(bytes) = file.get(drop.first..end).filter(|bytes| !bytes.is_empty()) else {
            return Err(format!("there are no such bytes: {drop:?}"));
        };
        laid.extend_from_slice(placed);
        laid.extend_from_slice(bytes);
        kept = rest;
    }
    laid.extend_from_slice(kept);
    match laid == file {
        true => Ok(()),
        false => Err("kept and dropped bytes together are not the file".to_string()),
    }
}

/// "The written file runs without refusal and gives the same accepted events": what a day runner
/// prints for it is what the records that remain print, but for the refused ones. Those are the drops
/// that the reader did not make. It asks for `together`.
pub fn same_events(file: &[u8], mended: &Mended, printed: &str) -> Result<(), String> {
    if let Some(line) = printed.lines().find(|line| is_refused(line)) {
        return Err(format!("the mended file runs with a line '{line}'"));
    }
    let lines = runner::run(&remaining(file, &mended.dropped));
    let (refused, accepted): (Vec<&str>, Vec<&str>) = lines.lines().partition(is_refused);
    if let Some((wanted, line)) = accepted.iter().zip(printed.lines()).find(|(a, b)| *a != b) {
        return Err(format!("the mended file prints '{line}', and not '{wanted}'"));
    }
    if accepted.len() != printed.lines().count() {
        return Err(format!("the mended file prints not {} lines", accepted.len()));
    }
    let run = mended.dropped.iter().filter(|drop| !is_the_readers(drop));
    match run.map(|drop| format!("refused {}", drop.number)).eq(refused) {
        true => Ok(()),
        false => Err("the records that remain are refused otherwise than they are dropped".into()),
    }
}

fn is_refused(line: &&str) -> bool {
    line.starts_with("refused")
}

fn is_the_readers(drop: &Dropped) -> bool {
    (7..=9).contains(&drop.number)
}

/// "the records that remain" where the reader has dropped what it refuses
fn remaining(file: &[u8], dropped: &[Dropped]) -> Vec<u8> {
    let mut left = Vec::new();
    let mut next = 0;
    for drop in dropped.iter().filter(|drop| is_the_readers(drop)) {
        left.extend_from_slice(&file[next..drop.first]);
        next = drop.first + drop.count;
    }
    left.extend_from_slice(&file[next..]);
    left
}

/// "mending it again drops nothing"
pub fn drops_nothing(mended: &Mended, again: &Mended) -> Result<(), String> {
    match again.dropped.is_empty() && again.kept == mended.kept {
        true => Ok(()),
        false => Err("the mended file is mended again".to_string()),
    }
}
