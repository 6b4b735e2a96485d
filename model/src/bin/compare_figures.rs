//! Runs another program of figures and the model on the same quarters and compares what they print:
//! the papers' days, as many answers as there may be and one more, bad words and files, a terminal, and
//! random quarters. `compare_figures PROGRAM [QUARTERS [SEED]]`: so many random quarters, the first of
//! them of that seed, by default some from seed 1 and some from a fresh one.

use model::comparison::Checked;
use model::days::{pages_day, pages_of_one};
use model::figures::{DayPages, MOST_ANSWERS};
use model::papers;
use model::quarters::Quarters;
use std::path::PathBuf;
use std::process::ExitCode;
use std::time::{Instant, SystemTime, UNIX_EPOCH};

const FIXED: u64 = 400;
const FRESH: u64 = 50;

/// How many random quarters, and the seed of the first.
type Draws = Vec<(u64, u64)>;

fn main() -> ExitCode {
    let started = Instant::now();
    let Some((program, draws)) = arguments() else {
        eprintln!("use: compare_figures PROGRAM [QUARTERS [SEED]]");
        return ExitCode::from(2);
    };
    let compared = Quarters::new(program).and_then(|mut quarters| {
        run(&mut quarters, &draws)?;
        Ok(quarters.alike)
    });
    match compared {
        Ok(alike) => {
            println!("{alike} runs alike, {:.1} s", started.elapsed().as_secs_f64());
            ExitCode::SUCCESS
        }
        Err(why) => {
            println!("{why}");
            ExitCode::FAILURE
        }
    }
}

fn arguments() -> Option<(PathBuf, Draws)> {
    let given: Vec<String> = std::env::args().skip(1).collect();
    let now = SystemTime::now().duration_since(UNIX_EPOCH).ok()?.as_nanos() as u64;
    let (program, draws) = match given.as_slice() {
        [program] => (program, vec![(FIXED, 1), (FRESH, now)]),
        [program, quarters] => (program, vec![(quarters.parse().ok()?, 1)]),
        [program, quarters, seed] => (program, vec![(quarters.parse().ok()?, seed.parse().ok()?)]),
        _ => return None,
    };
    Some((program.into(), draws))
}

fn run(quarters: &mut Quarters, draws: &Draws) -> Checked {
    papers(quarters)?;
    most_answers(quarters)?;
    quarters.inputs()?;
    quarters.terminals()?;
    println!("the papers' days, the most answers, bad words and files: {} alike", quarters.alike);
    for &(count, seed) in draws {
        for seed in (0..count).map(|more| seed.wrapping_add(more)) {
            let again = format!("to see it again: compare_figures PROGRAM 1 {seed}");
            quarters.drawn(seed).map_err(|why| format!("a random quarter {why}\n{again}"))?;
        }
        println!("{count} random quarters from seed {seed} alike");
    }
    let mut reached = quarters.counts.reached();
    quarters.met.add_to(&mut reached);
    print!("{reached}");
    let drawn: u64 = draws.iter().map(|draw| draw.0).sum();
    match reached.missing().as_slice() {
        // One quarter seen again need not reach everything.
        missing if drawn > 1 && !missing.is_empty() => {
            Err(format!("not reached: {}", missing.join("; ")).into())
        }
        _ => Ok(()),
    }
}

/// The days of document 01 as quarters, and their figures, worked out by hand.
fn papers(quarters: &mut Quarters) -> Checked {
    for (names, asked, wanted) in [
        ("A", "1", "desks 1 pages 1 mean 2/1 borrowed 0/1 largest 2"),
        ("B", "2", "desks 2 pages 1 mean 8/1 borrowed 1/1 largest 8"),
        ("D", "3", "desks 3 pages 1 mean 12/1 borrowed 0/1 largest 12"),
        ("BBCHH", "2", "desks 2 pages 5 mean 32/5 borrowed 2/5 largest 8"),
        ("BCHHBC", "2", "desks 2 pages 6 mean 20/3 borrowed 1/3 largest 8"),
        ("ABCDEFGHJ", "1", "desks 1 pages 2 mean 2/1 borrowed 0/1 largest 2"),
        ("ABCDEFGHJ", "2", "desks 2 pages 3 mean 20/3 borrowed 1/3 largest 8"),
        ("ABCDEFGHJ", "3", "desks 3 pages 1 mean 12/1 borrowed 0/1 largest 12"),
        ("ABCDEFGHJ", "8", "refused 14"),
        ("EFG", "2", "refused 14"),
        ("ABCDEFGHJ", "9", "refused 1"),
    ] {
        let files = names.chars().map(|name| papers::day(&name.to_string())).collect();
        let days = quarters.lay_all(files)?;
        quarters.by_hand(&format!("days {names}"), asked, &days, wanted)?;
    }
    Ok(())
}

/// Quarters of 65,535 answers, and with one more: full days of one desk.
fn most_answers(quarters: &mut Quarters) -> Checked {
    let third = MOST_ANSWERS / 3;
    let ones = [third, third, third, 1].map(pages_of_one);
    let days = quarters.lay_all(ones.to_vec())?;
    for (days, asked, wanted) in [
        (&days[..3], "1", "desks 1 pages 65535 mean 2/1 borrowed 0/1 largest 2"),
        (&days[..3], "2", "refused 14"),
        (&days[..], "1", "refused 15"),
        (&days[..], "2", "refused 15"),
        (&days[..], "9", "refused 1"),
    ] {
        quarters.by_hand("full days of one desk", asked, days, wanted)?;
    }
    let names = days.iter().map(|day| day.name.as_str());
    let words: Vec<&str> = ["1"].into_iter().chain(names).chain(["none.day"]).collect();
    quarters.refused(&words, &["none.day"])?;
    several_counts(quarters)
}

/// The same with days for several desk counts, the last of which is cut short.
fn several_counts(quarters: &mut Quarters) -> Checked {
    let third = MOST_ANSWERS / 3;
    let others = [pages_day(8, Some(7)), papers::day("B"), papers::day("D")];
    let pages: usize = others.iter().map(|file| DayPages::of(file).answers.len()).sum();
    let ones = [third, third, third - pages].map(pages_of_one);
    let cut = [papers::day("C"), vec![4]].concat();
    let days = quarters.lay_all([&others[..], &ones, &[cut]].concat())?;
    for asked in ["2", "8"] {
        quarters.check("days for several desk counts", asked, &days[..6])?;
    }
    for (days, asked, wanted) in [
        (&days[..6], "5", "refused 14"),
        (&days[..], "8", "refused 15"),
        (&days[..], "5", "refused 15"),
        (&days[..], "0", "refused 1"),
    ] {
        quarters.by_hand("days for several desk counts", asked, days, wanted)?;
    }
    Ok(())
}
