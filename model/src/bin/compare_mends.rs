//! Runs another mender and the model on the same damaged files and compares both outputs: files worked
//! out by hand, days damaged at every kind of place, noise, full days and the longest files. What the
//! mender wrote is held to what K7 says of it, with a day runner and with the mender itself.

use model::comparison::{Checked, Drawn};
use model::days::{damaged_day, noise};
use model::mends::Mends;
use std::path::PathBuf;
use std::process::ExitCode;
use std::time::{Instant, SystemTime, UNIX_EPOCH};

const DAMAGED: Drawn = Drawn { name: "damaged days", make: damaged_day, fixed: 300, fresh: 60 };
const NOISE: Drawn = Drawn { name: "files of noise", make: noise, fixed: 300, fresh: 60 };

fn main() -> ExitCode {
    let started = Instant::now();
    let Some((program, runner, seed)) = arguments() else {
        eprintln!("use: compare_mends DAY_MEND DAY_RUNNER [--seed N]");
        return ExitCode::from(2);
    };
    let mut mends = Mends::new(program, runner);
    match run(&mut mends, seed) {
        Err(why) => {
            println!("{why}");
            ExitCode::FAILURE
        }
        Ok(()) => {
            let seconds = started.elapsed().as_secs_f64();
            println!("{} different mended files, each run and mended again", mends.different());
            println!("{} runs alike, {seconds:.1} s", mends.alike);
            ExitCode::SUCCESS
        }
    }
}

fn arguments() -> Option<(PathBuf, PathBuf, u64)> {
    let given: Vec<String> = std::env::args().skip(1).collect();
    match given.as_slice() {
        [program, runner] => {
            let now = SystemTime::now().duration_since(UNIX_EPOCH).ok()?;
            Some((program.into(), runner.into(), now.as_nanos() as u64))
        }
        [program, runner, flag, seed] if flag == "--seed" => {
            Some((program.into(), runner.into(), seed.parse().ok()?))
        }
        _ => None,
    }
}

fn run(mends: &mut Mends, seed: u64) -> Checked {
    mends.special()?;
    mends.streams()?;
    mends.drawn(&DAMAGED, seed)?;
    mends.drawn(&NOISE, seed)?;
    mends.require()
}
