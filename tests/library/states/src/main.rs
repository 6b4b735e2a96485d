//! Drives the library and the model with the same requests, runs of turns and files to be mended, and
//! compares the answer, the day, every word of every record and every word of the page list, or of a
//! run's two tables, or every byte and row that mending is lent: `states [--follow] [STATES [SEED]]`.
//! First every reading turn that there is and the files worked out by hand, then that many states, then
//! some long runs and files. State k of a seed is state 1 of that seed plus k - 1. With --follow, every
//! state and request or run and every file is printed before the library gets it, for a library that
//! does not come back.

mod library;

use model::days::random_day;
use model::mend_examples::EXAMPLES;
use model::mending::Mended;
use model::random::Random;
use model::register::{most_reads, PLACES};
use model::text::to_bytes;
use states::damage::{self, page_list};
use states::differences::*;
use states::reached::Counts;
use states::record::{Words, ENTRY, PAGE};
use states::state::*;
use states::wanted::{found, wanted, wanted_mending, wanted_run};
use states::{bytes, mends, requests, runs};
use std::process::ExitCode;
use std::time::Instant;

const STATES: u64 = 40_000;
const SEED: u64 = 1;

/// One state in so many is a day grown from an opening.
const GROWN: usize = 100;

/// With one state in so many there is a day on which all desks have called, and a run to its end.
const ENDED: usize = 30;

/// With one state in so many there is a file to be mended, in so many rooms of different sizes.
const MENDED: usize = 8;
const ROOMS: usize = 4;

type Checked = Result<(), String>;

fn main() -> ExitCode {
    let started = Instant::now();
    let Some((follow, states, seed)) = arguments() else {
        eprintln!("use: states [--follow] [STATES [SEED]]");
        return ExitCode::from(2);
    };
    let mut driver = Driver { follow, ..Driver::default() };
    if let Err(why) = driver.all(states, seed) {
        println!("{why}");
        return ExitCode::FAILURE;
    }
    let reached = driver.counts.reached();
    print!("{reached}");
    let missing = reached.missing();
    let Driver { requests, accepted, runs, turns, files, mendings, .. } = driver;
    let seconds = started.elapsed().as_secs_f64();
    println!("{states} states of seed {seed}, {requests} requests, {accepted} of them accepted");
    println!("{runs} runs, {turns} turns in those not refused");
    println!("{files} files, {mendings} mendings, {seconds:.1} s");
    // One state seen again need not reach everything.
    if states > 1 && !missing.is_empty() {
        println!("not reached: {}", missing.join("; "));
        return ExitCode::FAILURE;
    }
    ExitCode::SUCCESS
}

/// Whether to follow, the number of states and the seed.
fn arguments() -> Option<(bool, u64, u64)> {
    let mut given: Vec<String> = std::env::args().skip(1).collect();
    let follow = given.first().is_some_and(|first| first == "--follow");
    given.drain(..usize::from(follow));
    match given.as_slice() {
        [] => Some((follow, STATES, SEED)),
        [states] => Some((follow, states.parse().ok()?, SEED)),
        [states, seed] => Some((follow, states.parse().ok()?, seed.parse().ok()?)),
        _ => None,
    }
}

#[derive(Default)]
struct Driver {
    follow: bool,
    counts: Counts,
    requests: u64,
    accepted: u64,
    runs: u64,
    turns: usize,
    files: u64,
    mendings: u64,
}

impl Driver {
    /// Every reading turn, the files worked out by hand, so many states, and the long runs and files.
    fn all(&mut self, states: u64, seed: u64) -> Checked {
        let again = |why, seed| format!("{why}\nto see it again: states 1 {seed}");
        self.reading_turns(seed).map_err(|why| again(why, seed))?;
        self.examples(seed).map_err(|why| again(why, seed))?;
        for k in 0..states {
            let seed = seed.wrapping_add(k);
            self.one(seed).map_err(|why| again(why, seed))?;
        }
        self.long_runs(seed).map_err(|why| again(why, seed))?;
        self.long_files(seed).map_err(|why| again(why, seed))
    }

    /// Each of the 2n² reading turns of a page and of an entry, for every n.
    fn reading_turns(&mut self, seed: u64) -> Checked {
        let mut random = Random::new(seed);
        for n in 1..=PLACES as u32 {
            for turns in 0..most_reads(n) {
                for kind in [PAGE, ENTRY] {
                    let (state, process) = damage::reading(&mut random, n, kind, turns);
                    let outcome = self.check(&state, Request { kind: TURN, process, word: 0 })?;
                    if outcome.reply.kind == REFUSED {
                        return Err(format!("n = {n}: reading turn {turns} is refused"));
                    }
                }
            }
        }
        Ok(())
    }

    /// A run of more turns than 16 bits count, for every n, also with tables that are too short by one;
    /// and one that needs more words than 32 bits count.
    fn long_runs(&mut self, seed: u64) -> Checked {
        let mut random = Random::new(seed);
        for n in 1..=PLACES {
            let (state, mut run) = runs::long(&mut random, n);
            self.check_run(&state, &run)?;
            let word = run.pages.pop();
            self.check_run(&state, &run)?;
            run.pages.extend(word);
            run.answers.pop();
            self.check_run(&state, &run)?;
        }
        let (state, run) = runs::vast();
        self.check_run(&state, &run).map(|_| ())
    }

    /// The files that the model's tests have worked out by hand.
    fn examples(&mut self, seed: u64) -> Checked {
        let mut random = Random::new(seed);
        for example in &EXAMPLES {
            let file = to_bytes(example.file).map_err(|(_, why)| why)?;
            self.check_file(&mut random, &file)?;
        }
        Ok(())
    }

    /// Full days and other long files, with rooms that are just enough and always enough; the latter
    /// also with such as are too short by one.
    fn long_files(&mut self, seed: u64) -> Checked {
        let mut random = Random::new(seed);
        for file in mends::full_days(&mut random) {
            let mended = self.watch_file(&file);
            let sizes = mends::enough(file.len(), &mended);
            self.check_sizes(&mut random, &file, &mended, &sizes)?;
        }
        for file in mends::long(&mut random) {
            let mended = self.watch_file(&file);
            let sizes = [mends::enough(file.len(), &mended), mends::short(&mended)].concat();
            self.check_sizes(&mut random, &file, &mended, &sizes)?;
        }
        Ok(())
    }

    fn one(&mut self, seed: u64) -> Checked {
        let mut random = Random::new(seed);
        for _ in 0..3 {
            self.check_reader(&bytes::some(&mut random), &mut random)?;
        }
        if random.once_in(GROWN) {
            self.grown(&mut random)?;
        } else {
            self.damaged(&mut random)?;
        }
        if random.once_in(ENDED) {
            let state = damage::called(&mut random);
            let run = runs::ending(&mut random, &state);
            self.check_run(&state, &run)?;
        }
        self.damaged_runs(&mut random)?;
        if random.once_in(MENDED) {
            self.mended(&mut random)?;
        }
        Ok(())
    }

    /// A file, and now and then what is kept of it.
    fn mended(&mut self, random: &mut Random) -> Checked {
        let file = mends::file(random);
        let mended = self.check_file(random, &file)?;
        if random.once_in(4) {
            let again = self.check_file(random, &mended.kept)?;
            self.counts.watch_again(&mended);
            if again.kept != mended.kept || !again.dropped.is_empty() {
                return Err(format!("the model mends a mended file: {:?}", mended.kept));
            }
        }
        Ok(())
    }

    /// A damaged state and two runs, the second on what the first left.
    fn damaged_runs(&mut self, random: &mut Random) -> Checked {
        let mut state = damage::state(random);
        for _ in 0..2 {
            let run = runs::some(random, &state);
            state = self.check_run(&state, &run)?.outcome.after;
        }
        Ok(())
    }

    /// A damaged state and some requests, each on what the one before left, with a new wound now and
    /// then.
    fn damaged(&mut self, random: &mut Random) -> Checked {
        let mut state = damage::state(random);
        let favourite = 1 + random.below(state.count.clamp(1, 8) as usize) as u32;
        let (length, rarely) = match random.below(8) {
            0 => (2 * (state.count.min(8) as usize).pow(2) + 40, 80),
            _ => (1 + random.below(9), 12),
        };
        let (mut accepted, mut refused) = (0, 0);
        for _ in 0..length {
            if random.once_in(rarely) {
                damage::wound(random, &mut state);
            }
            let request = requests::next(random, &state, favourite);
            let outcome = self.check(&state, request)?;
            if outcome.reply.kind == REFUSED {
                refused += 1;
            } else {
                accepted += 1;
                refused = 0;
                self.counts.accepted_on_one(outcome.after.count, accepted);
            }
            if refused > 3 {
                break;
            }
            state = outcome.after;
        }
        Ok(())
    }

    /// A random day, its records read by the library. Turns that follow one another are also given as
    /// a run.
    fn grown(&mut self, random: &mut Random) -> Checked {
        let file = random_day(random.draw());
        let mut state = State { page: page_list(random, 2 * PLACES), ..State::default() };
        let (mut before, mut desks) = (state.clone(), Vec::new());
        let mut place = 0;
        loop {
            let record = self.check_reader(&file[place..], random)?;
            if record.kind != TURN && !desks.is_empty() {
                self.grown_run(random, &before, std::mem::take(&mut desks), &state)?;
            }
            if record.kind == 0 {
                return Ok(());
            }
            place += record.next as usize;
            if record.kind == OPENING && state.count == 0 {
                state.table = rubbish(random, record.process.min(12) as usize);
            }
            let Found { kind, process, word, .. } = record;
            state = self.check(&state, Request { kind, process, word })?.after;
            match kind {
                TURN => desks.push(process),
                _ => before = state.clone(),
            }
        }
    }

    /// A run of turns on the state before them, which leaves what they left one by one.
    fn grown_run(
        &mut self,
        random: &mut Random,
        before: &State,
        desks: Vec<u32>,
        left: &State,
    ) -> Checked {
        let run = runs::with_tables(random, before.count, desks);
        let Outcome { reply, after } = self.check_run(before, &run)?.outcome;
        if reply.kind == RAN {
            self.counts.grown_run(before.count);
            if (after.count, after.event, &after.table) != (left.count, left.event, &left.table) {
                return Err(format!("the model's run is not its turns: {:?}", run.desks));
            }
        }
        Ok(())
    }

    /// A request by `nq_step`, and by the function of its kind.
    fn check(&mut self, state: &State, request: Request) -> Result<Outcome, String> {
        let model = wanted(state, request);
        if self.follow {
            println!("{}request: {}", state_lines(state), request_line(request));
        }
        self.counts.watch(state, request, &model);
        self.requests += 1;
        self.accepted += u64::from(model.reply.kind != REFUSED);
        alike("nq_step", state, request, &model, library::step(state, request))?;
        if let Some(given) = library::named(state, request) {
            alike("the function of its kind", state, request, &model, given)?;
        }
        Ok(model)
    }

    /// A run by `nq_run`, and if it is not refused, its turns one by one by `nq_turn`.
    fn check_run(&mut self, state: &State, run: &Run) -> Result<Ran, String> {
        let model = wanted_run(state, run);
        if self.follow {
            println!("{}{}", state_lines(state), run_lines(run));
        }
        self.counts.watch_run(state, run, &model);
        self.runs += 1;
        ran_alike("nq_run", state, run, &model, library::run(state, run))?;
        if model.outcome.reply.kind == RAN {
            self.turns += run.desks.len();
            let given = library::one_by_one(state, run);
            ran_alike("nq_turn, one by one", state, run, &model, given)?;
        }
        Ok(model)
    }

    fn watch_file(&mut self, file: &[u8]) -> Mended {
        self.files += 1;
        self.counts.watch_file(file)
    }

    /// A file, with rooms of these sizes.
    fn check_sizes(
        &mut self,
        random: &mut Random,
        file: &[u8],
        mended: &Mended,
        sizes: &[(usize, usize)],
    ) -> Checked {
        for &(places, rows) in sizes {
            let rooms = mends::lent(random, places, rows);
            self.check_mending(random, file, mended, &rooms)?;
        }
        Ok(())
    }

    /// A file, with rooms of several sizes.
    fn check_file(&mut self, random: &mut Random, file: &[u8]) -> Result<Mended, String> {
        let mended = self.watch_file(file);
        for _ in 0..ROOMS {
            let rooms = mends::rooms(random, file.len(), &mended);
            self.check_mending(random, file, &mended, &rooms)?;
        }
        Ok(mended)
    }

    /// A mending by `nq_mend`, with anything beside the file.
    fn check_mending(
        &mut self,
        random: &mut Random,
        file: &[u8],
        mended: &Mended,
        rooms: &Rooms,
    ) -> Checked {
        let model = wanted_mending(file, rooms);
        if self.follow {
            println!("{}", mend_lines(file, rooms));
        }
        self.counts.watch_rooms(file.len(), mended, rooms);
        self.mendings += 1;
        let beside = random.draw() as u8;
        let beside = random.pick(&[0, 1, 4, 255, beside]);
        mended_alike(file, rooms, &model, library::mend(file, beside, rooms))
    }

    fn check_reader(&mut self, bytes: &[u8], random: &mut Random) -> Result<Found, String> {
        let model = found(bytes);
        if self.follow {
            println!("to read: {bytes:?}");
        }
        self.counts.watch_reader(bytes, model);
        for after in [0, 1, 255, random.draw() as u8] {
            let given = library::read(bytes, after);
            if given != model {
                let some = &bytes[..bytes.len().min(20)];
                return Err(format!("nq_read of {some:?}: model {model:?}, library {given:?}"));
            }
        }
        Ok(model)
    }
}

fn rubbish(random: &mut Random, records: usize) -> Vec<Words> {
    (0..records).map(|_| std::array::from_fn(|_| damage::number(random))).collect()
}

/// Nothing if the library did as the model in a mending; otherwise what differs, of much the first
/// lines, with the file and the rooms.
fn mended_alike(
    file: &[u8],
    rooms: &Rooms,
    model: &Mending,
    given: Result<Mending, String>,
) -> Checked {
    let lines = match given {
        Ok(library) if library == *model => return Ok(()),
        Ok(library) => first_of(mend_differences(model, &library)),
        Err(why) => why,
    };
    let (rooms, reply) = (mend_lines(file, rooms), model.reply);
    Err(format!("{rooms}by nq_mend\nmodel: {reply:?}\n{lines}"))
}

/// The first lines of much that differs.
fn first_of(mut lines: Vec<String>) -> String {
    let all = lines.len();
    lines.truncate(200);
    format!("{}\n{all} differ", lines.join("\n"))
}

/// Nothing if the library did as the model in a run; otherwise what differs, of much the first lines,
/// with the state and the run.
fn ran_alike(
    function: &str,
    state: &State,
    run: &Run,
    model: &Ran,
    given: Result<Ran, String>,
) -> Checked {
    let lines = match given {
        Ok(library) if library == *model => return Ok(()),
        Ok(library) => first_of(run_differences(model, &library)),
        Err(why) => why,
    };
    let (run, state, reply) = (run_lines(run), state_lines(state), model.outcome.reply);
    Err(format!("{state}{run}by {function}\nmodel: {reply:?}\n{lines}"))
}

/// Nothing if the library did as the model; otherwise all that differs, with the state and the request.
fn alike(
    function: &str,
    state: &State,
    request: Request,
    model: &Outcome,
    given: Result<Outcome, String>,
) -> Checked {
    let lines = match given {
        Ok(library) if library == *model => return Ok(()),
        Ok(library) => differences(model, &library).join("\n"),
        Err(why) => why,
    };
    let (request, state) = (request_line(request), state_lines(state));
    let reply = model.reply;
    Err(format!("{state}request: {request}, by {function}\nmodel: {reply:?}\n{lines}"))
}
