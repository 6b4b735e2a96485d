//! The end of the day, K2 of document 02: what is owed, 5 and 11 at their edges, and that everybody
//! who waits can be ended.

use model::closing::{Closing, Ends};
use model::dayfile::Record;
use model::days::{closing_day, full_day, last_day};
use model::random::Random;
use model::register::{most_reads, Day, Desk, Refusal, Task, Turn, LAST_EVENT};
use model::runner::{self, Done};

/// Records of desks with these tasks, all else blank.
fn table(tasks: &[Task]) -> Vec<Desk> {
    tasks.iter().map(|&task| Desk { task, ..Desk::default() }).collect()
}

/// A task of each kind that has had no turn, some and all but the last.
fn tasks(n: u32) -> [Task; 8] {
    let most = most_reads(n);
    [
        Task::Page { turns: 0 },
        Task::Page { turns: n },
        Task::Page { turns: most - 1 },
        Task::Entry { turns: 0, word: 7 },
        Task::Entry { turns: n, word: 7 },
        Task::Entry { turns: most - 1, word: 7 },
        Task::Ready { turns: 2 * n, word: 7, at: 0 },
        Task::Ready { turns: most, word: 7, at: 0 },
    ]
}

/// Tables for n desks: all idle, one other busy, all others busy, each in many ways. Desk 1 is idle.
fn tables(n: u32) -> Vec<Vec<Desk>> {
    let others = n as usize - 1;
    let mut tables = vec![table(&vec![Task::Idle; n as usize])];
    for start in 0..if n > 1 { 8 } else { 0 } {
        let some: Vec<Task> = tasks(n).into_iter().cycle().skip(start).take(others).collect();
        let mut one = vec![Task::Idle; n as usize];
        one[1 + start % others] = some[0];
        tables.push(table(&one));
        tables.push(table(&[&[Task::Idle], some.as_slice()].concat()));
    }
    tables
}

fn owed(n: u32, table: &[Desk]) -> u32 {
    table.iter().map(|desk| desk.task.owed(n)).sum()
}

#[test]
fn what_a_task_owes() {
    for (n, page, entry) in [(1, 2, 3), (2, 8, 9), (8, 128, 129)] {
        assert_eq!(Task::Idle.owed(n), 0);
        assert_eq!(Task::Page { turns: 0 }.owed(n), page);
        assert_eq!(Task::Page { turns: page - 1 }.owed(n), 1);
        assert_eq!(Task::Entry { turns: 0, word: 7 }.owed(n), entry);
        assert_eq!(Task::Entry { turns: page - 1, word: 7 }.owed(n), 2);
        assert_eq!(Task::Ready { turns: 2 * n, word: 7, at: 0 }.owed(n), entry - 2 * n);
        assert_eq!(Task::Ready { turns: page, word: 7, at: 0 }.owed(n), 1);
        for turns in [entry, entry + 1, u32::MAX] {
            assert_eq!(Task::Page { turns }.owed(n), 0);
            assert_eq!(Task::Entry { turns, word: 7 }.owed(n), 0);
            assert_eq!(Task::Ready { turns, word: 7, at: 0 }.owed(n), 0);
        }
    }
}

#[test]
fn the_last_calls_of_idle_days() {
    for (n, page, entry) in [(1, 65_532, 65_531), (2, 65_526, 65_525), (8, 65_406, 65_405)] {
        let idle = table(&vec![Task::Idle; n as usize]);
        let called = |event, call: fn(&mut Day, &mut [Desk]) -> Result<(), Refusal>| {
            call(&mut Day { desks: n, event }, &mut idle.clone())
        };
        for event in [0, 1, page - 1, page] {
            assert_eq!(called(event, |day, table| day.page(table, 1)), Ok(()));
        }
        for event in [0, 1, entry - 1, entry] {
            assert_eq!(called(event, |day, table| day.entry(table, 1, 7)), Ok(()));
        }
        for event in [page + 1, page + 2, LAST_EVENT - 1, LAST_EVENT] {
            assert_eq!(called(event, |day, table| day.page(table, 1)), Err(Refusal::DayFull));
        }
        for event in [entry + 1, entry + 2, LAST_EVENT - 1, LAST_EVENT] {
            assert_eq!(called(event, |day, table| day.entry(table, 1, 7)), Err(Refusal::DayFull));
        }
    }
}

/// Whether desk 1's entry or page call is taken; a refusal, which is 5, changes nothing.
fn taken(day: Day, table: &[Desk], entry: bool) -> bool {
    let (mut now, mut lent) = (day, table.to_vec());
    match if entry { now.entry(&mut lent, 1, 7) } else { now.page(&mut lent, 1) } {
        Ok(()) => assert_eq!(now.event, day.event + 1),
        Err(refusal) => {
            assert_eq!((refusal, now, lent.as_slice()), (Refusal::DayFull, day, table));
        }
    }
    now != day
}

#[test]
fn the_last_calls_while_others_wait() {
    for n in 1..=8 {
        for table in tables(n) {
            for entry in [false, true] {
                let greatest = most_reads(n) + u32::from(entry);
                let last = LAST_EVENT - 1 - owed(n, &table) - greatest;
                for (event, wanted) in [(last - 1, true), (last, true), (last + 1, false)] {
                    assert_eq!(taken(Day { desks: n, event }, &table, entry), wanted);
                }
            }
        }
    }
}

/// What is asked of a desk, in three ways.
fn ask(day: Day, table: &[Desk], desk: u32) -> [Option<Refusal>; 3] {
    let (mut page, mut entry, mut turn) = (day, day, day);
    [
        page.page(&mut table.to_vec(), desk).err(),
        entry.entry(&mut table.to_vec(), desk, 7).err(),
        turn.turn(&mut table.to_vec(), desk, &mut [0; 16]).err(),
    ]
}

#[test]
fn days_of_which_too_much_is_owed() {
    for n in 1..=8 {
        for mut table in tables(n) {
            if n == 1 {
                table[0].task = Task::Page { turns: 0 };
            }
            let last = LAST_EVENT - owed(n, &table);
            for (desk, record) in (1..).zip(&table) {
                // The event number and all turns owed are 65,535.
                let asked = ask(Day { desks: n, event: last }, &table, desk);
                let idle = [Refusal::DayFull, Refusal::DayFull, Refusal::DeskIdle].map(Some);
                let busy = [Some(Refusal::DeskBusy), Some(Refusal::DeskBusy), None];
                assert_eq!(asked, if record.task == Task::Idle { idle } else { busy });
            }
            for event in [last + 1, last + 2, LAST_EVENT + 1, u32::MAX] {
                for desk in 0..=n + 1 {
                    let asked = ask(Day { desks: n, event }, &table, desk);
                    assert_eq!(asked, [Some(Refusal::CannotHaveArisen); 3]);
                }
            }
        }
    }
}

/// A task with more turns than it can have had owes nothing, and is 11 all the same.
#[test]
fn any_numbers_are_added_up() {
    for turns in [most_reads(8) + 1, 1 << 31, u32::MAX] {
        for task in [
            Task::Page { turns },
            Task::Entry { turns, word: 7 },
            Task::Ready { turns, word: 7, at: 0 },
        ] {
            for event in [0, LAST_EVENT, LAST_EVENT + 1, u32::MAX] {
                for rest in [Task::Idle, task, Task::Page { turns: 0 }] {
                    let mut damaged = table(&[rest; 8]);
                    damaged[7].task = task;
                    let asked = ask(Day { desks: 8, event }, &damaged, 1);
                    assert_eq!(asked, [Some(Refusal::CannotHaveArisen); 3]);
                }
            }
        }
    }
}

/// A day for n desks of which only so many events are left. Pages alone leave such records.
fn late(n: u32, left: u32) -> (Day, Vec<Desk>) {
    (Day { desks: n, event: LAST_EVENT - left }, table(&vec![Task::Idle; n as usize]))
}

/// Ends everybody who waits, each by its own turns alone, in any order. None is refused, and nobody
/// takes more than is owed.
fn end_all(mut day: Day, mut table: Vec<Desk>, random: &mut Random) {
    let n = day.desks;
    let mut desks: Vec<u32> = (1..=n).collect();
    random.shuffle(&mut desks);
    for desk in desks {
        let mut left = table[desk as usize - 1].task.owed(n);
        while table[desk as usize - 1].task != Task::Idle {
            assert!(left > 0, "desk {desk} still waits");
            assert!(day.turn(&mut table, desk, &mut [0; 16]).is_ok());
            left -= 1;
        }
    }
    assert!(day.event <= LAST_EVENT);
}

#[test]
fn everybody_who_waits_can_be_ended() {
    let mut full = 0;
    for seed in 1..=1_000 {
        let mut random = Random::new(seed);
        let n = 1 + random.below(8) as u32;
        let left = random.below((2 * n * (most_reads(n) + 2)) as usize) as u32;
        let (mut day, mut table) = late(n, left);
        let calls = 1 + random.below(12);
        for _ in 0..random.below(300) {
            let desk = 1 + random.below(n as usize) as u32;
            let busy = table[desk as usize - 1].task != Task::Idle;
            let outcome = match random.below(calls + 4) {
                0 => day.page(&mut table, desk),
                1 => day.entry(&mut table, desk, random.draw() as u32),
                _ => day.turn(&mut table, desk, &mut [0; 16]).map(|_| ()),
            };
            assert!(outcome != Err(Refusal::CannotHaveArisen));
            assert!(!busy || outcome != Err(Refusal::DayFull));
            if outcome == Err(Refusal::DayFull) || random.once_in(4) {
                full += u32::from(outcome == Err(Refusal::DayFull));
                end_all(day, table.clone(), &mut random);
            }
        }
    }
    assert!(full > 1_000, "{full}");
}

/// Runs a day file, with its end checked. Answers its last event.
fn ends(file: &[u8]) -> Result<u32, String> {
    let (mut closing, mut held, mut event) = (Closing::default(), Ok(()), 0);
    runner::run_watched(file, |record, outcome, register| {
        event = register.day.event;
        if held.is_ok() {
            held = closing.watch(record, outcome, &mut Ends::default());
        }
    });
    held.map(|()| event)
}

#[test]
fn days_up_to_their_end() {
    for n in 1..=8 {
        assert_eq!(ends(&last_day(n)), Ok(LAST_EVENT));
        for file in [full_day(n, 1), closing_day(u64::from(n) - 1)] {
            let last = ends(&file).unwrap();
            assert!(last >= LAST_EVENT - 2 * u32::from(n).pow(2), "{last}");
        }
    }
}

/// A day for one desk with this many events, its desk idle.
fn watched(events: u32) -> Closing {
    let mut closing = Closing::default();
    let opened = Some(Record::Open { desks: 1 });
    closing.watch(opened, Ok(Done::Opened), &mut Ends::default()).unwrap();
    assert_eq!(events % 3, 0);
    for _ in 0..events / 3 {
        call(&mut closing, false, None).unwrap();
        turn(&mut closing, Ok(Turn::Read)).unwrap();
        turn(&mut closing, Ok(Turn::Page { from: 0, at: 0, turns: 2 })).unwrap();
    }
    closing
}

fn call(closing: &mut Closing, entry: bool, refused: Option<Refusal>) -> Result<(), String> {
    let record = match entry {
        true => Record::Entry { desk: 1, word: 7 },
        false => Record::Page { desk: 1 },
    };
    let outcome = refused.map_or(Ok(Done::Called), Err);
    closing.watch(Some(record), outcome, &mut Ends::default())
}

fn turn(closing: &mut Closing, outcome: Result<Turn, Refusal>) -> Result<(), String> {
    let record = Some(Record::Turn { desk: 1 });
    closing.watch(record, outcome.map(Done::Turned), &mut Ends::default())
}

#[test]
fn wrong_ends_are_seen() {
    let full = Some(Refusal::DayFull);
    assert!(call(&mut watched(65_532), true, None).is_err(), "taken, and 3 turns do not fit");
    assert!(call(&mut watched(65_532), true, full).is_ok());
    assert!(call(&mut watched(65_532), false, full).is_err(), "refused, and 2 turns fit");
    assert!(call(&mut watched(65_532), false, None).is_ok());
    assert!(call(&mut watched(65_535), false, None).is_err(), "taken after the last event");
    assert!(turn(&mut watched(0), Err(Refusal::DayFull)).is_err(), "a turn refused with 5");
    assert!(turn(&mut watched(0), Err(Refusal::DeskIdle)).is_ok());
    for refusal in [Refusal::DayFull, Refusal::DeskIdle, Refusal::CannotHaveArisen] {
        let mut waiting = watched(0);
        call(&mut waiting, false, None).unwrap();
        assert!(turn(&mut waiting, Err(refusal)).is_err(), "a waiting desk's turn refused");
    }
    let mut waiting = watched(0);
    call(&mut waiting, false, None).unwrap();
    turn(&mut waiting, Ok(Turn::Read)).unwrap();
    assert!(turn(&mut waiting, Ok(Turn::Read)).is_err(), "waiting after 2 turns");
}
