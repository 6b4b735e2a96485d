//! The end of the day by K2 of document 02, seen from outside: like document 01's tally it is fed the
//! records of a day and their outcomes, and sees neither the day nor its desk records. It answers what
//! is wrong, and counts what the ends of a set of days have reached.

use crate::counts::Reached;
use crate::dayfile::Record;
use crate::register::{most_reads, Refusal, Turn, LAST_EVENT, PLACES};
use crate::runner::Done;

/// A call that is open.
#[derive(Clone, Copy)]
struct Call {
    greatest: u32,
    turns: u32,
}

/// One day.
#[derive(Default)]
pub struct Closing {
    n: u32,
    event: u32,
    open: [Option<Call>; PLACES],
    /// Whether a call was refused with 5 while a desk waited, and some desk waits since then.
    refused: bool,
}

/// Counts by n.
type ByDesks = [u64; PLACES + 1];

/// What the ends of days have reached.
#[derive(Default)]
pub struct Ends {
    /// Calls after which event number and turns owed are 65,535, by kind, page or entry, and by
    /// whether nobody else waits or somebody does.
    just_taken: [[ByDesks; 2]; 2],
    /// Calls refused after which they would be 65,536.
    just_refused: [[ByDesks; 2]; 2],
    last_event: ByDesks,
    /// Where no call is taken any more.
    busy: ByDesks,
    idle: ByDesks,
    /// How often a call was refused with 5 while others waited, and then all of them were ended.
    ended: ByDesks,
}

impl Closing {
    /// Takes in one record of a day and its outcome.
    pub fn watch(
        &mut self,
        record: Option<Record>,
        outcome: Result<Done, Refusal>,
        ends: &mut Ends,
    ) -> Result<(), String> {
        match (record, outcome) {
            (Some(Record::Open { desks }), Ok(_)) => {
                *self = Closing { n: desks.into(), ..Closing::default() };
                Ok(())
            }
            (Some(Record::Entry { desk, .. }), _) => self.call(desk, true, outcome, ends),
            (Some(Record::Page { desk }), _) => self.call(desk, false, outcome, ends),
            (Some(Record::Turn { desk }), _) => self.turn(desk, outcome, ends),
            _ => Ok(()),
        }
    }

    /// "A task owes its greatest number of turns (2n² for a page, 2n²+1 for an entry) less the turns
    /// it has had."
    fn owed(&self) -> u32 {
        self.open.iter().flatten().map(|call| call.greatest - call.turns).sum()
    }

    fn waiting(&self) -> bool {
        self.open.iter().any(Option::is_some)
    }

    /// "a call is taken only if all work can still be ended": 5 "when, for a call, the event number
    /// plus 1, plus all turns owed, plus the greatest number for the new task, exceeds 65,535", and
    /// only then.
    fn call(
        &mut self,
        desk: u16,
        entry: bool,
        outcome: Result<Done, Refusal>,
        ends: &mut Ends,
    ) -> Result<(), String> {
        let (n, others) = (self.n as usize, usize::from(self.waiting()));
        let greatest = most_reads(self.n) + u32::from(entry);
        let last = self.event + 1 + self.owed() + greatest;
        match outcome {
            Ok(_) if last > LAST_EVENT => Err(format!("a call was taken that can need {last}")),
            Ok(_) => {
                ends.just_taken[usize::from(entry)][others][n] += u64::from(last == LAST_EVENT);
                self.open[desk as usize - 1] = Some(Call { greatest, turns: 0 });
                self.accepted(ends)
            }
            Err(Refusal::DayFull) if last <= LAST_EVENT => {
                Err(format!("a call was refused with 5 that needs at most {last}"))
            }
            Err(Refusal::DayFull) => {
                let just = last == LAST_EVENT + 1;
                ends.just_refused[usize::from(entry)][others][n] += u64::from(just);
                self.refused |= self.waiting();
                Ok(())
            }
            Err(Refusal::DeskBusy) => {
                ends.busy[n] += u64::from(self.closed());
                Ok(())
            }
            Err(_) => Ok(()),
        }
    }

    /// Whether no call is taken.
    fn closed(&self) -> bool {
        self.event + 1 + self.owed() + most_reads(self.n) > LAST_EVENT
    }

    /// "a turn never meets it now", and "every accepted call can be ended on the same day, whatever is
    /// accepted later".
    fn turn(
        &mut self,
        desk: u16,
        outcome: Result<Done, Refusal>,
        ends: &mut Ends,
    ) -> Result<(), String> {
        let place = (desk as usize).wrapping_sub(1);
        match (self.open.get(place).copied().flatten(), outcome) {
            (Some(_), Err(refusal)) => {
                Err(format!("a turn of desk {desk}, which waits, was refused: {refusal:?}"))
            }
            (None, Err(Refusal::DayFull)) => Err("a turn was refused with 5".to_string()),
            (None, Err(refusal)) => {
                let idle = refusal == Refusal::DeskIdle && self.closed();
                ends.idle[self.n as usize] += u64::from(idle);
                Ok(())
            }
            (Some(call), Ok(Done::Turned(turn))) => self.turned(place, call, turn, ends),
            (_, Ok(done)) => Err(format!("a turn of desk {desk} was answered {done:?}")),
        }
    }

    /// A turn of a waiting desk, which must be answered within its greatest number of turns.
    fn turned(
        &mut self,
        place: usize,
        call: Call,
        turn: Turn,
        ends: &mut Ends,
    ) -> Result<(), String> {
        let turns = call.turns + 1;
        self.open[place] = match turn {
            Turn::Read if turns == call.greatest => {
                return Err(format!("a desk still waits after {turns} turns"));
            }
            Turn::Read => Some(Call { turns, ..call }),
            Turn::Page { .. } | Turn::Written { .. } => None,
        };
        if self.refused && !self.waiting() {
            self.refused = false;
            ends.ended[self.n as usize] += 1;
        }
        self.accepted(ends)
    }

    /// An accepted call or turn, after which all turns owed must still have their numbers.
    fn accepted(&mut self, ends: &mut Ends) -> Result<(), String> {
        self.event += 1;
        ends.last_event[self.n as usize] += u64::from(self.event == LAST_EVENT);
        match self.event + self.owed() {
            0..=LAST_EVENT => Ok(()),
            last => Err(format!("after event {} all work can need event {last}", self.event)),
        }
    }
}

impl Ends {
    /// What all of the days have to reach.
    pub fn add_to(&self, reached: &mut Reached) {
        for (kind, name) in ["page", "entry"].into_iter().enumerate() {
            for (others, waiting) in ["nobody", "others"].into_iter().enumerate() {
                let from = 1 + others;
                let rest = format!("{waiting} waiting, n = {from} to 8");
                let (taken, refused) = (&self.just_taken[kind][others], &self.just_refused[kind]);
                reached.add(format!("{name} calls just taken, {rest}"), &taken[from..]);
                let name = format!("{name} calls refused 5 for want of one event, {rest}");
                reached.add(name, &refused[others][from..]);
            }
        }
        reached.add("days up to event 65,535, n = 1 to 8", &self.last_event[1..]);
        let name = "all ended after a call was refused 5 while others waited, n = 2 to 8";
        reached.add(name, &self.ended[2..]);
        let name = "calls of waiting desks refused 3 where none is taken, n = 1 to 8";
        reached.add(name, &self.busy[1..]);
        let name = "turns of idle desks refused 4 where no call is taken, n = 1 to 8";
        reached.add(name, &self.idle[1..]);
    }
}
