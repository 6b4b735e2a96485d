use std::error::Error;
use std::fmt;

/// Why a request or a day file is refused. Nothing was changed.
///
/// The numbers stay as they are; later versions may add others.
#[derive(Clone, Copy, Debug, PartialEq, Eq, Hash)]
#[non_exhaustive]
#[repr(u32)]
pub enum Refusal {
    /// 1: the desk count asked for is outside 1 to 8.
    DeskCount = 1,
    /// 2: the desk number is outside 1 to the day's desk count.
    NoSuchDesk = 2,
    /// 3: the desk that calls has a call under way.
    DeskBusy = 3,
    /// 4: the desk that has the turn has no call under way.
    DeskIdle = 4,
    /// 5: the day has too few events left for another call. Of its 65,535 events those that calls
    /// under way can still need are kept for them, so that they can always be ended on the same day.
    /// Finish them, and go on with a new [`Register`](crate::Register); rows are lost. The
    /// [crate's page](crate#full-days) shows how, and how to enter again what stood in the rows. No
    /// turn is refused so.
    DayFull = 5,
    /// 6: there is not exactly one record for each desk of the day, or the page list of a turn has
    /// fewer than two words for each desk.
    LentSize = 6,
    /// 7: the day file ends within a record.
    CutShort = 7,
    /// 8: the day file has a record of an unknown kind.
    UnknownKind = 8,
    /// 9: the day file has a record whose length is outside 4 to 8, or not that of its kind.
    WrongLength = 9,
    /// 10: a call, a turn or a run of turns on a day that is not open, or an opening of a day that is.
    OpenState = 10,
    /// 11: the day cannot have arisen. Its desk count is above 8, its event number above 65,535, or
    /// a record has a row that is newer than the day, an unknown task, or a task that has had more
    /// turns than any can need; or the calls under way can need more turns than the day has events
    /// left.
    CannotArise = 11,
    /// 12: mending a day file is lent less room than the bytes that are kept, or fewer places than
    /// there are drops. Only [`mend_into`](crate::mend_into) is refused with it.
    RoomShort = 12,
    /// 13: a run of turns is lent too few places for its answers or its pages. Only
    /// [`Register::run_into`](crate::Register::run_into) is refused with it.
    TableShort = 13,
}

impl Refusal {
    /// Its number, by which the specification and the day runner name it.
    #[must_use]
    pub const fn number(self) -> u32 {
        self as u32
    }

    /// The refusal of a number, if it is one.
    #[must_use]
    pub const fn from_number(number: u32) -> Option<Refusal> {
        Some(match number {
            1 => Refusal::DeskCount,
            2 => Refusal::NoSuchDesk,
            3 => Refusal::DeskBusy,
            4 => Refusal::DeskIdle,
            5 => Refusal::DayFull,
            6 => Refusal::LentSize,
            7 => Refusal::CutShort,
            8 => Refusal::UnknownKind,
            9 => Refusal::WrongLength,
            10 => Refusal::OpenState,
            11 => Refusal::CannotArise,
            12 => Refusal::RoomShort,
            13 => Refusal::TableShort,
            _ => return None,
        })
    }
}

/// Its [number](Refusal::number).
impl From<Refusal> for u32 {
    fn from(refusal: Refusal) -> u32 {
        refusal.number()
    }
}

impl fmt::Display for Refusal {
    fn fmt(&self, f: &mut fmt::Formatter<'_>) -> fmt::Result {
        f.write_str(match self {
            Refusal::DeskCount => "the desk count is outside 1 to 8",
            Refusal::NoSuchDesk => "the day has no desk of that number",
            Refusal::DeskBusy => "the desk has a call under way",
            Refusal::DeskIdle => "the desk has no call under way",
            Refusal::DayFull => "the day has too few events left for another call",
            Refusal::LentSize => "there is not one record for each desk, or the page list is short",
            Refusal::CutShort => "the day file is cut short",
            Refusal::UnknownKind => "the day file has a record of an unknown kind",
            Refusal::WrongLength => "the day file has a record of a wrong length",
            Refusal::OpenState => {
                "an opening of an open day, or another request before the opening"
            }
            Refusal::CannotArise => "the day cannot have arisen",
            Refusal::RoomShort => "the room for a mended day file or its drops is too short",
            Refusal::TableShort => "the tables of a run of turns are too short",
        })
    }
}

impl Error for Refusal {}
