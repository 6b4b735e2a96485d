use crate::library::{self, Reply};
use crate::{other_version, Answer, Page, Record, Refusal, Task};

/// Something asked of a register: what one record of a day file holds.
#[derive(Clone, Copy, Debug, PartialEq, Eq, Hash)]
#[non_exhaustive]
pub enum Request {
    /// Opens the day.
    Open {
        /// The desk count asked for.
        desks: u32,
    },
    /// An entry call: the desk will write its row.
    Entry {
        /// The desk that calls.
        desk: u32,
        /// The new word.
        word: u32,
    },
    /// A page call: the desk will read all rows.
    Page {
        /// The desk that calls.
        desk: u32,
    },
    /// A turn for the call that a desk has under way.
    Turn {
        /// The desk.
        desk: u32,
    },
}

/// A day of the register: its desk count, its event number and a record for each desk.
///
/// Desks are numbered from 1. A refused request changes nothing. See the [crate's page](crate) for
/// an example.
#[derive(Clone, Debug, Default, PartialEq, Eq, Hash)]
pub struct Register {
    desks: u32,
    event: u32,
    records: Vec<Record>,
}

impl Register {
    /// The most desks that a day can have.
    pub const MOST_DESKS: usize = 8;

    /// The most words that a page list needs, two for each desk: a list of so many is long enough for
    /// any day.
    pub const MOST_PAGE_WORDS: usize = 2 * Register::MOST_DESKS;

    /// A blank day, to be opened.
    ///
    /// ```
    /// use nelvaquist::Register;
    /// use std::sync::Mutex;
    ///
    /// static SHARED: Mutex<Register> = Mutex::new(Register::new());
    /// assert_eq!(SHARED.lock().unwrap().open(2), Ok(()));
    /// ```
    #[must_use]
    pub const fn new() -> Register {
        Register { desks: 0, event: 0, records: Vec::new() }
    }

    /// Takes up a day as it was kept: its desk count, its event number and the records of desks 1,
    /// 2 and so on.
    ///
    /// Anything is taken: what a refusal names is refused at the next request, and the rest is
    /// worked on by the rules.
    #[must_use]
    pub const fn from_parts(desks: u32, event: u32, records: Vec<Record>) -> Register {
        Register { desks, event, records }
    }

    /// All that the day is, to be kept: its desk count, its event number and the records of desks
    /// 1, 2 and so on.
    #[must_use]
    pub fn into_parts(self) -> (u32, u32, Vec<Record>) {
        (self.desks, self.event, self.records)
    }

    /// Whether the day has been opened: its desk count is not 0.
    #[must_use]
    pub const fn is_open(&self) -> bool {
        self.desks != 0
    }

    /// The desk count, 0 before the opening.
    #[must_use]
    pub const fn desks(&self) -> u32 {
        self.desks
    }

    /// The event number: that of the last call or turn accepted, 0 before the first.
    #[must_use]
    pub const fn event(&self) -> u32 {
        self.event
    }

    /// The records of the desks, that of desk 1 first.
    #[must_use]
    pub fn records(&self) -> &[Record] {
        &self.records
    }

    /// The task of a desk, or none if there is no such desk.
    ///
    /// ```
    /// use nelvaquist::{Register, Task};
    ///
    /// let mut register = Register::new();
    /// register.open(2)?;
    /// register.entry(1, 7)?;
    /// assert_eq!(register.task(1), Some(Task::Entry { word: 7, turns: 0 }));
    /// assert_eq!(register.task(2), Some(Task::Idle));
    /// assert_eq!(register.task(3), None);
    /// # Ok::<(), nelvaquist::Refusal>(())
    /// ```
    #[must_use]
    pub fn task(&self, desk: u32) -> Option<Task> {
        if desk > self.desks {
            // A day that was taken up damaged can have a record there nonetheless.
            return None;
        }
        let place = (desk as usize).checked_sub(1)?;
        self.records.get(place).map(Record::task)
    }

    /// Opens a blank day for that many desks, with new records.
    ///
    /// # Errors
    ///
    /// Refused with [`OpenState`](Refusal::OpenState) if the day is open, then with
    /// [`DeskCount`](Refusal::DeskCount) if the count is outside 1 to 8.
    pub fn open(&mut self, desks: u32) -> Result<(), Refusal> {
        self.step(Request::Open { desks }, &mut []).map(|_| ())
    }

    /// An entry call: the desk's turns will write the word to its row.
    ///
    /// # Errors
    ///
    /// Refused, in this order, with [`OpenState`](Refusal::OpenState) if the day is not open,
    /// [`LentSize`](Refusal::LentSize) or [`CannotArise`](Refusal::CannotArise) if it was taken up
    /// damaged, [`NoSuchDesk`](Refusal::NoSuchDesk), [`DeskBusy`](Refusal::DeskBusy) if the desk
    /// has a call under way, and [`DayFull`](Refusal::DayFull) if the day has too few events left to
    /// end it beside all calls under way, whatever turns they come to need.
    pub fn entry(&mut self, desk: u32, word: u32) -> Result<(), Refusal> {
        self.step(Request::Entry { desk, word }, &mut []).map(|_| ())
    }

    /// A page call: the desk's turns will read all rows.
    ///
    /// # Errors
    ///
    /// Refused as an [entry call](Self::entry).
    pub fn page(&mut self, desk: u32) -> Result<(), Refusal> {
        self.step(Request::Page { desk }, &mut []).map(|_| ())
    }

    /// A turn of a desk, answered by [`Read`](Answer::Read) until the last one of its call, which
    /// is answered by [`Page`](Answer::Page) or [`Written`](Answer::Written).
    ///
    /// # Errors
    ///
    /// Refused as an [entry call](Self::entry), but with [`DeskIdle`](Refusal::DeskIdle) if the
    /// desk has no call under way, and never with [`DayFull`](Refusal::DayFull).
    pub fn turn(&mut self, desk: u32) -> Result<Answer, Refusal> {
        let turn = Request::Turn { desk };
        match self.page_words() {
            // A day that was taken up with more desks than any has is not refused for its page list.
            words if words > Register::MOST_PAGE_WORDS => self.step(turn, &mut vec![0; words]),
            _ => self.step(turn, &mut [0; Register::MOST_PAGE_WORDS]),
        }
    }

    /// A run of turns: one for each desk number in the list, in order, as [`turn`](Self::turn) gives
    /// them one by one. It answers what each turn was answered; after one that was refused the next
    /// one follows.
    ///
    /// ```
    /// use nelvaquist::{Answer, Refusal, Register};
    ///
    /// let mut register = Register::new();
    /// register.open(1)?;
    /// register.entry(1, 7)?;
    /// let answers = register.run(&[1, 1, 2, 1])?;
    /// let written = Answer::Written { turns: 3 };
    /// let wanted = [Ok(Answer::Read), Ok(Answer::Read), Err(Refusal::NoSuchDesk), Ok(written)];
    /// assert_eq!(answers, wanted);
    /// # Ok::<(), Refusal>(())
    /// ```
    ///
    /// # Errors
    ///
    /// The run itself is refused, and none of its turns given, with [`OpenState`](Refusal::OpenState)
    /// if the day is not open, then with [`LentSize`](Refusal::LentSize) if it was taken up without
    /// exactly one record for each desk. Whatever else is wrong is answered to each turn.
    pub fn run(&mut self, desks: &[u32]) -> Result<Vec<Result<Answer, Refusal>>, Refusal> {
        let words = self.page_words();
        let mut pages = vec![0; words * desks.len()];
        let replies = self.replies(desks, desks.len(), &mut pages)?;
        Ok((0..).zip(&replies).map(|(i, own)| answer(own, &pages[words * i..])).collect())
    }

    /// A run of turns with two lent tables: what each turn was answered is put in the first, in
    /// order, and a page that it answered in the second, which has two words for each desk of the day
    /// and each turn. There a page is its [words](Page::words) and then, for each row, the number of
    /// its [last writing](Page::last). No other place of either changes, also where they are longer.
    ///
    /// ```
    /// use nelvaquist::{Answer, Refusal, Register};
    ///
    /// let mut register = Register::new();
    /// register.open(2)?;
    /// register.entry(2, 7)?;
    /// register.run(&[2, 2, 2, 2, 2])?; // row 2 is written by event 6
    /// register.page(1)?;
    /// let mut answers = [Ok(Answer::Read); 4];
    /// let mut pages = [9; 4 * 4];
    /// register.run_into(&[1, 1, 1, 1], &mut answers, &mut pages)?;
    /// assert!(matches!(answers[3], Ok(Answer::Page(_))));
    /// assert_eq!(pages, [9, 9, 9, 9, 9, 9, 9, 9, 9, 9, 9, 9, 0, 7, 0, 6]);
    /// # Ok::<(), Refusal>(())
    /// ```
    ///
    /// # Errors
    ///
    /// Refused as [`run`](Self::run), and then with [`TableShort`](Refusal::TableShort) if the first
    /// table has fewer places than there are turns, or the second too few words. Nothing is changed
    /// then.
    pub fn run_into(
        &mut self,
        desks: &[u32],
        answers: &mut [Result<Answer, Refusal>],
        pages: &mut [u32],
    ) -> Result<(), Refusal> {
        let words = self.page_words();
        let replies = self.replies(desks, answers.len(), pages)?;
        for (i, (place, own)) in answers.iter_mut().zip(&replies).enumerate() {
            *place = answer(own, &pages[words * i..]);
        }
        Ok(())
    }

    /// How many words a page takes, for a day with a record for each desk; any other is refused before
    /// it is lent any.
    fn page_words(&self) -> usize {
        2 * self.records.len().min(self.desks as usize)
    }

    /// Gives a run of turns, for whose answers there are so many places. It answers the reply to each.
    fn replies(
        &mut self,
        desks: &[u32],
        places: usize,
        pages: &mut [u32],
    ) -> Result<Vec<Reply>, Refusal> {
        // Places past the turns stay as they are.
        let mut replies = vec![Reply::default(); places.min(desks.len())];
        let day = (self.desks, self.event);
        let reply = library::run(day, &mut self.records, desks, &mut replies, pages);
        self.desks = reply.desks;
        self.event = reply.event;
        match reply.answer {
            0 => Err(refusal(&reply)),
            6 => Ok(replies),
            number => other_version("answer", number),
        }
    }

    /// A request of any kind, with a page list. Only a turn looks at the page list: if it answers a
    /// page, the list's first words become the page's, one for each desk, and the next ones, as many,
    /// the numbers of the rows' [last writings](Page::last). No other word of the list changes.
    ///
    /// ```
    /// use nelvaquist::{DayFile, Register};
    ///
    /// // Opens for 2 desks, then desk 1 asks for a page.
    /// let bytes = [4, 0, 1, 0, 2, 0, 4, 0, 3, 0, 1, 0];
    ///
    /// let mut register = Register::new();
    /// let mut page = [0; Register::MOST_PAGE_WORDS];
    /// for request in DayFile::new(&bytes) {
    ///     register.step(request?, &mut page)?;
    /// }
    /// assert_eq!((register.desks(), register.event()), (2, 1));
    /// # Ok::<(), nelvaquist::Refusal>(())
    /// ```
    ///
    /// # Errors
    ///
    /// Refused as [`open`](Self::open), [`entry`](Self::entry), [`page`](Self::page) and
    /// [`turn`](Self::turn) are; a turn also with [`LentSize`](Refusal::LentSize) if the list has
    /// fewer than two words for each desk of the day.
    pub fn step(&mut self, request: Request, page: &mut [u32]) -> Result<Answer, Refusal> {
        let day = (self.desks, self.event);
        let reply = match request {
            Request::Open { desks } => {
                // A count that is refused is lent no records.
                let most = Register::MOST_DESKS;
                let count = usize::try_from(desks).ok().filter(|&count| count <= most);
                let mut records = vec![Record::default(); count.unwrap_or(0)];
                let reply = library::step(day, &mut records, (1, desks, 0), page);
                if reply.answer != 0 {
                    self.records = records;
                }
                reply
            }
            Request::Entry { desk, word } => {
                library::step(day, &mut self.records, (2, desk, word), page)
            }
            Request::Page { desk } => library::step(day, &mut self.records, (3, desk, 0), page),
            Request::Turn { desk } => library::step(day, &mut self.records, (4, desk, 0), page),
        };
        self.desks = reply.desks;
        self.event = reply.event;
        answer(&reply, page)
    }
}

/// Why a reply refuses.
fn refusal(reply: &Reply) -> Refusal {
    match Refusal::from_number(reply.refusal) {
        Some(refusal) => refusal,
        None => other_version("refusal", reply.refusal),
    }
}

/// What a reply says. What a page shows is at the start of the page list.
fn answer(reply: &Reply, page: &[u32]) -> Result<Answer, Refusal> {
    match reply.answer {
        0 => Err(refusal(reply)),
        1 => Ok(Answer::Opened),
        2 => Ok(Answer::Called),
        3 => Ok(Answer::Read),
        4 => Ok(Answer::Page(Page::new(page, reply.desks, reply.lender, reply.at, reply.turns))),
        5 => Ok(Answer::Written { turns: reply.turns }),
        number => other_version("answer", number),
    }
}
