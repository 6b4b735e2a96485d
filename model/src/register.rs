//! The register of document 01, "Rows, desks and the day" and "What one turn does", sentence by
//! sentence, with the end of the day as K2 of document 02 has it, and the numbers of last writings as
//! K6 has them. Each definition stands below the words that it is, in quotation marks. Desk j of the
//! paper has place j - 1 in tables, collects and views.

/// "A collect has eight rows and a view eight words".
pub const PLACES: usize = 8;

/// "11 is given if [...] the event number above 65,535".
pub const LAST_EVENT: u32 = 65_535;

/// "The most reads for 1 to 8 desks are 2, 8, 18, 32, 50, 72, 98, 128. These are 2n²."
pub fn most_reads(n: u32) -> u32 {
    2 * n * n
}

/// "Reasons to refuse": the numbers of the table and their causes.
#[derive(Clone, Copy, Debug, PartialEq, Eq)]
pub enum Refusal {
    /// "opening with a desk count outside 1 to 8", "when the desk count asked for is outside 1 to 8"
    DeskCount = 1,
    /// "desk number outside 1 to n"
    NoSuchDesk = 2,
    /// "a call by a desk that isn't idle"
    DeskBusy = 3,
    /// "a turn for an idle desk"
    DeskIdle = 4,
    /// "when, for a call, the event number plus 1, plus all turns owed, plus the greatest number for
    /// the new task, exceeds 65,535"
    DayFull = 5,
    /// "the desk table has not exactly n records, or, on a turn, the page list has fewer than n
    /// words", where it "now ask[s] for 2n places"
    LentSize = 6,
    /// "day file cut short"
    CutShort = 7,
    /// "unknown kind"
    UnknownKind = 8,
    /// "length outside 4 to 8, or not that of the kind"
    WrongLength = 9,
    /// "call or turn on a day whose desk count is 0, or opening of a day whose desk count isn't 0"
    OpenOrNot = 10,
    /// "a day that cannot have arisen"
    CannotHaveArisen = 11,
    /// "when either lent output is too small for the result"
    RoomShort = 12,
    /// "when the answer table has fewer places than turns, or the page table fewer than n words for
    /// each turn", where it "now ask[s] for 2n places"
    TableShort = 13,
    /// "when that desk count has no page"
    NoPage = 14,
    /// "when more than 65,535 answers are given"
    TooManyAnswers = 15,
}

/// What a page shows of one row: its word, and "the event number of its last writing, 0 if none".
#[derive(Clone, Copy, Debug, Default, PartialEq, Eq)]
pub struct Shown {
    pub word: u32,
    pub last: u32,
}

/// "*view* (n words)", and "a view keeps n of these" numbers; "a view eight words; those past n are
/// touched only by an opening".
pub type View = [Shown; PLACES];

/// "A row belongs to one desk: word (32 bits, every value allowed, meaning left to the home), seq
/// (how often the row has been written), view (n words) and at (the instant that the view stood)."
/// "Every row keeps the event number of its last writing, 0 if none".
#[derive(Clone, Copy, Debug, Default, PartialEq, Eq)]
pub struct Row {
    pub word: u32,
    pub last: u32,
    pub seq: u32,
    pub view: View,
    pub at: u32,
}

/// "A desk's task is one of: idle; page being read; entry being read, with its new word; entry ready
/// to write, with its word, its view and the view's at. Each but the first carries the accepted
/// turns it has had". "The view and the marks, being arrays, lie beside it."
#[derive(Clone, Copy, Debug, Default, PartialEq, Eq)]
pub enum Task {
    #[default]
    Idle,
    Page {
        turns: u32,
    },
    Entry {
        turns: u32,
        word: u32,
    },
    Ready {
        turns: u32,
        word: u32,
        at: u32,
    },
}

impl Task {
    /// "its greatest number of turns (2n² for a page, 2n²+1 for an entry)"
    pub fn greatest(&self, n: u32) -> u32 {
        match self {
            Task::Idle => 0,
            Task::Page { .. } => most_reads(n),
            Task::Entry { .. } | Task::Ready { .. } => most_reads(n) + 1,
        }
    }

    /// "Each but the first carries the accepted turns it has had".
    pub fn turns(&self) -> u32 {
        match *self {
            Task::Idle => 0,
            Task::Page { turns } | Task::Entry { turns, .. } | Task::Ready { turns, .. } => turns,
        }
    }

    /// "A task owes its greatest number of turns [...] less the turns it has had." One that has had
    /// more, as only a damaged day has it, owes none.
    pub fn owed(&self, n: u32) -> u32 {
        self.greatest(n).saturating_sub(self.turns())
    }
}

/// "A record holds the desk's row, its task and what it has collected: 2n rows as read, one place
/// for each read of a double collect, and the number of the turn that ended the first collect."
#[derive(Clone, Copy, Debug, Default, PartialEq, Eq)]
pub struct Desk {
    pub row: Row,
    pub task: Task,
    /// "a task being read also carries its marks"
    pub marks: [bool; PLACES],
    /// The view of an "entry ready to write".
    pub kept: View,
    pub first: [Row; PLACES],
    pub second: [Row; PLACES],
    pub first_ended: u32,
}

/// "A day has a desk count and an event number. A blank day has both 0."
#[derive(Clone, Copy, Debug, Default, PartialEq, Eq)]
pub struct Day {
    pub desks: u32,
    pub event: u32,
}

/// "A page is answered in the turn that decides it, an entry in its writing turn. The answer carries
/// the count of turns: the accepted turns of that desk since its call. A page's answer carries its
/// at and names its lender, or 0 when clean."
#[derive(Clone, Copy, Debug, PartialEq, Eq)]
pub enum Turn {
    Read,
    Page { from: u32, at: u32, turns: u32 },
    Written { turns: u32 },
}

/// A page that the last read of a double collect has decided.
struct Page {
    from: u32,
    at: u32,
    rows: Vec<Shown>,
}

impl Day {
    /// "Opening sets the desk count to the number asked, and the event number and every number in the
    /// records to 0, all desks idle."
    pub fn open(&mut self, table: &mut [Desk], asked: u32) -> Result<(), Refusal> {
        // "Order for opening: 10, 1, 6 (the table must have the asked number of records)."
        if self.desks != 0 {
            return Err(Refusal::OpenOrNot);
        }
        if asked < 1 || asked > 8 {
            return Err(Refusal::DeskCount);
        }
        if table.len() != asked as usize {
            return Err(Refusal::LentSize);
        }
        self.desks = asked;
        self.event = 0;
        for record in table {
            *record = Desk::default();
        }
        Ok(())
    }

    /// "An entry call gives a desk a new word."
    pub fn entry(&mut self, table: &mut [Desk], desk: u32, word: u32) -> Result<(), Refusal> {
        self.call(table, desk, Task::Entry { turns: 0, word })
    }

    /// "A page call asks for all n words."
    pub fn page(&mut self, table: &mut [Desk], desk: u32) -> Result<(), Refusal> {
        self.call(table, desk, Task::Page { turns: 0 })
    }

    /// "Both only set the task, with all desks unmarked."
    fn call(&mut self, table: &mut [Desk], desk: u32, task: Task) -> Result<(), Refusal> {
        let size_wrong = table.len() != self.desks as usize;
        self.refuse_any(table, size_wrong, desk)?;
        let all_owed = self.all_owed(table);
        let record = &mut table[desk as usize - 1];
        // "then 3 or 4, then 5"
        if record.task != Task::Idle {
            return Err(Refusal::DeskBusy);
        }
        // "5 when, for a call, the event number plus 1, plus all turns owed, plus the greatest number
        // for the new task, exceeds 65,535"
        let greatest = task.greatest(self.desks);
        if u64::from(self.event) + 1 + all_owed + u64::from(greatest) > u64::from(LAST_EVENT) {
            return Err(Refusal::DayFull);
        }
        // "Every accepted call or turn adds 1 to the event number; that is its own number."
        self.event += 1;
        record.clear(self.desks as usize);
        record.task = task;
        Ok(())
    }

    /// "Then each turn of that desk makes one access, and any local decision is part of the same
    /// turn." "When a turn is worked out, one desk's record is lent and changed, and the rows of the
    /// others are only read."
    pub fn turn(
        &mut self,
        table: &mut [Desk],
        desk: u32,
        page: &mut [u32],
    ) -> Result<Turn, Refusal> {
        let n = self.desks as usize;
        // "6, 13 and case H now ask for 2n places where they asked for n"
        let size_wrong = table.len() != n || page.len() < 2 * n;
        self.refuse_any(table, size_wrong, desk)?;
        let rows: Vec<Row> = table.iter().map(|record| record.row).collect();
        let record = &mut table[desk as usize - 1];
        // "then 3 or 4, then 5", but of 5 "a turn never meets it now".
        if record.task == Task::Idle {
            return Err(Refusal::DeskIdle);
        }
        // "Every accepted call or turn adds 1 to the event number; that is its own number."
        self.event += 1;
        Ok(record.turn(&rows, self.event, page))
    }

    /// "For calls and turns: 10, 6, 11, 2, then 3 or 4, then 5." These are the first four; whether the
    /// lent sizes are wrong is another question for a turn than for a call.
    fn refuse_any(&self, table: &[Desk], size_wrong: bool, desk: u32) -> Result<(), Refusal> {
        if self.desks == 0 {
            return Err(Refusal::OpenOrNot);
        }
        if size_wrong {
            return Err(Refusal::LentSize);
        }
        if self.cannot_have_arisen(table) {
            return Err(Refusal::CannotHaveArisen);
        }
        if desk < 1 || desk > self.desks {
            return Err(Refusal::NoSuchDesk);
        }
        Ok(())
    }

    /// "all turns owed"
    pub fn all_owed(&self, table: &[Desk]) -> u64 {
        table.iter().map(|record| u64::from(record.task.owed(self.desks))).sum()
    }

    /// "Number 11 is given if the desk count is above 8, the event number above 65,535, or if in any
    /// of the n records the desk's own row has a seq or at above the event number, a task being read
    /// has had more than 2n²−1 turns, or an entry ready to write more than 2n²."
    fn cannot_have_arisen(&self, table: &[Desk]) -> bool {
        if self.desks > 8 || self.event > LAST_EVENT {
            return true;
        }
        for record in table {
            if record.row.seq > self.event || record.row.at > self.event {
                return true;
            }
            // "11 also when a row's own such number, those in its view aside, is above the event
            // number."
            if record.row.last > self.event {
                return true;
            }
            let most = most_reads(self.desks);
            let too_many = match record.task {
                Task::Idle => false,
                Task::Page { turns } => turns > most - 1,
                Task::Entry { turns, .. } => turns > most - 1,
                Task::Ready { turns, .. } => turns > most,
            };
            if too_many {
                return true;
            }
        }
        // "11 also when event number plus all turns owed exceeds 65,535."
        u64::from(self.event) + self.all_owed(table) > u64::from(LAST_EVENT)
    }
}

impl Desk {
    /// The turn of this desk that has the number `event`, among the n rows.
    fn turn(&mut self, rows: &[Row], event: u32, page: &mut [u32]) -> Turn {
        match self.task {
            Task::Idle => unreachable!("a turn for an idle desk is refused"),
            Task::Page { turns } => self.page_turn(turns, rows, event, page),
            Task::Entry { turns, word } => self.entry_turn(turns, word, rows, event),
            Task::Ready { turns, word, at } => self.write(turns, word, at, event, rows.len()),
        }
    }

    /// "A page's words are put in a lent list of words: its first n are written by a page answer;
    /// later words, and all words on any other turn, remain." "The page list takes them after the
    /// words", so that its first 2n are written.
    fn page_turn(&mut self, turns: u32, rows: &[Row], event: u32, page: &mut [u32]) -> Turn {
        match self.read(turns, rows, event) {
            None => {
                self.task = Task::Page { turns: turns + 1 };
                Turn::Read
            }
            Some(decided) => {
                let n = rows.len();
                for j in 0..n {
                    page[j] = decided.rows[j].word;
                    page[n + j] = decided.rows[j].last;
                }
                self.clear(n);
                self.task = Task::Idle;
                Turn::Page { from: decided.from, at: decided.at, turns: turns + 1 }
            }
        }
    }

    /// "An entry reads a page in this manner first." The page is kept, with its at.
    fn entry_turn(&mut self, turns: u32, word: u32, rows: &[Row], event: u32) -> Turn {
        match self.read(turns, rows, event) {
            None => self.task = Task::Entry { turns: turns + 1, word },
            Some(decided) => {
                for j in 0..rows.len() {
                    self.kept[j] = decided.rows[j];
                }
                self.task = Task::Ready { turns: turns + 1, word, at: decided.at };
            }
        }
        Turn::Read
    }

    /// "A double collect is 2n reads: rows 1 to n, then rows 1 to n again. Reading turn t (from 0)
    /// belongs to double collect t ÷ 2n (rounded down). With p the remainder, p below n reads row p+1
    /// for the first collect, otherwise row p−n+1 for the second. A desk reads its own row too."
    fn read(&mut self, t: u32, rows: &[Row], event: u32) -> Option<Page> {
        let n = rows.len();
        let p = t as usize % (2 * n);
        // "A read replaces only its own place."
        if p < n {
            self.first[p] = replaced(self.first[p], rows[p], n);
        } else {
            self.second[p - n] = replaced(self.second[p - n], rows[p - n], n);
        }
        // "the number of the turn that ended the first collect"
        if p == n - 1 {
            self.first_ended = event;
        }
        // "After the last read"
        if p == 2 * n - 1 {
            self.decide(n)
        } else {
            None
        }
    }

    fn differs(&self, j: usize) -> bool {
        self.first[j].seq != self.second[j].seq
    }

    /// Rules 2, 3 and 4, and lines 4 to 10 of Figure 3.
    fn decide(&mut self, n: usize) -> Option<Page> {
        // "if every row has the same seq in both collects, the page is the words of the second
        // collect. Its at is the number of the turn that ended the first collect." The numbers are
        // those rows' own.
        if (0..n).all(|j| !self.differs(j)) {
            let rows = (0..n).map(|j| self.second[j].shown()).collect();
            return Some(Page { from: 0, at: self.first_ended, rows });
        }
        // "Otherwise desks are looked at from 1 to n."
        for j in 0..n {
            // "A desk whose seq differs and that is marked from an earlier double collect lends: the
            // page is the view, and the at, of its row in the second collect." "The first lender ends
            // the search." The numbers are the view's too.
            if self.differs(j) && self.marks[j] {
                let lent = self.second[j];
                let rows = lent.view[..n].to_vec();
                return Some(Page { from: j as u32 + 1, at: lent.at, rows });
            }
            // "A differing desk that isn't marked becomes marked."
            if self.differs(j) {
                self.marks[j] = true;
            }
        }
        // "With no lender, another double collect begins. Marks remain."
        None
    }

    /// "Its next turn writes its row at once: word, seq plus 1, that page as view, that page's at."
    /// The row "keeps the event number of its last writing", which is this turn's own.
    fn write(&mut self, turns: u32, word: u32, at: u32, event: u32, n: usize) -> Turn {
        self.row.word = word;
        self.row.last = event;
        self.row.seq += 1;
        for j in 0..n {
            self.row.view[j] = self.kept[j];
        }
        self.row.at = at;
        self.clear(n);
        self.task = Task::Idle;
        Turn::Written { turns: turns + 1 }
    }

    /// "A call, and the answer that ends a task, set the collected part, the marks and any kept view
    /// and its at to 0". "A collect has eight rows and a view eight words; those past n are touched
    /// only by an opening." Marks are neither, so all of them are unset; the at is the task's.
    fn clear(&mut self, n: usize) {
        for j in 0..n {
            self.first[j] = replaced(self.first[j], Row::default(), n);
            self.second[j] = replaced(self.second[j], Row::default(), n);
            self.kept[j] = Shown::default();
        }
        self.first_ended = 0;
        self.marks = [false; PLACES];
    }
}

impl Row {
    /// What a page shows of it that was read clean.
    fn shown(&self) -> Shown {
        Shown { word: self.word, last: self.last }
    }
}

/// What a place of a collect holds after a row was put in it: the row, and of the view's words and
/// numbers "those past n are touched only by an opening".
fn replaced(place: Row, row: Row, n: usize) -> Row {
    let mut view = place.view;
    for j in 0..n {
        view[j] = row.view[j];
    }
    Row { word: row.word, last: row.last, seq: row.seq, view, at: row.at }
}
