use std::fmt;

/// The record of one desk: its row, its task and what it has collected, as words.
///
/// Any words make a record; the register judges them when it is asked something.
///
/// | Words | What they are |
/// |---|---|
/// | 0 | the word of the desk's row |
/// | 1 | its last: the event number of the row's last writing, 0 if none |
/// | 2 | its seq: how often the row has been written |
/// | 3 to 18 | its view: the page that the desk found before it last wrote, a word and a last a row |
/// | 19 | its at: the instant of that page |
/// | 20 | the kind of the [task](Task): 0 idle, 1 page, 2 entry, 3 ready |
/// | 21 | the new word of an entry |
/// | 22 | the instant of the view that a ready entry keeps |
/// | 23 | the accepted turns since the call |
/// | 24 to 183 | the first collect: eight rows as read, each as words 0 to 19 are one |
/// | 184 to 343 | the second collect, likewise |
/// | 344 | the event number of the turn that ended the first collect |
/// | 345 to 360 | the kept view: the page that a ready entry keeps for its row, as words 3 to 18 |
/// | 361 to 368 | the marks: of each desk, whether it was seen to write, 0 for no |
///
/// On a day for n desks the first n rows of a view and of a collect count. What a task does not have
/// is ignored.
///
/// This is the layout of version 3 of the library. Records of versions 1 and 2, which have 208 words,
/// cannot be taken up.
///
/// ```
/// use nelvaquist::{Record, Register};
///
/// let mut register = Register::new();
/// register.open(2)?;
/// let (desks, event, records) = register.clone().into_parts();
/// let kept: Vec<[u32; Record::WORDS]> = records.into_iter().map(Record::into_words).collect();
///
/// let records = kept.into_iter().map(Record::from_words).collect();
/// assert_eq!(Register::from_parts(desks, event, records), register);
/// # Ok::<(), nelvaquist::Refusal>(())
/// ```
#[derive(Clone, PartialEq, Eq, Hash)]
#[repr(transparent)]
pub struct Record([u32; Record::WORDS]);

impl Record {
    /// How many words a record has. Later versions may have more or fewer.
    pub const WORDS: usize = 369;

    /// The record that these words are.
    #[must_use]
    pub const fn from_words(words: [u32; Record::WORDS]) -> Record {
        Record(words)
    }

    /// Its words.
    #[must_use]
    pub const fn words(&self) -> &[u32; Record::WORDS] {
        &self.0
    }

    /// Its words, to be kept.
    #[must_use]
    pub const fn into_words(self) -> [u32; Record::WORDS] {
        self.0
    }

    /// The word of the desk's row.
    #[must_use]
    pub const fn word(&self) -> u32 {
        self.0[0]
    }

    /// The event number of the last writing of the desk's row, 0 if there was none.
    #[must_use]
    pub const fn last(&self) -> u32 {
        self.0[1]
    }

    /// How often the desk's row has been written.
    #[must_use]
    pub const fn seq(&self) -> u32 {
        self.0[2]
    }

    /// The desk's task.
    #[must_use]
    pub const fn task(&self) -> Task {
        let (word, at, turns) = (self.0[21], self.0[22], self.0[23]);
        match self.0[20] {
            0 => Task::Idle,
            1 => Task::Page { turns },
            2 => Task::Entry { word, turns },
            3 => Task::Ready { word, at, turns },
            kind => Task::Unknown { kind },
        }
    }
}

/// The record of an idle desk whose row has never been written: every word is 0.
impl Default for Record {
    fn default() -> Record {
        Record([0; Record::WORDS])
    }
}

impl From<[u32; Record::WORDS]> for Record {
    fn from(words: [u32; Record::WORDS]) -> Record {
        Record(words)
    }
}

/// The row's word, last and seq and the task; all 369 words would say less.
impl fmt::Debug for Record {
    fn fmt(&self, f: &mut fmt::Formatter<'_>) -> fmt::Result {
        f.debug_struct("Record")
            .field("word", &self.word())
            .field("last", &self.last())
            .field("seq", &self.seq())
            .field("task", &self.task())
            .finish_non_exhaustive()
    }
}

/// What a desk is doing.
#[derive(Clone, Copy, Debug, PartialEq, Eq, Hash)]
#[non_exhaustive]
pub enum Task {
    /// No call is under way.
    Idle,
    /// A page is being read.
    Page {
        /// The accepted turns since the call.
        turns: u32,
    },
    /// An entry is being read: it finds a page before it writes.
    Entry {
        /// The new word.
        word: u32,
        /// The accepted turns since the call.
        turns: u32,
    },
    /// An entry is ready to write: the desk's next turn writes its row.
    Ready {
        /// The new word.
        word: u32,
        /// The instant of the page that the entry found and will write beside the word.
        at: u32,
        /// The accepted turns since the call.
        turns: u32,
    },
    /// No task has this number: the record was damaged. Calls and turns of its day are refused with
    /// [`CannotArise`](crate::Refusal::CannotArise).
    Unknown {
        /// The number.
        kind: u32,
    },
}
