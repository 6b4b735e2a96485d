use crate::Register;
use std::fmt;

/// What an accepted request did.
#[derive(Clone, Copy, Debug, PartialEq, Eq, Hash)]
#[non_exhaustive]
pub enum Answer {
    /// The day was opened.
    Opened,
    /// The entry or page call was taken; turns of its desk will answer it.
    Called,
    /// The turn read a row, and more turns are needed.
    Read,
    /// The turn ended a page.
    Page(Page),
    /// The turn wrote the desk's row and ended an entry.
    Written {
        /// The turns that the entry took.
        turns: u32,
    },
}

/// A page: the words that stood in the rows together at one instant, and when each row was last
/// written.
///
/// ```
/// use nelvaquist::{Answer, Register};
///
/// let mut register = Register::new();
/// register.open(2)?;
/// register.entry(2, 7)?;
/// while register.turn(2)? == Answer::Read {}
/// register.page(1)?;
/// let page = loop {
///     if let Answer::Page(page) = register.turn(1)? {
///         break page;
///     }
/// };
/// let rows: Vec<(&u32, &u32)> = page.words().iter().zip(page.last()).collect();
/// assert_eq!(rows, [(&0, &0), (&7, &6)]); // row 1 was never written, row 2 last by event 6
/// # Ok::<(), nelvaquist::Refusal>(())
/// ```
#[derive(Clone, Copy, PartialEq, Eq, Hash)]
pub struct Page {
    // Those past the desk count are 0.
    words: [u32; Register::MOST_DESKS],
    last: [u32; Register::MOST_DESKS],
    desks: usize,
    lender: u32,
    at: u32,
    turns: u32,
}

impl Page {
    /// The page that a page list begins with: as many words as there are desks, then as many numbers.
    pub(crate) fn new(list: &[u32], desks: u32, lender: u32, at: u32, turns: u32) -> Page {
        let (mut words, mut last) = ([0; Register::MOST_DESKS], [0; Register::MOST_DESKS]);
        let desks = words.len().min(list.len() / 2).min(desks as usize);
        words[..desks].copy_from_slice(&list[..desks]);
        last[..desks].copy_from_slice(&list[desks..2 * desks]);
        Page { words, last, desks, lender, at, turns }
    }

    /// The words, that of desk 1's row first, one for each desk of the day.
    #[must_use]
    pub fn words(&self) -> &[u32] {
        &self.words[..self.desks]
    }

    /// How fresh the words are: of each row, that of desk 1 first, the number of the event that last
    /// wrote it by the page's [instant](Self::at), or 0 if none had.
    #[must_use]
    pub fn last(&self) -> &[u32] {
        &self.last[..self.desks]
    }

    /// The desk from which the page was borrowed, or none if it was read clean.
    #[must_use]
    pub fn lender(&self) -> Option<u32> {
        (self.lender != 0).then_some(self.lender)
    }

    /// The page's instant: the rows held these words after the event of this number, which is later
    /// than the page's call and earlier than its answer. On words that were damaged it can be any
    /// number, as can those of the [last writings](Self::last).
    #[must_use]
    pub fn at(&self) -> u32 {
        self.at
    }

    /// The turns that the page took.
    #[must_use]
    pub fn turns(&self) -> u32 {
        self.turns
    }
}

impl fmt::Debug for Page {
    fn fmt(&self, f: &mut fmt::Formatter<'_>) -> fmt::Result {
        f.debug_struct("Page")
            .field("words", &self.words())
            .field("last", &self.last())
            .field("lender", &self.lender())
            .field("at", &self.at)
            .field("turns", &self.turns)
            .finish()
    }
}
