use crate::{library, other_version, Refusal, Request};
use std::iter::FusedIterator;

/// The requests of a day file, in order. A record that cannot be read gives its refusal, 7, 8 or 9,
/// and ends the file; [`mend`](crate::mend) goes on behind it.
///
/// A record is a length, which counts the bytes after itself, a kind, a desk and, for an entry, a
/// word; the word has 32 bits, anything else 16, all little-endian. The kinds are 1 opening, with
/// the desk count for a desk, 2 entry, 3 page and 4 turn.
///
/// ```
/// use nelvaquist::{DayFile, Refusal, Request};
///
/// let mut file = DayFile::new(&[4, 0, 1, 0, 2, 0, 4]);
/// assert_eq!(file.next(), Some(Ok(Request::Open { desks: 2 })));
/// assert_eq!(file.next(), Some(Err(Refusal::CutShort)));
/// assert_eq!(file.next(), None);
/// assert_eq!(file.rest(), [4]);
/// ```
#[derive(Clone, Debug)]
#[must_use = "nothing is read before the requests are asked for"]
pub struct DayFile<'a> {
    rest: &'a [u8],
    ended: bool,
}

impl<'a> DayFile<'a> {
    /// The day file that these bytes are, or begin with.
    pub const fn new(bytes: &'a [u8]) -> DayFile<'a> {
        DayFile { rest: bytes, ended: false }
    }

    /// The bytes from the first record on that was not given: none after a whole file, and those
    /// that could not be read after a refusal. Where a file comes in parts, what
    /// [`CutShort`](Refusal::CutShort) leaves here goes before the next part.
    #[must_use]
    pub const fn rest(&self) -> &'a [u8] {
        self.rest
    }
}

impl Iterator for DayFile<'_> {
    type Item = Result<Request, Refusal>;

    fn next(&mut self) -> Option<Self::Item> {
        if self.ended {
            return None;
        }
        let found = library::read(self.rest);
        let (desk, word) = (found.desk, found.word);
        let request = match found.kind {
            0 => {
                self.ended = true;
                return match (found.refusal, Refusal::from_number(found.refusal)) {
                    (0, _) => None,
                    (_, Some(refusal)) => Some(Err(refusal)),
                    (number, None) => other_version("refusal", number),
                };
            }
            1 => Request::Open { desks: desk },
            2 => Request::Entry { desk, word },
            3 => Request::Page { desk },
            4 => Request::Turn { desk },
            kind => other_version("record", kind),
        };
        self.rest = self.rest.get(found.next as usize..).unwrap_or_default();
        Some(Ok(request))
    }
}

impl FusedIterator for DayFile<'_> {}
