//! A register for up to eight desks. Each desk owns one row, which holds a word of 32 bits, and
//! nobody locks anything: a desk writes its row by an *entry* and reads all rows together by a
//! *page*, one row a *turn*. A page shows what stood in the rows at one instant, however the turns
//! of other desks fall between its own, and when each row was last written. The method is that of
//! Afek and others, "Atomic Snapshots of Shared Memory", Figure 3.
//!
//! ```
//! use nelvaquist::{Answer, Register};
//!
//! let mut register = Register::new();
//! register.open(2)?;
//!
//! // Desk 1 enters 7.
//! register.entry(1, 7)?;
//! while register.turn(1)? == Answer::Read {}
//!
//! // Desk 2 asks for a page.
//! register.page(2)?;
//! let page = loop {
//!     if let Answer::Page(page) = register.turn(2)? {
//!         break page;
//!     }
//! };
//! assert_eq!(page.words(), [7, 0]);
//! assert_eq!(page.last(), [6, 0]); // row 1 was last written by event 6, row 2 never
//! assert_eq!(page.lender(), None);
//!
//! // A turn without a call is refused, and changes nothing.
//! let refusal = register.turn(2).unwrap_err();
//! assert_eq!(refusal.number(), 4);
//! assert_eq!(refusal.to_string(), "the desk has no call under way");
//! # Ok::<(), nelvaquist::Refusal>(())
//! ```
//!
//! # Turns
//!
//! An entry or a page begins with a call, and goes on by turns of its desk. Whoever holds the
//! [`Register`] hands out the turns, in any order: a desk that gets none holds up no other. Of n
//! desks, one that waits for a page has it after at most 2n² of its own turns, and one that enters
//! has written after at most 2n² + 1. Every accepted call or turn is an *event*, numbered from 1 on
//! since the opening, up to 65,535. *Instant t* is the moment after event t. [`Register::run`] gives
//! many turns at once.
//!
//! # Full days
//!
//! A day has at most 65,535 events. A call is taken only if it and all calls under way can be ended
//! on the same day, whatever turns they come to need; else it is refused with
//! [`DayFull`](Refusal::DayFull), as a turn never is. Finish what is under way then. It may end
//! sooner than it could, so that a call is taken again. In the end go on with a new [`Register`]:
//! rows are lost, but what stood in them can be entered again. Their last writings are then those of
//! the new day.
//!
//! ```
//! # use nelvaquist::{Answer, Record, Refusal, Register, Task};
//! # let mut words = [0; Record::WORDS];
//! # (words[0], words[1], words[2]) = (7, 5, 1);
//! # let records = vec![Record::from_words(words), Record::default()];
//! # let mut register = Register::from_parts(2, 65_526, records);
//! # register.page(2)?;
//! // Desk 2 waits for a page, which can need all events that are left.
//! assert_eq!(register.entry(1, 8), Err(Refusal::DayFull));
//!
//! for desk in 1..=register.desks() {
//!     if register.task(desk) != Some(Task::Idle) {
//!         while register.turn(desk)? == Answer::Read {}
//!     }
//! }
//! let mut next = Register::new();
//! next.open(register.desks())?;
//! for (desk, record) in (1..).zip(register.records()) {
//!     // A row that was never written stays so.
//!     if record.last() != 0 {
//!         next.entry(desk, record.word())?;
//!         while next.turn(desk)? == Answer::Read {}
//!     }
//! }
//! # assert_eq!([7, 0], [next.records()[0].word(), next.records()[1].word()]);
//! # assert_eq!([6, 0], [next.records()[0].last(), next.records()[1].last()]);
//! # assert_eq!(register.entry(1, 8), Err(Refusal::DayFull));
//! # Ok::<(), Refusal>(())
//! ```
//!
//! # Keeping a day
//!
//! All that a register knows is its desk count, its event number and one [`Record`] for each desk.
//! They are plain words, which [`Register::into_parts`] gives to be kept or sent, and
//! [`Register::from_parts`] takes up. Words that were damaged are refused or worked on by the
//! rules, but never make the register touch anything else. Pages are true on a day that grew from
//! an opening and was kept as it was left.
//!
//! Records of version 3 of the library are as those of version 4, which this crate is for. Those of
//! versions 1 and 2, which are shorter, cannot be taken up: a day that was begun with one of these is
//! ended with it.
//!
//! # Day files
//!
//! A day can also stand in a file, one request after the other, which [`DayFile`] reads. If the file
//! was damaged, [`mend`] keeps of it what can be read and is not refused, and tells what it drops.
//!
//! ```
//! use nelvaquist::{mend, Dropped, Refusal};
//!
//! // Desk 1 asks for a page and has two turns; the kind of the second is damaged.
//! let file = [
//!     4, 0, 1, 0, 2, 0, // opens for 2 desks
//!     4, 0, 3, 0, 1, 0, // a page call of desk 1
//!     4, 0, 4, 0, 1, 0, // a turn
//!     4, 0, 4, 9, 1, 0, // another one
//! ];
//! let mended = mend(&file);
//! assert_eq!(mended.kept, &file[..18]);
//! assert_eq!(mended.dropped, [Dropped { first: 18, count: 6, refusal: Refusal::UnknownKind }]);
//! ```
//!
//! # The library
//!
//! The register is the proved library `libnq.a`, for x86-64 Linux; this crate passes on what it
//! answers. The build looks for it in the directory that the environment variable
//! `NELVAQUIST_LIB_DIR` names, else in `../../target/staticlib` as seen from this crate. The
//! variable should be an absolute path, as a relative one is seen from this crate too. Where there
//! is no library, `cargo check` and `cargo doc` go on with a warning, and nothing can be linked.
//!
//! A library of another version is lent nothing: whatever would ask it panics. Nothing else here
//! does.

#![deny(missing_docs, unsafe_code, unsafe_op_in_unsafe_fn)]

#[cfg(not(all(target_arch = "x86_64", target_os = "linux", target_pointer_width = "64")))]
compile_error!("libnq.a is for x86-64 Linux, with pointers of 64 bits");

mod answer;
mod dayfile;
mod library;
mod mending;
mod record;
mod refusal;
mod register;

pub use answer::{Answer, Page};
pub use dayfile::DayFile;
pub use mending::{mend, mend_into, Dropped, Mended};
pub use record::{Record, Task};
pub use refusal::Refusal;
pub use register::{Register, Request};

/// The library's version, or a number that it answers, is none that this crate knows.
fn other_version(what: &str, number: u32) -> ! {
    panic!("libnq.a is of another version than the crate nelvaquist: {what} {number}")
}
