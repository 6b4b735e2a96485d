//! The functions of libnq.a, as safe ones. They judge every number that they are passed, so a lent
//! slice that is one, and a library of this version, are all that they ask for.

#![allow(unsafe_code)]

use crate::{other_version, Record};

/// The version of the library that everything here is written for.
const VERSION: u32 = 4;

/// What a request was answered, and the day after it.
#[derive(Clone, Default)]
#[repr(C)]
pub(crate) struct Reply {
    pub(crate) desks: u32,
    pub(crate) event: u32,
    pub(crate) answer: u32,
    pub(crate) refusal: u32,
    pub(crate) lender: u32,
    pub(crate) at: u32,
    pub(crate) turns: u32,
}

/// What stands at the start of a part of a day file.
#[repr(C)]
pub(crate) struct Reading {
    pub(crate) refusal: u32,
    pub(crate) kind: u32,
    pub(crate) desk: u32,
    pub(crate) word: u32,
    pub(crate) next: u32,
}

/// A drop of a day file: its first byte, its byte count and the number of its refusal.
pub(crate) type Row = [u64; 3];

/// What a mending came to.
#[repr(C)]
pub(crate) struct Mending {
    pub(crate) kept: u64,
    pub(crate) drops: u64,
    pub(crate) refusal: u64,
}

extern "C" {
    fn nq_version() -> u32;

    fn nq_step(
        desks: u32,
        event: u32,
        table: *mut Record,
        records: usize,
        kind: u32,
        desk: u32,
        word: u32,
        page: *mut u32,
        words: usize,
    ) -> Reply;

    fn nq_run(
        desks: u32,
        event: u32,
        table: *mut Record,
        records: usize,
        list: *const u32,
        turns: usize,
        replies: *mut Reply,
        places: usize,
        pages: *mut u32,
        words: usize,
    ) -> Reply;

    fn nq_read(bytes: *const u8, length: usize) -> Reading;

    fn nq_mend(
        bytes: *const u8,
        length: usize,
        room: *mut u8,
        places: usize,
        rows: *mut Row,
        row_count: usize,
    ) -> Mending;
}

/// Returns only if the library is of this version. One of another may lay records out otherwise,
/// and is lent nothing.
fn see_version() {
    // SAFETY: in every version the function takes nothing, touches nothing and returns a number.
    let version = unsafe { nq_version() };
    if version != VERSION {
        other_version("version", version);
    }
}

/// A request of a kind, by the numbers of day files, for a desk and with a word.
pub(crate) fn step(
    (desks, event): (u32, u32),
    table: &mut [Record],
    (kind, desk, word): (u32, u32, u32),
    page: &mut [u32],
) -> Reply {
    see_version();
    // SAFETY: the library is of this version, where the declarations above are its own and `Record`
    // is laid out as its array of 369 words. Both slices are initialised, aligned and not null,
    // even if empty, hold as many elements as is said, and, being borrowed mutably, neither overlap
    // nor are used by anybody else meanwhile. The library touches nothing outside of them and keeps
    // no pointer, and any words that it leaves are valid.
    unsafe {
        nq_step(
            desks,
            event,
            table.as_mut_ptr(),
            table.len(),
            kind,
            desk,
            word,
            page.as_mut_ptr(),
            page.len(),
        )
    }
}

/// A run of turns for the desks of a list. The replies and the pages, two words for each desk a page,
/// are put in the last two slices.
pub(crate) fn run(
    (desks, event): (u32, u32),
    table: &mut [Record],
    list: &[u32],
    replies: &mut [Reply],
    pages: &mut [u32],
) -> Reply {
    see_version();
    // SAFETY: as for a request; `Reply` is laid out as its struct of seven words. The list is borrowed
    // too, so that nothing overlaps it and nobody writes it meanwhile, and the library only reads it.
    unsafe {
        nq_run(
            desks,
            event,
            table.as_mut_ptr(),
            table.len(),
            list.as_ptr(),
            list.len(),
            replies.as_mut_ptr(),
            replies.len(),
            pages.as_mut_ptr(),
            pages.len(),
        )
    }
}

/// Reads one record of a day file.
pub(crate) fn read(bytes: &[u8]) -> Reading {
    see_version();
    // SAFETY: the library is of this version, where the declaration above is its own. The slice is
    // initialised, not null even if empty, holds as many bytes as is said, and is not written
    // meanwhile. The library only reads it, and keeps no pointer.
    unsafe { nq_read(bytes.as_ptr(), bytes.len()) }
}

/// Mends a day file. What is kept is put in the room, and its drops in the rows.
pub(crate) fn mend(bytes: &[u8], room: &mut [u8], rows: &mut [Row]) -> Mending {
    see_version();
    // SAFETY: as for a record that is read. The other two slices, borrowed mutably, are initialised,
    // aligned and not null, even if empty, hold as many elements as is said, overlap nothing and are
    // used by nobody else meanwhile. The library touches nothing outside of them and keeps no pointer,
    // and any bytes and numbers that it leaves are valid.
    unsafe {
        nq_mend(
            bytes.as_ptr(),
            bytes.len(),
            room.as_mut_ptr(),
            room.len(),
            rows.as_mut_ptr(),
            rows.len(),
        )
    }
}
