//! A library of another version is lent nothing: here one of version 3, which mends no files.
//!
//! The functions here take the place of the library's: a linker takes nothing from an archive that
//! the program itself has.

use nelvaquist::{mend, mend_into, DayFile, Record, Register, Request};
use std::panic::{catch_unwind, AssertUnwindSafe};
use std::process::abort;

#[no_mangle]
extern "C" fn nq_version() -> u32 {
    3
}

#[no_mangle]
extern "C" fn nq_step() {
    abort()
}

#[no_mangle]
extern "C" fn nq_run() {
    abort()
}

#[no_mangle]
extern "C" fn nq_read() {
    abort()
}

#[no_mangle]
extern "C" fn nq_mend() {
    abort()
}

fn panics<T>(ask: impl FnOnce() -> T) {
    let Err(panic) = catch_unwind(AssertUnwindSafe(ask)) else { panic!("it was answered") };
    let said = panic.downcast_ref::<String>().unwrap();
    assert_eq!(said, "libnq.a is of another version than the crate nelvaquist: version 3");
}

#[test]
fn no_table_is_lent() {
    let mut register = Register::new();
    panics(|| register.open(2));
    assert_eq!(register, Register::new());

    let mut register = Register::from_parts(1, 0, vec![Record::default()]);
    let before = register.clone();
    panics(|| register.entry(1, 7));
    panics(|| register.page(1));
    panics(|| register.turn(1));
    panics(|| register.run(&[1, 1]));
    panics(|| register.run(&[]));
    panics(|| register.run_into(&[1], &mut [], &mut []));
    panics(|| register.step(Request::Turn { desk: 1 }, &mut []));
    assert_eq!(register, before);
}

#[test]
fn no_file_is_lent() {
    panics(|| DayFile::new(&[]).next());
    panics(|| DayFile::new(&[4, 0, 1, 0, 2, 0]).next());
    panics(|| mend(&[]));
    panics(|| mend(&[4, 0, 1, 0, 2, 0]));
    let mut room = [9; 6];
    panics(|| mend_into(&[4, 0, 1, 0, 2, 0], &mut room, &mut []));
    panics(|| mend_into(&[], &mut [], &mut []));
    assert_eq!(room, [9; 6]);
}
