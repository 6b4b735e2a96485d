//! Input that is slow or too long, output that is taken in parts, and reads and writes that fail: what
//! is printed then, and what is said.

use super::{other_bytes, Mends};
use crate::comparison::{bytes, Checked, SMALL};
use crate::counts::Reached;
use crate::days::{damaged_day, full_day, long_file, pages_day, refused_records};
use crate::mending::{mend, text, Mended, CANNOT_READ, CANNOT_TELL, CANNOT_WRITE};
use crate::mending::{MOST_BYTES, TOO_LONG};
use crate::program::Ended;

/// How many runs were told what, or could not be.
#[derive(Default)]
pub struct Said {
    too_long: u64,
    too_long_slowly: u64,
    no_read: u64,
    no_later_read: u64,
    no_write: u64,
    no_later_write: u64,
    /// Standard error could not be written, or only in part.
    unsaid: u64,
    said_in_part: u64,
}

impl Said {
    pub fn add_to(&self, reached: &mut Reached) {
        let name = format!("files of more than {MOST_BYTES} bytes, and through a pipe");
        reached.add(name, &[self.too_long, self.too_long_slowly]);
        let name = "first reads and later reads that fail";
        reached.add(name, &[self.no_read, self.no_later_read]);
        let name = "first writes and later writes that fail";
        reached.add(name, &[self.no_write, self.no_later_write]);
        let name = "whole files printed where nothing, where not all could be said";
        reached.add(name, &[self.unsaid, self.said_in_part]);
    }
}

impl Mends {
    pub fn streams(&mut self) -> Checked {
        self.slow_input()?;
        self.stopped()?;
        self.too_long()?;
        self.unread()?;
        self.unwritten()?;
        self.written_in_part()?;
        self.unsaid()?;
        println!("input and output that is slow, long or fails: as it should be");
        Ok(())
    }

    /// Input that arrives a few bytes at a time, or in large lumps.
    fn slow_input(&mut self) -> Checked {
        for count in 1..=11 {
            let mut file = damaged_day(count as u64);
            file.truncate(150 * count);
            self.check_slowly(&file, count)?;
        }
        for count in [6_137, 6_138, 65_535] {
            self.check_slowly(&long_file(300_000, count as u64), count)?;
        }
        let longest = [full_day(2, 2), refused_records(MOST_BYTES)].concat();
        self.check_slowly(&longest[..MOST_BYTES], 1 << 16)
    }

    fn check_slowly(&mut self, file: &[u8], count: usize) -> Checked {
        let run = self.program.both_slowly(file, count)?;
        let same = self.same(&mend(file), &run);
        same.map_err(|why| format!("{} bytes, {count} at a time: {why}", file.len()).into())
    }

    /// Runs that are stopped while they write, with more on one output or on both than a pipe holds.
    fn stopped(&mut self) -> Checked {
        for (file, long) in [
            (pages_day(1, None), [true, false]),
            (vec![0; 60_000], [false, true]),
            (long_file(300_000, 7), [true, true]),
        ] {
            let wanted = mend(&file);
            let lengths = [wanted.kept.len(), text(&wanted.dropped).len()];
            assert_eq!(lengths.map(|length| length > 1 << 16), long, "longer than a pipe holds");
            let run = self.program.both_stopped(&file)?;
            self.same(&wanted, &run).map_err(|why| format!("stopped while it writes: {why}"))?;
        }
        Ok(())
    }

    /// A file with a day at its beginning, and zeros.
    fn too_long(&mut self) -> Checked {
        let day = [full_day(1, 1), refused_records(MOST_BYTES)].concat();
        for mut file in [day, Vec::new()] {
            for more in [1, 6, 1 << 20] {
                file.resize(MOST_BYTES + more, 0);
                let run = self.program.both(&file)?;
                refused("a file that is too long", &run, TOO_LONG)?;
                self.said.too_long += 1;
                let run = self.program.both_slowly(&file, 1 << 16)?;
                refused("a long pipe", &run, TOO_LONG)?;
                self.said.too_long_slowly += 1;
            }
        }
        Ok(())
    }

    /// Reads that fail, at once or after a while.
    fn unread(&mut self) -> Checked {
        let [folder, closed] = self.program.unread()?;
        refused("a folder", &folder, CANNOT_READ)?;
        self.said.no_read += 1;
        // Some languages open an empty file where a program's input is closed.
        if !closed.message.is_empty() || !closed.printed.is_empty() {
            refused("no input", &closed, CANNOT_READ)?;
        }
        let (small, long) = (bytes(SMALL), long_file(60_000, 3));
        for file in [&small[..0], &small[..1], &small[..41], &small, &long[..59_999], &long] {
            let run = self.program.read_until(file)?;
            let name = format!("a read that fails after {} bytes", file.len());
            refused(&name, &run, CANNOT_READ)?;
            self.said.no_later_read += 1;
        }
        Ok(())
    }

    /// Writes of the mended file that fail at once, with drops and without.
    fn unwritten(&mut self) -> Checked {
        for file in [bytes(SMALL), bytes("open 1\nturn 1\nraw 04"), long_file(1 << 20, 1)] {
            let wanted = mend(&file);
            let [closed, full @ ..] = &self.program.unwritten(&file)?[..] else { continue };
            // Some languages open an empty file where a program's output is closed.
            if closed.message != text(&wanted.dropped) {
                half_said("no output", &wanted, closed)?;
            }
            for run in full {
                half_said("a full device", &wanted, run)?;
                self.said.no_write += 1;
            }
        }
        Ok(())
    }

    /// A write that fails after another.
    fn written_in_part(&mut self) -> Checked {
        let file = long_file(1 << 20, 1);
        let wanted = mend(&file);
        let run = self.program.written_until(&file)?;
        if run.printed.is_empty() || run.printed.len() == wanted.kept.len() {
            return Err("no write failed after another".into());
        }
        if !wanted.kept.starts_with(&run.printed) {
            return Err(other_bytes(&wanted.kept, &run.printed).into());
        }
        self.said.no_later_write += 1;
        half_said("a write that fails after another", &wanted, &run)
    }

    /// The mended file comes whole where standard error cannot be written. What is told then is a
    /// beginning of the drops, with a message behind it if there is room for one.
    fn unsaid(&mut self) -> Checked {
        let damaged = bytes("open 1\nturn 1\npage 1\nraw 04 00 09 00 01 00\nturn 1\nraw 04");
        for file in [bytes(SMALL), damaged, long_file(1 << 20, 2)] {
            let wanted = mend(&file);
            let lines = text(&wanted.dropped);
            for run in self.program.unsaid(&file)? {
                if run.printed != wanted.kept {
                    let why = other_bytes(&wanted.kept, &run.printed);
                    return Err(format!("standard error cannot be written: {why}").into());
                }
                let end = run.message.find(CANNOT_TELL).unwrap_or(run.message.len());
                let told = &run.message[..end];
                if !lines.starts_with(told) {
                    return Err(format!("what was said in part is {told:.500}").into());
                }
                let part = !told.is_empty() && told.len() < lines.len();
                self.said.said_in_part += u64::from(part);
                self.said.unsaid += u64::from(told.is_empty() && !lines.is_empty());
            }
        }
        Ok(())
    }
}

/// Nothing is printed, and there is one line, which begins so.
fn refused(name: &str, run: &Ended, line: &str) -> Checked {
    let Ended { printed, message } = run;
    let one_line = message.lines().count() == 1 && message.ends_with('\n');
    match printed.is_empty() && one_line && message.starts_with(line) {
        true => Ok(()),
        false => Err(format!("{name}: {} bytes, {message:.500}", printed.len()).into()),
    }
}

/// One line tells of the write. Beside it the drops may be named, all or the first of them.
fn half_said(name: &str, wanted: &Mended, run: &Ended) -> Checked {
    let lines = run.message.split_inclusive('\n');
    let (told, drops): (Vec<&str>, Vec<&str>) =
        lines.partition(|line| line.starts_with(CANNOT_WRITE));
    let whole = run.message.ends_with('\n');
    match told.len() == 1 && whole && text(&wanted.dropped).starts_with(&drops.concat()) {
        true => Ok(()),
        false => Err(format!("{name}: it said {:.500}", run.message).into()),
    }
}
