//! Input that is slow or comes in lumps, output that is taken in parts, and reads and writes that
//! fail.

use super::files::SMALL;
use super::{bytes, Checked, Comparison, Model};
use crate::days::{long_file, random_day};
use crate::program::Ended;

impl<M: Model> Comparison<M> {
    /// Input that arrives a few bytes at a time, or in large lumps; output that is taken in parts.
    pub(super) fn input_and_output(&mut self) -> Checked {
        for count in 1..=11 {
            let mut file = random_day(count as u64);
            file.truncate(150 * count);
            self.check_slowly(&file, count)?;
        }
        for count in [6_137, 6_138, 65_535] {
            self.check_slowly(&long_file(300_000, count as u64), count)?;
        }
        let file = long_file(300_000, 7);
        let wanted = self.model.printed(&file);
        assert!(wanted.len() > 1 << 16, "longer than a pipe holds");
        for _ in 0..3 {
            let printed = self.program.printed_stopped(&file)?;
            let name = "a run that is stopped while it writes";
            self.alike(name, &file, wanted.as_bytes(), &printed)?;
        }
        Ok(())
    }

    pub fn check_slowly(&mut self, file: &[u8], count: usize) -> Checked {
        let wanted = self.model.printed(file);
        let printed = self.program.printed_slowly(file, count)?;
        self.alike(&format!("{count} bytes at a time"), file, wanted.as_bytes(), &printed)
    }

    /// Reads and writes that fail, at once or after a while: the message says which.
    pub(super) fn failures(&mut self) -> Checked {
        for stopped in self.program.unread()? {
            self.failed("a failing first read", &[], b"", &stopped, "read")?;
        }
        let small = bytes(SMALL);
        let long = long_file(60_000, 3);
        let cuts = (0..=small.len()).map(|at| &small[..at]);
        for file in cuts.chain((59_980..=60_000).map(|at| &long[..at])) {
            let wanted = self.model.cut_off(file);
            let stopped = self.program.read_until(file)?;
            let name = format!("a read that fails after {} bytes", file.len());
            self.failed(&name, file, wanted.as_bytes(), &stopped, "read")?;
        }
        let long = long_file(1 << 20, 1);
        for file in [small.as_slice(), &long] {
            for stopped in self.program.unwritten(file)? {
                self.failed("a failing write", file, b"", &stopped, "write")?;
            }
        }
        let wanted = self.model.printed(&long);
        let stopped = self.program.written_until(&long)?;
        let begun = wanted.as_bytes().get(..stopped.printed.len()).unwrap_or_default().to_vec();
        if begun.is_empty() || begun.len() == wanted.len() {
            return Err("no write failed after another".into());
        }
        self.failed("a write that fails after another", &long, &begun, &stopped, "write")
    }

    /// A run that ended with a message of one line, in which `which` is said.
    pub fn failed(
        &mut self,
        name: &str,
        file: &[u8],
        wanted: &[u8],
        stopped: &Ended,
        which: &str,
    ) -> Checked {
        if stopped.message.lines().count() != 1 || !stopped.message.contains(which) {
            return Err(format!("{name}: the message is {:?}", stopped.message).into());
        }
        self.failures += 1;
        self.alike(name, file, wanted, &stopped.printed)
    }
}
