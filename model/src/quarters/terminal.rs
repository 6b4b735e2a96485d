//! Runs at a terminal: standard error says which file the program is at, if it is a terminal itself.

use super::{answers, complaints, words, Complaint, Quarters};
use crate::comparison::Checked;
use crate::days::quarter;
use crate::figures::{figures, line};
use crate::program::{ended, Ended};
use std::ffi::{c_char, c_int, CStr};
use std::fs::{File, OpenOptions};
use std::io::{self, Read};
use std::os::fd::{AsRawFd, FromRawFd};
use std::os::unix::fs::OpenOptionsExt;

/// Linux's O_RDWR, O_NOCTTY and EIO.
const READ_WRITE: c_int = 2;
const NOT_OURS: c_int = 0o400;
const HUNG_UP: i32 = 5;

extern "C" {
    fn posix_openpt(flags: c_int) -> c_int;
    fn grantpt(terminal: c_int) -> c_int;
    fn unlockpt(terminal: c_int) -> c_int;
    fn ptsname_r(terminal: c_int, name: *mut c_char, size: usize) -> c_int;
}

/// A terminal: what it shows, and the end that a program writes to.
fn terminal() -> io::Result<(File, File)> {
    let done = |status: c_int| match status {
        0 => Ok(()),
        _ => Err(io::Error::last_os_error()),
    };
    let mut name: [c_char; 100] = [0; 100];
    // The descriptor is new, and the name ends within its hundred bytes.
    let (screen, name) = unsafe {
        let terminal = posix_openpt(READ_WRITE | NOT_OURS);
        if terminal < 0 {
            return Err(io::Error::last_os_error());
        }
        let screen = File::from_raw_fd(terminal);
        done(grantpt(screen.as_raw_fd()))?;
        done(unlockpt(screen.as_raw_fd()))?;
        done(ptsname_r(screen.as_raw_fd(), name.as_mut_ptr(), name.len()))?;
        (screen, CStr::from_ptr(name.as_ptr()).to_string_lossy().into_owned())
    };
    let line = OpenOptions::new().read(true).write(true).custom_flags(NOT_OURS).open(name)?;
    Ok((screen, line))
}

/// All that was shown, once nobody can write any more.
fn shown(mut screen: File) -> io::Result<String> {
    let mut bytes = Vec::new();
    match screen.read_to_end(&mut bytes) {
        Err(error) if error.raw_os_error() != Some(HUNG_UP) => Err(error),
        _ => Ok(String::from_utf8_lossy(&bytes).replace('\r', "")),
    }
}

impl Quarters {
    pub fn terminals(&mut self) -> Checked {
        for seed in 1..=20 {
            let days = self.lay_all(quarter(seed))?;
            let answers = answers(&days);
            let asked = answers.first().map_or(1, |answer| answer.desks);
            let wanted = line(&figures(&answers, asked));
            let words = words(&asked.to_string(), &days);
            let told = self.told_at(&words, &wanted);
            told.map_err(|why| format!("standard error at a terminal, {words:?}: {why}"))?;
            let told = self.told_beside(&words, &wanted, &complaints(&days));
            told.map_err(|why| format!("the others at a terminal, {words:?}: {why}"))?;
        }
        Ok(())
    }

    /// Standard error is a terminal: the names are shown there.
    fn told_at(&mut self, words: &[String], wanted: &str) -> Checked {
        let (screen, line) = terminal()?;
        let child = self.command().args(words).stderr(line).spawn()?;
        let said = shown(screen)?;
        let run = ended(child.wait_with_output()?)?;
        self.held(&run, wanted, &[])?;
        let mut rest = said.as_str();
        for name in &words[1..] {
            match rest.split_once(name) {
                Some((_, after)) => rest = after,
                None => return Err(format!("{name} is not shown in its place: {said:?}").into()),
            }
            self.met.shown += 1;
        }
        Ok(())
    }

    /// Standard input and output are a terminal: standard error has what it has otherwise.
    fn told_beside(&mut self, words: &[String], wanted: &str, complaints: &[Complaint]) -> Checked {
        let (screen, line) = terminal()?;
        let child = self.command().args(words).stdin(line.try_clone()?).stdout(line).spawn()?;
        let printed = shown(screen)?.into_bytes();
        let run = ended(child.wait_with_output()?)?;
        Ok(self.held(&Ended { printed, ..run }, wanted, complaints)?)
    }
}
