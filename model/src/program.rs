//! Another day runner, maker of books or mender, run as a program: what it prints for a day file, and
//! how it behaves when input is slow or long, or when reading or writing fails.

use crate::dayfile::{self, Record};
use std::error::Error;
use std::fs::{self, File, OpenOptions};
use std::io::{self, Read, Write};
use std::os::unix::fs::OpenOptionsExt;
use std::path::PathBuf;
use std::process::{Child, Command, Output, Stdio};
use std::thread::{self, JoinHandle};
use std::time::Duration;

/// Linux's O_NONBLOCK.
const NO_WAIT: i32 = 0o4000;

/// What a run printed, and what it said on standard error.
pub struct Ended {
    pub printed: Vec<u8>,
    pub message: String,
}

pub struct Program {
    path: PathBuf,
    /// Where the day file lies that the program is given.
    input: PathBuf,
}

impl Program {
    pub fn new(path: PathBuf) -> Self {
        let input = std::env::temp_dir().join(format!("compare-{}.day", std::process::id()));
        Program { path, input }
    }

    fn command(&self) -> Command {
        let mut command = Command::new(&self.path);
        command.stdin(Stdio::piped()).stdout(Stdio::piped()).stderr(Stdio::inherit());
        command
    }

    fn lay(&self, file: &[u8]) -> io::Result<File> {
        fs::write(&self.input, file)?;
        File::open(&self.input)
    }

    pub fn printed(&self, file: &[u8]) -> Result<Vec<u8>, Box<dyn Error>> {
        printout(self.run(self.command().stdin(self.lay(file)?))?)
    }

    /// What it prints, and what it says.
    pub fn both(&self, file: &[u8]) -> Result<Ended, Box<dyn Error>> {
        ended(self.run(self.command().stdin(self.lay(file)?).stderr(Stdio::piped()))?)
    }

    fn run(&self, command: &mut Command) -> Result<Output, String> {
        command.output().map_err(|error| format!("{}: {error}", self.path.display()))
    }

    /// What it prints when the file arrives in pieces of `count` bytes.
    pub fn printed_slowly(&self, file: &[u8], count: usize) -> Result<Vec<u8>, Box<dyn Error>> {
        printout(slowly(&mut self.command(), file, count)?)
    }

    /// What it prints then, and what it says.
    pub fn both_slowly(&self, file: &[u8], count: usize) -> Result<Ended, Box<dyn Error>> {
        ended(slowly(self.command().stderr(Stdio::piped()), file, count)?)
    }

    /// What it prints when it is stopped in the middle of a write and goes on: Linux then ends the
    /// write with what it has taken. The printout is longer than a pipe holds.
    pub fn printed_stopped(&self, file: &[u8]) -> Result<Vec<u8>, Box<dyn Error>> {
        printout(stopped(self.command().stdin(self.lay(file)?))?)
    }

    /// What it prints then, and what it says.
    pub fn both_stopped(&self, file: &[u8]) -> Result<Ended, Box<dyn Error>> {
        ended(stopped(self.command().stdin(self.lay(file)?).stderr(Stdio::piped()))?)
    }

    /// How it ends when the first read fails: on a directory, and on a descriptor that is closed.
    pub fn unread(&self) -> Result<[Ended; 2], Box<dyn Error>> {
        let directory = self.command().stdin(File::open("/")?).stderr(Stdio::piped()).output()?;
        let closed = self.shell("exec \"$0\" <&-").output()?;
        Ok([ended(directory)?, ended(closed)?])
    }

    /// How it ends when a read fails once the file has come: that of a pipe that must not wait for
    /// more, and has more to wait for. The file fits into a pipe.
    pub fn read_until(&self, file: &[u8]) -> Result<Ended, Box<dyn Error>> {
        let (mut give, take) = self.pipe()?;
        give.write_all(file)?;
        let stopped = self.command().stdin(take).stderr(Stdio::piped()).output()?;
        drop(give);
        ended(stopped)
    }

    /// How it ends when no write can be made: on a full device, if there is one, and on a descriptor
    /// that is closed.
    pub fn unwritten(&self, file: &[u8]) -> Result<Vec<Ended>, Box<dyn Error>> {
        let mut ways = vec![self.shell("exec \"$0\" >&-").stdin(self.lay(file)?).output()?];
        if let Ok(full) = File::create("/dev/full") {
            let mut command = self.command();
            ways.push(command.stdin(self.lay(file)?).stdout(full).stderr(Stdio::piped()).output()?);
        }
        ways.into_iter().map(ended).collect()
    }

    /// How it ends when its output goes into a pipe that must not wait until it is emptied, and what
    /// the pipe took.
    pub fn written_until(&self, file: &[u8]) -> Result<Ended, Box<dyn Error>> {
        let (give, mut take) = self.pipe()?;
        let mut command = self.command();
        let stopped =
            command.stdin(self.lay(file)?).stdout(give).stderr(Stdio::piped()).output()?;
        drop(command);
        let mut stopped = ended(stopped)?;
        take.read_to_end(&mut stopped.printed)?;
        Ok(stopped)
    }

    /// What it prints when standard error cannot be written, or only in part: on a descriptor that is
    /// closed, into a pipe that must not wait until it is emptied, and on a full device, if there is
    /// one. Of what it says there is what the pipe took.
    pub fn unsaid(&self, file: &[u8]) -> Result<Vec<Ended>, Box<dyn Error>> {
        let mut ways = vec![self.shell("exec \"$0\" 2>&-").stdin(self.lay(file)?).output()?];
        let (give, mut take) = self.pipe()?;
        let mut command = self.command();
        let mut cut = command.stdin(self.lay(file)?).stderr(give).output()?;
        drop(command);
        take.read_to_end(&mut cut.stderr)?;
        ways.push(cut);
        if let Ok(full) = File::create("/dev/full") {
            ways.push(self.command().stdin(self.lay(file)?).stderr(full).output()?);
        }
        ways.into_iter().map(ended).collect()
    }

    /// A shell that starts it in its own way.
    fn shell(&self, script: &str) -> Command {
        let mut command = Command::new("sh");
        command.args(["-c", script]).arg(&self.path);
        command.stdin(Stdio::null()).stdout(Stdio::piped()).stderr(Stdio::piped());
        command
    }

    /// A pipe neither end of which waits for the other.
    fn pipe(&self) -> io::Result<(File, File)> {
        let path = self.input.with_extension("pipe");
        let _ = fs::remove_file(&path);
        if !Command::new("mkfifo").arg(&path).status()?.success() {
            return Err(io::Error::other("mkfifo failed"));
        }
        let take = OpenOptions::new().read(true).custom_flags(NO_WAIT).open(&path)?;
        let give = OpenOptions::new().write(true).custom_flags(NO_WAIT).open(&path)?;
        fs::remove_file(&path)?;
        Ok((give, take))
    }

    /// By how many KiB its memory grows from the first MiB of a file to the last of `size`, and
    /// how many bytes it prints. All records are refused.
    pub fn growth(&self, size: usize) -> Result<(u64, usize), Box<dyn Error>> {
        let mut records = Vec::new();
        while records.len() < 6 << 16 {
            dayfile::write(Record::Turn { desk: 1 }, &mut records);
        }
        let mut child = self.command().spawn()?;
        let printed = count_output(&mut child)?;
        let mut pipe = child.stdin.take().ok_or("no pipe")?;
        let (mut given, mut early) = (0, 0);
        while given < size {
            pipe.write_all(&records)?;
            given += records.len();
            if early == 0 && given >= 1 << 20 {
                early = most_memory(&child);
            }
        }
        let late = most_memory(&child);
        drop(pipe);
        child.wait()?;
        let printed = printed.join().map_err(|_| "the output was not read")??;
        Ok((late - early, printed))
    }

    /// Keeps a day file for a look, and answers where.
    pub fn keep(&self, file: &[u8]) -> String {
        let kept = self.input.with_extension("differs.day");
        match fs::write(&kept, file) {
            Ok(()) => kept.display().to_string(),
            Err(error) => error.to_string(),
        }
    }
}

impl Drop for Program {
    fn drop(&mut self) {
        let _ = fs::remove_file(&self.input);
    }
}

/// Gives a file in pieces of `count` bytes.
pub(crate) fn slowly(
    command: &mut Command,
    file: &[u8],
    count: usize,
) -> Result<Output, Box<dyn Error>> {
    let mut child = command.spawn()?;
    let mut pipe = child.stdin.take().ok_or("no pipe")?;
    thread::scope(|scope| {
        scope.spawn(move || {
            for bytes in file.chunks(count) {
                // The program may have ended at a refusal.
                let _ = pipe.write_all(bytes);
                thread::sleep(Duration::from_micros(100));
            }
        });
        Ok(child.wait_with_output()?)
    })
}

/// Stops a run and lets it go on.
fn stopped(command: &mut Command) -> Result<Output, Box<dyn Error>> {
    let child = command.spawn()?;
    // By now it waits for the pipe to be emptied.
    thread::sleep(Duration::from_millis(200));
    for signal in ["STOP", "CONT"] {
        let script = format!("kill -{signal} {}", child.id());
        Command::new("sh").args(["-c", &script]).status()?;
        thread::sleep(Duration::from_millis(20));
    }
    Ok(child.wait_with_output()?)
}

fn printout(output: Output) -> Result<Vec<u8>, Box<dyn Error>> {
    Ok(ended(output)?.printed)
}

/// How a run ended. Its exit status is always 0.
pub(crate) fn ended(output: Output) -> Result<Ended, Box<dyn Error>> {
    match output.status.code() {
        Some(0) => {
            let message = String::from_utf8_lossy(&output.stderr).into_owned();
            Ok(Ended { printed: output.stdout, message })
        }
        _ => Err(format!("the program was ended by {}", output.status).into()),
    }
}

fn count_output(child: &mut Child) -> Result<JoinHandle<io::Result<usize>>, Box<dyn Error>> {
    let mut output = child.stdout.take().ok_or("no pipe")?;
    Ok(thread::spawn(move || {
        let (mut buffer, mut total) = (vec![0; 1 << 16], 0);
        loop {
            match output.read(&mut buffer)? {
                0 => return Ok(total),
                count => total += count,
            }
        }
    }))
}

/// The most KiB that a running program has had in memory, or 0 where the system does not say.
fn most_memory(child: &Child) -> u64 {
    let status = fs::read_to_string(format!("/proc/{}/status", child.id())).unwrap_or_default();
    let line = status.lines().find_map(|line| line.strip_prefix("VmHWM:"));
    line.and_then(|line| line.split_whitespace().next()?.parse().ok()).unwrap_or(0)
}
