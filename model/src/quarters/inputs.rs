//! Words that are no desk count, files that cannot be read or are too long, and words and files that
//! only look so: each with what both outputs must have.

use super::{words, Complaint, DayFile, Quarters};
use crate::book::MOST_BYTES;
use crate::comparison::{bytes, Checked};
use crate::counts::Reached;
use crate::days::refused_records;
use crate::figures::DayPages;
use crate::papers;
use crate::program;
use std::ffi::OsStr;
use std::fs;
use std::os::unix::ffi::OsStrExt;
use std::path::Path;
use std::process::{Command, Stdio};

/// Numbers outside 1 to 8: the nearest, those that have 2 as their last 8, 16, 32 or 64 bits, and a
/// long one.
const OUTSIDE: [&str; 9] = [
    "0",
    "00",
    "9",
    "10",
    "258",
    "65538",
    "4294967298",
    "18446744073709551618",
    "99999999999999999999999",
];

/// The last two are digits of other scripts.
const NO_NUMBERS: [&str; 17] = [
    "", "two", "-2", "+2", " 2", "2 ", "2.0", "2x", "x2", "0x2", "2e0", "2/", "2:", "2,2", "2-",
    "\u{662}", "\u{ff12}",
];

/// What the inputs have met.
#[derive(Default)]
pub struct Met {
    /// Words with zeros before the number, numbers outside 1 to 8, and words that are none.
    counts: [u64; 3],
    /// Files that could not be read, alone and among others, by the kinds of `Quarters::unreadable`.
    unread: [u64; 7],
    /// Runs in which several of them were named.
    several: u64,
    /// Files of the greatest length.
    longest: u64,
    /// Files that came in pieces.
    slow: u64,
    /// Names that a terminal showed.
    pub shown: u64,
}

impl Met {
    pub fn add_to(&self, reached: &mut Reached) {
        let name = "desk counts with zeros, outside 1 to 8, words that are none";
        reached.add(name, &self.counts);
        let name = "files missing twice, a folder, a failing read, files too long by 1, 6, 1";
        reached.add(name, &self.unread);
        reached.add("quarters with several of them", &[self.several]);
        reached.add("files of 2,097,152 bytes", &[self.longest]);
        reached.add("files that come in pieces", &[self.slow]);
        reached.add("names shown at a terminal", &[self.shown]);
    }
}

impl Quarters {
    pub fn inputs(&mut self) -> Checked {
        self.desk_counts()?;
        self.no_words()?;
        self.unreadable()?;
        self.lengths()?;
        self.names()?;
        self.many()?;
        self.pieces()
    }

    fn desk_counts(&mut self) -> Checked {
        let days = self.lay_all(vec![papers::day("B"), papers::day("C")])?;
        let wanted = "desks 2 pages 2 mean 8/1 borrowed 1/2 largest 8";
        for zeros in [1, 8, 30, 5_000] {
            let word = "0".repeat(zeros) + "2";
            self.by_hand("zeros before a desk count", &word, &days, wanted)?;
            self.met.counts[0] += 1;
        }
        let long = "3".repeat(5_000);
        for word in OUTSIDE.into_iter().chain([long.as_str()]) {
            self.by_hand("a desk count outside 1 to 8", word, &days, "refused 1")?;
            self.by_hand("the same without files", word, &[], "refused 1")?;
            self.met.counts[1] += 1;
        }
        for word in NO_NUMBERS {
            for words in [vec![word], vec![word, "000.day"], vec![word, "000.day", "001.day"]] {
                self.refused(&words, &[word])?;
            }
            self.met.counts[2] += 1;
        }
        Ok(())
    }

    /// Without any argument, and without files.
    fn no_words(&mut self) -> Checked {
        let run = self.run::<&str>(&[])?;
        let said = run.message.to_lowercase();
        let told = said.contains("file") && (said.contains("use") || said.contains("usage"));
        if !run.printed.is_empty() || !told {
            return Err(format!("without words it says {:?}", run.message).into());
        }
        for asked in 0..=9 {
            let wanted = if (1..=8).contains(&asked) { "refused 14" } else { "refused 1" };
            self.by_hand("no files", &asked.to_string(), &[], wanted)?;
            let empty = self.lay_all(vec![Vec::new()])?;
            self.by_hand("an empty file", &asked.to_string(), &empty, wanted)?;
        }
        Ok(())
    }

    /// Each file that cannot be read or is too long, alone and among others, whatever the desk count.
    fn unreadable(&mut self) -> Checked {
        self.lay_all(vec![papers::day("B"), Vec::new()])?;
        fs::create_dir(self.scratch.join("folder.day"))?;
        let refused = refused_records(MOST_BYTES + 6);
        self.lay("odd.day", refused[..MOST_BYTES + 1].to_vec())?;
        self.lay("even.day", refused)?;
        // The first record of this one would end it.
        self.lay("zeros.day", vec![0; MOST_BYTES + 1])?;
        let memory = "/proc/self/mem";
        let failing = if Path::new(memory).exists() { memory } else { "folder.day" };
        let files =
            ["none.day", "none/000.day", "folder.day", failing, "odd.day", "even.day", "zeros.day"];
        for asked in ["2", "3", "0", "9"] {
            for (kind, file) in files.into_iter().enumerate() {
                self.refused(&[asked, file], &[file])?;
                self.refused(&[asked, "000.day", file], &[file])?;
                self.refused(&[asked, file, "001.day", "000.day"], &[file])?;
                self.met.unread[kind] += 1;
            }
            let all = [&["000.day"], &files[..3], &["001.day"], &files[4..], &["000.day"]].concat();
            let named = [&files[..3], &files[4..]].concat();
            self.refused(&[&[asked], &all[..]].concat(), &named)?;
            self.refused(&[asked, "000.day", ""], &[""])?;
            self.met.several += 1;
        }
        Ok(())
    }

    /// Nothing is printed, and standard error has a line for each of these.
    pub fn refused(&mut self, words: &[&str], said: &[&str]) -> Checked {
        let complaints: Vec<Complaint> = said.iter().map(|&said| (said, None)).collect();
        let run = self.run(words)?;
        let held = self.held(&run, "", &complaints);
        held.map_err(|why| format!("the words {words:?}: {why}").into())
    }

    /// Files that are just not too long, with a day at their beginning or at their end.
    fn lengths(&mut self) -> Checked {
        let day = papers::day("B");
        let rest = refused_records(MOST_BYTES - day.len());
        let files = [[&day[..], &rest], [&rest, &day]].map(|parts| parts.concat());
        let days = self.lay_all(files.to_vec())?;
        for (days, pages) in [(&days[..1], 1), (&days[1..], 1), (&days[..], 2)] {
            let wanted = format!("desks 2 pages {pages} mean 8/1 borrowed 1/1 largest 8");
            self.by_hand("files that are just not too long", "2", days, &wanted)?;
            self.met.longest += days.len() as u64;
        }
        Ok(())
    }

    /// Names that look like something else.
    fn names(&mut self) -> Checked {
        let broken = [papers::day("B"), bytes("raw 04")].concat();
        let wanted = "desks 2 pages 1 mean 8/1 borrowed 1/1 largest 8";
        for name in ["-2.day", "--help", "-", "3", "first and second.day", "märz.day", "a:b=c.day"]
        {
            let day = self.lay(name, broken.clone())?;
            self.by_hand("a file's name", "2", &[day], wanted)?;
        }
        // A name that is no text is one that the program cannot open, though the file is there.
        let name = OsStr::from_bytes(b"m\xe4rz.day");
        fs::write(self.scratch.join(name), papers::day("B"))?;
        let run = self.run(&[OsStr::new("2"), name])?;
        let held = self.held(&run, "", &[(&name.to_string_lossy(), None)]);
        held.map_err(|why| format!("the name {name:?}: {why}").into())
    }

    /// More files than can be open at once.
    fn many(&mut self) -> Checked {
        let days = self.lay_all(vec![papers::day("H"), papers::day("B")])?;
        let many = [vec![days[0].clone(); 1_999], days[1..].to_vec()].concat();
        let mut command = Command::new("sh");
        command.args(["-c", "ulimit -n 100 && exec \"$0\" \"$@\""]).arg(&self.program);
        let run = command.args(words("2", &many)).current_dir(&self.scratch).output()?;
        // 8,004 turns: 1,999 pages of 4 and one of 8.
        let wanted = "desks 2 pages 2000 mean 2001/500 borrowed 1/2000 largest 8\n";
        let held = self.held(&program::ended(run)?, wanted, &[]);
        held.map_err(|why| format!("2,000 files: {why}").into())
    }

    /// A file that comes in pieces, a good one and one that is too long.
    fn pieces(&mut self) -> Checked {
        let name = "/dev/stdin";
        let file = papers::day("B");
        let day = DayFile { name: name.to_string(), pages: DayPages::of(&file), file };
        let long = refused_records(MOST_BYTES + 6);
        for count in [1, 5, 7, 64] {
            let mut command = self.command();
            command.args(words("2", &[day.clone()])).stdin(Stdio::piped());
            let run = program::ended(program::slowly(&mut command, &day.file, count)?)?;
            let wanted = "desks 2 pages 1 mean 8/1 borrowed 1/1 largest 8\n";
            self.held(&run, wanted, &[])
                .map_err(|why| format!("{count} bytes at a time: {why}"))?;
            self.met.slow += 1;
        }
        let mut command = self.command();
        command.args(["2", name]).stdin(Stdio::piped());
        let run = program::ended(program::slowly(&mut command, &long, 1 << 16)?)?;
        self.held(&run, "", &[(name, None)]).map_err(|why| format!("a long pipe: {why}").into())
    }
}
