//! Day files as lines that people can read and write:
//!
//! ```text
//! open 2          # the desk count
//! entry 1 7       # desk and word
//! page 2          # desk
//! turn 1 x5       # desk; any line may be repeated so
//! raw 04 00 09    # bytes in hexadecimal, for damaged files
//! ```

use crate::dayfile::{self, Record};
use std::fmt::Write;
use std::str::FromStr;

/// The day file that the lines stand for, or the number of the first bad line and what is wrong.
pub fn to_bytes(text: &str) -> Result<Vec<u8>, (usize, String)> {
    let mut file = Vec::new();
    for (i, line) in text.lines().enumerate() {
        add_line(line, &mut file).map_err(|why| (i + 1, why))?;
    }
    Ok(file)
}

fn add_line(line: &str, file: &mut Vec<u8>) -> Result<(), String> {
    let said = line.split('#').next().unwrap_or("");
    let mut words: Vec<&str> = said.split_whitespace().collect();
    if words.is_empty() {
        return Ok(());
    }
    let times = match words.last().and_then(|word| word.strip_prefix('x')) {
        Some(times) => {
            words.pop();
            number(times)?
        }
        None => 1,
    };
    let bytes = line_bytes(&words)?;
    for _ in 0..times {
        file.extend_from_slice(&bytes);
    }
    Ok(())
}

fn line_bytes(words: &[&str]) -> Result<Vec<u8>, String> {
    let record = match *words {
        ["open", desks] => Record::Open { desks: number(desks)? },
        ["entry", desk, word] => Record::Entry { desk: number(desk)?, word: number(word)? },
        ["page", desk] => Record::Page { desk: number(desk)? },
        ["turn", desk] => Record::Turn { desk: number(desk)? },
        ["raw", ref bytes @ ..] => return bytes.iter().map(|byte| hexadecimal(byte)).collect(),
        _ => return Err(format!("'{}' is none of open, entry, page, turn, raw", words.join(" "))),
    };
    let mut bytes = Vec::new();
    dayfile::write(record, &mut bytes);
    Ok(bytes)
}

fn number<T: FromStr>(word: &str) -> Result<T, String> {
    let bits = 8 * size_of::<T>();
    word.parse().map_err(|_| format!("'{word}' is not a number of {bits} bits"))
}

fn hexadecimal(word: &str) -> Result<u8, String> {
    let two_digits = word.len() == 2 && word.bytes().all(|digit| digit.is_ascii_hexdigit());
    match u8::from_str_radix(word, 16) {
        Ok(byte) if two_digits => Ok(byte),
        _ => Err(format!("'{word}' is not a byte in hexadecimal")),
    }
}

/// The lines of a day file. What follows a refused record is raw bytes.
pub fn to_text(file: &[u8]) -> String {
    let mut text = String::new();
    let mut at = 0;
    let mut last = (String::new(), 0);
    while let Ok(Some((record, next))) = dayfile::read(&file[at..]) {
        at += next;
        let line = record_line(record);
        if line != last.0 {
            add_repeated(&mut text, &last.0, last.1);
            last = (line, 0);
        }
        last.1 += 1;
    }
    add_repeated(&mut text, &last.0, last.1);
    for bytes in file[at..].chunks(16) {
        text.push_str("raw");
        for byte in bytes {
            let _ = write!(text, " {byte:02x}");
        }
        text.push('\n');
    }
    text
}

fn record_line(record: Record) -> String {
    match record {
        Record::Open { desks } => format!("open {desks}"),
        Record::Entry { desk, word } => format!("entry {desk} {word}"),
        Record::Page { desk } => format!("page {desk}"),
        Record::Turn { desk } => format!("turn {desk}"),
    }
}

fn add_repeated(text: &mut String, line: &str, times: usize) {
    match times {
        0 => {}
        1 => *text += &format!("{line}\n"),
        _ => *text += &format!("{line} x{times}\n"),
    }
}
