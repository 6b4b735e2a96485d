//! Writes day files: readable lines from standard input, the day file to standard output. With
//! `--read`, the other way round.

use model::text;
use std::io::{self, Read, Write};
use std::process::ExitCode;

fn main() -> ExitCode {
    let wanted: Vec<String> = std::env::args().skip(1).collect();
    let made = match wanted.as_slice() {
        [] => write_day(),
        [flag] if flag == "--read" => read_day(),
        _ => Err("use: day < LINES > DAY, or day --read < DAY > LINES".to_string()),
    };
    match made.and_then(|bytes| io::stdout().write_all(&bytes).map_err(|e| e.to_string())) {
        Ok(()) => ExitCode::SUCCESS,
        Err(why) => {
            eprintln!("day: {why}");
            ExitCode::FAILURE
        }
    }
}

fn write_day() -> Result<Vec<u8>, String> {
    let lines = io::read_to_string(io::stdin()).map_err(|e| e.to_string())?;
    text::to_bytes(&lines).map_err(|(line, why)| format!("line {line}: {why}"))
}

fn read_day() -> Result<Vec<u8>, String> {
    let mut file = Vec::new();
    io::stdin().read_to_end(&mut file).map_err(|e| e.to_string())?;
    Ok(text::to_text(&file).into_bytes())
}
