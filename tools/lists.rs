//! The commands that list something of a yard file's runs: FILE and, for one run alone, its number.

use crate::yards::{self, Tables};
use std::path::Path;
use std::process::ExitCode;

/// Where the file stopped, then the lines of one run or of every run of the yard.
fn listing(file: &[u8], run: Option<u32>, lines: fn(&Tables, u32) -> String) -> String {
    let yard = yards::replayed(file);
    let stop = yard.stop.map_or(String::new(), |s| format!("stop {} at {}\n", s.number, s.at));
    let all = (0..24).filter(|&m| yard.tables.runs[5 * m as usize] == 1);
    let runs: Vec<u32> = run.map_or(all.collect(), |m| vec![m]);
    stop + &runs.into_iter().map(|m| lines(&yard.tables, m)).collect::<String>()
}

pub fn refused(run: u32, number: u32) -> String {
    format!("run {run} answer {number}\n")
}

/// The whole command.
pub fn listed(command: &str, lines: fn(&Tables, u32) -> String) -> ExitCode {
    let words: Vec<std::ffi::OsString> = std::env::args_os().skip(1).collect();
    let number = words.get(1).map(|w| w.to_str().and_then(|w| w.parse::<u32>().ok()));
    if words.is_empty() || words.len() > 2 || number == Some(None) {
        return yards::misused(&format!("usage: {command} FILE [RUN]"));
    }
    let file = yards::bytes(Path::new(&words[0]));
    yards::printed(command, file.map(|file| listing(&file, number.flatten(), lines)))
}
