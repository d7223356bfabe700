//! Turns a yard file into the other version: convert shorten FILE, or convert lengthen FILE.

#[allow(dead_code)]
mod yards;

use std::path::Path;
use std::process::ExitCode;
use yards::linked;

/// The most bytes that a yard file has.
const LONGEST: usize = 8192;

/// What a refusal means.
fn meaning(number: u32, file: &[u8], head: &[u8]) -> String {
    match number {
        9 if file.len() <= LONGEST && file.starts_with(head) => "the result would have more than 8,192 bytes".to_string(),
        9 => format!("not a yard file of version {}", head[3]),
        10 => "a record is of no known kind or cut off".to_string(),
        21 => "a step from a corner to the next is not from -128 to 127".to_string(),
        _ => "a corner is not from 0 to 32,767".to_string(),
    }
}

/// The file in the other version.
fn converted(shorten: bool, file: &[u8]) -> Result<Vec<u8>, String> {
    let (mut buffer, mut length) = (vec![0; LONGEST], [0]);
    let number = linked::convert(shorten, file, &mut buffer, &mut length);
    if number != 0 {
        let head = if shorten { b"YRD\x01\x00" } else { b"YRD\x02\x00" };
        return Err(format!("answer {number}: {}", meaning(number, file, head)));
    }
    buffer.truncate(length[0] as usize);
    Ok(buffer)
}

fn main() -> ExitCode {
    let words: Vec<std::ffi::OsString> = std::env::args_os().skip(1).collect();
    let (shorten, file) = match &words[..] {
        [word, file] if word == "shorten" => (true, file),
        [word, file] if word == "lengthen" => (false, file),
        _ => return yards::misused("usage: convert shorten | lengthen FILE"),
    };
    let command = if shorten { "yardshorten" } else { "yardlengthen" };
    yards::printed(command, yards::bytes(Path::new(file)).and_then(|file| converted(shorten, &file)))
}
