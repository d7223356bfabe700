//! Draws a yard file as an SVG of one A4 page: blocks with their numbers, and runs with their routes, bends rounded, and
//! lengths or the duct of one run with its cost.

mod drawing;
mod duct_drawing;
mod labels;
mod plane;
mod rounded;
mod yards;

use rounded::Spot;
use std::ffi::OsStr;
use std::path::Path;
use std::process::ExitCode;
use yards::{Place, Replayed, Stop};

/// A yard after the edits of a file, as it is drawn.
pub struct Yard {
    pub blocks: Vec<(usize, Vec<Place>)>,
    pub runs: Vec<Run>,
    /// The sum of the lengths of found runs.
    pub sum: u32,
    /// The least charge of a straight.
    pub figure: u16,
    pub edits: usize,
    pub refused: usize,
    pub stop: Option<Stop>,
}

pub struct Run {
    pub number: usize,
    pub ends: [Place; 2],
    /// The line that its route is drawn as and what the route is charged; the straight between its ends if there is no way.
    pub line: Vec<Spot>,
    pub length: Option<u32>,
}

fn drawn(yard: &Replayed) -> Yard {
    let t = &yard.tables;
    let corners = |words: &[u16]| -> Vec<Place> {
        let count = words[0] as usize;
        words[1..1 + 2 * count].chunks(2).map(|c| (c[0], c[1])).collect()
    };
    let blocks = t.blocks.chunks(17).map(corners).enumerate().filter(|(_, b)| !b.is_empty()).collect();
    let run = |number: usize| -> Run {
        let words = &t.runs[5 * number..5 * number + 5];
        let ends = [(words[1], words[2]), (words[3], words[4])];
        match t.route(number) {
            (1, length, _) => Run { number, ends, line: rounded::line(t, number as u32), length: Some(length) },
            _ => Run { number, ends, line: ends.map(rounded::spot).to_vec(), length: None },
        }
    };
    let runs = (0..24).filter(|&m| t.route(m).0 != 0).map(run).collect();
    Yard { blocks, runs, sum: t.sum(), figure: t.figure(), edits: yard.edits, refused: yard.refused, stop: yard.stop }
}

/// The picture of a file, with the duct of one run if that is wanted.
fn picture(path: &Path, run: Option<u32>) -> Result<String, String> {
    let yard = yards::replayed(&yards::bytes(path)?);
    let name = path.file_name().unwrap_or(path.as_os_str()).to_string_lossy();
    Ok(match run {
        None => drawing::svg(&name, &drawn(&yard)),
        Some(run) => duct_drawing::svg(&name, &drawn(&yard), run, &yards::duct(&yard.tables, run)),
    })
}

fn main() -> ExitCode {
    let words: Vec<std::ffi::OsString> = std::env::args_os().skip(1).collect();
    let words: Vec<&OsStr> = words.iter().map(|w| w.as_os_str()).collect();
    let number = |word: &OsStr| word.to_str()?.parse::<u32>().ok();
    let wanted = match words[..] {
        [path] => Some((path, None)),
        [option, run, path] if option == "--duct" => number(run).map(|run| (path, Some(run))),
        _ => None,
    };
    let Some((path, run)) = wanted else {
        return yards::misused("usage: yardpicture [--duct RUN] FILE > yard.svg");
    };
    yards::printed("yardpicture", picture(Path::new(path), run))
}
