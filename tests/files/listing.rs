//! The listing of a yard file by this test's own reader and the second planner, and of its ducts by the second router.

use crate::duct_router::{Lines, Path};
use crate::reader::read;
use crate::reference::Book;
use std::fmt::Write;

pub fn listing(file: &[u8]) -> String {
    let (edits, stop) = read(file);
    let mut book = Book::new();
    let mut out = String::new();
    for (k, e) in edits.iter().enumerate() {
        writeln!(out, "edit {} answer {}", k + 1, book.step(e)).unwrap();
    }
    if let Some(stop) = stop {
        writeln!(out, "stop {} at {}", stop.number, stop.at).unwrap();
    }
    if book.runs.iter().all(|r| r.is_empty()) {
        return out;
    }
    let drawing = book.drawing();
    for m in 0..24 {
        match drawing.route(m) {
            (1, length, marks) => {
                write!(out, "run {m} length {length} marks").unwrap();
                marks.iter().for_each(|mark| write!(out, " {mark}").unwrap());
                out.push('\n');
            }
            (2, ..) => writeln!(out, "run {m} no way").unwrap(),
            _ => {}
        }
    }
    out
}

fn duct(out: &mut String, run: usize, path: &Path) {
    let list = &path.crossings;
    writeln!(out, "run {run} duct cost {} changes {} crossings {}", path.cost, path.changes, list.len()).unwrap();
    writeln!(out, "from {} {}", list[0].0, list[0].1).unwrap();
    for w in list.windows(3).filter(|w| (w[1].0 - w[0].0 == 0) != (w[2].0 - w[1].0 == 0)) {
        writeln!(out, "turn {} {}", w[1].0, w[1].1).unwrap();
    }
    writeln!(out, "to {} {}", list[list.len() - 1].0, list[list.len() - 1].1).unwrap();
}

/// What `yardduct` prints for a file.
pub fn ducts(file: &[u8]) -> String {
    let (edits, stop) = read(file);
    let mut book = Book::new();
    for e in &edits {
        book.step(e);
    }
    let mut out = stop.map_or(String::new(), |s| format!("stop {} at {}\n", s.number, s.at));
    let standing = book.blocks.iter().filter(|b| !b.is_empty()).count();
    for (m, ends) in book.runs.iter().enumerate().filter(|(_, ends)| !ends.is_empty()) {
        if standing > 8 {
            writeln!(out, "run {m} answer 12").unwrap();
            continue;
        }
        match Lines::new(&book, ends).least() {
            Some(path) => duct(&mut out, m, &path),
            None => writeln!(out, "run {m} duct no way").unwrap(),
        }
    }
    out
}
