//! What the commands share: the yard that a file leaves, the ducts of its runs, and the printing of the result. Files are
//! replayed and ducts quoted by the proved planner, from the static library `yard_abi`.

#[path = "../bindings/abi.rs"]
#[allow(dead_code)]
mod abi;
#[path = "../bindings/linked.rs"]
#[allow(dead_code)]
pub mod linked;
#[path = "../bindings/tables.rs"]
#[allow(dead_code)]
mod tables;

use linked::{quote_duct, replay, Linked};
use std::fs::File;
use std::io::{ErrorKind, Read, Write};
use std::path::Path;
use std::process::ExitCode;
use tables::Planner;
pub use tables::Tables;

/// East and north, in centimetres.
pub type Place = (u16, u16);

/// Where reading stopped short of the file's end: 9, 10 or 22, and the position of the record, 0 for 9.
#[derive(Clone, Copy)]
pub struct Stop {
    pub number: u32,
    pub at: u64,
}

/// What the edits of a file left.
pub struct Replayed {
    pub tables: Tables,
    pub edits: usize,
    pub refused: usize,
    pub stop: Option<Stop>,
}

pub fn replayed(file: &[u8]) -> Replayed {
    let mut tables = Tables::unstarted();
    Linked.start(&mut tables);
    let (mut answers, mut end) = (vec![0; 4096], [0; 2]);
    let number = replay(&mut tables, file, &mut answers, &mut end);
    let [edits, at] = end;
    let answers = &answers[..edits as usize];
    let refused = answers.iter().filter(|&&answer| answer != 0).count();
    Replayed { tables, edits: answers.len(), refused, stop: (number != 0).then_some(Stop { number, at }) }
}

/// The bytes of a file, one more than a yard file may have at most, or why it cannot be read.
pub fn bytes(path: &Path) -> Result<Vec<u8>, String> {
    let mut bytes = vec![];
    let read = File::open(path).and_then(|file| file.take(8193).read_to_end(&mut bytes));
    read.map(|_| bytes).map_err(|e| format!("cannot read the file '{}': {e}", path.display()))
}

/// Prints what a command made, or one line that says why there is nothing. A reader who closes the pipe has read enough.
pub fn printed(command: &str, made: Result<impl AsRef<[u8]>, String>) -> ExitCode {
    let written = made.and_then(|made| {
        let mut out = std::io::stdout();
        match out.write_all(made.as_ref()).and_then(|()| out.flush()) {
            Err(e) if e.kind() != ErrorKind::BrokenPipe => Err(format!("cannot write the output: {e}")),
            _ => Ok(()),
        }
    });
    match written {
        Ok(()) => ExitCode::SUCCESS,
        Err(why) => {
            said(&format!("{command}: {why}"));
            ExitCode::FAILURE
        }
    }
}

pub fn misused(usage: &str) -> ExitCode {
    said(usage);
    ExitCode::from(2)
}

/// One line on the error stream, lost where that cannot be written either.
fn said(line: &str) {
    let _ = writeln!(std::io::stderr(), "{line}");
}

/// What the quote of a duct says.
pub enum Duct {
    Refused(u32),
    NoWay,
    Found(Way),
}

pub struct Way {
    pub cost: u32,
    /// From the first end to the second.
    pub crossings: Vec<Place>,
}

impl Way {
    /// The crossings where it changes direction.
    pub fn turns(&self) -> Vec<Place> {
        let in_line = |w: &[Place]| (w[0].0 == w[1].0 && w[1].0 == w[2].0) || (w[0].1 == w[1].1 && w[1].1 == w[2].1);
        self.crossings.windows(3).filter(|w| !in_line(w)).map(|w| w[1]).collect()
    }
}

pub fn duct(t: &Tables, run: u32) -> Duct {
    let (mut quote, mut words) = ([0; 3], vec![0; 8712]);
    match (quote_duct(&t.blocks, &t.runs, run, &mut quote, &mut words), quote) {
        (0, [1, cost, count]) => {
            Duct::Found(Way { cost, crossings: words.chunks(2).take(count as usize).map(|w| (w[0], w[1])).collect() })
        }
        (0, _) => Duct::NoWay,
        (number, _) => Duct::Refused(number),
    }
}
