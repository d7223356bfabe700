//! A reader of yard files of both versions: all edits at once.

use crate::tables::Edit;

/// Where reading stopped short of the file's end: 9, 10 or 22, and the position of the record, 0 for 9.
#[derive(Clone, Copy, Debug, PartialEq, Eq)]
pub struct Stop {
    pub number: u32,
    pub at: usize,
}

pub const HEAD: [u8; 5] = *b"YRD\x01\x00";
/// Of version 2.
pub const SHORT: [u8; 5] = *b"YRD\x02\x00";
pub const LONGEST: usize = 8192;

pub fn read(file: &[u8]) -> (Vec<Edit>, Option<Stop>) {
    let mut edits = vec![];
    if file.len() > LONGEST || !(file.starts_with(&HEAD) || file.starts_with(&SHORT)) {
        return (edits, Some(Stop { number: 9, at: 0 }));
    }
    let mut at = HEAD.len();
    while at < file.len() {
        match record(&file[at..], file.starts_with(&SHORT)) {
            Some((Some(edit), size)) => {
                edits.push(edit);
                at += size;
            }
            Some((None, _)) => return (edits, Some(Stop { number: 22, at })),
            None => return (edits, Some(Stop { number: 10, at })),
        }
    }
    (edits, None)
}

/// The record that some bytes start with and its size, if its kind is 1 to 7 and it is whole; no edit where a corner that
/// version 2 counts is outside 0 to 32,767.
fn record(bytes: &[u8], short: bool) -> Option<(Option<Edit>, usize)> {
    let kind = *bytes.first()?;
    let number = *bytes.get(1)? as u32;
    let fields = |from: usize, count: usize| -> Option<Vec<u16>> {
        Some(bytes.get(from..from + 2 * count)?.chunks(2).map(|b| u16::from_le_bytes([b[0], b[1]])).collect())
    };
    let four = || fields(2, 4).map(|f| [f[0], f[1], f[2], f[3]]);
    let (edit, size) = match kind {
        1 if short => {
            let count = *bytes.get(2)? as usize;
            let full = fields(3, if count == 0 { 0 } else { 2 })?;
            let steps = bytes.get(3 + 2 * full.len()..3 + 2 * full.len() + 2 * count.saturating_sub(1))?;
            let corners = counted(&full, steps);
            return Some((corners.map(|words| Edit::AddBlock(number, words)), 3 + 2 * full.len() + steps.len()));
        }
        1 => {
            let count = *bytes.get(2)? as usize;
            (Edit::AddBlock(number, fields(3, 2 * count)?), 3 + 4 * count)
        }
        2 => (Edit::RemoveBlock(number), 2),
        3 => fields(2, 2).map(|f| (Edit::MoveBlock(number, f[0] as i16, f[1] as i16), 6))?,
        4 => four().map(|ends| (Edit::AddRun(number, ends), 10))?,
        5 => (Edit::RemoveRun(number), 2),
        6 => four().map(|ends| (Edit::MoveRun(number, ends), 10))?,
        7 => fields(2, 1).map(|f| (Edit::SetCharge(f[0]), 4))?,
        _ => return None,
    };
    Some((Some(edit), size))
}

/// A first corner and the signed steps from each to the next, as words; none where one is outside.
fn counted(first: &[u16], steps: &[u8]) -> Option<Vec<u16>> {
    let mut places: Vec<i32> = first.iter().map(|&w| w as i32).collect();
    for (k, &step) in steps.iter().enumerate() {
        places.push(places[k] + step as i8 as i32);
    }
    places.into_iter().map(|place| (0..=32767).contains(&place).then_some(place as u16)).collect()
}
