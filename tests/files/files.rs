//! The files that are tried: written from edits, and damaged.

use crate::random::{self, Random};
use crate::reader::{HEAD, LONGEST, SHORT};
use crate::tables::Edit;

pub fn record(e: &Edit) -> Vec<u8> {
    let start = |kind: u8, number: &u32| vec![kind, (*number).min(255) as u8];
    let with = |mut bytes: Vec<u8>, fields: &[u16]| {
        bytes.extend(fields.iter().flat_map(|f| f.to_le_bytes()));
        bytes
    };
    match e {
        Edit::AddBlock(n, words) => {
            let count = (words.len() / 2).min(255);
            let mut bytes = start(1, n);
            bytes.push(count as u8);
            with(bytes, &words[..2 * count])
        }
        Edit::RemoveBlock(n) => start(2, n),
        Edit::MoveBlock(n, east, north) => with(start(3, n), &[*east as u16, *north as u16]),
        Edit::AddRun(m, ends) => with(start(4, m), ends),
        Edit::RemoveRun(m) => start(5, m),
        Edit::MoveRun(m, ends) => with(start(6, m), ends),
        // the number byte is ignored: any will do
        Edit::SetCharge(figure) => with(vec![7, (figure % 251) as u8], &[*figure]),
    }
}

/// As version 2 has it. A step that fits in no signed byte is written all the same, as another one.
pub fn short_record(e: &Edit) -> Vec<u8> {
    let full = record(e);
    if full[0] != 1 || full[2] == 0 {
        return full;
    }
    let words: Vec<u16> = full[3..].chunks(2).map(|b| u16::from_le_bytes([b[0], b[1]])).collect();
    let steps = (2..words.len()).map(|k| words[k].wrapping_sub(words[k - 2]) as u8);
    full[..7].iter().copied().chain(steps).collect()
}

/// As many of the records as a yard file has room for.
fn joined(head: [u8; 5], records: impl Iterator<Item = Vec<u8>>) -> Vec<u8> {
    let mut bytes = head.to_vec();
    for r in records {
        if bytes.len() + r.len() <= LONGEST {
            bytes.extend(r);
        }
    }
    bytes
}

pub fn file(edits: &[Edit]) -> Vec<u8> {
    joined(HEAD, edits.iter().map(record))
}

pub fn short_file(edits: &[Edit]) -> Vec<u8> {
    joined(SHORT, edits.iter().map(short_record))
}

/// A random yard's file of up to so many edits, some of them refused, of either version.
pub fn random_file(r: &mut Random, most: usize) -> Vec<u8> {
    let s = random::any_style(r);
    let count = r.below(most + 1);
    let edits = random::list(r, &s, count);
    if r.percent(50) { file(&edits) } else { short_file(&edits) }
}

/// Any bytes as records, most of them of a right kind.
pub fn random_bytes(r: &mut Random) -> Vec<u8> {
    let mut bytes = r.pick(&[HEAD, SHORT]).to_vec();
    let length = r.pick(&[5, 6, 7, 20, 60, 200, 1000, 8190]) + r.below(4);
    while bytes.len() < length {
        bytes.push(if r.percent(96) { 1 + r.below(7) as u8 } else { r.next() as u8 });
        bytes.push(r.below(26) as u8);
        if r.percent(40) {
            bytes.extend([3 + r.below(3) as u8, 10, 0, 10, 0, 20, 0, 10, 0, 20, 0, 20, 0]);
        }
        for _ in 0..r.below(5) {
            bytes.extend([r.below(40) as u8, r.pick(&[0, 0, 0, 0, 1, 127, 128, 255])]);
        }
    }
    if r.percent(50) {
        bytes.truncate(length);
    }
    bytes
}

/// One to four damages of a file.
pub fn damaged(r: &mut Random, file: &[u8], other: &[u8]) -> Vec<u8> {
    let mut bytes = file.to_vec();
    for _ in 0..1 + r.below(4) {
        let at = r.below(bytes.len() + 1);
        let to = (at + r.below(14)).min(bytes.len());
        match r.below(9) {
            0 => bytes.truncate(at),
            1 if at < bytes.len() => bytes[at] = r.next() as u8,
            2 if at < bytes.len() => bytes[at] ^= 1 << r.below(8),
            3 if at < bytes.len() => bytes[at] = r.pick(&[0, 1, 2, 3, 4, 5, 6, 7, 8, 9, 23, 24, 127, 128, 255]),
            4 => bytes.insert(at, r.pick(&[0, 1, 2, 3, 4, 5, 6, 7, 255])),
            5 => drop(bytes.drain(at..to)),
            6 => {
                let again = bytes[at..to].to_vec();
                bytes.splice(to..to, again);
            }
            7 => {
                let from = r.below(other.len() + 1);
                let part = &other[from..(from + r.below(60)).min(other.len())];
                bytes.splice(at..at, part.iter().copied());
            }
            _ => bytes.extend((0..r.below(12)).map(|_| r.next() as u8).collect::<Vec<_>>()),
        }
    }
    bytes
}
