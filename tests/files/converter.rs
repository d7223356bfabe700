//! The conversions of yard files a second time: cut into records, then each question to all of them.

use crate::reader::{HEAD, LONGEST, SHORT};

/// East and north of a corner, as whole numbers.
type Corner = (i32, i32);

/// The size of the record that some bytes start with, if it is known and whole.
fn size(bytes: &[u8], short: bool) -> Option<usize> {
    let body = match (bytes, short) {
        ([1, _, 0, ..], _) => 1,
        ([1, _, count, ..], true) => 1 + 4 + 2 * (*count as usize - 1),
        ([1, _, count, ..], false) => 1 + 4 * *count as usize,
        ([2 | 5, _, ..], _) => 0,
        ([3, _, ..], _) => 4,
        ([4 | 6, _, ..], _) => 8,
        ([7, _, ..], _) => 2,
        _ => return None,
    };
    (2 + body <= bytes.len()).then_some(2 + body)
}

/// The corners of a record, where it adds a block.
fn corners(record: &[u8], short: bool) -> Vec<Corner> {
    if record[0] != 1 {
        return vec![];
    }
    let full = |b: &[u8]| (b[0] as i32 + 256 * b[1] as i32, b[2] as i32 + 256 * b[3] as i32);
    if !short || record.len() < 7 {
        return record[3..].chunks(4).map(full).collect();
    }
    let mut at = full(&record[3..7]);
    let mut list = vec![at];
    for step in record[7..].chunks(2) {
        at = (at.0 + step[0] as i8 as i32, at.1 + step[1] as i8 as i32);
        list.push(at);
    }
    list
}

fn far(list: &[Corner]) -> bool {
    let step = |from: i32, to: i32| !(-128..=127).contains(&(to - from));
    list.windows(2).any(|w| step(w[0].0, w[1].0) || step(w[0].1, w[1].1))
}

fn outside(list: &[Corner]) -> bool {
    list.iter().any(|c| [c.0, c.1].iter().any(|w| !(0..=32767).contains(w)))
}

fn in_full(c: &Corner) -> Vec<u8> {
    [c.0, c.1].iter().flat_map(|&w| (w as u16).to_le_bytes()).collect()
}

/// A record with these corners, in the target version.
fn written(record: &[u8], list: &[Corner], short: bool) -> Vec<u8> {
    if record[0] != 1 {
        return record.to_vec();
    }
    let mut bytes = record[..3].to_vec();
    for (k, c) in list.iter().enumerate() {
        if short && k > 0 {
            bytes.extend([(c.0 - list[k - 1].0) as i8 as u8, (c.1 - list[k - 1].1) as i8 as u8]);
        } else {
            bytes.extend(in_full(c));
        }
    }
    bytes
}

/// The file in the other version, or the number of the question that fails: shortened or lengthened.
pub fn converted(file: &[u8], shorten: bool) -> Result<Vec<u8>, u32> {
    let (source, target) = if shorten { (HEAD, SHORT) } else { (SHORT, HEAD) };
    if file.len() > LONGEST || !file.starts_with(&source) {
        return Err(9);
    }
    let mut records = vec![];
    let mut rest = &file[5..];
    while !rest.is_empty() {
        let (record, after) = rest.split_at(size(rest, !shorten).ok_or(10u32)?);
        records.push((record, corners(record, !shorten)));
        rest = after;
    }
    if shorten && records.iter().any(|(_, list)| far(list)) {
        return Err(21);
    }
    if records.iter().any(|(_, list)| outside(list)) {
        return Err(22);
    }
    let bodies = records.iter().flat_map(|(record, list)| written(record, list, shorten));
    let result: Vec<u8> = target.into_iter().chain(bodies).collect();
    if result.len() > LONGEST { Err(9) } else { Ok(result) }
}
