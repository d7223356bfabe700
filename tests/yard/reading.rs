//! The exported read against a reader of the test's own, over files good and damaged and at every kind of position.

use crate::abi::yard_read;
use crate::random::Random;
use crate::Report;

/// What the record at a position is, written from docs/RULES.md: its kind, number, fields and next position.
fn own_read(file: &[u8], at: usize) -> Result<[u64; 4], u32> {
    let short = file.starts_with(b"YRD\x02\x00");
    if !(5..=8192).contains(&file.len()) || !(short || file.starts_with(b"YRD\x01\x00")) {
        return Err(9);
    }
    if at == file.len() {
        return Ok([0, 0, 0, at as u64]);
    }
    let rest = if at < 5 { None } else { file.get(at..) };
    let body = match rest {
        Some([1, _, count, ..]) if short && *count > 0 => 3 + 2 * *count as usize,
        Some([1, _, count, ..]) => 1 + 4 * *count as usize,
        Some([2 | 5, _, ..]) => 0,
        Some([3, _, ..]) => 4,
        Some([4 | 6, _, ..]) => 8,
        Some([7, _, ..]) => 2,
        _ => return Err(10),
    };
    if rest.map_or(0, |r| r.len()) < 2 + body {
        return Err(10);
    }
    let next = at + 2 + body;
    if short && file[at] == 1 && body > 1 && !counted_inside(&file[at + 3..next]) {
        return Err(22);
    }
    Ok([file[at] as u64, file[at + 1] as u64, at as u64 + 2, next as u64])
}

/// Whether a corner in full and all that are counted from it lie from 0 to 32,767: each coordinate apart.
fn counted_inside(bytes: &[u8]) -> bool {
    (0..2).all(|axis| {
        let first = bytes[2 * axis] as i64 + ((bytes[2 * axis + 1] as i64) << 8);
        let steps = bytes[4..].iter().skip(axis).step_by(2).map(|&b| if b < 128 { b as i64 } else { b as i64 - 256 });
        let mut at = first;
        let (mut least, mut most) = (first, first);
        for step in steps {
            at += step;
            (least, most) = (least.min(at), most.max(at));
        }
        0 <= least && most < 32768
    })
}

fn random_file(r: &mut Random) -> Vec<u8> {
    let short = r.percent(60);
    let mut file = if short { b"YRD\x02\x00" } else { b"YRD\x01\x00" }.to_vec();
    for _ in 0..r.below(12) {
        let kind = if r.below(8) == 0 { r.below(256) as u8 } else { r.pick(&[1, 1, 1, 2, 3, 4, 5, 6, 7]) };
        let count: u8 = r.pick(&[0, 1, 3, 8, 255]);
        let size = match kind {
            1 if short && count > 0 => 2 + 2 * count as usize,
            1 => 4 * count as usize,
            3 => 4,
            4 | 6 => 8,
            7 => 2,
            _ => 0,
        };
        file.extend([kind, r.below(30) as u8]);
        if kind == 1 {
            file.push(count);
        }
        let from = file.len();
        file.extend((0..size).map(|_| r.below(256) as u8));
        if kind == 1 && size > 3 {
            // a first corner often near the edges of what is allowed
            let edge = |r: &mut Random| r.pick(&[0u16, 1, 127, 128, 300, 9000, 32639, 32640, 32766, 32767, 32768, 65535]).to_le_bytes();
            let corner = [edge(r), edge(r)].concat();
            file[from..from + 4].copy_from_slice(&corner);
        }
    }
    match r.below(8) {
        0 => file.truncate(r.below(file.len() + 1)),
        1 => file[r.below(5)] ^= 1 << r.below(8),
        2 => file.resize(8190 + r.below(4), r.below(8) as u8),
        _ => {}
    }
    file
}

pub fn reading(report: &mut Report) {
    let mut numbers = [0; 23];
    report.case("read at every position", |calls| {
        let mut r = Random::new(7);
        for _ in 0..600 {
            let file = random_file(&mut r);
            let places = (0..file.len() + 9).chain([usize::MAX, usize::MAX - 1, usize::MAX - 1030, 1 << 32]);
            for at in places {
                let kept = [7u64; 4];
                let mut item = kept;
                let answer = unsafe { yard_read(file.as_ptr(), file.len(), at, item.as_mut_ptr(), 4) };
                *calls += 1;
                let same = match own_read(&file, at) {
                    Ok(due) => answer == 0 && item == due,
                    Err(number) => answer == number && item == kept,
                };
                if !same {
                    return Err(format!("position {at} of {file:?}: {answer}, {item:?}"));
                }
                numbers[answer as usize] += 1;
            }
        }
        Ok(())
    });
    report.case("read with every number often enough", |_| {
        if [0, 9, 10, 22].iter().all(|&n| numbers[n] >= 200) { Ok(()) } else { Err(format!("{numbers:?}")) }
    });
    report.case("a list of another length", |calls| {
        for len in [0usize, 1, 3, 5, 9] {
            let mut item = [7u64; 9];
            let answer = unsafe { yard_read(b"YRD\x01\x00".as_ptr(), 5, 5, item.as_mut_ptr(), len) };
            *calls += 1;
            if answer != 1 || item != [7; 9] {
                return Err(format!("{len} words: {answer}"));
            }
        }
        Ok(())
    });
}
