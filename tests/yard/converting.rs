//! The exported conversions against the test's own: the number, every byte of the buffer and the length, over files good and
//! damaged of both versions, and lists of every length.

use crate::converter::converted;
use crate::files::{damaged, file, random_bytes, random_file, record, short_file, short_record};
use crate::linked::convert;
use crate::random::Random;
use crate::reader::{read, HEAD, LONGEST, SHORT};
use crate::tables::Edit;
use crate::{same_answer, Report};

/// Calls over lists of these lengths with any contents, and compares. The number and the result are given back.
fn call_over(r: &mut Random, shorten: bool, file: &[u8], room: usize, words: usize, calls: &mut usize) -> Result<(u32, Vec<u8>), String> {
    let mut buffer: Vec<u8> = (0..room).map(|_| r.next() as u8).collect();
    let mut length: Vec<u32> = (0..words).map(|_| r.next() as u32).collect();
    let (mut due_buffer, mut due_length) = (buffer.clone(), length.clone());
    let due = if room == LONGEST && words == 1 { converted(file, shorten) } else { Err(1) };
    match &due {
        Ok(result) => {
            due_buffer.fill(0);
            due_buffer[..result.len()].copy_from_slice(result);
            due_length[0] = result.len() as u32;
        }
        Err(1) => {}
        Err(_) => due_length[0] = 0,
    }
    let number = convert(shorten, file, &mut buffer, &mut length);
    *calls += 1;
    let name = if shorten { "shorten" } else { "lengthen" };
    same_answer(name, number, due.as_ref().err().copied().unwrap_or(0))?;
    if length != due_length {
        return Err(format!("{name}: length {length:?}, should be {due_length:?}"));
    }
    if let Some(at) = (0..room).find(|&at| buffer[at] != due_buffer[at]) {
        return Err(format!("{name}: byte {at} is {}, should be {}", buffer[at], due_buffer[at]));
    }
    Ok((number, due.unwrap_or_default()))
}

/// Both conversions of a file, and where one is accepted the other of its result: the same bytes, and the same edits.
fn both(r: &mut Random, file: &[u8], calls: &mut usize) -> Result<[u32; 2], String> {
    let mut numbers = [0; 2];
    for (k, shorten) in [true, false].into_iter().enumerate() {
        let (number, result) = call_over(r, shorten, file, LONGEST, 1, calls)?;
        numbers[k] = number;
        if number == 0 {
            let (again, back) = call_over(r, !shorten, &result, LONGEST, 1, calls)?;
            if again != 0 || back != file {
                return Err(format!("back again: {again}, {} bytes of {}", back.len(), file.len()));
            }
            if read(&result) != read(file) {
                return Err("the edits of the result are others".to_string());
            }
        }
    }
    Ok(numbers)
}

fn block(number: u32, corners: &[u16]) -> Edit {
    Edit::AddBlock(number, corners.to_vec())
}

/// Rows by hand: what shortening and lengthening answer, and the result where one is accepted.
fn known(report: &mut Report) {
    let one = |head: [u8; 5], bytes: &[u8]| [&head[..], bytes].concat();
    let rows: Vec<(&str, Vec<u8>, [u32; 2], Option<Vec<u8>>)> = vec![
        ("nothing", vec![], [9, 9], None),
        ("the letters", b"YRD".to_vec(), [9, 9], None),
        ("version 1 alone", HEAD.to_vec(), [0, 9], Some(SHORT.to_vec())),
        ("version 2 alone", SHORT.to_vec(), [9, 0], Some(HEAD.to_vec())),
        ("version 3", b"YRD\x03\x00".to_vec(), [9, 9], None),
        ("version 257", b"YRD\x01\x01".to_vec(), [9, 9], None),
        ("version 258", b"YRD\x02\x01".to_vec(), [9, 9], None),
        ("a triangle", one(HEAD, &[1, 4, 3, 10, 0, 20, 0, 14, 0, 21, 0, 9, 0, 30, 0]), [0, 9], Some(one(SHORT, &[1, 4, 3, 10, 0, 20, 0, 4, 1, 0xFB, 9]))),
        ("a short triangle", one(SHORT, &[1, 4, 3, 10, 1, 20, 2, 127, 128, 128, 127]), [9, 0],
            Some(one(HEAD, &[1, 4, 3, 10, 1, 20, 2, 137, 1, 148, 1, 9, 1, 19, 2]))),
        ("no corners", one(HEAD, &[1, 0, 0]), [0, 9], Some(one(SHORT, &[1, 0, 0]))),
        ("no corners, short", one(SHORT, &[1, 255, 0]), [9, 0], Some(one(HEAD, &[1, 255, 0]))),
        ("one corner", one(HEAD, &[1, 0, 1, 1, 2, 3, 4]), [0, 9], Some(one(SHORT, &[1, 0, 1, 1, 2, 3, 4]))),
        ("one corner, short", one(SHORT, &[1, 0, 1, 1, 2, 3, 4]), [9, 0], Some(one(HEAD, &[1, 0, 1, 1, 2, 3, 4]))),
        ("one corner at 32,768", one(HEAD, &[1, 0, 1, 0, 128, 3, 4]), [22, 9], None),
        ("one corner at 32,768, short", one(SHORT, &[1, 0, 1, 3, 4, 0, 128]), [9, 22], None),
        ("other kinds", one(HEAD, &[2, 9, 5, 8, 7, 255, 1, 2, 3, 7, 1, 2, 3, 4]), [0, 9], Some(one(SHORT, &[2, 9, 5, 8, 7, 255, 1, 2, 3, 7, 1, 2, 3, 4]))),
        ("a run outside is no corner", one(HEAD, &[4, 0, 255, 255, 255, 255, 255, 255, 255, 255]), [0, 9],
            Some(one(SHORT, &[4, 0, 255, 255, 255, 255, 255, 255, 255, 255]))),
        ("a step of 128, then a record cut off", one(HEAD, &[1, 0, 2, 0, 0, 0, 0, 128, 0, 0, 0, 2]), [10, 9], None),
        ("a corner outside, then a step of 128", one(HEAD, &[1, 0, 1, 255, 255, 0, 0, 1, 0, 2, 0, 0, 0, 0, 128, 0, 0, 0]), [21, 9], None),
        ("a corner below 0, then a record cut off", one(SHORT, &[1, 0, 2, 0, 0, 0, 0, 255, 0, 9]), [9, 10], None),
        ("a corner below 0", one(SHORT, &[1, 0, 2, 0, 0, 0, 0, 255, 0]), [9, 22], None),
        ("a corner below 0 and back", one(SHORT, &[1, 0, 3, 0, 0, 0, 0, 255, 0, 1, 0]), [9, 22], None),
        ("a corner above 32,767 and back", one(SHORT, &[1, 0, 3, 255, 127, 255, 127, 0, 1, 0, 255]), [9, 22], None),
        ("steps along the edge", one(SHORT, &[1, 0, 3, 255, 127, 0, 0, 129, 127, 127, 129]), [9, 0],
            Some(one(HEAD, &[1, 0, 3, 255, 127, 0, 0, 128, 127, 127, 0, 255, 127, 0, 0]))),
    ];
    for (name, file, numbers, result) in rows {
        report.case(&format!("conversion of {name}"), |calls| {
            let own = [converted(&file, true), converted(&file, false)];
            if own.clone().map(|due| due.err().unwrap_or(0)) != numbers || own.into_iter().find_map(Result::ok) != result {
                return Err("the second converter says something else".to_string());
            }
            both(&mut Random::new(1), &file, calls).map(drop)
        });
    }
}

/// Steps on both sides of what a signed byte holds, along each axis and at each place of a block.
fn steps(report: &mut Report) {
    for step in [-32768i32, -256, -255, -130, -129, -128, -127, -1, 0, 1, 126, 127, 128, 129, 255, 256, 32767] {
        report.case(&format!("conversion of a step of {step}"), |calls| {
            let mut r = Random::new(2);
            for count in [2usize, 3, 8, 255] {
                for place in [1, 2, count / 2, count - 1] {
                    for axis in 0..2 {
                        let mut corners = vec![if step < 0 { 32767u16 } else { 0 }; 2 * count];
                        for k in place..count {
                            corners[2 * k + axis] = (corners[axis] as i32 + step) as u16;
                        }
                        let whole = [record(&Edit::RemoveBlock(1)), record(&block(3, &corners)), record(&Edit::SetCharge(9))].concat();
                        let file = [&HEAD[..], &whole].concat();
                        let [shorten, _] = both(&mut r, &file, calls)?;
                        let due = if place >= count || (-128..=127).contains(&step) { 0 } else { 21 };
                        same_answer(&format!("{count} corners, step at {place}"), shorten, due)?;
                    }
                }
            }
            Ok(())
        });
    }
}

/// Coordinates on both sides of what is allowed: a first corner, and a later one reached by a step.
fn places(report: &mut Report) {
    for first in [0u16, 1, 127, 128, 32639, 32640, 32766, 32767, 32768, 33000, 65407, 65408, 65535] {
        report.case(&format!("conversion of a corner at {first}"), |calls| {
            let mut r = Random::new(3);
            for step in [0i8, 1, -1, 127, -127, -128] {
                for axis in 0..2 {
                    for count in [1usize, 2, 3] {
                        let mut corners = vec![500; 2 * count];
                        for k in 0..count {
                            corners[2 * k + axis] = first.wrapping_add((k as i16 * step as i16) as u16);
                        }
                        let edits = [block(0, &[1, 1, 9, 1, 9, 9]), block(0, &corners), Edit::RemoveRun(3)];
                        both(&mut r, &file(&edits), calls)?;
                        both(&mut r, &short_file(&edits), calls)?;
                    }
                }
            }
            Ok(())
        });
    }
}

/// Every count, whole and a byte short or long.
fn counts(report: &mut Report) {
    report.case("conversion of every count of corners", |calls| {
        let mut r = Random::new(4);
        for count in 0..=255usize {
            let corners: Vec<u16> = (0..2 * count).map(|k| 1000 + (k * 37 % 90) as u16).collect();
            for whole in [file(&[block(7, &corners), Edit::RemoveRun(0)]), short_file(&[block(7, &corners), Edit::RemoveRun(0)])] {
                let numbers = both(&mut r, &whole, calls)?;
                if !numbers.contains(&0) {
                    return Err(format!("count {count}: {numbers:?}"));
                }
                both(&mut r, &whole[..whole.len() - 1], calls)?;
                both(&mut r, &whole[..whole.len() - 3], calls)?;
                both(&mut r, &[&whole[..], &[5]].concat(), calls)?;
            }
        }
        Ok(())
    });
}

/// Results of 8,191, 8,192 and 8,193 bytes, and the longest files.
fn longest(report: &mut Report) {
    // 255 corners take 513 bytes in version 2 after the kind and number, and 1,021 in version 1
    let big = block(0, &[9; 510]);
    for (size, number) in [(LONGEST - 1, 0), (LONGEST, 0), (LONGEST + 1, 9), (LONGEST + 2, 9)] {
        report.case(&format!("lengthening to {size} bytes"), |calls| {
            let mut file = SHORT.to_vec();
            let mut due = 5;
            while due + 1023 <= size - 9 {
                file.extend(short_record(&big));
                due += 1023;
            }
            // removals of two bytes, and one record of three where the rest is odd
            if (size - due) % 2 == 1 {
                file.extend([1, 0, 0]);
                due += 3;
            }
            file.extend((0..(size - due) / 2).flat_map(|k| [2, k as u8]));
            let [_, lengthen] = both(&mut Random::new(5), &file, calls)?;
            same_answer("lengthen", lengthen, number)
        });
    }
    for length in [LONGEST - 2, LONGEST - 1, LONGEST, LONGEST + 1, 3 * LONGEST] {
        report.case(&format!("conversion of {length} bytes"), |calls| {
            for head in [HEAD, SHORT] {
                for first in [&[][..], &[1, 0, 0]] {
                    let mut file = [&head[..], first].concat();
                    while file.len() < length {
                        file.extend([[2, 7], [5, 23]][file.len() / 2 % 2]);
                    }
                    file.truncate(length);
                    both(&mut Random::new(6), &file, calls)?;
                }
            }
            Ok(())
        });
    }
}

fn lengths(report: &mut Report) {
    for room in [0, 1, 5, 8191, 8192, 8193, 16384] {
        for words in 0..4 {
            report.case(&format!("conversion with {room} bytes and {words} words lent"), |calls| {
                let mut r = Random::new(10 * room as u64 + words as u64);
                for file in [HEAD.to_vec(), SHORT.to_vec(), vec![], vec![7; 40], random_file(&mut r, 20)] {
                    for shorten in [true, false] {
                        let (number, _) = call_over(&mut r, shorten, &file, room, words, calls)?;
                        if (number == 1) != (room != LONGEST || words != 1) {
                            return Err(format!("number {number}"));
                        }
                    }
                }
                Ok(())
            });
        }
    }
}

/// Small files of both versions with every kind of record: cut off anywhere, and with each byte changed in many ways.
fn damages(report: &mut Report) {
    let edits = [
        block(0, &[10, 6, 14, 7, 14, 40, 10, 40]),
        Edit::AddRun(0, [0, 10, 27, 13]),
        block(1, &[100, 100]),
        block(2, &[]),
        Edit::MoveBlock(0, -3, 4),
        Edit::SetCharge(500),
        block(3, &[32767, 0, 32767, 90, 32700, 80]),
        Edit::RemoveBlock(1),
        Edit::MoveRun(0, [1, 2, 40000, 50000]),
        Edit::RemoveRun(0),
    ];
    for (name, whole) in [("version 1", file(&edits)), ("version 2", short_file(&edits))] {
        report.case(&format!("conversion of {name} cut off anywhere"), |calls| {
            for length in 0..=whole.len() {
                both(&mut Random::new(7), &whole[..length], calls).map_err(|why| format!("{length} bytes: {why}"))?;
            }
            Ok(())
        });
        report.case(&format!("conversion of {name} with any byte anything"), |calls| {
            let mut numbers = [0; 23];
            for at in 0..whole.len() {
                for value in 0..=255 {
                    let mut other = whole.clone();
                    other[at] = value;
                    let got = both(&mut Random::new(8), &other, calls).map_err(|why| format!("byte {at} made {value}: {why}"))?;
                    numbers[got[if name == "version 1" { 0 } else { 1 }] as usize] += 1;
                }
            }
            let seldom = [0, 9, 10, 22].iter().any(|&n| numbers[n] < 100) || (name == "version 1" && numbers[21] < 100);
            if seldom { Err(format!("{numbers:?}")) } else { Ok(()) }
        });
    }
}

/// A random file of any kind, or any bytes.
pub fn one(r: &mut Random, calls: &mut usize) -> Result<(), String> {
    random_case(r, calls).map(drop)
}

fn random_case(r: &mut Random, calls: &mut usize) -> Result<[u32; 2], String> {
    let file = match r.below(4) {
        0 => random_bytes(r),
        1 => {
            let (base, other) = (random_file(r, 40), random_file(r, 10));
            damaged(r, &base, &other)
        }
        _ => random_file(r, 60),
    };
    both(r, &file, calls).map_err(|why| format!("{why}: {file:?}"))
}

fn random_files(report: &mut Report) {
    let mut numbers = [0; 23];
    for seed in 0..60u64 {
        report.case(&format!("conversion of random files, seed {seed}"), |calls| {
            let mut r = Random::new(9_400_000 + seed);
            for _ in 0..25 {
                random_case(&mut r, calls)?.iter().for_each(|&n| numbers[n as usize] += 1);
            }
            Ok(())
        });
    }
    report.case("conversions with every number often enough", |_| {
        if [0, 9, 10, 21, 22].iter().all(|&n| numbers[n] >= 10) { Ok(()) } else { Err(format!("{numbers:?}")) }
    });
}

pub fn converting(report: &mut Report) {
    known(report);
    steps(report);
    places(report);
    counts(report);
    longest(report);
    lengths(report);
    damages(report);
    random_files(report);
}
