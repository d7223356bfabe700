//! Every list of every call lent as NULL with length 0: an empty list, and nothing is stored anywhere.

use crate::abi::*;
use crate::reference::Book;
use crate::tables::{Edit, Tables};
use crate::{same_answer, same_tables, Report};
use std::ptr::{null, null_mut};

const FILE: &[u8] = b"YRD\x01\x00\x02\x05\x05\x05";

fn lent<T>(list: &mut [T], missing: bool) -> (*mut T, usize) {
    if missing { (null_mut(), 0) } else { (list.as_mut_ptr(), list.len()) }
}

/// The five tables as a call takes them, those whose bit is set as NULL.
macro_rules! with_tables {
    ($t:expr, $missing:expr, $f:ident $(, $arg:expr)*) => {{
        let (b, r) = (lent(&mut $t.blocks, $missing & 1 != 0), lent(&mut $t.runs, $missing & 2 != 0));
        let (p, w) = (lent(&mut $t.pairs, $missing & 4 != 0), lent(&mut $t.routes, $missing & 8 != 0));
        let s = lent(&mut $t.totals, $missing & 16 != 0);
        // Each table is apart, live for the call and as long as stated, or empty.
        unsafe { $f(b.0, b.1, r.0, r.1, p.0, p.1, w.0, w.1, s.0, s.1 $(, $arg)*) }
    }};
}

/// A yard with block 3 and run 4.
fn yard() -> Tables {
    let mut book = Book::new();
    book.step(&Edit::AddBlock(3, vec![10, 10, 20, 10, 20, 20, 10, 20]));
    book.step(&Edit::AddRun(4, [0, 15, 30, 15]));
    book.drawing()
}

fn tables(report: &mut Report) {
    for missing in 1..32 {
        report.case(&format!("tables {missing:05b} NULL"), |calls| {
            let before = yard();
            let mut t = before.clone();
            let corners = [30u16, 30, 40, 30, 40, 40];
            let answers = [
                with_tables!(t, missing, yard_start),
                with_tables!(t, missing, yard_add_block, 0, corners.as_ptr(), corners.len()),
                with_tables!(t, missing, yard_add_block, 24, null(), 0),
                with_tables!(t, missing, yard_remove_block, 3),
                with_tables!(t, missing, yard_move_block, 3, 1, 1),
                with_tables!(t, missing, yard_add_run, 0, 1, 2, 3, 4),
                with_tables!(t, missing, yard_remove_run, 4),
                with_tables!(t, missing, yard_move_run, 4, 1, 2, 3, 4),
                with_tables!(t, missing, yard_set_charge, 500),
                with_tables!(t, missing, yard_set_charge, 1001),
                with_tables!(t, missing, yard_check),
            ];
            *calls += answers.len();
            if answers != [1; 11] {
                return Err(format!("{answers:?}"));
            }
            same_tables("nothing is stored", &t, &before)?;
            // each edit of a file answers 1 then
            let (mut list, mut end) = (vec![7; 4096], [7; 2]);
            let number = with_tables!(t, missing, yard_replay, FILE.as_ptr(), FILE.len(), list.as_mut_ptr(), list.len(), end.as_mut_ptr(), 2);
            *calls += 1;
            same_answer("replay", number, 0)?;
            same_tables("replay", &t, &before)?;
            let rest = list.split_off(2);
            if list != [1, 1] || end != [2, 9] || rest.iter().any(|&a| a != 7) { Err(format!("{list:?} {end:?}")) } else { Ok(()) }
        });
    }
}

fn corners(report: &mut Report) {
    report.case("corners NULL", |calls| {
        let before = yard();
        let mut t = before.clone();
        for (number, answer) in [(0, 6), (23, 6), (3, 4), (24, 3), (u32::MAX, 3)] {
            same_answer(&format!("block {number}"), with_tables!(t, 0, yard_add_block, number, null(), 0), answer)?;
            *calls += 1;
        }
        same_tables("corners NULL", &t, &before)?;
        t.blocks[1] += 20;
        same_answer("over a wrong record", with_tables!(t, 0, yard_add_block, 0, null(), 0), 2)
    });
}

fn reading(report: &mut Report) {
    report.case("file or item NULL", |calls| {
        let (kept, mut item) = ([7u64; 4], [7u64; 4]);
        for at in [0, 4, 5, 6, usize::MAX] {
            same_answer("file", unsafe { yard_read(null(), 0, at, item.as_mut_ptr(), 4) }, 9)?;
            same_answer("item", unsafe { yard_read(FILE.as_ptr(), FILE.len(), at, null_mut(), 0) }, 1)?;
            same_answer("both", unsafe { yard_read(null(), 0, at, null_mut(), 0) }, 1)?;
            *calls += 3;
        }
        if item == kept { Ok(()) } else { Err(format!("item {item:?}")) }
    });
}

fn replaying(report: &mut Report) {
    report.case("file, answers or end NULL", |calls| {
        let before = yard();
        let mut t = before.clone();
        let (mut list, mut end) = (vec![7; 4096], [7; 2]);
        let answers = [
            with_tables!(t, 0, yard_replay, FILE.as_ptr(), FILE.len(), null_mut(), 0, end.as_mut_ptr(), 2),
            with_tables!(t, 0, yard_replay, FILE.as_ptr(), FILE.len(), list.as_mut_ptr(), list.len(), null_mut(), 0),
            with_tables!(t, 0, yard_replay, null(), 0, null_mut(), 0, end.as_mut_ptr(), 2),
            with_tables!(t, 0, yard_replay, null(), 0, list.as_mut_ptr(), list.len(), null_mut(), 0),
            with_tables!(t, 31, yard_replay, null(), 0, null_mut(), 0, null_mut(), 0),
        ];
        if answers != [1; 5] || end != [7, 7] {
            return Err(format!("{answers:?}, end {end:?}"));
        }
        let number = with_tables!(t, 0, yard_replay, null(), 0, list.as_mut_ptr(), list.len(), end.as_mut_ptr(), 2);
        *calls += 6;
        same_answer("file NULL", number, 9)?;
        same_tables("replays", &t, &before)?;
        if end == [0, 0] && list == [7; 4096] { Ok(()) } else { Err(format!("end {end:?}")) }
    });
}

fn converting(report: &mut Report) {
    report.case("file, buffer or length NULL", |calls| {
        let (mut buffer, mut length) = (vec![7u8; 8192], [7u32]);
        let short = b"YRD\x02\x00";
        for (call, file) in [(yard_file_shorten as unsafe extern "C" fn(_, _, _, _, _, _) -> _, FILE), (yard_file_lengthen, short)] {
            for missing in 1..8 {
                let (b, l) = (lent(&mut buffer, missing & 2 != 0), lent(&mut length, missing & 4 != 0));
                let (f, size) = if missing & 1 != 0 { (null(), 0) } else { (file.as_ptr(), file.len()) };
                // Each list is apart, live for the call and as long as stated, or empty.
                let number = unsafe { call(f, size, b.0, b.1, l.0, l.1) };
                *calls += 1;
                same_answer(&format!("lists {missing:03b} NULL"), number, if missing == 1 { 9 } else { 1 })?;
                if buffer != [7; 8192] || length != [if missing == 1 { 0 } else { 7 }] {
                    return Err(format!("lists {missing:03b} NULL: length {length:?}"));
                }
                length = [7];
            }
        }
        Ok(())
    });
}

/// A quote with lists that are NULL: answer 1 for every run.
fn not_quoted(quote: impl Fn((*mut u16, usize), (*mut u16, usize), u32) -> u32, missing: u32, calls: &mut usize) -> Result<(), String> {
    let before = yard();
    let mut t = before.clone();
    for run in [4, 0, 24] {
        *calls += 1;
        let (b, r) = (lent(&mut t.blocks, missing & 1 != 0), lent(&mut t.runs, missing & 2 != 0));
        same_answer(&format!("run {run}"), quote(b, r, run), 1)?;
    }
    same_tables("nothing is stored", &t, &before)
}

fn quoting(report: &mut Report) {
    for missing in 1..16 {
        report.case(&format!("lists {missing:04b} of a duct's quote NULL"), |calls| {
            let (mut quote, mut crossings) = ([7u32; 3], vec![7u16; 8712]);
            let (q, c) = (lent(&mut quote, missing & 4 != 0), lent(&mut crossings, missing & 8 != 0));
            // Each list is apart, live for the call and as long as stated, or empty.
            not_quoted(|b, r, run| unsafe { yard_quote_duct(b.0, b.1, r.0, r.1, run, q.0, q.1, c.0, c.1) }, missing, calls)?;
            if quote == [7; 3] && crossings == [7; 8712] { Ok(()) } else { Err(format!("quote {quote:?}")) }
        });
    }
    for missing in 1..8 {
        report.case(&format!("lists {missing:03b} of a route's quote NULL"), |calls| {
            let mut route = vec![7u32; 197];
            let w = lent(&mut route, missing & 4 != 0);
            // Each list is apart, live for the call and as long as stated, or empty.
            not_quoted(|b, r, run| unsafe { yard_quote_route(b.0, b.1, r.0, r.1, run, w.0, w.1) }, missing, calls)?;
            if route == [7; 197] { Ok(()) } else { Err(format!("route {route:?}")) }
        });
    }
}

fn moving(report: &mut Report) {
    for missing in 1..64 {
        report.case(&format!("lists {missing:06b} of a move's quote NULL"), |calls| {
            let before = yard();
            let (mut t, mut quote) = (before.clone(), [7u32; 48]);
            for (n, east) in [(3, 1), (3, -11), (0, 1), (24, 1)] {
                let q = lent(&mut quote, missing & 32 != 0);
                *calls += 1;
                same_answer(&format!("block {n}"), with_tables!(t, missing, yard_quote_move, n, east, 0, q.0, q.1), 1)?;
            }
            same_tables("nothing is stored", &t, &before)?;
            if quote == [7; 48] { Ok(()) } else { Err(format!("quote {quote:?}")) }
        });
    }
}

fn drawing(report: &mut Report) {
    for missing in 1..128 {
        report.case(&format!("lists {missing:07b} of a call that draws NULL"), |calls| {
            let before = yard();
            let mut t = before.clone();
            let (mut kind, mut points) = ([7u32], [7.0; 18]);
            for run in [4, 0, 24] {
                let k = lent(&mut kind, missing & 32 != 0);
                let six = lent(&mut points[..6], missing & 64 != 0);
                same_answer("piece", with_tables!(t, missing, yard_piece, run, 0, k.0, k.1, six.0, six.1), 1)?;
                let nine = lent(&mut points, missing & 64 != 0);
                same_answer("bend", with_tables!(t, missing, yard_bend, run, 1, k.0, k.1, nine.0, nine.1), 1)?;
                *calls += 2;
            }
            same_tables("nothing is stored", &t, &before)?;
            if kind == [7] && points == [7.0; 18] { Ok(()) } else { Err(format!("kind {kind:?} points {points:?}")) }
        });
    }
}

/// Contractor 1 holds run 4.
fn in_a_name(report: &mut Report) {
    for missing in 1..256 {
        report.case(&format!("lists {missing:08b} of a call in a contractor's name NULL"), |calls| {
            let before = yard();
            let (mut t, mut holders, mut shares, mut ceilings) = (before.clone(), [255u8; 24], [6u8; 4], [24u8; 4]);
            holders[4] = 1;
            let kept = holders;
            for (contractor, m) in [(1, 4), (1, 0), (2, 4), (4, 4), (1, 24)] {
                let h = lent(&mut holders, missing & 32 != 0);
                let (s, c) = (lent(&mut shares, missing & 64 != 0), lent(&mut ceilings, missing & 128 != 0));
                let answers = [
                    with_tables!(t, missing, yard_add_run_for, h.0, h.1, s.0, s.1, c.0, c.1, contractor, m, 1, 2, 3, 4),
                    with_tables!(t, missing, yard_remove_run_for, h.0, h.1, s.0, s.1, c.0, c.1, contractor, m),
                    with_tables!(t, missing, yard_move_run_for, h.0, h.1, s.0, s.1, c.0, c.1, contractor, m, 1, 2, 3, 4),
                ];
                *calls += answers.len();
                if answers != [1; 3] {
                    return Err(format!("contractor {contractor}, run {m}: {answers:?}"));
                }
            }
            same_tables("nothing is stored", &t, &before)?;
            if (holders, shares, ceilings) == (kept, [6; 4], [24; 4]) { Ok(()) } else { Err(format!("holders {holders:?}")) }
        });
    }
}

pub fn empty_lists(report: &mut Report) {
    tables(report);
    corners(report);
    reading(report);
    replaying(report);
    converting(report);
    quoting(report);
    moving(report);
    drawing(report);
    in_a_name(report);
}
