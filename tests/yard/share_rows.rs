//! Rows by hand for the calls in a contractor's name: each clause of question 18 alone, every limit from both sides, and the
//! order of the questions; then every byte as a holder, and contractors and numbers that are none.

use crate::reference::Book;
use crate::share_calls::{run_edit, same_holders, Lent, NOBODY, NUMBERS};
use crate::tables::{Edit, FIGURE};
use crate::Report;

pub fn add(m: u32) -> Edit {
    Edit::AddRun(m, [0, 15, 30, 15])
}

pub fn add_outside(m: u32) -> Edit {
    Edit::AddRun(m, [0, 15, 32768, 15])
}

pub fn remove(m: u32) -> Edit {
    Edit::RemoveRun(m)
}

pub fn shift(m: u32) -> Edit {
    Edit::MoveRun(m, [5, 40, 32767, 0])
}

pub fn shift_outside(m: u32) -> Edit {
    Edit::MoveRun(m, [5, 40, 30, 32768])
}

/// A yard of one block with so many runs of each contractor, from number 0 on.
pub fn holding(held: [usize; 4], shares: [u8; 4], ceilings: [u8; 4]) -> Lent {
    let mut book = Book::new();
    book.step(&Edit::AddBlock(0, vec![10, 10, 20, 10, 20, 20, 10, 20]));
    let mut holders: Vec<u8> = (0..4u8).flat_map(|c| vec![c; held[usize::from(c)]]).collect();
    for m in 0..holders.len() as u16 {
        book.step(&Edit::AddRun(m.into(), [m, 15, 30, 10 + m]));
    }
    holders.resize(NUMBERS, NOBODY);
    Lent { tables: book.drawing(), holders, shares: shares.to_vec(), ceilings: ceilings.to_vec() }
}

/// What each holds, the shares and ceilings, what is changed then, the contractor and its call; and the holder that the
/// number has after it, or the answer of a call that is refused.
type Row = (&'static str, [usize; 4], [u8; 4], [u8; 4], fn(&mut Lent), u32, Edit, Result<u8, u32>);

pub const NONE: [u8; 4] = [0; 4];
pub const ALL: [u8; 4] = [24; 4];

fn term_rows() -> Vec<Row> {
    let (free, as_is) = ([0; 4], (|_| ()) as fn(&mut Lent));
    vec![
        ("nothing promised", free, NONE, ALL, as_is, 0, add(0), Ok(0)),
        ("the last contractor and number", free, NONE, ALL, as_is, 3, add(23), Ok(3)),
        ("shares at their ceilings", free, [5, 6, 7, 1], [5, 6, 7, 1], as_is, 3, add(0), Ok(3)),
        ("the first share above its ceiling", free, [5, 0, 0, 0], [4, 24, 24, 24], as_is, 1, add(0), Err(18)),
        ("the second share above its ceiling", free, [0, 1, 0, 0], [24, 0, 24, 24], as_is, 0, add(0), Err(18)),
        ("the third share above its ceiling", free, [0, 0, 24, 0], [24, 24, 23, 24], as_is, 1, add(0), Err(18)),
        ("the last share above its ceiling", free, [0, 0, 0, 5], [24, 24, 24, 4], as_is, 0, add(0), Err(18)),
        ("the last share above its ceiling, removing", [2, 0, 0, 0], [0, 0, 0, 5], [24, 24, 24, 4], as_is, 0, remove(0), Err(18)),
        ("the last share above its ceiling, moving", [2, 0, 0, 0], [0, 0, 0, 5], [24, 24, 24, 4], as_is, 0, shift(0), Err(18)),
        ("shares that sum to 24", free, [6; 4], ALL, as_is, 2, add(7), Ok(2)),
        ("shares that sum to 25", free, [6, 6, 6, 7], ALL, as_is, 2, add(7), Err(18)),
        ("shares that sum to 25, removing", [2, 0, 0, 0], [6, 6, 6, 7], ALL, as_is, 0, remove(1), Err(18)),
        ("shares that sum to 25, moving", [2, 0, 0, 0], [6, 6, 6, 7], ALL, as_is, 0, shift(1), Err(18)),
        ("one share of 24", free, [0, 24, 0, 0], ALL, as_is, 1, add(7), Ok(1)),
        ("one share of 25", free, [0, 25, 0, 0], [255; 4], as_is, 1, add(7), Err(18)),
        ("shares of 256 in all", free, [64; 4], [255; 4], as_is, 1, add(7), Err(18)),
        ("shares of 255 and 1", free, [255, 0, 0, 1], [255; 4], as_is, 1, add(7), Err(18)),
        ("shares of 280 in all", free, [70; 4], [255; 4], as_is, 1, add(7), Err(18)),
        ("four shares of 255", free, [255; 4], [255; 4], as_is, 1, add(7), Err(18)),
        ("ceilings of 255", [3, 0, 0, 1], [6; 4], [255; 4], as_is, 3, add(7), Ok(3)),
        ("ceilings of 25", [3, 0, 0, 20], NONE, [25; 4], as_is, 3, add(23), Ok(3)),
        ("holder 4 of a run", [2, 1, 0, 0], NONE, ALL, |l| l.holders[1] = 4, 0, add(7), Err(18)),
        ("holder 254 of a run", [2, 1, 0, 0], NONE, ALL, |l| l.holders[1] = 254, 0, add(7), Err(18)),
        ("holder 255 of a run", [2, 1, 0, 0], NONE, ALL, |l| l.holders[1] = 255, 0, add(7), Err(18)),
        ("holder 255 of the run that is moved", [2, 1, 0, 0], NONE, ALL, |l| l.holders[1] = 255, 0, shift(1), Err(18)),
        ("holder 255 of the number to add", [2, 1, 0, 0], NONE, ALL, |l| l.holders[1] = 255, 0, add(1), Err(18)),
        ("holder 4 of a run that is removed by 4", [2, 1, 0, 0], NONE, ALL, |l| l.holders[1] = 4, 4, remove(1), Err(18)),
        ("holder 0 of an absent run", [2, 1, 0, 0], NONE, ALL, |l| l.holders[23] = 0, 0, add(7), Err(18)),
        ("holder 1 of an absent run", [2, 1, 0, 0], NONE, ALL, |l| l.holders[3] = 1, 0, remove(0), Err(18)),
        ("holder 2 of an absent run", [2, 1, 0, 0], NONE, ALL, |l| l.holders[7] = 2, 0, shift(0), Err(18)),
        ("holder 3 of an absent run", [2, 1, 0, 0], NONE, ALL, |l| l.holders[7] = 3, 3, add(7), Err(18)),
        ("holder 4 of an absent run", [2, 1, 0, 0], NONE, ALL, |l| l.holders[7] = 4, 3, add(8), Err(18)),
        ("holder 254 of an absent run", [2, 1, 0, 0], NONE, ALL, |l| l.holders[7] = 254, 3, add(7), Err(18)),
        ("a holding at its ceiling", [0, 4, 0, 0], NONE, [24, 4, 24, 24], as_is, 0, add(7), Ok(0)),
        ("a holding above its ceiling", [0, 4, 0, 0], NONE, [24, 3, 24, 24], as_is, 0, add(7), Err(18)),
        ("its own holding above its ceiling, removing", [0, 4, 0, 0], NONE, [24, 3, 24, 24], as_is, 1, remove(0), Err(18)),
        ("a run under a ceiling of 0", [1, 0, 0, 1], NONE, [24, 24, 24, 0], as_is, 0, shift(0), Err(18)),
        ("as many free numbers as are promised", [19, 0, 0, 0], [0, 5, 0, 0], ALL, as_is, 1, add(19), Ok(1)),
        ("fewer free numbers than are promised", [20, 0, 0, 0], [0, 5, 0, 0], ALL, as_is, 1, add(20), Err(18)),
        ("fewer free numbers than are promised, removing", [20, 0, 0, 0], [0, 5, 0, 0], ALL, as_is, 0, remove(0), Err(18)),
        ("as many as are promised to two", [10, 10, 0, 0], [0, 0, 2, 2], ALL, as_is, 2, add(23), Ok(2)),
        ("fewer than are promised to two", [10, 10, 0, 0], [0, 0, 2, 3], ALL, as_is, 2, add(23), Err(18)),
        ("a share that is more than filled", [20, 0, 0, 0], [2, 4, 0, 0], ALL, as_is, 1, add(23), Ok(1)),
        ("a share that is more than filled makes no room", [21, 0, 0, 0], [2, 4, 0, 0], ALL, as_is, 1, add(23), Err(18)),
        ("no free number, nothing left of the shares", [6; 4], [6; 4], [6; 4], as_is, 2, shift(12), Ok(2)),
        ("no free number, one run promised", [24, 0, 0, 0], [0, 0, 0, 1], ALL, as_is, 0, remove(12), Err(18)),
    ]
}

fn order_rows() -> Vec<Row> {
    let (free, as_is) = ([0; 4], (|_| ()) as fn(&mut Lent));
    let (two, edge) = ([3, 2, 0, 0], [0, 20, 0, 0]);
    let bad: fn(&mut Lent) = |l| l.shares[0] = 25;
    vec![
        ("1 before 2 and 18", two, NONE, ALL, |l| (l.tables.blocks[0], l.shares) = (9, vec![25; 5]), 0, add(7), Err(1)),
        ("1 before 18 and 3", two, NONE, ALL, |l| l.holders = vec![7; 23], 4, remove(24), Err(1)),
        ("2 before 18, a block", two, [25; 4], ALL, |l| l.tables.blocks[17 * 23] = 9, 0, add(7), Err(2)),
        ("2 before 18, a run", two, NONE, ALL, |l| (l.tables.runs[5 * 7 + 4], l.holders[1]) = (1, 4), 0, shift(0), Err(2)),
        ("2 before 18, the least charge", two, NONE, [1; 4], |l| l.tables.runs[FIGURE] = 1001, 0, remove(0), Err(2)),
        ("2 before 3", two, NONE, ALL, |l| l.tables.runs[0] = 2, 4, add(24), Err(2)),
        ("18 before 3, adding for 4", two, NONE, ALL, bad, 4, add(7), Err(18)),
        ("18 before 3, removing 24", two, NONE, ALL, bad, 0, remove(24), Err(18)),
        ("18 before 3, moving 24 for 4", two, NONE, ALL, bad, 4, shift(24), Err(18)),
        ("18 before 4", two, NONE, ALL, bad, 0, add(0), Err(18)),
        ("18 before 5", two, NONE, ALL, bad, 0, remove(4), Err(18)),
        ("18 before 7", two, NONE, ALL, bad, 0, shift_outside(0), Err(18)),
        ("3 before 4", two, NONE, ALL, as_is, 4, add(0), Err(3)),
        ("3 before 5, a free number", two, NONE, ALL, as_is, 4, remove(7), Err(3)),
        ("3 before 5, a run", two, NONE, ALL, as_is, 4, shift(0), Err(3)),
        ("3 before 7, the contractor", two, NONE, ALL, as_is, 4, add_outside(7), Err(3)),
        ("3 before 7, the number", two, NONE, ALL, as_is, 0, shift_outside(24), Err(3)),
        ("3 before 19", two, NONE, [3, 24, 24, 24], as_is, 0, add(24), Err(3)),
        ("3 before 20", two, [3, 2, 19, 0], ALL, as_is, 0, add(24), Err(3)),
        ("4, its own run", two, NONE, ALL, as_is, 0, add(2), Err(4)),
        ("4, another's run", two, NONE, ALL, as_is, 0, add(3), Err(4)),
        ("4 before 19", two, NONE, [3, 24, 24, 24], as_is, 0, add(0), Err(4)),
        ("4 before 20", two, [3, 2, 19, 0], ALL, as_is, 0, add(0), Err(4)),
        ("4 before 7", two, NONE, ALL, as_is, 0, add_outside(0), Err(4)),
        ("4 where every number is taken", [6; 4], [6; 4], [6; 4], as_is, 1, add(0), Err(4)),
        ("one run below the ceiling", two, NONE, [4, 24, 24, 24], as_is, 0, add(23), Ok(0)),
        ("19, at the ceiling", two, NONE, [3, 24, 24, 24], as_is, 0, add(23), Err(19)),
        ("19, at the ceiling and at the share", two, [3, 0, 0, 0], [3, 24, 24, 24], as_is, 0, add(23), Err(19)),
        ("19, at another's ceiling", two, NONE, [3, 24, 24, 24], as_is, 1, add(23), Ok(1)),
        ("19, a ceiling of 0", free, NONE, [24, 24, 0, 24], as_is, 2, add(5), Err(19)),
        ("19, a ceiling of 1", free, NONE, [24, 24, 1, 24], as_is, 2, add(5), Ok(2)),
        ("19, a ceiling of 23", [23, 0, 0, 0], NONE, [23, 24, 24, 24], as_is, 0, add(23), Err(19)),
        ("19, a ceiling of 24", [23, 0, 0, 0], NONE, ALL, as_is, 0, add(23), Ok(0)),
        ("19 before 20", two, [3, 2, 19, 0], [3, 24, 24, 24], as_is, 0, add(23), Err(19)),
        ("19 before 7", two, NONE, [3, 24, 24, 24], as_is, 0, add_outside(23), Err(19)),
        ("20, one free number more than the others' shares", [3, 0, 0, 0], edge, ALL, as_is, 0, add(23), Ok(0)),
        ("20, as many as the others' shares", [4, 0, 0, 0], edge, ALL, as_is, 0, add(23), Err(20)),
        ("20, the shares of three", [3, 1, 1, 1], [3, 6, 7, 8], ALL, as_is, 0, add(23), Err(20)),
        ("20, one fewer of three", [3, 1, 1, 1], [3, 6, 7, 7], ALL, as_is, 0, add(23), Ok(0)),
        ("20, all numbers promised to another", free, [24, 0, 0, 0], ALL, as_is, 1, add(0), Err(20)),
        ("20, all numbers promised to oneself", free, [24, 0, 0, 0], ALL, as_is, 0, add(0), Ok(0)),
        ("20, the rest of one's own share", [3, 0, 0, 0], [10, 14, 0, 0], ALL, as_is, 0, add(23), Ok(0)),
        ("20, the last of one's own share", [9, 14, 0, 0], [10, 14, 0, 0], [10, 14, 9, 9], as_is, 0, add(23), Ok(0)),
        ("20, the last free number, promised", [10, 13, 0, 0], [10, 14, 0, 0], ALL, as_is, 0, add(23), Err(20)),
        ("20, the last free number, promised to nobody", [10, 13, 0, 0], [10, 13, 0, 0], ALL, as_is, 3, add(23), Ok(3)),
        ("20, another's share that is more than filled", [3, 17, 0, 0], [0, 2, 3, 0], ALL, as_is, 0, add(23), Ok(0)),
        ("20, makes no room for others", [3, 17, 0, 0], [0, 2, 4, 0], ALL, as_is, 0, add(23), Err(20)),
        ("20 before 7", two, [3, 2, 19, 0], ALL, as_is, 0, add_outside(23), Err(20)),
        ("7, adding", two, NONE, ALL, as_is, 0, add_outside(23), Err(7)),
        ("7, adding one's own share", two, [6; 4], ALL, as_is, 3, add_outside(23), Err(7)),
        ("5, removing a free number", two, NONE, ALL, as_is, 0, remove(5), Err(5)),
        ("5, removing another's run", two, NONE, ALL, as_is, 0, remove(3), Err(5)),
        ("5, removing another's first run", two, NONE, ALL, as_is, 1, remove(0), Err(5)),
        ("5, moving a free number", two, NONE, ALL, as_is, 1, shift(23), Err(5)),
        ("5, moving another's run", two, NONE, ALL, as_is, 2, shift(0), Err(5)),
        ("5 before 7, a free number", two, NONE, ALL, as_is, 0, shift_outside(5), Err(5)),
        ("5 before 7, another's run", two, NONE, ALL, as_is, 1, shift_outside(0), Err(5)),
        ("7, moving", two, NONE, ALL, as_is, 1, shift_outside(4), Err(7)),
        ("removing", two, NONE, ALL, as_is, 1, remove(4), Ok(255)),
        ("removing the only run", [0, 0, 0, 1], NONE, ALL, as_is, 3, remove(0), Ok(255)),
        ("removing at the ceiling and below the share", two, [6; 4], [6; 4], as_is, 0, remove(0), Ok(255)),
        ("removing the last of 24", [6; 4], [6; 4], [6; 4], as_is, 3, remove(23), Ok(255)),
        ("moving", two, NONE, ALL, as_is, 1, shift(4), Ok(1)),
        ("moving at the ceiling", two, [3, 2, 19, 0], [3, 2, 19, 0], as_is, 0, shift(2), Ok(0)),
        ("moving where all else is promised", two, [0, 0, 0, 19], ALL, as_is, 0, shift(0), Ok(0)),
    ]
}

pub fn known(report: &mut Report) {
    for (name, held, shares, ceilings, change, contractor, e, due) in term_rows().into_iter().chain(order_rows()) {
        report.case(&format!("shares, {name}"), |calls| {
            let mut lent = holding(held, shares, ceilings);
            change(&mut lent);
            let mut holders = lent.holders.clone();
            lent.answered(contractor, &e, due.err().unwrap_or(0), calls)?;
            if let Ok(holder) = due {
                holders[run_edit(&e).0 as usize] = holder;
            }
            same_holders("by hand", &lent.holders, &holders)
        });
    }
}

/// Contractors that are none, some of which have the byte or the last two of one that is.
pub const STRANGERS: [u32; 12] = [4, 5, 24, 255, 256, 257, 258, 259, 65536, 65538, 1 << 31, u32::MAX];
pub const NO_NUMBERS: [u32; 10] = [24, 25, 32, 255, 256, 261, 65536, 65541, 1 << 31, u32::MAX];

/// Every byte as a holder, strangers of every kind, and each coordinate outside alone.
pub fn every_kind(report: &mut Report) {
    for (number, present) in [(0, true), (11, true), (12, false), (23, false)] {
        report.case(&format!("every byte as the holder of number {number}"), |calls| {
            let mut lent = holding([3; 4], NONE, ALL);
            for holder in 0..=255 {
                lent.holders[number] = holder;
                let right = if present { holder < 4 } else { holder == NOBODY };
                for e in [add_outside(15), remove(22), shift(22)] {
                    let due = if matches!(e, Edit::AddRun(..)) { 7 } else { 5 };
                    lent.answered(1, &e, if right { due } else { 18 }, calls)?;
                }
            }
            Ok(())
        });
    }
    report.case("contractors and numbers that are none", |calls| {
        let mut lent = holding([6, 1, 2, 5], [6; 4], ALL);
        for contractor in STRANGERS {
            for e in (0..24).flat_map(|m| [add(m), remove(m), shift(m), shift_outside(m)]) {
                lent.answered(contractor, &e, 3, calls)?;
            }
        }
        for (contractor, m) in (0..4).chain(STRANGERS).flat_map(|c| NO_NUMBERS.map(|m| (c, m))) {
            for e in [add(m), add_outside(m), remove(m), shift(m), shift_outside(m)] {
                lent.answered(contractor, &e, 3, calls)?;
            }
        }
        Ok(())
    });
    report.case("every run by every contractor", |calls| {
        let mut lent = holding([6, 1, 2, 5], [6; 4], ALL);
        for (m, contractor) in (0..24).flat_map(|m| (0..4).map(move |c| (m, c))) {
            let own = u32::from(lent.holders[m as usize]) == contractor;
            lent.answered(contractor, &shift_outside(m), if own { 7 } else { 5 }, calls)?;
            lent.answered(contractor, &add_outside(m), if m < 14 { 4 } else if contractor == 0 { 20 } else { 7 }, calls)?;
            if !own {
                lent.answered(contractor, &remove(m), 5, calls)?;
            }
        }
        Ok(())
    });
    report.case("each coordinate outside", |calls| {
        let mut lent = holding([2, 1, 0, 0], [6; 4], ALL);
        for (k, word) in (0..4).flat_map(|k| [32768, 32769, 40000, 65535].map(|word| (k, word))) {
            let mut ends = [1, 2, 32767, 0];
            ends[k] = word;
            lent.answered(1, &Edit::AddRun(20, ends), 7, calls)?;
            lent.answered(1, &Edit::MoveRun(2, ends), 7, calls)?;
        }
        Ok(())
    });
}
