//! The rows of docs/RULES.md: "Trial yards", the listed yard, and "Shortcuts that cost a trench".

use crate::tables::{Edit, Planner, Tables};
use crate::{same_answer, started, Report};

const S: [u16; 8] = [10, 10, 20, 10, 20, 20, 10, 20];

fn square(n: u32) -> Edit {
    Edit::AddBlock(n, S.to_vec())
}

fn run(ends: [u16; 4]) -> Edit {
    Edit::AddRun(0, ends)
}

/// A started yard after edits that must all be done.
fn yard(p: &impl Planner, edits: &[Edit], calls: &mut usize) -> Result<Tables, String> {
    let mut t = started(p)?;
    for e in edits {
        *calls += 1;
        same_answer(&format!("{e:?}"), p.edit(&mut t, e), 0)?;
    }
    same_answer("check", p.check(&t), 0)?;
    Ok(t)
}

fn same<T: PartialEq + std::fmt::Debug>(got: T, right: T) -> Result<(), String> {
    if got == right {
        Ok(())
    } else {
        Err(format!("is {got:?}, should be {right:?}"))
    }
}

const CLEAR: u8 = 254;
const SEAM: u8 = 253;

pub fn trial_yards(p: &impl Planner, report: &mut Report) {
    let straights: [([u16; 4], u8); 7] = [
        ([0, 10, 30, 10], CLEAR),
        ([0, 11, 30, 11], 0),
        ([10, 10, 20, 20], 0),
        ([0, 20, 20, 0], CLEAR),
        ([0, 21, 21, 0], 0),
        ([15, 15, 15, 15], 0),
        ([10, 15, 10, 15], CLEAR),
    ];
    for (ends, byte) in straights {
        for e in [ends, [ends[2], ends[3], ends[0], ends[1]]] {
            report.case(&format!("S and a straight {e:?}"), |calls| {
                same(yard(p, &[square(0), run(e)], calls)?.pair(192, 193), byte)?;
                // the other order of the edits, and another number for the block
                same(yard(p, &[run(e), square(0)], calls)?.pair(192, 193), byte)?;
                let other = if byte == CLEAR { CLEAR } else { 23 };
                same(yard(p, &[square(23), run(e)], calls)?.pair(192, 193), other)
            });
        }
    }
    for (ends, length) in [([0, 0, 0, 0], 0), ([0, 0, 1, 1], 2), ([0, 0, 3, 4], 5), ([0, 0, 32767, 32767], 46340)] {
        report.case(&format!("length {ends:?}"), |calls| {
            let t = yard(p, &[run(ends)], calls)?;
            same(t.route(0), (1, length, &[192, 193][..]))
        });
    }
    report.case("S, run 0 (0,15) to (30,15)", |calls| {
        let t = yard(p, &[square(0), run([0, 15, 30, 15])], calls)?;
        same(t.route(0), (1, 34, &[192, 0, 1, 193][..]))
    });
    for ends in [[15, 15, 30, 15], [0, 15, 15, 15], [15, 15, 15, 15]] {
        report.case("S, run 0 with an end at (15,15)", |calls| {
            let t = yard(p, &[square(0), run(ends)], calls)?;
            same(&t.routes[..197], &[&[2][..], &[0; 196]].concat()[..])
        });
    }
    let beside = || Edit::AddBlock(1, vec![20, 10, 30, 10, 30, 20, 20, 20]);
    for edits in [[square(0), beside(), run([20, 0, 20, 30])], [run([20, 0, 20, 30]), beside(), square(0)]] {
        report.case("a straight in the seam of two blocks", |calls| {
            let t = yard(p, &edits, calls)?;
            same(t.pair(192, 193), SEAM)?;
            same(t.route(0), (1, 40, &[192, 0, 3, 193][..]))
        });
    }
    for ends in [[20, 15, 40, 15], [0, 0, 20, 15], [20, 15, 20, 15], [20, 10, 20, 0], [0, 10, 20, 20]] {
        report.case(&format!("an end on a seam, {ends:?}"), |calls| {
            let t = yard(p, &[square(0), beside(), run(ends)], calls)?;
            same(&t.routes[..197], &[&[2][..], &[0; 196]].concat()[..])
        });
    }
    let sharing = [
        ("a corner", vec![20, 20, 30, 20, 30, 30, 20, 30], [10, 30, 30, 10]),
        ("every place, equal", vec![10, 10, 20, 10, 20, 20, 10, 20], [0, 10, 30, 10]),
        ("part of a side, one inside the other", vec![12, 10, 18, 10, 15, 15], [0, 10, 30, 10]),
    ];
    for (what, corners, ends) in sharing {
        report.case(&format!("S and a block that share {what}"), |calls| {
            let t = yard(p, &[square(0), Edit::AddBlock(1, corners.clone()), run(ends)], calls)?;
            same(t.pair(192, 193), SEAM)
        });
    }
    report.case("the listed yard", |calls| {
        let mut edits = vec![Edit::AddBlock(0, vec![10, 6, 14, 7, 14, 40, 10, 40]), run([0, 10, 27, 13])];
        same(yard(p, &edits, calls)?.route(0), (1, 31, &[192, 0, 1, 193][..]))?;
        edits.push(Edit::AddBlock(1, vec![11, 1, 13, 1, 12, 5]));
        same(yard(p, &edits, calls)?.route(0), (1, 30, &[192, 10, 193][..]))?;
        edits.push(Edit::RemoveBlock(1));
        same(yard(p, &edits, calls)?.route(0), (1, 31, &[192, 0, 1, 193][..]))
    });
    let slim = || Edit::AddBlock(0, vec![8, 4, 10, 16, 8, 16]);
    let round_it: [(u16, u32, &[u32]); 4] = [(0, 16, &[192, 2, 1, 193]), (4, 18, &[192, 2, 1, 193]), (5, 20, &[192, 0, 193]), (6, 20, &[192, 0, 193])];
    for (figure, length, marks) in round_it {
        report.case(&format!("two short straights or a long one, least charge {figure}"), |calls| {
            for edits in [[slim(), run([0, 10, 11, 13]), Edit::SetCharge(figure)], [Edit::SetCharge(figure), run([0, 10, 11, 13]), slim()]] {
                same(yard(p, &edits, calls)?.route(0), (1, length, marks))?;
            }
            Ok(())
        });
    }
    for (ends, length) in [([5, 5, 5, 5], 0), ([5, 5, 5, 6], 1000)] {
        report.case(&format!("a least charge of 1,000, run 0 {ends:?}"), |calls| {
            same(yard(p, &[run(ends), Edit::SetCharge(1000)], calls)?.route(0), (1, length, &[192, 193][..]))
        });
    }
    report.case("the star", |calls| refusal(p, &[], Edit::AddBlock(0, vec![10, 0, 16, 20, 0, 8, 20, 8, 4, 20]), 8, calls));
    report.case("coordinate 32,767 is taken", |calls| {
        yard(p, &[Edit::AddBlock(0, vec![32766, 0, 32767, 0, 32767, 32767]), run([32767, 32767, 0, 32767])], calls)?;
        yard(p, &[square(0), Edit::MoveBlock(0, 32747, 32747), Edit::MoveBlock(0, -32757, -32757)], calls).map(drop)
    });
    for at in 0..6 {
        report.case("coordinate 32,768 of a block", |calls| {
            let mut corners = vec![0, 0, 10, 0, 0, 10];
            corners[at] = 32768;
            refusal(p, &[], Edit::AddBlock(0, corners), 7, calls)
        });
    }
    for at in 0..4 {
        report.case("coordinate 32,768 of a run", |calls| {
            let mut ends = [0, 0, 5, 5];
            ends[at] = 32768;
            refusal(p, &[], run(ends), 7, calls)?;
            refusal(p, &[run([1, 1, 2, 2])], Edit::MoveRun(0, ends), 7, calls)
        });
    }
    for (east, north) in [(32748, 0), (0, 32748), (-11, 0), (0, -11), (i16::MIN, 0), (0, i16::MIN), (i16::MAX, i16::MAX)] {
        report.case("a move out of range", |calls| refusal(p, &[square(0)], Edit::MoveBlock(0, east, north), 7, calls));
    }
    report.case("number 23 is taken", |calls| {
        yard(p, &[square(23), Edit::AddRun(23, [0, 15, 30, 15])], calls)?;
        let all = [square(23), Edit::MoveBlock(23, 1, 1), Edit::RemoveBlock(23), Edit::AddRun(23, [0, 15, 30, 15]), Edit::MoveRun(23, [1, 1, 2, 2]), Edit::RemoveRun(23)];
        yard(p, &all, calls).map(drop)
    });
    for figure in [0, 1, 999, 1000] {
        report.case(&format!("a least charge of {figure} is taken"), |calls| {
            let t = yard(p, &[square(0), run([0, 10, 30, 10]), Edit::SetCharge(figure)], calls)?;
            same(t.figure(), figure)?;
            same(t.route(0), (1, u32::from(figure.max(30)), &[192, 193][..]))
        });
    }
    for figure in [1001, 1002, 1024, 32767, 32768, 65535] {
        report.case(&format!("a least charge of {figure}"), |calls| {
            refusal(p, &[], Edit::SetCharge(figure), 13, calls)?;
            refusal(p, &[square(0), run([0, 10, 30, 10]), Edit::SetCharge(40)], Edit::SetCharge(figure), 13, calls)
        });
    }
    for number in [24, 25, 256, 65536, u32::MAX] {
        report.case(&format!("number {number}"), |calls| {
            for e in [square(number), Edit::AddBlock(number, vec![]), Edit::RemoveBlock(number), Edit::MoveBlock(number, i16::MIN, 0)] {
                refusal(p, &[square(0)], e, 3, calls)?;
            }
            for e in [Edit::AddRun(number, [40000; 4]), Edit::RemoveRun(number), Edit::MoveRun(number, [40000; 4])] {
                refusal(p, &[run([0; 4])], e, 3, calls)?;
            }
            Ok(())
        });
    }
    questions_in_order(p, report);
}

/// Where several questions fail, the first is the answer.
fn questions_in_order(p: &impl Planner, report: &mut Report) {
    let have = [square(3), Edit::AddRun(4, [0, 15, 30, 15])];
    let rows = [
        (square(3), 4),
        (Edit::AddBlock(3, vec![1]), 4),
        (Edit::AddRun(4, [40000; 4]), 4),
        (Edit::RemoveBlock(4), 5),
        (Edit::MoveBlock(4, i16::MIN, i16::MIN), 5),
        (Edit::RemoveRun(3), 5),
        (Edit::MoveRun(3, [40000; 4]), 5),
        (Edit::AddBlock(0, vec![]), 6),
        (Edit::AddBlock(0, vec![1, 1, 2, 2]), 6),
        (Edit::AddBlock(0, vec![40000; 5]), 6),
        (Edit::AddBlock(0, vec![0, 0, 10, 0, 10, 10, 5]), 6),
        (Edit::AddBlock(0, vec![40000; 17]), 6),
        (Edit::AddBlock(0, vec![0; 18]), 6),
        (Edit::AddBlock(0, vec![0, 0, 10, 0, 5, 40000, 10, 10]), 7),
        (Edit::AddBlock(0, vec![0, 0, 0, 10, 10, 10, 32768, 0]), 7),
        (Edit::AddBlock(0, vec![10, 10, 10, 20, 20, 20, 20, 10]), 8),
        (Edit::AddBlock(0, vec![10, 10, 15, 10, 20, 10, 20, 20]), 8),
        (Edit::AddBlock(0, vec![10, 10, 10, 10, 20, 20]), 8),
        (Edit::AddBlock(0, vec![0, 0, 1, 1, 2, 2]), 8),
        (Edit::AddBlock(0, vec![0; 16]), 8),
        (Edit::SetCharge(1001), 13),
    ];
    for (e, answer) in rows {
        report.case(&format!("{e:?}"), |calls| refusal(p, &have, e.clone(), answer, calls));
    }
    report.case("eight corners are taken", |calls| {
        yard(p, &[Edit::AddBlock(0, vec![10, 0, 20, 0, 30, 10, 30, 20, 20, 30, 10, 30, 0, 20, 0, 10])], calls).map(drop)
    });
}

/// An edit that must be refused with this answer and change nothing.
fn refusal(p: &impl Planner, edits: &[Edit], e: Edit, answer: u32, calls: &mut usize) -> Result<(), String> {
    let mut t = yard(p, edits, calls)?;
    let before = t.clone();
    *calls += 1;
    same_answer(&format!("{e:?}"), p.edit(&mut t, &e), answer)?;
    crate::same_tables(&format!("{e:?} refused"), &t, &before)
}

pub fn shortcuts(p: &impl Planner, report: &mut Report) {
    report.case("a new block that cuts no run shortens one", |calls| {
        let edits = [
            Edit::AddBlock(0, vec![10, 6, 14, 7, 14, 40, 10, 40]),
            run([0, 10, 27, 13]),
            Edit::AddRun(1, [0, 0, 1, 1]),
            Edit::AddBlock(1, vec![11, 1, 13, 1, 12, 5]),
        ];
        same(yard(p, &edits[..3], calls)?.route(0).1, 31)?;
        same(yard(p, &edits, calls)?.route(0), (1, 30, &[192, 10, 193][..]))
    });
    report.case("after a removal an equal route wins the tie by its marks", |calls| {
        let mut edits = vec![square(0), run([0, 15, 30, 15]), Edit::AddBlock(1, vec![11, 6, 19, 6, 19, 11, 11, 11])];
        same(yard(p, &edits, calls)?.route(0), (1, 34, &[192, 3, 2, 193][..]))?;
        edits.push(Edit::RemoveBlock(1));
        same(yard(p, &edits, calls)?.route(0), (1, 34, &[192, 0, 1, 193][..]))
    });
    report.case("after a removal an equal route wins the tie by fewer straights", |calls| {
        // The straight is 11 long, and so are the ways over (5,1) and over (7,1), a corner of the block that bars it.
        let mut edits = vec![
            Edit::AddBlock(0, vec![5, 1, 6, 3, 4, 3]),
            run([0, 0, 10, 1]),
            Edit::AddBlock(1, vec![6, 0, 8, 0, 7, 1]),
        ];
        same(yard(p, &edits, calls)?.route(0), (1, 11, &[192, 0, 193][..]))?;
        edits.push(Edit::RemoveBlock(1));
        same(yard(p, &edits, calls)?.route(0), (1, 11, &[192, 193][..]))
    });
    report.case("each straight is rounded up, not the sum", |calls| {
        let t = yard(p, &[square(0), run([0, 15, 30, 15])], calls)?;
        same(t.route(0).1, 34)
    });
    report.case("the star passes turns at successive corners only", |calls| {
        refusal(p, &[], Edit::AddBlock(7, vec![10, 0, 16, 20, 0, 8, 20, 8, 4, 20]), 8, calls)
    });
    report.case("the lowest blocker, whatever the order of the edits", |calls| {
        let slab = |n: u32, east: u16| Edit::AddBlock(n, vec![east, 0, east + 2, 0, east + 2, 20, east, 20]);
        let r = run([0, 10, 40, 10]);
        let orders: [Vec<Edit>; 3] = [
            vec![slab(5, 10), slab(2, 20), r.clone()],
            vec![slab(2, 20), r.clone(), slab(5, 10)],
            vec![r, slab(5, 10), slab(2, 20)],
        ];
        for mut edits in orders {
            same(yard(p, &edits, calls)?.pair(192, 193), 2)?;
            edits.push(Edit::MoveBlock(2, 5, 30));
            same(yard(p, &edits, calls)?.pair(192, 193), 5)?;
            edits.push(Edit::MoveBlock(2, -5, -25));
            same(yard(p, &edits, calls)?.pair(192, 193), 2)?;
            edits.push(Edit::RemoveBlock(2));
            same(yard(p, &edits, calls)?.pair(192, 193), 5)?;
            edits.push(Edit::RemoveBlock(5));
            same(yard(p, &edits, calls)?.pair(192, 193), CLEAR)?;
        }
        Ok(())
    });
}
