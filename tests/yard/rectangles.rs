//! Every straight of a grid that reaches past a block on each side, so that all of them that begin
//! or end at the edge of the block's rectangle are among them.

use crate::reference::{Book, Place};
use crate::tables::{pair_index, Edit, Planner, Tables};
use crate::{same_answer, same_tables, Report};

/// Blocks of 3 to 8 corners inside the grid.
pub const SHAPES: [&[(u16, u16)]; 9] = [
    &[(1, 2), (8, 1), (4, 8)],
    &[(8, 8), (1, 8), (8, 1)],
    &[(2, 2), (7, 2), (7, 7), (2, 7)],
    &[(4, 1), (8, 5), (5, 8), (1, 4)],
    &[(3, 1), (7, 2), (8, 5), (5, 8), (1, 5)],
    &[(3, 1), (6, 1), (8, 4), (6, 7), (3, 7), (1, 4)],
    &[(3, 1), (6, 1), (8, 3), (8, 6), (6, 8), (2, 7), (1, 4)],
    &[(3, 1), (6, 1), (8, 3), (8, 6), (6, 8), (3, 8), (1, 6), (1, 3)],
    &[(5, 1), (7, 2), (8, 4), (7, 6), (5, 7), (3, 6), (2, 4), (3, 2)],
];
const SIDE: u16 = 10;
/// Two of these groups of places are the ends of the runs of one yard.
const GROUPS: usize = 5;

fn group(g: usize) -> Vec<(u16, u16)> {
    (0..SIDE * SIDE).filter(|p| *p as usize % GROUPS == g).map(|p| (p % SIDE, p / SIDE)).collect()
}

/// The runs of every two groups: one run from each place of the first to a place of the second.
pub fn run_pairs() -> Vec<Vec<Vec<Place>>> {
    let place = |p: (u16, u16)| (p.0 as i64, p.1 as i64);
    let pairs = (0..GROUPS).flat_map(|g| (0..g).map(move |h| (g, h)));
    pairs.map(|(g, h)| group(g).into_iter().zip(group(h)).map(|(a, b)| vec![place(a), place(b)]).collect()).collect()
}

/// The block, and runs between two groups of places: their 40 ends are the ends of 780 straights.
fn yard(number: u32, corners: &[(u16, u16)], g: usize, h: usize) -> Book {
    let mut book = Book::new();
    assert_eq!(book.step(&Edit::AddBlock(number, corners.iter().flat_map(|c| [c.0, c.1]).collect())), 0);
    for (m, (a, b)) in group(g).into_iter().zip(group(h)).enumerate() {
        assert_eq!(book.step(&Edit::AddRun(m as u32, [a.0, a.1, b.0, b.1])), 0);
    }
    book
}

fn number(s: usize, turn: usize) -> u32 {
    ((5 * s + turn) % 24) as u32
}

/// The shape from a corner on, with the runs of every two groups.
pub fn yards(s: usize, turn: usize) -> Vec<Book> {
    let corners = [&SHAPES[s][turn..], &SHAPES[s][..turn]].concat();
    let groups = (0..GROUPS).flat_map(|g| (0..g).map(move |h| (g, h)));
    groups.map(|(g, h)| yard(number(s, turn), &corners, g, h)).collect()
}

/// The bytes of present marks as if nothing were hidden.
fn unhidden(drawing: &Tables) -> Tables {
    let mut t = drawing.clone();
    for j in 0..240 {
        for i in 0..j {
            let byte = &mut t.pairs[pair_index(i, j)];
            *byte = (*byte).max(254);
        }
    }
    t
}

pub fn edges(p: &impl Planner, report: &mut Report) {
    for (s, shape) in SHAPES.iter().enumerate() {
        for turn in 0..shape.len() {
            report.case(&format!("shape {s} from corner {turn} on"), |calls| {
                for book in yards(s, turn) {
                    let right = book.drawing();
                    same_answer("check", p.check(&right), 0)?;
                    let mut t = unhidden(&right);
                    same_answer("move", p.edit(&mut t, &Edit::MoveBlock(number(s, turn), 0, 0)), 0)?;
                    same_tables("a move by nothing over unhidden bytes", &t, &right)?;
                    *calls += 2;
                }
                Ok(())
            });
        }
    }
}
