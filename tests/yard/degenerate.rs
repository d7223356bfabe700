//! Degenerate yards: blocks that are equal, touch, overlap, stand inside one another or have sides on one line, and runs
//! along them; on a small lattice, and the same stretched so that the largest coordinate is 32,767, exactly or with some
//! coordinates a centimetre off.

use crate::random::{self, good_corners, Random, Style};
use crate::reference::{convex, Place};
use crate::tables::{Edit, Planner};
use crate::{random_list, replay, same_answer, Report};

const LARGEST: i64 = 32767;

/// How a lattice lies in the yard: so far apart east and north, the last line of each at the largest coordinate or at its
/// own number.
#[derive(Clone, Copy)]
pub struct Stretch {
    east: i64,
    north: i64,
    span: i64,
    far: bool,
}

impl Stretch {
    pub fn all(span: i64) -> [Stretch; 6] {
        let most = LARGEST / span;
        let stretch = |east, north, far| Stretch { east, north, span, far };
        [
            stretch(1, 1, false),
            stretch(1, 1, true),
            stretch(most, most, false),
            stretch(most, most, true),
            stretch(1, most, true),
            stretch(most, 1, true),
        ]
    }

    fn coordinate(&self, by: i64, c: i64) -> i64 {
        if self.far { LARGEST - by * (self.span - c) } else { by * c }
    }

    /// Words; those past the lattice stay.
    fn words(&self, words: &[u16]) -> Vec<u16> {
        let one = |(k, &w): (usize, &u16)| {
            let by = if k % 2 == 0 { self.east } else { self.north };
            if i64::from(w) <= self.span { self.coordinate(by, w.into()) as u16 } else { w }
        };
        words.iter().enumerate().map(one).collect()
    }

    pub fn edit(&self, e: &Edit) -> Edit {
        let ends = |ends: &[u16; 4]| -> [u16; 4] { std::array::from_fn(|k| self.words(ends)[k]) };
        let step = |by: i64, d: i16| (by * i64::from(d)).clamp(i16::MIN.into(), i16::MAX.into()) as i16;
        match e {
            Edit::AddBlock(n, corners) => Edit::AddBlock(*n, self.words(corners)),
            Edit::MoveBlock(n, east, north) => Edit::MoveBlock(*n, step(self.east, *east), step(self.north, *north)),
            Edit::AddRun(m, e) => Edit::AddRun(*m, ends(e)),
            Edit::MoveRun(m, e) => Edit::MoveRun(*m, ends(e)),
            Edit::RemoveBlock(_) | Edit::RemoveRun(_) | Edit::SetCharge(_) => e.clone(),
        }
    }
}

/// An edit with some coordinates a centimetre off.
fn off(r: &mut Random, e: Edit) -> Edit {
    let mut word = |w: u16| if r.percent(15) && w < 32768 { (i64::from(w) + r.between(-1, 1)).clamp(0, LARGEST) as u16 } else { w };
    match e {
        Edit::AddBlock(n, corners) => Edit::AddBlock(n, corners.into_iter().map(word).collect()),
        Edit::AddRun(m, ends) => Edit::AddRun(m, ends.map(&mut word)),
        Edit::MoveRun(m, ends) => Edit::MoveRun(m, ends.map(&mut word)),
        _ => e,
    }
}

pub fn moved(corners: &[Place], by: Place) -> Vec<Place> {
    corners.iter().map(|c| (c.0 + by.0, c.1 + by.1)).collect()
}

/// A block that has to do with another: equal to it from another corner on, beside it along a side's line, mirrored at its
/// easternmost or northernmost line, inside it, or across it.
pub fn relative(r: &mut Random, of: &[Place]) -> Vec<Place> {
    let (k, count) = (r.below(of.len()), of.len());
    let (p, q) = (of[k], of[(k + 1) % count]);
    match r.below(6) {
        0 => [&of[k..], &of[..k]].concat(),
        1 => moved(of, (q.0 - p.0, q.1 - p.1)),
        2 => {
            let line = of.iter().map(|c| c.0).max().unwrap_or(0);
            of.iter().rev().map(|c| (2 * line - c.0, c.1)).collect()
        }
        3 => {
            let line = of.iter().map(|c| c.1).max().unwrap_or(0);
            of.iter().rev().map(|c| (c.0, 2 * line - c.1)).collect()
        }
        // the triangle of three of its corners
        4 => [of[k], of[(k + 1) % count], of[(k + 2) % count]].to_vec(),
        _ => moved(of, (r.between(-1, 1), r.between(-1, 1))),
    }
}

pub fn on_lattice(corners: &[Place], span: i64) -> bool {
    corners.iter().all(|c| (0..=span).contains(&c.0) && (0..=span).contains(&c.1))
}

/// A place that has to do with a block: a corner, past one on a side's line, or near the block.
pub fn end(r: &mut Random, corners: &[Place], span: i64) -> Place {
    let k = r.below(corners.len());
    let (p, q) = (corners[k], corners[(k + 1) % corners.len()]);
    let place = match r.below(4) {
        0 => p,
        1 => (2 * q.0 - p.0, 2 * q.1 - p.1),
        2 => ((p.0 + q.0) / 2, (p.1 + q.1) / 2),
        _ => (p.0 + r.between(-1, 1), p.1 + r.between(-1, 1)),
    };
    (place.0.clamp(0, span), place.1.clamp(0, span))
}

pub fn words(places: &[Place]) -> Vec<u16> {
    places.iter().flat_map(|c| [c.0 as u16, c.1 as u16]).collect()
}

/// Blocks that have to do with each other and runs along them, then moves of blocks onto corners of others; now and then a
/// least charge.
fn list(r: &mut Random, s: &Style) -> Vec<Edit> {
    let mut blocks = vec![good_corners(r, s)];
    for _ in 0..200 {
        let of = blocks[r.below(blocks.len())].clone();
        let next = if r.percent(15) { good_corners(r, s) } else { relative(r, &of) };
        if blocks.len() < s.blocks && on_lattice(&next, s.high) {
            assert!(convex(&next));
            blocks.push(next);
        }
    }
    let mut edits: Vec<Edit> = blocks.iter().enumerate().map(|(n, b)| Edit::AddBlock(n as u32, words(b))).collect();
    for m in 0..s.runs {
        let (a, b) = (r.below(blocks.len()), r.below(blocks.len()));
        let ends = words(&[end(r, &blocks[a], s.high), end(r, &blocks[b], s.high)]);
        edits.push(Edit::AddRun(m as u32, [ends[0], ends[1], ends[2], ends[3]]));
    }
    // the order of blocks and runs mixed
    for k in (1..edits.len()).rev() {
        edits.swap(k, r.below(k + 1));
    }
    for _ in 0..6 {
        let (n, o) = (r.below(blocks.len()), r.below(blocks.len()));
        let (from, to) = (blocks[n][r.below(blocks[n].len())], blocks[o][r.below(blocks[o].len())]);
        let by = (to.0 - from.0, to.1 - from.1);
        if on_lattice(&moved(&blocks[n], by), s.high) {
            blocks[n] = moved(&blocks[n], by);
        }
        edits.push(Edit::MoveBlock(n as u32, by.0 as i16, by.1 as i16));
    }
    for _ in 0..r.below(3) {
        let at = r.below(edits.len() + 1);
        edits.insert(at, Edit::SetCharge(random::figure(r, s)));
    }
    edits
}

const STYLES: [Style; 4] = [
    Style { name: "7 steps", low: 0, high: 7, size: 4, blocks: 9, runs: 8 },
    Style { name: "6 steps", low: 0, high: 6, size: 6, blocks: 7, runs: 8 },
    Style { name: "31 steps", low: 0, high: 31, size: 12, blocks: 8, runs: 8 },
    Style { name: "2 steps", low: 0, high: 2, size: 2, blocks: 12, runs: 6 },
];

/// A random list, stretched in a random way.
pub fn edits(r: &mut Random) -> Vec<Edit> {
    let s = r.pick(&STYLES);
    let stretch = r.pick(&Stretch::all(s.high));
    let exact = r.percent(50);
    let edits: Vec<Edit> = list(r, &s).iter().map(|e| stretch.edit(e)).collect();
    edits.into_iter().map(|e| if exact { e } else { off(r, e) }).collect()
}

pub fn one(p: &impl Planner, r: &mut Random, calls: &mut usize) -> Result<(), String> {
    let edits = edits(r);
    random_list(p, &edits, true, calls)
}

pub fn degenerate(p: &impl Planner, report: &mut Report) {
    let (mut bent, mut reached) = (0, 0);
    for (at, s) in STYLES.iter().enumerate() {
        for seed in 0..16 {
            let mut r = Random::new(8_000_000 + 1000 * at as u64 + seed);
            // degenerate blocks, or edits of every kind with few places for them
            let edits = if seed % 8 > 5 { random::list(&mut r, s, 30) } else { list(&mut r, s) };
            for (k, stretch) in Stretch::all(s.high).iter().enumerate() {
                let exact = seed % 2 == 0;
                report.case(&format!("{}, seed {seed}, stretch {k}", s.name), |calls| {
                    let stretched = edits.iter().map(|e| stretch.edit(e));
                    let edits: Vec<Edit> = stretched.map(|e| if exact { e } else { off(&mut r, e) }).collect();
                    let t = replay(p, &edits, calls)?;
                    bent += t.routes.chunks(197).filter(|words| words[2] > 2).count();
                    reached += t.blocks.iter().filter(|&&w| i64::from(w) == LARGEST).count();
                    same_answer("check after the list", p.check(&t), 0)
                });
            }
        }
    }
    report.case("runs round corners and the largest coordinate often enough", |_| {
        if bent > 100 && reached > 100 { Ok(()) } else { Err(format!("only {bent} and {reached}")) }
    });
}
