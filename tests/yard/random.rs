//! Random yards and edits from a seed.

use crate::reference::{convex, Book, Place};
use crate::tables::Edit;

/// A generator that gives the same numbers for the same seed everywhere (splitmix64).
pub struct Random(u64);

impl Random {
    pub fn new(seed: u64) -> Random {
        Random(seed)
    }

    /// For one case of a run from a seed.
    pub fn of_case(seed: u64, case: u64) -> Random {
        Random(seed.wrapping_mul(1_000_000_007).wrapping_add(case))
    }

    pub fn next(&mut self) -> u64 {
        self.0 = self.0.wrapping_add(0x9E37_79B9_7F4A_7C15);
        let z = (self.0 ^ (self.0 >> 30)).wrapping_mul(0xBF58_476D_1CE4_E5B9);
        let z = (z ^ (z >> 27)).wrapping_mul(0x94D0_49BB_1331_11EB);
        z ^ (z >> 31)
    }

    pub fn below(&mut self, n: usize) -> usize {
        (self.next() % n as u64) as usize
    }

    pub fn between(&mut self, low: i64, high: i64) -> i64 {
        low + (self.next() % (high - low + 1) as u64) as i64
    }

    pub fn percent(&mut self, p: usize) -> bool {
        self.below(100) < p
    }

    pub fn pick<T: Copy>(&mut self, from: &[T]) -> T {
        from[self.below(from.len())]
    }
}

/// A kind of yard: the range of coordinates, the largest block, and how many of each record to keep about.
#[derive(Clone, Copy)]
pub struct Style {
    pub name: &'static str,
    pub low: i64,
    pub high: i64,
    pub size: i64,
    pub blocks: usize,
    pub runs: usize,
}

pub const STYLES: [Style; 10] = [
    Style { name: "touching", low: 0, high: 6, size: 4, blocks: 6, runs: 6 },
    Style { name: "tiny", low: 0, high: 12, size: 6, blocks: 5, runs: 8 },
    Style { name: "small", low: 0, high: 40, size: 12, blocks: 10, runs: 8 },
    Style { name: "few", low: 0, high: 300, size: 150, blocks: 3, runs: 3 },
    Style { name: "many small", low: 0, high: 60, size: 9, blocks: 20, runs: 12 },
    Style { name: "medium", low: 0, high: 1000, size: 200, blocks: 12, runs: 10 },
    Style { name: "far corner", low: 32740, high: 32767, size: 9, blocks: 8, runs: 6 },
    Style { name: "large", low: 0, high: 32767, size: 9000, blocks: 8, runs: 8 },
    Style { name: "huge blocks", low: 0, high: 32767, size: 32767, blocks: 4, runs: 8 },
    Style { name: "large, spread", low: 0, high: 32767, size: 3000, blocks: 18, runs: 14 },
];

/// All 24 blocks and 24 runs.
pub const FULL: [Style; 3] = [
    Style { name: "full, small", low: 0, high: 70, size: 10, blocks: 24, runs: 24 },
    Style { name: "full, medium", low: 0, high: 2000, size: 260, blocks: 24, runs: 24 },
    Style { name: "full, large", low: 0, high: 32767, size: 5000, blocks: 24, runs: 24 },
];

pub fn any_style(r: &mut Random) -> Style {
    if r.percent(10) { r.pick(&FULL) } else { r.pick(&STYLES) }
}

fn place(r: &mut Random, s: &Style) -> Place {
    (r.between(s.low, s.high), r.between(s.low, s.high))
}

fn words(corners: &[Place]) -> Vec<u16> {
    corners.iter().flat_map(|c| [c.0 as u16, c.1 as u16]).collect()
}

/// The corners of a random convex block, anticlockwise from any of them.
pub fn good_corners(r: &mut Random, s: &Style) -> Vec<Place> {
    loop {
        let span = s.high - s.low;
        let size = r.between(1, s.size.min(span));
        let (wide, tall) = if r.percent(30) { (size, r.between(1, size)) } else { (size, size) };
        let at = (r.between(s.low, s.high - wide), r.between(s.low, s.high - tall));
        let mut points: Vec<Place> = match r.below(4) {
            0 => vec![(at.0, at.1), (at.0 + wide, at.1), (at.0 + wide, at.1 + tall), (at.0, at.1 + tall)],
            _ => {
                let count = 3 + r.below(12);
                (0..count).map(|_| (at.0 + r.between(0, wide), at.1 + r.between(0, tall))).collect()
            }
        };
        points = hull(points);
        while points.len() > 8 {
            let at = r.below(points.len());
            points.remove(at);
        }
        if points.len() >= 3 {
            assert!(convex(&points));
            let first = r.below(points.len());
            points.rotate_left(first);
            return points;
        }
    }
}

/// Strict hull, anticlockwise.
fn hull(mut points: Vec<Place>) -> Vec<Place> {
    points.sort();
    points.dedup();
    let half = |points: &[Place]| {
        let mut out: Vec<Place> = vec![];
        for &c in points {
            while out.len() >= 2 {
                let (a, b) = (out[out.len() - 2], out[out.len() - 1]);
                if (b.0 - a.0) * (c.1 - a.1) - (b.1 - a.1) * (c.0 - a.0) > 0 {
                    break;
                }
                out.pop();
            }
            out.push(c);
        }
        out.pop();
        out
    };
    let mut all = half(&points);
    points.reverse();
    all.extend(half(&points));
    all
}

/// Corner words with one or two faults, or none by luck.
fn bad_corners(r: &mut Random, s: &Style) -> Vec<u16> {
    let mut corners = good_corners(r, s);
    let mut extra = None;
    for _ in 0..1 + r.below(2) {
        let (at, count) = (r.below(corners.len().max(1)), corners.len());
        match r.below(11) {
            // a star: every second corner, twice round; its successive turns are all left
            10 if count % 2 == 1 => corners = (0..count).map(|k| corners[2 * k % count]).collect(),
            0 => corners.reverse(),
            1 if count > 0 => corners.insert(at, corners[at]),
            2 if count > 1 => {
                let (p, q) = (corners[at], corners[(at + 1) % count]);
                corners.insert(at + 1, ((p.0 + q.0) / 2, (p.1 + q.1) / 2));
            }
            3 if count > 1 => {
                let other = r.below(count);
                corners.swap(at, other);
            }
            4 if count > 0 => corners[at] = place(r, s),
            5 if count > 0 => corners[at].0 = r.pick(&[32768, 32769, 40000, 65535]),
            6 if count > 0 => corners[at].1 = r.pick(&[32768, 32769, 40000, 65535]),
            7 => corners.truncate(r.below(4)),
            8 => corners.extend((0..r.pick(&[1, 6, 9, 300])).map(|_| place(r, s)).collect::<Vec<_>>()),
            _ => extra = Some(r.below(65536) as u16),
        }
    }
    words(&corners).into_iter().chain(extra).collect()
}

fn number(r: &mut Random, places: &[Vec<Place>], taken: bool) -> u32 {
    let wanted: Vec<u32> = (0..24).filter(|&n| places[n as usize].is_empty() != taken).collect();
    match r.below(20) {
        0 => r.pick(&[24, 25, 31, 32, 48, 255, 256, 263, 65536, 65541, 0x8000_0000, 0x8000_0003, u32::MAX]),
        1 | 2 => r.below(24) as u32,
        _ if wanted.is_empty() => r.below(24) as u32,
        _ => r.pick(&wanted),
    }
}

/// An end: anywhere, at a corner, in the middle of a side, or out of range.
fn end(r: &mut Random, s: &Style, book: &Book) -> Place {
    let blocks: Vec<&Vec<Place>> = book.blocks.iter().filter(|b| !b.is_empty()).collect();
    if !blocks.is_empty() && r.percent(35) {
        let corners = blocks[r.below(blocks.len())];
        let k = r.below(corners.len());
        let (p, q) = (corners[k], corners[(k + 1) % corners.len()]);
        return if r.percent(60) { p } else { ((p.0 + q.0) / 2, (p.1 + q.1) / 2) };
    }
    let mut p = place(r, s);
    if r.percent(2) {
        p.0 = r.pick(&[32768, 65535]);
    }
    if r.percent(2) {
        p.1 = r.pick(&[32768, 65535]);
    }
    p
}

pub fn ends(r: &mut Random, s: &Style, book: &Book) -> [u16; 4] {
    let first = end(r, s, book);
    let second = if r.percent(6) { first } else { end(r, s, book) };
    [first.0 as u16, first.1 as u16, second.0 as u16, second.1 as u16]
}

fn displacement(r: &mut Random, s: &Style) -> i16 {
    let span = s.high - s.low;
    match r.below(12) {
        0 => 0,
        1 => r.pick(&[i16::MIN, -32767, 32767, -1, 1]),
        2 => r.next() as i16,
        3..=6 => r.between(-(span / 10).max(1), (span / 10).max(1)) as i16,
        _ => r.between(-(span / 3).max(1), (span / 3).max(1)) as i16,
    }
}

fn add_block(r: &mut Random, s: &Style, book: &Book) -> Edit {
    let corners = if r.percent(20) { bad_corners(r, s) } else { words(&good_corners(r, s)) };
    Edit::AddBlock(number(r, &book.blocks, false), corners)
}

/// A least charge: none, one that straights of the yard may be shorter than, the largest, or one that is too large.
pub fn figure(r: &mut Random, s: &Style) -> u16 {
    match r.below(12) {
        0..=4 => 0,
        5..=7 => r.between(1, ((s.high - s.low) / 2).clamp(1, 1000)) as u16,
        _ => r.pick(&[1, 500, 999, 1000, 1001, 65535]),
    }
}

pub fn edit(r: &mut Random, s: &Style, book: &Book) -> Edit {
    let blocks = book.blocks.iter().filter(|b| !b.is_empty()).count();
    let runs = book.runs.iter().filter(|b| !b.is_empty()).count();
    match r.below(100) {
        0..=24 if blocks < s.blocks => add_block(r, s, book),
        25..=39 if runs < s.runs => Edit::AddRun(number(r, &book.runs, false), ends(r, s, book)),
        0..=44 => Edit::MoveBlock(number(r, &book.blocks, true), displacement(r, s), displacement(r, s)),
        45..=64 => Edit::MoveBlock(number(r, &book.blocks, true), displacement(r, s) / 4, displacement(r, s) / 4),
        65..=74 => Edit::MoveRun(number(r, &book.runs, true), ends(r, s, book)),
        75..=82 => Edit::RemoveBlock(number(r, &book.blocks, true)),
        83..=87 => Edit::RemoveRun(number(r, &book.runs, true)),
        88..=93 => add_block(r, s, book),
        94 | 95 => Edit::AddRun(number(r, &book.runs, false), ends(r, s, book)),
        _ => Edit::SetCharge(figure(r, s)),
    }
}

/// A list of edits. A full style starts by taking every place.
pub fn list(r: &mut Random, s: &Style, count: usize) -> Vec<Edit> {
    let mut book = Book::new();
    let mut edits = vec![];
    if s.blocks == 24 && s.runs == 24 {
        for n in 0..24 {
            edits.push(Edit::AddBlock(n, words(&good_corners(r, s))));
            let p = (place(r, s), place(r, s));
            edits.push(Edit::AddRun(n, [p.0 .0 as u16, p.0 .1 as u16, p.1 .0 as u16, p.1 .1 as u16]));
        }
        for e in &edits {
            book.step(e);
        }
    }
    while edits.len() < count {
        let e = edit(r, s, &book);
        book.step(&e);
        edits.push(e);
    }
    edits
}
