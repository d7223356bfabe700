//! Small random yards for ducts, and the second duct router's two ways over them.

use crate::duct_router::{Lines, CHANGE};
use crate::random::{good_corners, Random, Style};
use crate::reference::{convex, Book, Place};
use crate::Report;

/// A kind of yard: places on a lattice of so many steps, so far apart, from an offset on.
#[derive(Clone, Copy)]
pub struct Kind {
    pub name: &'static str,
    pub span: i64,
    pub size: i64,
    pub step: i64,
    pub from: i64,
    /// At least and at most so many blocks; two may get one number.
    pub least: usize,
    pub blocks: usize,
    /// How many in a hundred blocks are bars, one step thick.
    pub bars: usize,
    /// Of so many pairs of ends the run gets the one with the most bends.
    pub pairs: usize,
}

pub const SMALL: Kind = Kind { name: "touching", span: 5, size: 3, step: 1, from: 0, least: 0, blocks: 8, bars: 20, pairs: 2 };
pub const MAZE: Kind = Kind { name: "maze", span: 8, step: 25, least: 5, bars: 100, pairs: 8, ..SMALL };
/// Few enough lines to go along every path.
pub const SMALL_KINDS: [Kind; 12] = [
    SMALL,
    Kind { name: "steps of 25", step: 25, from: 7, ..SMALL },
    Kind { name: "steps of 12", step: 12, from: 3, ..SMALL },
    Kind { name: "steps of 13, bars", step: 13, bars: 70, ..SMALL },
    Kind { name: "bars", span: 6, bars: 100, ..SMALL },
    Kind { name: "far corner", step: 25, from: 32767 - 125, bars: 50, ..SMALL },
    Kind { name: "far apart", step: 6553, from: 2, bars: 50, ..SMALL },
    MAZE,
    Kind { name: "maze, far corner", from: 32767 - 200, ..MAZE },
    Kind { name: "maze, steps of 5", step: 5, ..MAZE },
    Kind { name: "maze, steps of 12", step: 12, ..MAZE },
    Kind { name: "maze, steps of 50", step: 50, ..MAZE },
];

impl Kind {
    fn style(&self) -> Style {
        Style { name: self.name, low: 0, high: self.span, size: self.size, blocks: 0, runs: 0 }
    }

    fn place(&self, p: Place) -> Place {
        (self.from + self.step * p.0, self.from + self.step * p.1)
    }

    fn anywhere(&self, r: &mut Random) -> Place {
        self.place((r.between(0, self.span), r.between(0, self.span)))
    }

    pub fn block(&self, r: &mut Random) -> Vec<Place> {
        let corners = match r.below(100) {
            p if p < self.bars => self.bar(r),
            p if p % 4 == 0 && self.size >= 3 => cut_box(r, self.span, self.size),
            _ => good_corners(r, &self.style()),
        };
        corners.into_iter().map(|c| self.place(c)).collect()
    }

    fn bar(&self, r: &mut Random) -> Vec<Place> {
        let long = r.between(2, self.span);
        let (wide, tall) = if r.percent(50) { (long, 1) } else { (1, long) };
        let (w, s) = (r.between(0, self.span - wide), r.between(0, self.span - tall));
        vec![(w, s), (w + wide, s), (w + wide, s + tall), (w, s + tall)]
    }

    /// Anywhere, at a corner, on a side or near it, inside a block, or off the lattice.
    fn end(&self, r: &mut Random, book: &Book) -> Place {
        let blocks: Vec<&Vec<Place>> = book.blocks.iter().filter(|b| !b.is_empty()).collect();
        if blocks.is_empty() || r.percent(45) {
            return self.anywhere(r);
        }
        let corners = blocks[r.below(blocks.len())];
        let k = r.below(corners.len());
        let (p, q) = (corners[k], corners[(k + 1) % corners.len()]);
        match r.below(10) {
            0..=3 => p,
            4..=6 => ((p.0 + q.0) / 2, (p.1 + q.1) / 2),
            7 => middle(corners),
            _ => (r.between(self.from, self.from + self.step * self.span), self.anywhere(r).1),
        }
    }

    fn ends(&self, r: &mut Random, book: &Book) -> Vec<Place> {
        let first = self.end(r, book);
        vec![first, if r.percent(8) { first } else { self.end(r, book) }]
    }

    /// Some blocks under any numbers, a run, and others and a least charge that its duct has nothing to do with.
    pub fn yard(&self, r: &mut Random) -> (Book, usize) {
        let mut book = Book::new();
        for _ in 0..r.between(self.least as i64, self.blocks as i64) {
            book.blocks[r.below(24)] = self.block(r);
        }
        for _ in 0..r.below(4) {
            book.runs[r.below(24)] = self.ends(r, &book);
        }
        let run = r.below(24);
        book.runs[run] = self.ends(r, &book);
        for _ in 1..self.pairs {
            let other = self.ends(r, &book);
            let bends = |ends: &[Place]| Lines::new(&book, ends).least().map(|p| p.changes);
            if bends(&other) > bends(&book.runs[run]) {
                book.runs[run] = other;
            }
        }
        book.figure = r.pick(&[0, 0, 0, 1, 26, 500, 1000]);
        (book, run)
    }
}

/// Two bars across the straight between the ends, one from below and one from above. Over the one and under the other
/// is a way with four bends; over both costs as much with two, or a centimetre more or less.
fn tied_yard(r: &mut Random) -> (Book, usize) {
    let (first, under) = (r.between(300, 400), r.between(0, 60));
    let (over, last) = (under + r.between(1, 60), under + r.between(1, 60));
    let high = over - under + last + CHANGE + r.pick(&[-1, 0, 0, 0, 1]);
    let easts: Vec<i64> = (0..6).scan(r.between(0, 300), |at, _| Some(std::mem::replace(at, *at + r.between(1, 80)))).collect();
    let mut book = Book::new();
    let bar = |west: usize, south: i64, north: i64| {
        let (w, e, s, n) = (easts[west], easts[west + 1], first + south, first + north);
        vec![(w, s), (e, s), (e, n), (w, n)]
    };
    book.blocks[r.below(12)] = bar(1, -300, over);
    book.blocks[12 + r.below(12)] = bar(3, under, high);
    let run = r.below(24);
    book.runs[run] = vec![(easts[0], first), (easts[5], first + last)];
    (turned(&book, r.below(8), 1000), run)
}

/// A yard in another position: its axes exchanged, and each coordinate taken from a side.
pub fn turned(book: &Book, position: usize, side: i64) -> Book {
    let mut out = book.clone();
    let places = out.blocks.iter_mut().chain(&mut out.runs).flatten();
    places.for_each(|p| {
        let (e, n) = if position & 1 == 0 { *p } else { (p.1, p.0) };
        *p = (if position & 2 == 0 { e } else { side - e }, if position & 4 == 0 { n } else { side - n });
    });
    // still anticlockwise
    if position.count_ones() % 2 == 1 {
        out.blocks.iter_mut().for_each(|corners| corners.reverse());
    }
    out
}

fn middle(corners: &[Place]) -> Place {
    let count = corners.len() as i64;
    (corners.iter().map(|c| c.0).sum::<i64>() / count, corners.iter().map(|c| c.1).sum::<i64>() / count)
}

/// A box with each of its corners cut off by a slope of its own: eight corners.
pub fn cut_box(r: &mut Random, span: i64, size: i64) -> Vec<Place> {
    let (wide, tall) = (r.between(3, size), r.between(3, size));
    let (w, s) = (r.between(0, span - wide), r.between(0, span - tall));
    // where two neighbouring cuts leave the side between them
    let two = |r: &mut Random, long: i64| {
        let one = r.between(1, long - 2);
        (one, r.between(one + 1, long - 1))
    };
    let (south, east, north, west) = (two(r, wide), two(r, tall), two(r, wide), two(r, tall));
    let corners = vec![
        (w + south.0, s), (w + south.1, s), (w + wide, s + east.0), (w + wide, s + east.1),
        (w + north.1, s + tall), (w + north.0, s + tall), (w, s + west.1), (w, s + west.0),
    ];
    assert!(convex(&corners));
    corners
}

pub fn shown(book: &Book, run: usize) -> String {
    let blocks: Vec<String> = book.blocks.iter().enumerate().filter(|(_, b)| !b.is_empty()).map(|(n, b)| format!("  block {n} {b:?}")).collect();
    format!("run {run} from {:?} to {:?}, least charge {}, blocks\n{}", book.runs[run][0], book.runs[run][1], book.figure, blocks.join("\n"))
}

pub fn seeded(k: usize) -> Random {
    Random::new(k as u64 ^ 0xD0C7_0000)
}

pub const SMALL_YARDS: usize = 13 * 1000;

/// A yard of few lines, and the number of its run.
pub fn small_yard(k: usize) -> (Book, usize) {
    match SMALL_KINDS.get(k % (SMALL_KINDS.len() + 1)) {
        Some(kind) => kind.yard(&mut seeded(k)),
        None => tied_yard(&mut seeded(k)),
    }
}

pub fn small_name(k: usize) -> &'static str {
    SMALL_KINDS.get(k).map_or("two bars", |kind| kind.name)
}

/// How many lists a small yard's paths may take to go along.
const MOST: usize = 60_000;

/// The second router's two ways against each other.
pub fn two_ways(report: &mut Report) {
    let (mut by_changes, mut by_crossings, mut bent, mut no_ways, mut left) = (0, 0, 0, 0, 0);
    for kind in 0..=SMALL_KINDS.len() {
        report.case(&format!("every path, {}", small_name(kind)), |calls| {
            for k in (kind..SMALL_YARDS).step_by(SMALL_KINDS.len() + 1) {
                let (book, run) = small_yard(k);
                let lines = Lines::new(&book, &book.runs[run]);
                *calls += 1;
                let Some(tried) = lines.tried(MOST) else {
                    left += 1;
                    continue;
                };
                let least = lines.least();
                if least != tried.least {
                    return Err(format!("{least:?} and {:?}: {}", tried.least, shown(&book, run)));
                }
                by_changes += (tried.by_changes > 0) as usize;
                by_crossings += (tried.by_crossings > 0) as usize;
                no_ways += least.is_none() as usize;
                bent += least.is_some_and(|p| p.changes > 3) as usize;
            }
            Ok(())
        });
    }
    report.case("often enough", |_| {
        let found = [by_changes, by_crossings, bent, no_ways, SMALL_YARDS - left];
        if found.iter().zip([400, 2000, 400, 1000, SMALL_YARDS - 50]).all(|(n, least)| *n >= least) {
            return Ok(());
        }
        Err(format!("of {SMALL_YARDS} yards {by_changes} with ties by changes, {by_crossings} by crossings, {bent} with four bends, {no_ways} with no way, {left} left"))
    });
}
