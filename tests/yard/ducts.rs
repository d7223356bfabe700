//! docs/RULES.md, "Ducts": the duct quote against the second duct router, its number and every word of its two lists.

use crate::duct_router::Lines;
use crate::duct_yards::{seeded, shown, small_name, small_yard, turned, Kind, MAZE, SMALL, SMALL_KINDS, SMALL_YARDS};
use crate::lent::{any_words, compared, refusals, yard_of, Lent, Lists};
use crate::linked::quote_duct;
use crate::random::Random;
use crate::reference::{convex, Book, Place};
use crate::tables::Tables;
use crate::Report;
use std::collections::HashSet;

const QUOTE: usize = 3;
const CROSSINGS: usize = 8712;

/// The quote and its crossings.
#[derive(Clone)]
struct Duct {
    quote: Vec<u32>,
    crossings: Vec<u16>,
}

impl Lists for Duct {
    const NAME: &'static str = "duct";
    const COUNT: usize = 2;
    const NUMBERS: &'static [usize] = &[0, 2, 3, 5, 12];

    fn filled(r: &mut Random) -> Duct {
        let crossings = any_words(r, CROSSINGS).into_iter().map(|w| w as u16).collect();
        Duct { quote: any_words(r, QUOTE), crossings }
    }

    fn lengths_right(&self) -> bool {
        (self.quote.len(), self.crossings.len()) == (QUOTE, CROSSINGS)
    }

    fn resize(&mut self, list: usize, other: impl Fn(usize) -> usize) {
        match list {
            0 => self.quote.resize(other(QUOTE), 77),
            1 => self.crossings.resize(other(CROSSINGS), 77),
            _ => {}
        }
    }

    fn due(&self, _: &Tables, book: &Book, run: usize) -> Result<Duct, u32> {
        if book.blocks.iter().filter(|b| !b.is_empty()).count() > 8 {
            return Err(12);
        }
        let mut crossings = vec![0; CROSSINGS];
        let Some(path) = Lines::new(book, &book.runs[run]).least() else { return Ok(Duct { quote: vec![2, 0, 0], crossings }) };
        for (words, c) in crossings.chunks_mut(2).zip(&path.crossings) {
            words.copy_from_slice(&[c.0 as u16, c.1 as u16]);
        }
        Ok(Duct { quote: vec![1, path.cost as u32, path.crossings.len() as u32], crossings })
    }

    fn call(&mut self, t: &Tables, run: u32) -> u32 {
        quote_duct(&t.blocks, &t.runs, run, &mut self.quote, &mut self.crossings)
    }

    fn difference(&self, due: &Duct) -> Option<String> {
        if self.quote != due.quote {
            return Some(format!("quote {:?}, should be {:?}", self.quote, due.quote));
        }
        let at = (0..self.crossings.len()).find(|&k| self.crossings[k] != due.crossings[k])?;
        Some(format!("word {at} of the crossings {}, should be {}", self.crossings[at], due.crossings[at]))
    }
}

fn small_yards(report: &mut Report) {
    for kind in 0..=SMALL_KINDS.len() {
        report.case(&format!("duct, {}", small_name(kind)), |calls| {
            for k in (kind..SMALL_YARDS).step_by(SMALL_KINDS.len() + 1) {
                let (book, run) = small_yard(k);
                compared::<Duct>(&mut seeded(k), &book, run).map_err(|why| format!("yard {k}: {why}"))?;
                *calls += 1;
            }
            Ok(())
        });
    }
}

pub const KINDS: [Kind; 8] = [
    Kind { name: "overlapping", span: 12, size: 8, least: 4, ..SMALL },
    Kind { name: "steps of 25, larger", span: 12, size: 6, step: 25, least: 4, ..SMALL },
    Kind { name: "steps of 5", span: 20, size: 9, step: 5, ..SMALL },
    Kind { name: "larger maze", span: 12, ..MAZE },
    Kind { name: "medium", span: 300, size: 120, ..SMALL },
    Kind { name: "wide", span: 2000, size: 700, step: 16, ..SMALL },
    Kind { name: "large", span: 32767, size: 9000, ..SMALL },
    Kind { name: "huge blocks", span: 32767, size: 32767, least: 2, ..SMALL },
];

fn larger_yards(report: &mut Report) {
    for (at, kind) in KINDS.iter().enumerate() {
        report.case(&format!("duct, {}", kind.name), |calls| {
            for k in 0..300 {
                let mut r = seeded(100_000 + 1000 * at + k);
                let (book, run) = kind.yard(&mut r);
                compared::<Duct>(&mut r, &book, run).map_err(|why| format!("yard {k}: {why}"))?;
                *calls += 1;
            }
            Ok(())
        });
    }
}

/// A block of eight corners near a circle, mostly with eight different coordinates each way.
fn octagon(r: &mut Random, centre: Place, radius: i64) -> Vec<Place> {
    loop {
        let corner = |k: i64| {
            let turn = (45 * k + r.between(-18, 18)) as f64 / 180.0 * std::f64::consts::PI;
            (centre.0 + (radius as f64 * turn.cos()) as i64, centre.1 + (radius as f64 * turn.sin()) as i64)
        };
        let corners: Vec<Place> = (0..8).map(corner).collect();
        if convex(&corners) {
            return corners;
        }
    }
}

/// Whether no two corners or ends of a yard lie on one line.
fn all_different(book: &Book, of: fn(&Place) -> i64) -> bool {
    let mut seen = HashSet::new();
    book.blocks.iter().chain(&book.runs).flatten().all(|p| seen.insert(of(p)))
}

/// Eight octagons, apart or overlapping, and a run across them: up to 66 lines each way.
fn octagons(report: &mut Report) {
    let mut full = 0;
    for k in 0..40 {
        report.case(&format!("eight octagons, yard {k}"), |calls| {
            let mut r = seeded(200_000 + k);
            let radius = r.pick(&[300, 1200, 2500, 5000]);
            let side = r.pick(&[4 * radius + 200, 32767]).min(32767);
            let mut book = Book::new();
            for n in 0..8 {
                let centre = (r.between(radius, side - radius), r.between(radius, side - radius));
                book.blocks[3 * n] = octagon(&mut r, centre, radius);
            }
            let end = |r: &mut Random, low: i64| (r.between(low, low + side / 8), r.between(0, side));
            book.runs[5] = vec![end(&mut r, 0), end(&mut r, side - side / 8)];
            full += (all_different(&book, |p| p.0) && all_different(&book, |p| p.1)) as usize;
            *calls += 1;
            compared::<Duct>(&mut r, &turned(&book, k, side), 5)
        });
    }
    report.case("66 lines each way often enough", |_| if full >= 8 { Ok(()) } else { Err(format!("only {full} of 40")) });
}

/// A wall round the straight from a to b, so thick on each side and past each end, with its corners cut off and its sides
/// leaning by a centimetre, so that it has eight different coordinates each way.
fn wall(r: &mut Random, a: Place, b: Place, thick: i64) -> Vec<Place> {
    let (w, e, s, n) = (a.0.min(b.0) - thick, a.0.max(b.0) + thick, a.1.min(b.1) - thick, a.1.max(b.1) + thick);
    let mut cut = || r.between(2, thick - 1);
    loop {
        let corners = vec![
            (w + cut(), s), (e - cut(), s + 1), (e, s + cut()), (e - 1, n - cut()),
            (e - cut(), n), (w + cut(), n - 1), (w, n - cut()), (w + 1, s + cut()),
        ];
        if convex(&corners) {
            return corners;
        }
    }
}

/// Walls along lines of places, and a run. Every second wall is thicker, so that where two meet the outer corners are in
/// one of them alone.
pub fn walled(r: &mut Random, lines: &[&[Place]], thick: i64, ends: [Place; 2]) -> Book {
    let mut book = Book::new();
    let along = lines.iter().flat_map(|line| line.windows(2)).enumerate();
    let walls: Vec<Vec<Place>> = along.map(|(k, w)| wall(r, w[0], w[1], thick + 2 * (k as i64 % 2))).collect();
    book.blocks[..walls.len()].clone_from_slice(&walls);
    book.runs[0] = ends.to_vec();
    book
}

/// Out of the middle of a spiral of eight walls, so far from each other.
pub fn spiral(r: &mut Random, gap: i64) -> Book {
    let c = 3 * gap;
    let line: Vec<Place> = [(0, 0), (1, 0), (1, 1), (-1, 1), (-1, -1), (2, -1), (2, 2), (-2, 2), (-2, -2)].map(|p| (c + gap * p.0, c + gap * p.1)).to_vec();
    walled(r, &[&line], gap / 8, [(c - gap / 2, c + gap / 2), (c + 5 * gap / 2, c + gap / 3)])
}

/// Up a shaft that five walls from either side bar in turn.
pub fn shaft(r: &mut Random, gap: i64) -> Book {
    let (w, e) = (gap, 5 * gap);
    let bar = |k: i64| if k % 2 == 0 { [(w, k * gap), (e - gap, k * gap)] } else { [(w + gap, k * gap), (e, k * gap)] };
    let bars = [2, 3, 4, 5, 6].map(bar);
    let round = [(w, 7 * gap), (w, gap), (e, gap), (e, 7 * gap)];
    let lines: Vec<&[Place]> = [&round[..]].into_iter().chain(bars.iter().map(|b| &b[..])).collect();
    walled(r, &lines, gap / 8, [(w + gap / 2, gap + gap / 2), (w + gap / 2, 6 * gap + gap / 2)])
}

fn mazes(report: &mut Report) {
    let known: [(&str, fn(&mut Random, i64) -> Book, i64); 2] = [("spiral", spiral, 6), ("shaft", shaft, 10)];
    for (name, yard, bends) in known {
        for position in 0..8 {
            report.case(&format!("{name}, position {position}"), |calls| {
                let mut r = seeded(300_000 + position);
                for gap in [40, 200, 5000] {
                    let side = if gap == 5000 { 32767 } else { 8 * gap };
                    let gap = if gap == 5000 { 32767 / 8 } else { gap };
                    let mut book = turned(&yard(&mut r, gap), position, side);
                    let least = Lines::new(&book, &book.runs[0]).least().ok_or("no way")?;
                    if least.changes < bends {
                        return Err(format!("only {} bends: {}", least.changes, shown(&book, 0)));
                    }
                    compared::<Duct>(&mut r, &book, 0)?;
                    // the other way round, and without one of the walls
                    book.runs[0].reverse();
                    compared::<Duct>(&mut r, &book, 0)?;
                    book.blocks[r.below(8)].clear();
                    compared::<Duct>(&mut r, &book, 0)?;
                    *calls += 3;
                }
                Ok(())
            });
        }
    }
}

/// Quotes worked out by hand: blocks, ends, and cost and crossings if there is a way.
fn known(report: &mut Report) {
    type Row = (&'static str, Vec<Vec<Place>>, [Place; 2], Option<(u32, Vec<u16>)>);
    let square = || vec![(10, 10), (20, 10), (20, 20), (10, 20)];
    let beside = || vec![(20, 10), (30, 10), (30, 20), (20, 20)];
    // over the first and under the second, or over both
    let bars = |high: i64| vec![vec![(20, 0), (30, 0), (30, 110), (20, 110)], vec![(50, 90), (60, 90), (60, high), (50, high)]];
    let rows: Vec<Row> = vec![
        ("an empty yard", vec![], [(3, 4), (3, 9)], Some((5, vec![3, 4, 3, 9]))),
        ("an empty yard, west of north first", vec![], [(3, 4), (1, 9)], Some((32, vec![3, 4, 1, 4, 1, 9]))),
        ("an empty yard, north before east", vec![], [(3, 4), (5, 9)], Some((32, vec![3, 4, 3, 9, 5, 9]))),
        ("S, from side to side", vec![square()], [(0, 15), (30, 15)], Some((90, vec![0, 15, 0, 10, 10, 10, 20, 10, 30, 10, 30, 15]))),
        ("S, along its side", vec![square()], [(0, 10), (30, 10)], Some((30, vec![0, 10, 10, 10, 20, 10, 30, 10]))),
        ("S, from corner to corner", vec![square()], [(10, 10), (20, 20)], Some((45, vec![10, 10, 10, 20, 20, 20]))),
        ("round the seam", vec![square(), beside()], [(20, 0), (20, 30)], Some((100, vec![20, 0, 10, 0, 10, 10, 10, 20, 10, 30, 20, 30]))),
        ("past the seam's end", vec![square(), beside()], [(0, 10), (40, 10)], None),
        ("an end on the seam", vec![square(), beside()], [(0, 0), (20, 15)], None),
        ("the other end on the seam", vec![square(), beside()], [(20, 10), (0, 0)], None),
        ("an end inside", vec![square()], [(0, 15), (15, 15)], None),
        ("the other end inside", vec![square()], [(15, 15), (0, 15)], None),
        ("one place outside", vec![square()], [(0, 15), (0, 15)], Some((0, vec![0, 15]))),
        ("one place on a side", vec![square()], [(10, 15), (10, 15)], Some((0, vec![10, 15]))),
        ("one place at a corner", vec![square()], [(20, 20), (20, 20)], Some((0, vec![20, 20]))),
        ("one place inside", vec![square()], [(15, 15), (15, 15)], None),
        ("one place on the seam of two", vec![square(), beside()], [(20, 15), (20, 15)], None),
        ("one place where two corners meet", vec![square(), vec![(20, 20), (30, 20), (30, 30), (20, 30)]], [(20, 20), (20, 20)], None),
        ("0 and 32,767", vec![], [(0, 0), (32767, 32767)], Some((65559, vec![0, 0, 0, 32767, 32767, 32767]))),
        // 80 + 10 + 20 + 15 and four bends, or 80 + 2 x 50 - 5 and two
        ("as much with fewer bends", bars(150), [(0, 100), (80, 105)], Some((225, vec![0, 100, 0, 105, 0, 110, 0, 150, 20, 150, 30, 150, 50, 150, 60, 150, 80, 150, 80, 110, 80, 105]))),
        ("a centimetre too high", bars(151), [(0, 100), (80, 105)], Some((225, vec![0, 100, 0, 105, 0, 110, 20, 110, 30, 110, 30, 105, 30, 100, 30, 90, 50, 90, 60, 90, 80, 90, 80, 100, 80, 105]))),
    ];
    for (name, blocks, ends, way) in rows {
        report.case(&format!("duct, {name}"), |calls| {
            let mut book = Book::new();
            book.blocks[..blocks.len()].clone_from_slice(&blocks);
            book.runs[7] = ends.to_vec();
            let lent = Lent::<Duct>::new(&mut seeded(1), &book);
            let (_, Duct { quote, crossings }) = lent.due(7);
            let (state, cost, list) = way.map_or((2, 0, vec![]), |(cost, list)| (1, cost, list));
            let count = list.len() / 2;
            if quote != [state, cost, count as u32] || crossings[..2 * count] != list {
                return Err(format!("the second router says {quote:?} {:?}", &crossings[..2 * quote[2] as usize]));
            }
            *calls += 1;
            lent.call(7).map(drop)
        });
    }
}

fn too_many_blocks(report: &mut Report) {
    report.case("more than 8 blocks", |calls| {
        for blocks in 0..=24 {
            for k in 0..8 {
                let mut r = seeded(420_000 + 100 * blocks + k);
                let run = r.below(24);
                let book = yard_of(&mut r, blocks, run);
                Lent::<Duct>::new(&mut r, &book).answered(run as u32, if blocks > 8 { 12 } else { 0 }, calls)?;
            }
        }
        Ok(())
    });
}

pub fn one_run(r: &mut Random, book: &Book, run: usize, calls: &mut usize) -> Result<(), String> {
    *calls += 1;
    compared::<Duct>(r, book, run)
}

/// The duct of every run that stands: whether each has a way.
pub fn every_run(r: &mut Random, book: &Book, calls: &mut usize) -> Result<Vec<bool>, String> {
    let runs = (0..24).filter(|&run| !book.runs[run].is_empty());
    runs.map(|run| {
        one_run(r, book, run, calls)?;
        Ok(Lines::new(book, &book.runs[run]).least().is_some())
    })
    .collect()
}

/// A random yard of a random kind.
pub fn one(r: &mut Random, calls: &mut usize) -> Result<(), String> {
    let kind = if r.percent(50) { r.pick(&KINDS) } else { r.pick(&SMALL_KINDS) };
    let (book, run) = kind.yard(r);
    one_run(r, &book, run, calls)
}

pub fn ducts(report: &mut Report) {
    known(report);
    small_yards(report);
    larger_yards(report);
    octagons(report);
    mazes(report);
    refusals::<Duct>(report);
    too_many_blocks(report);
}
