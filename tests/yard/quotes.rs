//! The quote of a run's route from blocks and runs alone, its number and every word of the record, against the second
//! planner and against what the proved planner stores after edits.

use crate::degenerate;
use crate::duct_yards::{seeded, shown, small_name, small_yard, turned, SMALL_KINDS};
use crate::ducts::{shaft, spiral, walled, KINDS};
use crate::lent::{any_words, compared, refusals, Lent, Lists};
use crate::linked::{quote_route, Linked};
use crate::random::{self, Random, FULL, STYLES};
use crate::rectangles::{self, SHAPES};
use crate::reference::{stored_book, Book, Place};
use crate::tables::{Edit, Planner, Tables};
use crate::{same_answer, same_tables, started, Report};

const WORDS: usize = 197;

#[derive(Clone)]
struct Route(Vec<u32>);

impl Lists for Route {
    const NAME: &'static str = "route";
    const COUNT: usize = 1;
    const NUMBERS: &'static [usize] = &[0, 2, 3, 5];

    fn filled(r: &mut Random) -> Route {
        Route(any_words(r, WORDS))
    }

    fn lengths_right(&self) -> bool {
        self.0.len() == WORDS
    }

    fn resize(&mut self, list: usize, other: impl Fn(usize) -> usize) {
        if list == 0 {
            self.0.resize(other(WORDS), 77);
        }
    }

    /// Other runs have no part in a route.
    fn due(&self, _: &Tables, book: &Book, run: usize) -> Result<Route, u32> {
        let mut alone = Book::new();
        alone.blocks.clone_from(&book.blocks);
        alone.runs[run].clone_from(&book.runs[run]);
        alone.figure = book.figure;
        Ok(Route(stored(&alone.drawing(), run).to_vec()))
    }

    fn call(&mut self, t: &Tables, run: u32) -> u32 {
        quote_route(&t.blocks, &t.runs, run, &mut self.0)
    }

    fn difference(&self, due: &Route) -> Option<String> {
        let at = (0..self.0.len()).find(|&k| self.0[k] != due.0[k])?;
        let shown = |words: &[u32]| format!("{:?}", &words[..words.len().min(words.get(2).map_or(0, |&n| 3 + n as usize).max(at + 1))]);
        Some(format!("route {}, should be {}", shown(&self.0), shown(&due.0)))
    }
}

fn stored(t: &Tables, run: usize) -> &[u32] {
    &t.routes[WORDS * run..WORDS * run + WORDS]
}

/// The quote of every run against the records that tables hold, those of absent runs refused.
pub fn as_stored(r: &mut Random, t: &Tables, calls: &mut usize) -> Result<(), String> {
    for run in 0..24 {
        let mut route = Route::filled(r);
        let (number, due) = if stored(t, run)[0] == 0 { (5, route.clone()) } else { (0, Route(stored(t, run).to_vec())) };
        let answer = route.call(t, run as u32);
        *calls += 1;
        let wrong = same_answer("quote", answer, number).err().or(route.difference(&due));
        if let Some(why) = wrong {
            let book = stored_book(t).ok_or("wrong records")?;
            let fewer = if number == 0 { compared::<Route>(r, &book, run).err() } else { None };
            return Err(fewer.unwrap_or(format!("run {run}, {why}")));
        }
    }
    Ok(())
}

/// The proved planner's tables after every few edits, and at the end those of the second planner too. The last are given back.
fn after_edits(r: &mut Random, edits: &[Edit], calls: &mut usize) -> Result<Tables, String> {
    let mut t = started(&Linked)?;
    let mut book = Book::new();
    for (k, e) in edits.iter().enumerate() {
        same_answer(&format!("{e:?}"), Linked.edit(&mut t, e), book.step(e))?;
        if k % 12 == 11 {
            as_stored(r, &t, calls)?;
        }
    }
    same_tables("the planner's", &t, &book.drawing())?;
    as_stored(r, &t, calls)?;
    Ok(t)
}

/// How many runs go round several corners, how many have no way, and how many have a way of no length.
#[derive(Default)]
struct Seen([usize; 3]);

impl Seen {
    fn add(&mut self, t: Tables) {
        for words in t.routes.chunks(WORDS) {
            let kinds = [words[2] > 3, words[0] == 2, words[..2] == [1, 0]];
            self.0.iter_mut().zip(kinds).for_each(|(count, is)| *count += is as usize);
        }
    }
}

fn edited_yards(report: &mut Report) {
    let mut seen = Seen::default();
    for (k, s) in STYLES.iter().chain(&FULL).enumerate() {
        for seed in 0..10 {
            report.case(&format!("route, {}, seed {seed}", s.name), |calls| {
                let mut r = Random::new(9_000_000 + 100 * k as u64 + seed);
                let edits = random::list(&mut r, s, if s.blocks == 24 { 84 } else { 150 });
                after_edits(&mut r, &edits, calls).map(|t| seen.add(t))
            });
        }
    }
    for seed in 0..300 {
        report.case(&format!("route, degenerate yard, seed {seed}"), |calls| {
            let mut r = Random::new(9_100_000 + seed);
            let edits = degenerate::edits(&mut r);
            after_edits(&mut r, &edits, calls).map(|t| seen.add(t))
        });
    }
    report.case("routes of every kind often enough", |_| if seen.0.iter().all(|&n| n >= 60) { Ok(()) } else { Err(format!("{:?}", seen.0)) });
}

/// Every run of a book against the second planner.
fn every_run(r: &mut Random, book: &Book, calls: &mut usize) -> Result<(), String> {
    as_stored(r, &book.drawing(), calls)
}

fn lattice_yards(report: &mut Report) {
    for (s, shape) in SHAPES.iter().enumerate() {
        report.case(&format!("route past shape {s}"), |calls| {
            let mut yards = (0..shape.len()).flat_map(|turn| rectangles::yards(s, turn));
            yards.try_for_each(|book| every_run(&mut seeded(s), &book, calls))
        });
    }
    let kinds = SMALL_KINDS.len() + 1;
    for kind in 0..kinds {
        report.case(&format!("route, {}", small_name(kind)), |calls| {
            (kind..150 * kinds).step_by(kinds).try_for_each(|k| {
                every_run(&mut seeded(k), &small_yard(k).0, calls).map_err(|why| format!("yard {k}: {why}"))
            })
        });
    }
    for (at, kind) in KINDS.iter().enumerate() {
        report.case(&format!("route, {}", kind.name), |calls| {
            (0..60).try_for_each(|k| {
                let mut r = seeded(600_000 + 1000 * at + k);
                let (book, _) = kind.yard(&mut r);
                every_run(&mut r, &book, calls).map_err(|why| format!("yard {k}: {why}"))
            })
        });
    }
}

/// Through a closed yard that twenty walls bar in turn.
pub fn zigzag(r: &mut Random, gap: i64) -> Book {
    let (w, e, s, n) = (gap, 22 * gap, gap, 6 * gap);
    let bar = |k: i64| if k % 2 == 0 { [(k * gap, s), (k * gap, n - gap)] } else { [(k * gap, s + gap), (k * gap, n)] };
    let bars: Vec<[Place; 2]> = (2..22).map(bar).collect();
    let round = [(w, s), (e, s), (e, n), (w, n), (w, s)];
    let lines: Vec<&[Place]> = [&round[..]].into_iter().chain(bars.iter().map(|b| &b[..])).collect();
    walled(r, &lines, gap / 8, [(w + gap / 2, 3 * gap), (e - gap / 2, 3 * gap)])
}

fn mazes(report: &mut Report) {
    let known: [(&str, fn(&mut Random, i64) -> Book, i64, u32); 3] = [("spiral", spiral, 8, 8), ("shaft", shaft, 8, 10), ("zigzag", zigzag, 24, 60)];
    for (name, yard, size, marks) in known {
        for position in 0..8 {
            report.case(&format!("route, {name}, position {position}"), |calls| {
                let mut r = seeded(700_000 + position);
                for side in [size * 40, size * 200, 32767] {
                    let mut book = turned(&yard(&mut r, side / size), position, side);
                    let least = Lent::<Route>::new(&mut r, &book).due(0).1;
                    if least.0[2] < marks {
                        return Err(format!("only {} marks: {}", least.0[2], shown(&book, 0)));
                    }
                    every_run(&mut r, &book, calls)?;
                    // the other way round, without one of the walls, and under least charges
                    book.runs[0].reverse();
                    every_run(&mut r, &book, calls)?;
                    book.blocks[r.below(8)].clear();
                    every_run(&mut r, &book, calls)?;
                    for figure in [1000, 1 + r.below(999)] {
                        book.figure = figure as u16;
                        every_run(&mut r, &book, calls)?;
                    }
                }
                Ok(())
            });
        }
    }
}

/// Routes worked out by hand: blocks, the ends of run 7, and the length and the marks between the ends if there is a way.
fn known(report: &mut Report) {
    type Row = (&'static str, Vec<Vec<Place>>, [Place; 2], Option<(u32, &'static [u32])>);
    let bar = |w: i64, s: i64, e: i64, n: i64| vec![(w, s), (e, s), (e, n), (w, n)];
    let square = || bar(10, 10, 20, 20);
    let beside = || bar(20, 10, 30, 20);
    let listed = || vec![(10, 6), (14, 7), (14, 40), (10, 40)];
    let ring = || vec![bar(0, 0, 30, 5), bar(0, 25, 30, 30), bar(0, 0, 5, 30), bar(25, 0, 30, 30)];
    let rows: Vec<Row> = vec![
        ("no blocks", vec![], [(3, 4), (3, 9)], Some((5, &[]))),
        ("no blocks, rounded up", vec![], [(0, 0), (1, 1)], Some((2, &[]))),
        ("no blocks, 0 and 32,767", vec![], [(0, 0), (32767, 32767)], Some((46340, &[]))),
        ("no blocks, one place", vec![], [(32767, 32767), (32767, 32767)], Some((0, &[]))),
        ("S, from side to side", vec![square()], [(0, 15), (30, 15)], Some((34, &[0, 1]))),
        ("S, along its side", vec![square()], [(0, 10), (30, 10)], Some((30, &[]))),
        ("S, past a corner", vec![square()], [(0, 20), (20, 0)], Some((29, &[]))),
        ("S, just inside a corner", vec![square()], [(0, 21), (21, 0)], Some((30, &[0]))),
        ("S, from corner to corner", vec![square()], [(10, 10), (20, 20)], Some((20, &[1]))),
        ("S, an end inside", vec![square()], [(0, 15), (15, 15)], None),
        ("S, the other end inside", vec![square()], [(15, 15), (0, 15)], None),
        ("S, one place inside", vec![square()], [(15, 15), (15, 15)], None),
        ("S, one place on a side", vec![square()], [(10, 15), (10, 15)], Some((0, &[]))),
        ("S, one place at a corner", vec![square()], [(20, 20), (20, 20)], Some((0, &[]))),
        ("the seam", vec![square(), beside()], [(20, 0), (20, 30)], Some((40, &[0, 3]))),
        ("past the seam's end", vec![square(), beside()], [(0, 10), (40, 10)], None),
        ("one place on the seam", vec![square(), beside()], [(20, 15), (20, 15)], None),
        ("one place at the seam's end", vec![square(), beside()], [(20, 10), (20, 10)], None),
        ("an end on the seam", vec![square(), beside()], [(0, 0), (20, 15)], None),
        ("corner at corner", vec![square(), bar(20, 20, 30, 30)], [(10, 30), (30, 10)], Some((40, &[0]))),
        ("S twice", vec![square(), square()], [(0, 15), (30, 15)], None),
        ("a block inside another", vec![square(), bar(0, 0, 40, 40)], [(5, 5), (50, 50)], None),
        ("out of a ring", ring(), [(15, 15), (50, 15)], None),
        ("within a ring", ring(), [(6, 6), (24, 24)], Some((26, &[]))),
        ("in a corner of a ring, where two overlap", ring(), [(5, 5), (24, 24)], None),
        ("the listed yard", vec![listed(), vec![(11, 1), (13, 1), (12, 5)]], [(0, 10), (27, 13)], Some((30, &[10]))),
        ("before its block 1", vec![listed()], [(0, 10), (27, 13)], Some((31, &[0, 1]))),
        ("a tie by straights", vec![vec![(5, 1), (6, 3), (4, 3)]], [(0, 0), (10, 1)], Some((11, &[]))),
        ("the straight barred", vec![vec![(5, 1), (6, 3), (4, 3)], vec![(6, 0), (8, 0), (7, 1)]], [(0, 0), (10, 1)], Some((11, &[0]))),
        ("a tie by marks", vec![square(), bar(11, 6, 19, 11)], [(0, 15), (30, 15)], Some((34, &[3, 2]))),
    ];
    for (name, blocks, ends, way) in rows {
        report.case(&format!("route, {name}"), |calls| {
            let mut book = Book::new();
            book.blocks[..blocks.len()].clone_from_slice(&blocks);
            book.runs[7] = ends.to_vec();
            let mut words = way.map_or(vec![2], |(length, marks)| {
                [&[1, length, marks.len() as u32 + 2, 206][..], marks, &[207]].concat()
            });
            words.resize(WORDS, 0);
            let lent = Lent::<Route>::new(&mut seeded(1), &book);
            if let Some(why) = lent.due(7).1.difference(&Route(words)) {
                return Err(format!("the second planner's {why}"));
            }
            lent.answered(7, 0, calls)
        });
    }
}

/// A random yard of any kind.
pub fn one(r: &mut Random, calls: &mut usize) -> Result<(), String> {
    let s = random::any_style(r);
    let edits = if r.percent(30) { degenerate::edits(r) } else { random::list(r, &s, 60) };
    after_edits(r, &edits, calls).map(drop)
}

pub fn quotes(report: &mut Report) {
    known(report);
    edited_yards(report);
    lattice_yards(report);
    mazes(report);
    refusals::<Route>(report);
}
