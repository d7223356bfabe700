//! The quote of a block's move, its number and every word of it, against the second planner's drawing after the move and
//! against what the library's own move leaves in right tables; over wrong pairs, routes and totals it is the same quote.

use crate::degenerate;
use crate::duct_yards::{seeded, small_name, small_yard, turned, SMALL, SMALL_KINDS};
use crate::ducts::{shaft, spiral};
use crate::lent::{any_words, refusals, Lists};
use crate::linked::{quote_move, Linked};
use crate::quotes::zigzag;
use crate::random::{self, Random, FULL, STYLES};
use crate::rectangles::{self, SHAPES};
use crate::reference::{Book, Place};
use crate::tables::{Edit, Planner, Tables};
use crate::{random_yard, same_answer, same_tables, spoil, started, Report};
use std::collections::BTreeMap;

const RUNS: usize = 24;
const WORDS: usize = 2 * RUNS;

/// East and north.
type Step = (i16, i16);

/// The displacement that a call is asked about, and the words that it is lent.
#[derive(Clone)]
struct Quote {
    by: Step,
    words: Vec<u32>,
}

impl Quote {
    /// With words that an accepted call must overwrite.
    fn asked(r: &mut Random, by: Step) -> Quote {
        Quote { by, words: any_words(r, WORDS) }
    }

    /// The states and then the lengths of the routes that tables hold.
    fn stored(by: Step, t: &Tables) -> Quote {
        let column = |k: usize| t.routes.chunks(197).map(move |route| route[k]);
        Quote { by, words: column(0).chain(column(1)).collect() }
    }
}

impl Lists for Quote {
    const NAME: &'static str = "move's quote";
    const COUNT: usize = 1;
    const ALL_TABLES: bool = true;
    const NUMBERS: &'static [usize] = &[0, 2, 3, 5, 7];

    fn filled(r: &mut Random) -> Quote {
        let mut one = || if r.percent(80) { r.between(-2, 3) as i16 } else { r.pick(&[i16::MIN, -32767, -6, 32762, 32767]) };
        let by = (one(), one());
        Quote::asked(r, by)
    }

    fn lengths_right(&self) -> bool {
        self.words.len() == WORDS
    }

    fn resize(&mut self, list: usize, other: impl Fn(usize) -> usize) {
        if list == 0 {
            self.words.resize(other(WORDS), 77);
        }
    }

    fn numbered(book: &Book) -> &[Vec<Place>] {
        &book.blocks
    }

    fn yard(r: &mut Random, others: usize, number: usize) -> Book {
        let mut book = Book::new();
        book.blocks[number] = SMALL.block(r);
        while book.runs.iter().filter(|ends| !ends.is_empty()).count() < others {
            book.runs[r.below(24)] = (0..2).map(|_| (r.between(0, 5), r.between(0, 5))).collect();
        }
        book.figure = r.pick(&[0, 0, 1, 3, 25, 1000]);
        book
    }

    /// Pairs, routes and totals have no part in it.
    fn due(&self, _: &Tables, book: &Book, number: usize) -> Result<Quote, u32> {
        let mut after = book.clone();
        match after.step(&move_of(number as u32, self.by)) {
            0 => Ok(Quote::stored(self.by, &after.drawing())),
            answer => Err(answer),
        }
    }

    fn call(&mut self, t: &Tables, number: u32) -> u32 {
        quote_move(t, number, self.by.0, self.by.1, &mut self.words)
    }

    fn difference(&self, due: &Quote) -> Option<String> {
        let at = (0..self.words.len()).find(|&k| self.words[k] != due.words[k])?;
        let what = format!("{} of run {}", if at < RUNS { "state" } else { "length" }, at % RUNS);
        Some(format!("{what} {}, should be {}", self.words[at], due.words[at]))
    }
}

fn move_of(number: u32, by: Step) -> Edit {
    Edit::MoveBlock(number, by.0, by.1)
}

fn standing(book: &Book) -> Vec<usize> {
    (0..24).filter(|&n| !book.blocks[n].is_empty()).collect()
}

fn shown(book: &Book) -> String {
    let list = |what: &str, all: &[Vec<Place>]| -> String {
        all.iter().enumerate().filter(|(_, places)| !places.is_empty()).map(|(k, places)| format!("\n  {what} {k} {places:?}")).collect()
    };
    format!("least charge {}{}{}", book.figure, list("block", &book.blocks), list("run", &book.runs))
}

/// What quotes told of: how many runs of each kind, how many calls with each number, and how many moves over wrong tables
/// left something else than what was quoted there.
#[derive(Default)]
struct Seen(BTreeMap<String, usize>);

impl Seen {
    fn add(&mut self, what: impl ToString) {
        *self.0.entry(what.to_string()).or_insert(0) += 1;
    }

    fn runs(&mut self, before: &Quote, after: &Quote) {
        let of = |q: &Quote, m: usize| (q.words[m], q.words[RUNS + m]);
        for m in 0..RUNS {
            self.add(match (of(before, m), of(after, m)) {
                ((0, _), (0, 0)) => "absent",
                ((2, _), (2, 0)) => "no way as before",
                ((1, _), (2, 0)) => "no way any more",
                ((2, _), (1, _)) => "a way at last",
                (_, (1, 0)) => "no length",
                ((_, was), (_, is)) if is > was => "dearer",
                ((_, was), (_, is)) if is < was => "cheaper",
                _ => "as dear",
            });
        }
    }

    fn often(&self, least: &[(&str, usize)]) -> Result<(), String> {
        let few = least.iter().any(|&(what, n)| self.0.get(what).is_none_or(|&seen| seen < n));
        if few { Err(format!("{:?}", self.0)) } else { Ok(()) }
    }
}

/// A yard in right tables, and a second time in tables with wrong pairs, routes and totals.
struct Yard {
    book: Book,
    right: Tables,
    wrong: Tables,
}

impl Yard {
    fn new(r: &mut Random, book: Book, right: Tables) -> Yard {
        let mut wrong = right.clone();
        spoil(r, &mut wrong);
        Yard { book, right, wrong }
    }

    fn of(r: &mut Random, book: &Book) -> Yard {
        Yard::new(r, book.clone(), book.drawing())
    }

    /// Quote a move over both, then make it on copies. The number is given back.
    fn asked(&self, r: &mut Random, number: u32, by: Step, seen: &mut Seen, calls: &mut usize) -> Result<u32, String> {
        let mut after = self.book.clone();
        let answer = after.step(&move_of(number, by));
        let due = (answer == 0).then(|| Quote::stored(by, &after.drawing()));
        for (what, t) in [("right", &self.right), ("wrong", &self.wrong)] {
            let mut quote = Quote::asked(r, by);
            let kept = quote.clone();
            *calls += 1;
            same_answer(&format!("quote over {what} tables"), quote.call(t, number), answer)?;
            if let Some(why) = quote.difference(due.as_ref().unwrap_or(&kept)) {
                return Err(format!("quote over {what} tables, answer {answer}: {why}"));
            }
            let mut moved = t.clone();
            same_answer(&format!("move over {what} tables"), Linked.edit(&mut moved, &move_of(number, by)), answer)?;
            match (&due, Quote::stored(by, &moved)) {
                (None, _) => same_tables("a refused move", &moved, t)?,
                (Some(due), left) if what == "right" => {
                    seen.runs(&Quote::stored(by, t), due);
                    left.difference(due).map_or(Ok(()), |why| Err(format!("the move leaves {why}")))?;
                }
                (Some(due), left) => seen.add(if left.difference(due).is_some() { "misled" } else { "not misled" }),
            }
        }
        seen.add(answer);
        Ok(answer)
    }

    /// The same; if it goes wrong, in a yard with fewer blocks and runs.
    fn quoted(&self, r: &mut Random, number: u32, by: Step, seen: &mut Seen, calls: &mut usize) -> Result<u32, String> {
        self.asked(r, number, by, seen, calls).map_err(|why| {
            for k in (0..48).filter(|&k| k != number as usize) {
                let mut fewer = self.book.clone();
                let places = if k < 24 { &mut fewer.blocks[k] } else { &mut fewer.runs[k - 24] };
                if !std::mem::take(places).is_empty() {
                    if let Err(why) = Yard::of(r, &fewer).quoted(r, number, by, seen, calls) {
                        return why;
                    }
                }
            }
            format!("block {number} by {by:?}, {why}: {}", shown(&self.book))
        })
    }

    /// Make an edit in both.
    fn edit(&mut self, e: &Edit) -> Result<(), String> {
        let answer = self.book.step(e);
        same_answer(&format!("{e:?}"), Linked.edit(&mut self.right, e), answer)?;
        same_answer(&format!("{e:?} over wrong tables"), Linked.edit(&mut self.wrong, e), answer)
    }

    /// Quote a move, then make it.
    fn step(&mut self, r: &mut Random, number: u32, by: Step, seen: &mut Seen, calls: &mut usize) -> Result<(), String> {
        self.quoted(r, number, by, seen, calls)?;
        self.edit(&move_of(number, by))
    }

    /// Of a block that stands, if there is one: a little, or a corner of it onto a corner of any or onto an end.
    fn any_move(&self, r: &mut Random) -> Option<(u32, Step)> {
        let blocks = standing(&self.book);
        let n = *blocks.get(r.below(blocks.len().max(1)))?;
        let places = [self.book.blocks.concat(), self.book.runs.concat()].concat();
        let (from, to) = (r.pick(&self.book.blocks[n]), r.pick(&places));
        let by = match r.below(10) {
            0..=3 => (to.0 - from.0, to.1 - from.1),
            4 => (to.0 - from.0, 0),
            5 => (0, to.1 - from.1),
            6..=8 => (r.between(-3, 3), r.between(-3, 3)),
            _ => ((to.0 - from.0) / 2, (to.1 - from.1) / 2),
        };
        Some((n as u32, (by.0 as i16, by.1 as i16)))
    }
}

/// Quotes of some moves of a yard that are not made, for other tests.
pub fn of_yard(r: &mut Random, book: &Book, t: &Tables, count: usize, calls: &mut usize) -> Result<(), String> {
    let yard = Yard::new(r, book.clone(), t.clone());
    (0..count).try_for_each(|_| match yard.any_move(r) {
        Some((n, by)) => yard.quoted(r, n, by, &mut Seen::default(), calls).map(drop),
        None => Ok(()),
    })
}

/// Every move of a list quoted before it is made, and now and then one that is not made.
fn history(r: &mut Random, edits: &[Edit], seen: &mut Seen, calls: &mut usize) -> Result<(), String> {
    let mut yard = Yard::new(r, Book::new(), started(&Linked)?);
    for (k, e) in edits.iter().enumerate() {
        if let Edit::MoveBlock(n, east, north) = e {
            yard.quoted(r, *n, (*east, *north), seen, calls)?;
        }
        if k % 8 == 7 {
            if let Some((n, by)) = yard.any_move(r) {
                yard.quoted(r, n, by, seen, calls)?;
            }
        }
        yard.edit(e)?;
        if r.percent(5) {
            spoil(r, &mut yard.wrong);
        }
    }
    same_tables("the planner's", &yard.right, &yard.book.drawing())
}

fn histories(report: &mut Report) {
    let mut seen = Seen::default();
    for (k, s) in STYLES.iter().chain(&FULL).enumerate() {
        for seed in 0..4 {
            report.case(&format!("moves quoted, {}, seed {seed}", s.name), |calls| {
                let mut r = Random::new(9_500_000 + 100 * k as u64 + seed);
                let edits = random::list(&mut r, s, if s.blocks == 24 { 90 } else { 150 });
                history(&mut r, &edits, &mut seen, calls)
            });
        }
    }
    for seed in 0..160 {
        report.case(&format!("moves quoted, degenerate yard, seed {seed}"), |calls| {
            let mut r = Random::new(9_600_000 + seed);
            let edits = degenerate::edits(&mut r);
            history(&mut r, &edits, &mut seen, calls)
        });
    }
    report.case("quotes of moves of every kind often enough", |_| {
        seen.often(&[("0", 2000), ("3", 60), ("5", 100), ("7", 300), ("misled", 800), ("absent", 5000), ("no length", 300)])?;
        seen.often(&[("no way as before", 2000), ("no way any more", 200), ("a way at last", 200)])?;
        seen.often(&[("as dear", 7000), ("dearer", 300), ("cheaper", 300)])
    });
}

/// A block dragged through a yard in straight steps, each quoted and then made.
fn drag(r: &mut Random, yard: &mut Yard, number: u32, steps: usize, seen: &mut Seen, calls: &mut usize) -> Result<(), String> {
    let places: Vec<Place> = yard.book.blocks.iter().chain(&yard.book.runs).flatten().copied().collect();
    let (from, to) = (yard.book.blocks[number as usize][0], r.pick(&places));
    let part = |k: usize, of: fn(&Place) -> i64| (of(&to) - of(&from)) * k as i64 / steps as i64;
    for k in 0..steps {
        let by = (part(k + 1, |p| p.0) - part(k, |p| p.0), part(k + 1, |p| p.1) - part(k, |p| p.1));
        yard.step(r, number, (by.0 as i16, by.1 as i16), seen, calls)?;
    }
    same_tables("after the drag", &yard.right, &yard.book.drawing())
}

fn drags(report: &mut Report) {
    let mut seen = Seen::default();
    for (k, s) in STYLES.iter().chain(&FULL).enumerate() {
        for seed in 0..3 {
            report.case(&format!("a drag, {}, seed {seed}", s.name), |calls| {
                let mut r = Random::new(9_700_000 + 100 * k as u64 + seed);
                let (book, t) = random_yard(&mut r, s, 70);
                let mut yard = Yard::new(&mut r, book, t);
                for _ in 0..3 {
                    let Some((n, _)) = yard.any_move(&mut r) else { continue };
                    drag(&mut r, &mut yard, n, 7, &mut seen, calls)?;
                    let figure = random::figure(&mut r, s).min(1000);
                    yard.edit(&Edit::SetCharge(figure))?;
                }
                Ok(())
            });
        }
    }
    report.case("drags that change prices often enough", |_| {
        seen.often(&[("dearer", 100), ("cheaper", 100), ("no way any more", 25), ("a way at last", 25), ("misled", 250), ("0", 500)])
    });
}

fn lattice_yards(report: &mut Report) {
    for (s, shape) in SHAPES.iter().enumerate() {
        report.case(&format!("moves quoted past shape {s}"), |calls| {
            for turn in 0..shape.len() {
                for (k, book) in rectangles::yards(s, turn).iter().enumerate().filter(|(k, _)| k % 3 == turn % 3) {
                    let mut r = seeded(800_000 + 1000 * s + 10 * turn + k);
                    let yard = Yard::of(&mut r, book);
                    let number = standing(book)[0] as u32;
                    for by in [(0, 0), (1, 0), (0, 1), (-1, -1), (1, -1), (2, 2)] {
                        yard.quoted(&mut r, number, by, &mut Seen::default(), calls)?;
                    }
                }
            }
            Ok(())
        });
    }
    let kinds = SMALL_KINDS.len() + 1;
    for kind in 0..kinds {
        report.case(&format!("moves quoted, {}", small_name(kind)), |calls| {
            (kind..40 * kinds).step_by(kinds).try_for_each(|k| {
                let mut r = seeded(810_000 + k);
                let book = small_yard(k).0;
                let mut yard = Yard::of(&mut r, &book);
                (0..3).try_for_each(|_| match yard.any_move(&mut r) {
                    Some((n, by)) => yard.step(&mut r, n, by, &mut Seen::default(), calls),
                    None => Ok(()),
                })
            })
        });
    }
}

/// Walls of a maze moved, one after the other.
fn mazes(report: &mut Report) {
    let mut seen = Seen::default();
    let known: [(&str, fn(&mut Random, i64) -> Book, i64); 3] = [("spiral", spiral, 8), ("shaft", shaft, 8), ("zigzag", zigzag, 24)];
    for (name, yard, size) in known {
        for position in 0..8 {
            report.case(&format!("moves quoted, {name}, position {position}"), |calls| {
                let mut r = seeded(820_000 + position);
                for side in [size * 40, 32767] {
                    let mut book = turned(&yard(&mut r, side / size), position, side);
                    book.runs[23] = book.runs[0].iter().rev().copied().collect();
                    book.runs[9] = vec![book.runs[0][0]; 2];
                    book.figure = r.pick(&[0, 0, 40, 1000]);
                    let mut yard = Yard::of(&mut r, &book);
                    for n in 0..6 {
                        let by = side / size * r.between(-6, 6) / 4;
                        let by = if r.percent(50) { (by as i16, 0) } else { (0, by as i16) };
                        yard.step(&mut r, n, by, &mut seen, calls)?;
                        yard.quoted(&mut r, n, (-by.0, -by.1), &mut seen, calls)?;
                    }
                }
                Ok(())
            });
        }
    }
    report.case("walls that bar and open ways often enough", |_| {
        seen.often(&[("dearer", 40), ("cheaper", 40), ("no way any more", 10), ("a way at last", 10), ("misled", 100)])
    });
}

/// Steps along one axis: none, one to each side, those that bring a block to either edge of the yard and those past it, and
/// the largest.
fn steps(places: &[i64]) -> Vec<i16> {
    let (low, high) = (places.iter().min().unwrap_or(&0), places.iter().max().unwrap_or(&0));
    let all = [0, 1, -1, -low, -low - 1, 32767 - high, 32768 - high, -32768, -32767, 32767];
    all.into_iter().filter_map(|step| i16::try_from(step).ok()).collect()
}

fn edges_of_the_yard(report: &mut Report) {
    let mut seen = Seen::default();
    for (k, s) in STYLES.iter().chain(&FULL).enumerate() {
        report.case(&format!("moves to the edges, {}", s.name), |calls| {
            let mut r = Random::new(9_800_000 + k as u64);
            let (book, _) = random_yard(&mut r, s, 60);
            let yard = Yard::of(&mut r, &book);
            for n in standing(&book).into_iter().take(2) {
                let (east, north): (Vec<i64>, Vec<i64>) = book.blocks[n].iter().copied().unzip();
                for by in steps(&east).into_iter().flat_map(|e| steps(&north).into_iter().map(move |n| (e, n))) {
                    yard.quoted(&mut r, n as u32, by, &mut seen, calls)?;
                }
            }
            Ok(())
        });
    }
    report.case("moves to the edges and past them often enough", |_| seen.often(&[("0", 400), ("7", 400)]));
}

const NUMBERS: [u32; 15] = [24, 25, 31, 32, 48, 255, 256, 263, 65535, 65536, 65541, 1 << 31, (1 << 31) + 3, u32::MAX - 1, u32::MAX];

fn every_number(report: &mut Report) {
    for (k, s) in STYLES.iter().chain(&FULL).enumerate() {
        report.case(&format!("moves of every number, {}", s.name), |calls| {
            let mut r = Random::new(9_900_000 + k as u64);
            let (book, _) = random_yard(&mut r, s, 60);
            let yard = Yard::of(&mut r, &book);
            for number in (0..24).chain(NUMBERS) {
                for by in [(0, 0), (1, -1), (i16::MAX, i16::MIN)] {
                    let free = book.blocks.get(number as usize).is_none_or(|corners| corners.is_empty());
                    let answer = yard.quoted(&mut r, number, by, &mut Seen::default(), calls)?;
                    if free != matches!(answer, 3 | 5) || (number > 23) != (answer == 3) {
                        return Err(format!("block {number} by {by:?}: answer {answer}"));
                    }
                }
            }
            Ok(())
        });
    }
}

/// Quotes worked out by hand: blocks from number 0 on, the ends of runs, none where one is absent, the least charge, the
/// block that is moved and how far, and the states and lengths of these runs.
fn known(report: &mut Report) {
    type Row = (&'static str, Vec<Vec<Place>>, Vec<Vec<Place>>, u16, (u32, Step), &'static [(u32, u32)]);
    let bar = |w: i64, s: i64, e: i64, n: i64| vec![(w, s), (e, s), (e, n), (w, n)];
    let square = || bar(10, 10, 20, 20);
    let across = || vec![(0, 15), (30, 15)];
    let at = |p: Place| vec![p, p];
    let listed = || vec![(10, 6), (14, 7), (14, 40), (10, 40)];
    let slim = |w: i64| vec![(w, 1), (w + 2, 1), (w + 1, 5)];
    let rows: Vec<Row> = vec![
        ("S where it is", vec![square()], vec![across()], 0, (0, (0, 0)), &[(1, 34)]),
        ("S out of the way", vec![square()], vec![across()], 0, (0, (0, 100)), &[(1, 30)]),
        ("S along the run", vec![square()], vec![across()], 0, (0, (0, 5)), &[(1, 30)]),
        // 11 + 10 + 11
        ("S off the middle", vec![square()], vec![across()], 0, (0, (0, 3)), &[(1, 32)]),
        ("S into the way", vec![bar(10, 110, 20, 120)], vec![across()], 0, (0, (0, -100)), &[(1, 34)]),
        ("S onto an end", vec![square()], vec![across()], 0, (0, (15, 0)), &[(2, 0)]),
        // 21 + 10 + 5
        ("S beside an end", vec![square()], vec![across()], 0, (0, (10, 0)), &[(1, 36)]),
        ("S off an end", vec![bar(25, 10, 35, 20)], vec![across()], 0, (0, (-15, 0)), &[(1, 34)]),
        ("S onto one place", vec![square()], vec![at((35, 15))], 0, (0, (20, 0)), &[(2, 0)]),
        ("S beside one place", vec![square()], vec![at((35, 15))], 0, (0, (15, 0)), &[(1, 0)]),
        ("S off one place", vec![square()], vec![at((15, 15))], 1000, (0, (5, 0)), &[(1, 0)]),
        ("no runs", vec![square()], vec![], 0, (0, (1, 1)), &[]),
        ("absent runs between", vec![square()], vec![vec![], across(), vec![], at((0, 0)), across()], 0, (0, (0, 100)), &[(0, 0), (1, 30), (0, 0), (1, 0), (1, 30)]),
        ("S where it is, charged 15 each", vec![square()], vec![across()], 15, (0, (0, 0)), &[(1, 45)]),
        ("S off the middle, charged 15 each", vec![square()], vec![across()], 15, (0, (0, 3)), &[(1, 45)]),
        ("S out of the way, charged 15", vec![square()], vec![across()], 15, (0, (0, 100)), &[(1, 30)]),
        ("S out of the way, charged 1,000", vec![square()], vec![across()], 1000, (0, (0, 100)), &[(1, 1000)]),
        ("S to the north-east corner", vec![square()], vec![across()], 0, (0, (32747, 32747)), &[(1, 30)]),
        ("S to the south-west corner", vec![square()], vec![across(), vec![(0, 0), (10, 10)]], 0, (0, (-10, -10)), &[(1, 30), (1, 20)]),
        // round the seam by (15,10) and (15,20), as far as by the other side
        ("S against another", vec![square(), bar(25, 10, 35, 20)], vec![vec![(25, 0), (25, 30)], at((25, 15))], 0, (0, (5, 0)), &[(1, 40), (2, 0)]),
        ("S off another", vec![bar(15, 10, 25, 20), bar(25, 10, 35, 20)], vec![vec![(25, 0), (25, 30)], at((25, 15))], 0, (0, (-5, 0)), &[(1, 30), (1, 0)]),
        ("S onto its twin", vec![square(), bar(110, 10, 120, 20)], vec![across()], 0, (1, (-100, 0)), &[(2, 0)]),
        ("S off its twin", vec![square(), square()], vec![across()], 0, (0, (100, 0)), &[(1, 34)]),
        // a corner that shortens the way
        ("the listed yard", vec![listed(), slim(111)], vec![vec![(0, 10), (27, 13)]], 0, (1, (-100, 0)), &[(1, 30)]),
        ("the listed yard without block 1", vec![listed(), slim(11)], vec![vec![(0, 10), (27, 13)]], 0, (1, (100, 0)), &[(1, 31)]),
    ];
    for (name, blocks, runs, figure, (number, by), due) in rows {
        report.case(&format!("move's quote, {name}"), |calls| {
            let mut book = Book::new();
            book.blocks[..blocks.len()].clone_from_slice(&blocks);
            book.runs[..runs.len()].clone_from_slice(&runs);
            book.figure = figure;
            let mut words = vec![0; WORDS];
            due.iter().enumerate().for_each(|(m, run)| (words[m], words[RUNS + m]) = *run);
            let mut r = seeded(1);
            let mut quote = Quote::asked(&mut r, by);
            *calls += 1;
            same_answer("quote", quote.call(&book.drawing(), number), 0)?;
            if let Some(why) = quote.difference(&Quote { by, words }) {
                return Err(why);
            }
            Yard::of(&mut r, &book).quoted(&mut r, number, by, &mut Seen::default(), calls).map(drop)
        });
    }
}

/// The questions in order, each failing together with all after it.
fn order(report: &mut Report) {
    report.case("move's quote, the order of its questions", |calls| {
        let mut r = seeded(2);
        let mut book = Book::new();
        book.blocks[3] = vec![(0, 0), (9, 0), (9, 9)];
        book.runs[5] = vec![(20, 0), (20, 30)];
        let right = book.drawing();
        let mut wrong = right.clone();
        wrong.blocks[17 * 23] = 2;
        for (t, size, number, by, answer) in [
            (&wrong, 47, 24, (-1, 0), 1),
            (&wrong, 49, 24, (-1, 0), 1),
            (&wrong, 0, 24, (-1, 0), 1),
            (&right, 47, 3, (0, 0), 1),
            (&right, 49, 3, (0, 0), 1),
            (&right, 0, 3, (0, 0), 1),
            (&wrong, 48, 24, (-1, 0), 2),
            (&right, 48, 24, (-1, 0), 3),
            (&right, 48, 4, (-1, 0), 5),
            (&right, 48, 3, (-1, 0), 7),
            (&right, 48, 3, (0, -1), 7),
            (&right, 48, 3, (0, 0), 0),
        ] {
            let words = any_words(&mut r, size);
            let mut quote = Quote { by, words: words.clone() };
            *calls += 1;
            let what = format!("block {number} by {by:?} with {size} words");
            same_answer(&what, quote.call(t, number), answer)?;
            if (quote.words == words) != (answer != 0) {
                return Err(format!("{what}: {:?}", quote.words));
            }
        }
        Ok(())
    });
}

/// A random yard of any kind.
pub fn one(r: &mut Random, calls: &mut usize) -> Result<(), String> {
    let s = random::any_style(r);
    let edits = if r.percent(30) { degenerate::edits(r) } else { random::list(r, &s, 60) };
    history(r, &edits, &mut Seen::default(), calls)
}

pub fn move_quotes(report: &mut Report) {
    known(report);
    order(report);
    every_number(report);
    edges_of_the_yard(report);
    histories(report);
    drags(report);
    lattice_yards(report);
    mazes(report);
    refusals::<Quote>(report);
}
