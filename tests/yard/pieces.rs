//! The pieces that routes are drawn as: the number, the kind and every bit of the points of `yard_piece` and `yard_bend`,
//! against exact fractions from the second planner's marks.

use crate::bends::{self, Fraction, Piece};
use crate::degenerate;
use crate::duct_yards::{seeded, shown, small_name, small_yard, turned, SMALL_KINDS};
use crate::ducts::{shaft, spiral};
use crate::lent::{any_words, refusals, Lent, Lists};
use crate::linked::{bend, piece};
use crate::quotes::zigzag;
use crate::random::{self, Random, FULL, STYLES};
use crate::reader;
use crate::reference::{Book, Place};
use crate::tables::{pair_index, Edit, Tables, PAIRS, ROUTES, SUM, TOTALS};
use crate::{random_yard, same_answer, Report};
use std::collections::BTreeMap;

const NONE: u32 = 0;
const STRAIGHT: u32 = 1;
const BEND: u32 = 2;

/// The number that a float is, from its parts and with no arithmetic of floats; none for what no drawing holds, and -0.
fn exact(bits: u64) -> Option<Fraction> {
    let exponent = (bits >> 52 & 0x7FF) as i32 - 1075;
    let whole = i128::from(bits & ((1 << 52) - 1) | 1 << 52);
    match exponent {
        _ if bits == 0 => Some(Fraction(0, 1)),
        -100..=0 => Some(Fraction::new(if bits >> 63 == 1 { -whole } else { whole }, 1 << -exponent)),
        _ => None,
    }
}

/// The bits of the float that a fraction is, likewise.
fn float(f: Fraction) -> u64 {
    if f == Fraction(0, 1) {
        return 0;
    }
    let high = f.0.ilog2();
    let bits = u64::from(1023 + high - f.1.ilog2()) << 52 | (f.0 << (52 - high)) as u64 & ((1 << 52) - 1);
    assert_eq!(exact(bits), Some(f));
    bits
}

/// Any bits of a float: numbers, zeros of both signs, infinities, and quiet and signalling NaNs with payloads.
fn any_bits(r: &mut Random) -> u64 {
    let sign = r.next() & 1 << 63;
    sign | match r.below(6) {
        0 => 0,
        1 => 0x7FF0_0000_0000_0000,
        2 => 0x7FF8_0000_0000_0000 + r.below(1 << 51) as u64,
        3 => 0x7FF0_0000_0000_0001 + r.below(1 << 50) as u64,
        4 => 1 + r.below(1 << 52) as u64,
        _ => r.next() >> 1,
    }
}

/// A number after every route's last piece, most often such that some bits of it or of its double are the number of a piece.
fn far_number(r: &mut Random) -> u32 {
    if r.percent(30) {
        return r.next() as u32 | 1 << 20;
    }
    r.pick(&[1 << 9, 1 << 16, 1 << 24, 1 << 30, 1 << 31, 3 << 30, u32::MAX - 7]) + r.below(8) as u32
}

/// The piece that a call is asked for and the lists that it is lent: `yard_bend` if `NINE`, else `yard_piece`.
#[derive(Clone)]
struct Drawn<const NINE: bool> {
    piece: u32,
    kind: Vec<u32>,
    points: Vec<u64>,
}

impl<const NINE: bool> Drawn<NINE> {
    const POINTS: usize = if NINE { 18 } else { 6 };

    /// With contents that an accepted call must overwrite.
    fn asked(r: &mut Random, piece: u32) -> Self {
        Drawn { piece, kind: any_words(r, 1), points: (0..Self::POINTS).map(|_| any_bits(r)).collect() }
    }

    /// As a drawing has it.
    fn of(drawing: &[Piece], piece: u32) -> Self {
        let (kind, spots) = match drawing.get(piece as usize) {
            Some(Piece::Bend(b)) if NINE => (BEND, b.nine()),
            Some(Piece::Bend(b)) => (BEND, vec![b.start, b.corner, b.finish]),
            Some(Piece::Straight(ends)) if !NINE => (STRAIGHT, ends.to_vec()),
            _ => (NONE, vec![]),
        };
        let mut points: Vec<u64> = spots.concat().into_iter().map(float).collect();
        points.resize(Self::POINTS, 0);
        Drawn { piece, kind: vec![kind], points }
    }

    fn point(&self, k: usize) -> [u64; 2] {
        [self.points[2 * k], self.points[2 * k + 1]]
    }
}

impl<const NINE: bool> Lists for Drawn<NINE> {
    const NAME: &'static str = if NINE { "bend" } else { "piece" };
    const COUNT: usize = 2;
    const ALL_TABLES: bool = true;
    const NUMBERS: &'static [usize] = &[0, 2, 3, 5, 11];

    fn filled(r: &mut Random) -> Self {
        let piece = if r.percent(80) { r.below(5) as u32 } else { far_number(r) };
        Self::asked(r, piece)
    }

    fn lengths_right(&self) -> bool {
        (self.kind.len(), self.points.len()) == (1, Self::POINTS)
    }

    fn resize(&mut self, list: usize, other: impl Fn(usize) -> usize) {
        match list {
            0 => self.kind.resize(other(1), 77),
            1 => self.points.resize(other(Self::POINTS), 77),
            _ => {}
        }
    }

    fn due(&self, t: &Tables, book: &Book, run: usize) -> Result<Self, u32> {
        if book.drawing() == *t { Ok(Self::of(&drawing(book, t, run), self.piece)) } else { Err(11) }
    }

    fn call(&mut self, t: &Tables, run: u32) -> u32 {
        let mut points: Vec<f64> = self.points.iter().map(|&bits| f64::from_bits(bits)).collect();
        let call = if NINE { bend } else { piece };
        let answer = call(t, run, self.piece, &mut self.kind, &mut points);
        self.points = points.into_iter().map(f64::to_bits).collect();
        answer
    }

    fn difference(&self, due: &Self) -> Option<String> {
        if self.kind != due.kind {
            return Some(format!("kind {:?}, should be {:?}", self.kind, due.kind));
        }
        let at = (0..self.points.len()).find(|&k| self.points[k] != due.points[k])?;
        let shown = |bits: u64| format!("{:?} (bits {bits:016x})", f64::from_bits(bits));
        Some(format!("number {at} of the points of piece {} {}, should be {}", self.piece, shown(self.points[at]), shown(due.points[at])))
    }
}

/// What a run of right tables is drawn as; nothing where it has no way.
fn drawing(book: &Book, t: &Tables, run: usize) -> Vec<Piece> {
    match t.route(run) {
        (1, _, marks) => bends::pieces(&bends::places(book, marks)),
        _ => vec![],
    }
}

/// A piece by both calls.
type Both = (Drawn<false>, Drawn<true>);

/// Each piece starts where the one before finished, from end to end, and a bend's nine points lead from its start to its finish.
fn joined(line: &[Both], ends: &[Place]) -> Result<(), String> {
    let end = |p: Place| [p.0, p.1].map(|c| float(Fraction::new(c.into(), 1)));
    let mut at = end(ends[0]);
    for (k, (piece, nine)) in line.iter().enumerate() {
        let finish = piece.point(if piece.kind == [BEND] { 2 } else { 1 });
        let led = piece.kind != [BEND] || (nine.point(0), nine.point(8)) == (piece.point(0), finish);
        if piece.point(0) != at || !led {
            return Err(format!("piece {k} does not join"));
        }
        at = finish;
    }
    if at == end(ends[1]) { Ok(()) } else { Err("the last piece does not finish at the second end".to_string()) }
}

/// A book and its right tables.
struct Yard<'a> {
    book: &'a Book,
    tables: Tables,
}

impl Yard<'_> {
    fn new(book: &Book) -> Yard<'_> {
        Yard { book, tables: book.drawing() }
    }

    /// Make a call that must leave this; the lists are given back.
    fn called<const NINE: bool>(&self, r: &mut Random, run: u32, number: u32, due: &Drawn<NINE>) -> Result<Drawn<NINE>, String> {
        let before = Drawn::asked(r, due.piece);
        let mut lists = before.clone();
        let answer = lists.call(&self.tables, run);
        same_answer(Drawn::<NINE>::NAME, answer, number)?;
        lists.difference(if number == 0 { due } else { &before }).map_or(Ok(lists), Err)
    }

    fn both(&self, r: &mut Random, run: u32, number: u32, due: &[Piece], k: u32, calls: &mut usize) -> Result<Both, String> {
        *calls += 2;
        let piece = self.called(r, run, number, &Drawn::of(due, k))?;
        Ok((piece, self.called(r, run, number, &Drawn::of(due, k))?))
    }

    /// Every piece of a run, the numbers after the last, and these.
    fn run(&self, r: &mut Random, run: usize, far: &[u32], calls: &mut usize) -> Result<(), String> {
        let due = drawing(self.book, &self.tables, run);
        let count = due.len() as u32;
        let mut line = vec![];
        for k in (0..count + 3).chain(far.iter().copied()) {
            line.push(self.both(r, run as u32, 0, &due, k, calls)?);
        }
        line.truncate(due.len());
        if due.is_empty() { Ok(()) } else { joined(&line, &self.book.runs[run]) }
    }

    /// Every run, each with so many numbers far from its pieces; an absent one and a number that is not below 24 are refused.
    fn every_run(&self, r: &mut Random, far: usize, calls: &mut usize) -> Result<(), String> {
        for run in 0..24 {
            if self.book.runs[run].is_empty() {
                let k = r.below(4) as u32;
                self.both(r, run as u32, 5, &[], k, calls)?;
            } else {
                let far: Vec<u32> = (0..far).map(|_| far_number(r)).collect();
                self.run(r, run, &far, calls).map_err(|why| format!("{why}: {}", shown(self.book, run)))?;
            }
        }
        let number = r.pick(&[24, 32, 1 << 31, u32::MAX]);
        self.both(r, number, 3, &[], 0, calls).map(drop)
    }
}

/// Drawings worked out by hand, in 4,096ths: the square S and a run past it, whose two bends are mirrored.
fn known(report: &mut Report) {
    let square = vec![(10, 10), (20, 10), (20, 20), (10, 20)];
    let mut book = Book::new();
    book.blocks[0] = square;
    book.runs[7] = vec![(0, 15), (30, 15)];
    let pieces: [(u32, &[u32]); 6] = [
        (STRAIGHT, &[0, 61440, 35840, 43520, 0, 0]),
        (BEND, &[35840, 43520, 40960, 40960, 46080, 40960]),
        (STRAIGHT, &[46080, 40960, 76800, 40960, 0, 0]),
        (BEND, &[76800, 40960, 81920, 40960, 87040, 43520]),
        (STRAIGHT, &[87040, 43520, 122880, 61440, 0, 0]),
        (NONE, &[0; 6]),
    ];
    let nine = [
        35840, 43520, 37540, 42675, 38880, 42040, 39980, 41585, 40960, 41280, 41940, 41095, 43040, 41000, 44380, 40965, 46080, 40960,
    ];
    let bits = |numbers: &[u32]| -> Vec<u64> { numbers.iter().map(|&n| float(Fraction::new(n.into(), 4096))).collect() };
    report.case("pieces past S", |calls| {
        let yard = Yard::new(&book);
        let due = drawing(&book, &yard.tables, 7);
        for (k, (kind, numbers)) in pieces.iter().enumerate() {
            let by_hand = Drawn::<false> { piece: k as u32, kind: vec![*kind], points: bits(numbers) };
            Drawn::of(&due, k as u32).difference(&by_hand).map_or(Ok(()), Err)?;
        }
        let by_hand = Drawn::<true> { piece: 1, kind: vec![BEND], points: bits(&nine) };
        Drawn::of(&due, 1).difference(&by_hand).map_or(Ok(()), Err)?;
        yard.every_run(&mut seeded(1), 20, calls)
    });
    report.case("numbers of pieces far from any", |calls| {
        let yard = Yard::new(&book);
        let (powers, thirds) = (3..32u32, (1..16).map(|k| k * 0x1111_1111));
        let far: Vec<u32> = powers.flat_map(|p| (0..8).map(move |k| (1 << p) + k)).chain(thirds).chain(u32::MAX - 8..=u32::MAX).collect();
        yard.run(&mut seeded(2), 7, &far, calls)
    });
    report.case("the float that a fraction is", |_| {
        let mut r = seeded(3);
        for k in 0..20_000 {
            let over = if k < 5000 { k } else { r.below(32768 * 4096) as u32 };
            let right = f64::from(over) / 4096.0;
            if float(Fraction::new(over.into(), 4096)) != right.to_bits() {
                return Err(format!("{over} / 4096"));
            }
        }
        let others = [-0.0f64, f64::INFINITY, f64::NAN, f64::MIN_POSITIVE, 5e-324, 1e300].map(|f| exact(f.to_bits()));
        if others == [None; 6] && exact((-0.75f64).to_bits()) == Some(Fraction(-3, 4)) { Ok(()) } else { Err(format!("{others:?}")) }
    });
}

/// Every run of every example yard.
fn examples(report: &mut Report) {
    let mut count = 0;
    for path in std::fs::read_dir("examples").into_iter().flatten().filter_map(|entry| Some(entry.ok()?.path())) {
        if path.extension().is_some_and(|e| e == "yrd") {
            count += 1;
            report.case(&format!("pieces of {}", path.display()), |calls| {
                let (edits, _) = reader::read(&std::fs::read(&path).map_err(|e| e.to_string())?);
                Yard::new(&after(&edits)).every_run(&mut seeded(count), 20, calls)
            });
        }
    }
    report.case("example yards", |_| if count >= 6 { Ok(()) } else { Err(format!("only {count}")) });
}

fn after(edits: &[Edit]) -> Book {
    let mut book = Book::new();
    for e in edits {
        book.step(e);
    }
    book
}

/// How many runs have no piece, one, three, more, and lie in one place.
#[derive(Default, Debug)]
struct Seen([usize; 5]);

impl Seen {
    fn add(&mut self, yard: &Yard) {
        for (run, ends) in yard.book.runs.iter().enumerate().filter(|(_, ends)| !ends.is_empty()) {
            let kind = match drawing(yard.book, &yard.tables, run).len() {
                1 if ends[0] == ends[1] => 4,
                count => [0, 1, 2].into_iter().find(|&k| count == [0, 1, 3][k]).unwrap_or(3),
            };
            self.0[kind] += 1;
        }
    }
}

fn random_yards(report: &mut Report) {
    let mut seen = Seen::default();
    let mut yard = |book: &Book, r: &mut Random, calls: &mut usize| {
        let yard = Yard::new(book);
        seen.add(&yard);
        yard.every_run(r, 2, calls)
    };
    for (k, s) in STYLES.iter().chain(&FULL).enumerate() {
        for seed in 0..if s.blocks == 24 { 1 } else { 4 } {
            report.case(&format!("pieces, {}, seed {seed}", s.name), |calls| {
                let mut r = Random::new(9_200_000 + 100 * k as u64 + seed);
                let (book, _) = random_yard(&mut r, s, 60);
                yard(&book, &mut r, calls)
            });
        }
    }
    for seed in 0..50 {
        report.case(&format!("pieces, degenerate yard, seed {seed}"), |calls| {
            let mut r = Random::new(9_300_000 + seed);
            let book = after(&degenerate::edits(&mut r));
            yard(&book, &mut r, calls)
        });
    }
    let kinds = SMALL_KINDS.len() + 1;
    for kind in 0..kinds {
        report.case(&format!("pieces, {}", small_name(kind)), |calls| {
            (kind..8 * kinds).step_by(kinds).try_for_each(|k| yard(&small_yard(k).0, &mut seeded(k), calls))
        });
    }
    report.case("runs of every kind often enough", |_| if seen.0.iter().all(|&n| n >= 30) { Ok(()) } else { Err(format!("{seen:?}")) });
}

/// Routes of many bends.
fn mazes(report: &mut Report) {
    let known: [(&str, fn(&mut Random, i64) -> Book, i64, usize); 3] = [("spiral", spiral, 8, 13), ("shaft", shaft, 8, 17), ("zigzag", zigzag, 24, 100)];
    for (position, (name, maze, size, least)) in known.into_iter().cycle().take(6).enumerate() {
        report.case(&format!("pieces, {name}, position {position}"), |calls| {
            let mut r = seeded(800_000 + position);
            let side = [size * 40, 32767][position / 3];
            let book = turned(&maze(&mut r, side / size), position, side);
            let yard = Yard::new(&book);
            let count = drawing(&book, &yard.tables, 0).len();
            if count < least { Err(format!("only {count} pieces: {}", shown(&book, 0))) } else { yard.every_run(&mut r, 20, calls) }
        });
    }
}

/// The places of the pairs of a route's straights.
fn straights(t: &Tables, run: usize) -> Vec<usize> {
    t.route(run).2.windows(2).map(|w| pair_index(w[0] as usize, w[1] as usize)).collect()
}

/// Kinds of places in pairs, routes and totals, seen from one run: their names, and where in the tables they are.
type Kinds = Vec<(&'static str, Vec<usize>)>;

fn kinds_of_pairs(t: &Tables, run: usize) -> Kinds {
    let own = straights(t, run);
    let others: Vec<usize> = (0..24).filter(|&m| m != run).flat_map(|m| straights(t, m)).collect();
    let with = |is: &dyn Fn(u8) -> bool| -> Vec<usize> { (0..PAIRS).filter(|&at| is(t.pairs[at])).collect() };
    let unused = with(&|byte| byte == 254).into_iter().filter(|at| !own.contains(at) && !others.contains(at)).collect();
    vec![
        ("a pair of absent marks", with(&|byte| byte == 255)),
        ("a hidden pair", with(&|byte| byte < 24)),
        ("a pair in a seam", with(&|byte| byte == 253)),
        ("a clear pair that no route has", unused),
        ("a straight of the route", own),
        ("a straight of another route", others),
        ("the first pair", vec![0]),
        ("the last pair", vec![PAIRS - 1]),
    ]
}

fn kinds_of_words(t: &Tables, run: usize) -> Kinds {
    let of = |wanted: &dyn Fn(usize) -> bool| -> Vec<usize> { (0..ROUTES).filter(|at| at / 197 != run && wanted(at / 197)).collect() };
    let (first, count) = (197 * run, t.routes[197 * run + 2] as usize);
    vec![
        ("the state", vec![first]),
        ("the length", vec![first + 1]),
        ("the count", vec![first + 2]),
        ("a mark", (first + 3..first + 3 + count).collect()),
        ("the word after the last mark", vec![first + 3 + count]),
        ("the last word of the record", vec![first + 196]),
        ("a word of another run's route", of(&|m| t.routes[197 * m] != 0)),
        ("a word of an absent run's route", of(&|m| t.routes[197 * m] == 0)),
        ("the last word", vec![ROUTES - 1]),
    ]
}

fn kinds_of_totals(t: &Tables) -> Kinds {
    let of = |named: bool| -> Vec<usize> { (0..SUM).filter(|&n| (t.totals[n] > 0) == named).collect() };
    vec![("the total of a block that pairs name", of(true)), ("the total of a block that none names", of(false)), ("the sum", vec![SUM])]
}

/// Right tables with one byte of pairs or one word of routes or totals changed, in a place of each kind that there is.
fn spoiled(r: &mut Random, right: &Tables, run: usize) -> Vec<(&'static str, Tables)> {
    let mut all = vec![];
    for (name, places) in kinds_of_pairs(right, run).into_iter().filter(|kind| !kind.1.is_empty()) {
        let (mut t, at) = (right.clone(), r.pick(&places));
        t.pairs[at] = t.pairs[at].wrapping_add(1 + r.below(255) as u8);
        all.push((name, t));
    }
    for (name, places) in kinds_of_words(right, run).into_iter().filter(|kind| !kind.1.is_empty()) {
        let (mut t, at) = (right.clone(), r.pick(&places));
        t.routes[at] = t.routes[at].wrapping_add(r.pick(&[1, u32::MAX, 256, 1 << 31, 7]));
        all.push((name, t));
    }
    for (name, places) in kinds_of_totals(right).into_iter().filter(|kind| !kind.1.is_empty()) {
        let (mut t, at) = (right.clone(), r.pick(&places));
        t.totals[at] = t.totals[at].wrapping_add(r.pick(&[1, u32::MAX, 256, 1 << 31, 7]));
        all.push((name, t));
    }
    all
}

/// Both calls over tables, for some runs, each with its number.
pub fn refused(r: &mut Random, t: &Tables, rows: &[(u32, u32)], calls: &mut usize) -> Result<(), String> {
    for &(run, number) in rows {
        Lent::<Drawn<false>>::over(r, t.clone()).answered(run, number, calls)?;
        Lent::<Drawn<true>>::over(r, t.clone()).answered(run, number, calls)?;
    }
    Ok(())
}

/// Question 11 is asked of every byte and word, and after all others.
fn wrong_tables(report: &mut Report) {
    let mut met: BTreeMap<&str, usize> = BTreeMap::new();
    for (k, s) in STYLES.iter().chain(&FULL).enumerate() {
        for seed in 0..if s.blocks == 24 { 1 } else { 8 } {
            report.case(&format!("pieces over one wrong entry, {}, seed {seed}", s.name), |calls| {
                let mut r = Random::new(9_400_000 + 100 * k as u64 + seed);
                let (mut book, _) = random_yard(&mut r, s, 60);
                let free = r.below(24);
                book.runs[free].clear();
                let runs: Vec<usize> = (0..24).filter(|&m| !book.runs[m].is_empty()).collect();
                if runs.is_empty() {
                    return Ok(());
                }
                let (run, right) = (runs[r.below(runs.len())], book.drawing());
                for (name, mut t) in spoiled(&mut r, &right, run) {
                    *met.entry(name).or_default() += 1;
                    let wrong = |why| format!("{name}: {why}");
                    refused(&mut r, &t, &[(run as u32, 11), (free as u32, 5), (24, 3), (u32::MAX, 3)], calls).map_err(wrong)?;
                    t.blocks[17 * r.below(24)] = 9;
                    refused(&mut r, &t, &[(run as u32, 2), (free as u32, 2), (24, 2)], calls).map_err(wrong)?;
                }
                Ok(())
            });
        }
    }
    report.case("wrong entries of every kind often enough", |_| {
        if met.len() == 20 && met.values().all(|&n| n >= 20) { Ok(()) } else { Err(format!("{met:?}")) }
    });
}

/// Totals of every other length, and each word of them wrong alone.
fn wrong_totals(report: &mut Report) {
    let mut book = Book::new();
    book.blocks[3] = vec![(10, 10), (20, 10), (20, 20), (10, 20)];
    book.runs[4] = vec![(0, 15), (30, 15)];
    let right = book.drawing();
    report.case("pieces over totals of every other length", |calls| {
        (0..=60).filter(|&words| words != TOTALS).try_for_each(|words| {
            let mut t = right.clone();
            t.totals.resize(words, 0);
            refused(&mut seeded(words), &t, &[(4, 1), (0, 1), (24, 1)], calls).map_err(|why| format!("{words} words: {why}"))
        })
    });
    report.case("pieces over every wrong word of totals", |calls| {
        (0..TOTALS).try_for_each(|at| {
            [right.totals[at] + 1, right.totals[at].wrapping_sub(1), u32::MAX - 1].into_iter().try_for_each(|word| {
                let mut t = right.clone();
                t.totals[at] = word;
                refused(&mut seeded(at), &t, &[(4, 11), (0, 5), (24, 3)], calls).map_err(|why| format!("word {at} made {word}: {why}"))
            })
        })
    });
}

/// Every piece of every run of a yard.
pub fn every_run(r: &mut Random, book: &Book, calls: &mut usize) -> Result<(), String> {
    Yard::new(book).every_run(r, 2, calls)
}

/// A random yard of any kind.
pub fn one(r: &mut Random, calls: &mut usize) -> Result<(), String> {
    let s = random::any_style(r);
    let edits = if r.percent(30) { degenerate::edits(r) } else { random::list(r, &s, 60) };
    every_run(r, &after(&edits), calls)
}

pub fn pieces(report: &mut Report) {
    known(report);
    examples(report);
    random_yards(report);
    mazes(report);
    wrong_tables(report);
    wrong_totals(report);
    refusals::<Drawn<false>>(report);
    refusals::<Drawn<true>>(report);
}
