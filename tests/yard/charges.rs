//! The least charge of a straight: routes worked out by hand at and around it, yards of short straights under many figures,
//! and tables whose bytes or figure are wrong. Every answer and every byte against the second planner, whose chains are
//! tried against all chains.

use crate::random::{self, good_corners, Random, Style};
use crate::reference::{self, clear_by_cutting, length, Book, Place};
use crate::tables::{pair_index, Edit, Planner, Tables, FIGURE};
use crate::{every_edit, random_yard, same_answer, same_tables, spoil, started, Report};
use std::collections::BTreeMap;

fn present(book: &Book) -> Vec<Place> {
    book.marks().into_iter().flatten().collect()
}

/// Set the figure, which must be done, leave pairs as they are and make the rest as due.
fn set(p: &impl Planner, t: &mut Tables, figure: u16, due: &Tables, calls: &mut usize) -> Result<(), String> {
    let pairs = t.pairs.clone();
    *calls += 1;
    same_answer(&format!("figure {figure}"), p.edit(t, &Edit::SetCharge(figure)), 0)?;
    if t.pairs != pairs {
        return Err(format!("figure {figure} changes pairs"));
    }
    same_tables(&format!("figure {figure}"), t, due)
}

/// A figure, and the summed charges and the marks between the ends of the route under it.
type Due = (u16, u32, &'static [u32]);

/// Routes worked out by hand: blocks, the ends of run 7, and its routes.
fn known_rows() -> Vec<(&'static str, Vec<Vec<Place>>, [Place; 2], Vec<Due>)> {
    let square = || vec![(10, 10), (20, 10), (20, 20), (10, 20)];
    // south of it 357 + 10 + 357 over two corners, north of it 400 + 400 over one
    let wedge = || vec![(315, 332), (325, 332), (320, 740)];
    let listed = || vec![(10, 6), (14, 7), (14, 40), (10, 40)];
    vec![
        ("a straight of 5", vec![], [(0, 0), (3, 4)], vec![(0, 5, &[]), (4, 5, &[]), (5, 5, &[]), (6, 6, &[]), (1000, 1000, &[])]),
        ("a straight rounded up to 2", vec![], [(0, 0), (1, 1)], vec![(1, 2, &[]), (2, 2, &[]), (3, 3, &[])]),
        ("a straight of 1", vec![], [(0, 0), (0, 1)], vec![(0, 1, &[]), (1, 1, &[]), (2, 2, &[]), (999, 999, &[])]),
        ("a straight of 999", vec![], [(0, 7), (999, 7)], vec![(998, 999, &[]), (999, 999, &[]), (1000, 1000, &[])]),
        ("a straight of 1,000", vec![], [(0, 0), (600, 800)], vec![(0, 1000, &[]), (999, 1000, &[]), (1000, 1000, &[])]),
        ("a straight of 1,001", vec![], [(0, 0), (1001, 0)], vec![(0, 1001, &[]), (1000, 1001, &[])]),
        ("the longest straight", vec![], [(0, 0), (32767, 32767)], vec![(0, 46340, &[]), (1000, 46340, &[])]),
        ("one place", vec![], [(5, 5), (5, 5)], vec![(0, 0, &[]), (1, 0, &[]), (1000, 0, &[])]),
        ("one place on a side", vec![square()], [(10, 15), (10, 15)], vec![(0, 0, &[]), (1, 0, &[]), (1000, 0, &[])]),
        ("one place at a corner", vec![square()], [(20, 20), (20, 20)], vec![(0, 0, &[]), (1, 0, &[]), (1000, 0, &[])]),
        ("along a side and no further", vec![square()], [(10, 10), (20, 10)], vec![(0, 10, &[]), (10, 10, &[]), (11, 11, &[]), (1000, 1000, &[])]),
        // both ends at corners: the straights of no length are free, but a chain over them has more straights
        ("from corner to corner", vec![square()], [(10, 10), (20, 20)], vec![(0, 20, &[1]), (10, 20, &[1]), (11, 22, &[1]), (1000, 2000, &[1])]),
        // 12 + 10 + 12 either way
        ("from side to side", vec![square()], [(0, 15), (30, 15)], vec![(0, 34, &[0, 1]), (10, 34, &[0, 1]), (11, 35, &[0, 1]), (12, 36, &[0, 1]), (13, 39, &[0, 1]), (1000, 3000, &[0, 1])]),
        // 12 + 10 + 11 in the north, 12 + 10 + 12 in the south: from 12 on they are charged alike, and the lower marks win
        ("a tie by marks", vec![square()], [(0, 15), (30, 16)], vec![(0, 33, &[3, 2]), (10, 33, &[3, 2]), (11, 34, &[3, 2]), (12, 36, &[0, 1]), (13, 39, &[0, 1])]),
        ("short straights give way", vec![wedge()], [(0, 500), (640, 500)], vec![
            (0, 724, &[0, 1]), (9, 724, &[0, 1]), (10, 724, &[0, 1]), (11, 725, &[0, 1]), (85, 799, &[0, 1]),
            // 714 + 86 as much as 800, which has fewer straights
            (86, 800, &[2]), (87, 800, &[2]), (357, 800, &[2]), (358, 800, &[2]), (400, 800, &[2]), (401, 802, &[2]), (1000, 2000, &[2]),
        ]),
        ("the listed yard", vec![listed(), vec![(11, 1), (13, 1), (12, 5)]], [(0, 10), (27, 13)], vec![(0, 30, &[10]), (13, 30, &[10]), (14, 31, &[10]), (17, 34, &[10]), (18, 36, &[10])]),
        // 11 + 5 + 15
        ("before its block 1", vec![listed()], [(0, 10), (27, 13)], vec![(0, 31, &[0, 1]), (5, 31, &[0, 1]), (6, 32, &[0, 1]), (11, 37, &[0, 1]), (12, 39, &[0, 1]), (16, 48, &[0, 1])]),
    ]
}

fn record(sum: u32, between: &[u32]) -> Vec<u32> {
    let mut words = [&[1, sum, between.len() as u32 + 2, 206][..], between, &[207]].concat();
    words.resize(197, 0);
    words
}

fn known(p: &impl Planner, report: &mut Report) {
    for (name, blocks, ends, routes) in known_rows() {
        report.case(&format!("charges, {name}"), |calls| {
            let mut book = Book::new();
            book.blocks[..blocks.len()].clone_from_slice(&blocks);
            book.runs[7] = ends.to_vec();
            let mut t = book.drawing();
            // up, and down again
            for (figure, sum, between) in routes.iter().chain(routes.iter().rev()) {
                book.figure = *figure;
                let due = book.drawing();
                if due.routes[197 * 7..197 * 8] != record(*sum, between) {
                    return Err(format!("figure {figure}: the second planner's route is {:?}", due.route(7)));
                }
                set(p, &mut t, *figure, &due, calls)?;
                same_answer("check", p.check(&t), 0)?;
                quoted(&mut Random::new(1), &book, &t, calls)?;
            }
            Ok(())
        });
    }
    report.case("a straight of no length between others is free", |calls| {
        // S from corner to corner, the bytes from either end to the two corners between made hidden
        let mut book = Book::new();
        book.blocks[0] = vec![(10, 10), (20, 10), (20, 20), (10, 20)];
        book.runs[7] = vec![(10, 10), (20, 20)];
        let mut t = book.drawing();
        for (end, corner) in [(206, 1), (206, 3), (207, 1), (207, 3)] {
            t.pairs[pair_index(end, corner)] = 0;
        }
        for (figure, sum) in [(0, 20), (10, 20), (11, 22), (1000, 2000), (1, 20)] {
            let mut due = t.clone();
            due.runs[FIGURE] = figure;
            due.routes[197 * 7..197 * 8].copy_from_slice(&record(sum, &[0, 1, 2]));
            due.totals = reference::totals(&due.pairs, &due.routes);
            set(p, &mut t, figure, &due, calls)?;
        }
        Ok(())
    });
}

/// Yards in which many straights are shorter than a figure may be.
const STYLES: [Style; 6] = [
    Style { name: "6 wide", low: 0, high: 6, size: 4, blocks: 5, runs: 6 },
    Style { name: "20 wide", low: 0, high: 20, size: 8, blocks: 8, runs: 10 },
    Style { name: "80 wide", low: 0, high: 80, size: 25, blocks: 12, runs: 10 },
    Style { name: "400 wide", low: 0, high: 400, size: 120, blocks: 10, runs: 10 },
    Style { name: "1,500 wide", low: 0, high: 1500, size: 500, blocks: 8, runs: 10 },
    Style { name: "far corner", low: 31767, high: 32767, size: 300, blocks: 8, runs: 8 },
];

/// A figure that has to do with the lengths in a yard, mostly: that of a straight between two marks, one less or one more.
fn some_figure(r: &mut Random, book: &Book) -> u16 {
    let marks = present(book);
    if marks.is_empty() || r.percent(20) {
        return r.pick(&[0, 1, 2, 500, 999, 1000]);
    }
    let (a, b) = (r.pick(&marks), r.pick(&marks));
    (length(a, b) as i64 + r.between(-1, 1)).clamp(0, 1000) as u16
}

/// How many of the cases that a test names were met.
#[derive(Default)]
struct Seen(BTreeMap<&'static str, usize>);

impl Seen {
    fn add(&mut self, what: &'static str) {
        *self.0.entry(what).or_default() += 1;
    }

    /// What the routes of a drawing have to do with its figure, beside those by plain lengths.
    fn drawn(&mut self, book: &Book, t: &Tables, by_lengths: &Tables) {
        let (figure, marks) = (u64::from(book.figure), book.marks());
        for m in (0..24).filter(|&m| figure > 0 && t.route(m).0 == 1) {
            let ((_, sum, list), (_, plain, shortest)) = (t.route(m), by_lengths.route(m));
            self.add(match (list == shortest, list.len() < shortest.len(), sum == plain) {
                (true, _, true) => "the route by lengths",
                (true, _, false) => "the route by lengths, charged more",
                (false, true, _) => "fewer straights than by lengths",
                (false, false, _) => "as many straights, others",
            });
            for w in list.windows(2) {
                let (Some(a), Some(b)) = (marks[w[0] as usize], marks[w[1] as usize]) else { continue };
                self.add(match length(a, b) {
                    0 => "straight of no length",
                    long if long + 1 == figure => "straight one less than the figure",
                    long if long < figure => "straight shorter than the figure",
                    long if long == figure => "straight as long as the figure",
                    long if long == figure + 1 => "straight one more than the figure",
                    _ => "straight longer than the figure",
                });
            }
        }
    }

    fn often_enough(&self, report: &mut Report, rows: &[(&'static str, usize)]) {
        report.case("charges of every kind often enough", |_| {
            let count = |what: &str| self.0.get(what).copied().unwrap_or(0);
            let few: Vec<String> = rows.iter().filter(|row| count(row.0) < row.1).map(|row| format!("only {} of '{}'", count(row.0), row.0)).collect();
            if few.is_empty() { Ok(()) } else { Err(few.join(", ")) }
        });
    }
}

/// Quotes as stored, a move's by the figure, and ducts as the second router has them whatever the figure.
#[cfg(not(plain))]
fn quoted(r: &mut Random, book: &Book, t: &Tables, calls: &mut usize) -> Result<(), String> {
    crate::quotes::as_stored(r, t, calls)?;
    crate::move_quotes::of_yard(r, book, t, 2, calls)?;
    let run = (0..24).find(|&run| !book.runs[run].is_empty());
    match run.filter(|_| book.blocks.iter().filter(|b| !b.is_empty()).count() <= 8) {
        Some(run) => crate::ducts::one_run(r, book, run, calls),
        None => Ok(()),
    }
}

#[cfg(plain)]
fn quoted(_: &mut Random, _: &Book, _: &Tables, _: &mut usize) -> Result<(), String> {
    Ok(())
}

/// Calls that draw, over routes that were drawn with another figure.
#[cfg(not(plain))]
fn not_drawn(r: &mut Random, t: &Tables, run: usize, calls: &mut usize) -> Result<(), String> {
    crate::pieces::refused(r, t, &[(run as u32, 11), (24, 3)], calls)
}

#[cfg(plain)]
fn not_drawn(_: &mut Random, _: &Tables, _: usize, _: &mut usize) -> Result<(), String> {
    Ok(())
}

/// The figure alone made another, pairs and routes left: the check, the calls that draw, and the edit that draws it right.
fn other_figure(p: &impl Planner, r: &mut Random, book: &Book, t: &Tables, seen: &mut Seen, calls: &mut usize) -> Result<(), String> {
    let other = Book { figure: some_figure(r, book), ..book.clone() };
    let mut changed = t.clone();
    changed.runs[FIGURE] = other.figure;
    let right = other.drawing();
    let number = if right == changed { 0 } else { 11 };
    *calls += 1;
    same_answer(&format!("check with figure {} made {}", book.figure, other.figure), p.check(&changed), number)?;
    if let (11, Some(run)) = (number, (0..24).find(|&run| !book.runs[run].is_empty())) {
        seen.add("routes drawn with another figure");
        not_drawn(r, &changed, run, calls)?;
    }
    set(p, &mut changed, other.figure, &right, calls)?;
    set(p, &mut changed, book.figure, t, calls)
}

/// An edit of any kind over right tables.
fn edited(p: &impl Planner, t: &mut Tables, book: &mut Book, e: &Edit, seen: &mut Seen, calls: &mut usize) -> Result<(), String> {
    let before = t.clone();
    let (answer, right) = (p.edit(t, e), book.step(e));
    *calls += 1;
    if right == 13 {
        seen.add("figure refused");
    }
    same_answer(&format!("{e:?}"), answer, right)?;
    same_tables(&format!("{e:?}"), t, &if right == 0 { book.drawing() } else { before })
}

fn yard(p: &impl Planner, r: &mut Random, s: &Style, seen: &mut Seen, calls: &mut usize) -> Result<(), String> {
    let (mut book, mut t) = random_yard(r, s, 40);
    book.figure = 0;
    let by_lengths = book.drawing_by_lengths();
    set(p, &mut t, 0, &by_lengths, calls)?;
    for k in 0..4 {
        book.figure = some_figure(r, &book);
        set(p, &mut t, book.figure, &book.drawing(), calls)?;
        seen.drawn(&book, &t, &by_lengths);
        if k == 0 {
            same_answer("check", p.check(&t), 0)?;
            quoted(r, &book, &t, calls)?;
            other_figure(p, r, &book, &t, seen, calls)?;
        }
    }
    // back to none: every byte as before
    set(p, &mut t, 0, &by_lengths, calls)?;
    book.figure = some_figure(r, &book);
    set(p, &mut t, book.figure, &book.drawing(), calls)?;
    for _ in 0..4 {
        let e = random::edit(r, s, &book);
        edited(p, &mut t, &mut book, &e, seen, calls)?;
    }
    edited(p, &mut t, &mut book, &Edit::SetCharge(r.pick(&[1001, 1002, 1256, 65535])), seen, calls)
}

/// Figures over tables with wrong bytes: pairs stay as they are, and the routes follow them.
fn spoiled(p: &impl Planner, r: &mut Random, s: &Style, seen: &mut Seen, calls: &mut usize) -> Result<(), String> {
    let (book, mut t) = random_yard(r, s, 40);
    spoil(r, &mut t);
    for _ in 0..3 {
        let figure = some_figure(r, &book);
        let (_, due) = reference::edited(&t, &Edit::SetCharge(figure));
        seen.add(if due.routes == book.drawing().routes { "spoiled, the right routes" } else { "spoiled, other routes" });
        set(p, &mut t, figure, &due, calls)?;
    }
    Ok(())
}

/// A random yard of any kind.
pub fn one(p: &impl Planner, r: &mut Random, calls: &mut usize) -> Result<(), String> {
    let s = if r.percent(80) { r.pick(&STYLES) } else { random::any_style(r) };
    yard(p, r, &s, &mut Seen::default(), calls)?;
    spoiled(p, r, &s, &mut Seen::default(), calls)
}

fn random_yards(p: &impl Planner, report: &mut Report) {
    let mut seen = Seen::default();
    for (at, s) in STYLES.iter().enumerate() {
        for seed in 0..60 {
            report.case(&format!("charges, {}, seed {seed}", s.name), |calls| {
                let mut r = Random::new(11_000_000 + 1000 * at as u64 + seed);
                yard(p, &mut r, s, &mut seen, calls)?;
                spoiled(p, &mut r, s, &mut seen, calls)
            });
        }
    }
    seen.often_enough(report, &OFTEN);
}

/// How often at least the random yards meet each case.
const OFTEN: [(&str, usize); 14] = [
    ("the route by lengths", 1_500),
    ("the route by lengths, charged more", 1_700),
    ("fewer straights than by lengths", 220),
    ("as many straights, others", 300),
    ("straight of no length", 350),
    ("straight shorter than the figure", 3_000),
    ("straight one less than the figure", 130),
    ("straight as long as the figure", 160),
    ("straight one more than the figure", 140),
    ("straight longer than the figure", 1_800),
    ("routes drawn with another figure", 220),
    ("figure refused", 360),
    ("spoiled, the right routes", 60),
    ("spoiled, other routes", 800),
];

/// Question 1 comes before 2, and 2 before 13.
fn refusals(p: &impl Planner, report: &mut Report) {
    for figure in [1001, 1002, 1024, 32767, 32768, 65535] {
        report.case(&format!("a stored figure of {figure}"), |calls| {
            let (_, right) = random_yard(&mut Random::new(12), &STYLES[2], 40);
            let mut t = right.clone();
            t.runs[FIGURE] = figure;
            let before = t.clone();
            for e in every_edit(&mut Random::new(13)).into_iter().chain([0, 1000, figure].map(Edit::SetCharge)) {
                *calls += 1;
                same_answer(&format!("{e:?}"), p.edit(&mut t, &e), 2)?;
                same_tables(&format!("{e:?}"), &t, &before)?;
            }
            *calls += 2;
            same_answer("check", p.check(&t), 2)?;
            // start asks for the lengths alone
            same_answer("start", p.start(&mut t), 0)?;
            same_tables("start", &t, &Book::new().drawing())
        });
    }
    for words in [0, 1, 5, 119, 120, 122, 126, 242] {
        report.case(&format!("{words} words of runs"), |calls| {
            let (_, mut t) = random_yard(&mut Random::new(14), &STYLES[2], 40);
            t.runs.resize(words, 65535);
            let before = t.clone();
            for figure in [0, 500, 1000, 1001, 65535] {
                *calls += 1;
                same_answer(&format!("figure {figure}"), p.edit(&mut t, &Edit::SetCharge(figure)), 1)?;
                same_tables(&format!("figure {figure}"), &t, &before)?;
            }
            *calls += 2;
            same_answer("check", p.check(&t), 1)?;
            same_answer("start", p.start(&mut t), 1)
        });
    }
    report.case("a figure above 1,000 over a wrong record", |calls| {
        let (_, mut t) = random_yard(&mut Random::new(15), &STYLES[2], 40);
        t.blocks[17 * 23] = 9;
        let before = t.clone();
        for figure in [0, 1000, 1001, 65535] {
            *calls += 1;
            same_answer(&format!("figure {figure}"), p.edit(&mut t, &Edit::SetCharge(figure)), 2)?;
        }
        same_tables("refused", &t, &before)
    });
    report.case("every figure from 0 to 65,535", |calls| {
        let mut t = started(p)?;
        for figure in 0..=65535u16 {
            let kept = t.figure();
            *calls += 1;
            same_answer(&format!("figure {figure}"), p.edit(&mut t, &Edit::SetCharge(figure)), if figure > 1000 { 13 } else { 0 })?;
            if t.figure() != if figure > 1000 { kept } else { figure } {
                return Err(format!("figure {figure} leaves {}", t.figure()));
            }
        }
        same_tables("all figures", &t, &Book { figure: 1000, ..Book::new() }.drawing())
    });
}

/// All chains of clear straights between the ends of a run, for yards of few corners: straights by cutting, roots by
/// counting up.
struct Every {
    marks: Vec<(u32, Place)>,
    /// For each two of the marks what the straight between them is charged, if it is clear.
    charges: Vec<Vec<Option<u64>>>,
    figure: u64,
    best: Option<(u64, usize, Vec<u32>)>,
    left: usize,
}

impl Every {
    /// The corners, then the run's ends.
    fn new(book: &Book, run: usize, left: usize) -> Every {
        let all = book.marks().into_iter().enumerate();
        let own = |k: usize| k < 192 || k / 2 == 96 + run;
        let marks: Vec<(u32, Place)> = all.filter(|(k, _)| own(*k)).filter_map(|(k, place)| Some((k as u32, place?))).collect();
        let figure = u64::from(book.figure);
        let charged = |a: Place, b: Place| {
            let square = (a.0 - b.0).pow(2) + (a.1 - b.1).pow(2);
            let long = (0..).find(|w| w * w >= square).unwrap_or(0) as u64;
            if (1..figure).contains(&long) { figure } else { long }
        };
        let row = |a: Place| marks.iter().map(|&(_, b)| clear_by_cutting(&book.blocks, a, b).then(|| charged(a, b))).collect();
        Every { charges: marks.iter().map(|&(_, a)| row(a)).collect(), figure, marks, best: None, left }
    }

    /// At least what a chain from one mark to another is charged.
    fn at_least(&self, from: usize, to: usize) -> u64 {
        let (a, b) = (self.marks[from].1, self.marks[to].1);
        let far = (a.0 - b.0).abs().max((a.1 - b.1).abs()) as u64;
        if far == 0 { 0 } else { far.max(self.figure) }
    }

    /// Go on from the last mark of a chain, without meeting it again, where it may still become the best; none after too
    /// many steps.
    fn go(&mut self, chain: &mut Vec<usize>, sum: u64) -> Option<()> {
        self.left = self.left.checked_sub(1)?;
        let (at, second) = (chain[chain.len() - 1], self.marks.len() - 1);
        if at == second {
            let found = (sum, chain.len(), chain.iter().map(|&k| self.marks[k].0).collect());
            if self.best.as_ref().map_or(true, |best| found < *best) {
                self.best = Some(found);
            }
            return Some(());
        }
        for next in 0..self.marks.len() {
            let Some(more) = self.charges[at][next].filter(|_| !chain.contains(&next)) else { continue };
            let least = sum + more + self.at_least(next, second);
            if self.best.as_ref().map_or(true, |best| least <= best.0) {
                chain.push(next);
                self.go(chain, sum + more)?;
                chain.pop();
            }
        }
        Some(())
    }
}

/// The second planner's routes against all chains.
pub fn own_parts(report: &mut Report) {
    let (mut ways, mut bent, mut left) = (0, 0, 0);
    for (at, s) in STYLES.iter().enumerate() {
        report.case(&format!("every chain, {}", s.name), |calls| {
            for seed in 0..500 {
                let mut r = Random::new(11_500_000 + 1000 * at as u64 + seed);
                let mut book = Book::new();
                for _ in 0..1 + r.below(3) {
                    book.blocks[r.below(24)] = good_corners(&mut r, s);
                }
                let (run, near, far) = (r.below(24), (s.high - s.low) / 4, s.high);
                book.runs[run] = vec![(s.low + r.between(0, near), r.between(s.low, far)), (far - r.between(0, near), r.between(s.low, far))];
                book.figure = some_figure(&mut r, &book);
                let mut every = Every::new(&book, run, 200_000);
                *calls += 1;
                if every.go(&mut vec![every.marks.len() - 2], 0).is_none() {
                    left += 1;
                    continue;
                }
                let drawing = book.drawing();
                let (state, sum, marks) = drawing.route(run);
                let found = (state == 1).then(|| (u64::from(sum), marks.len(), marks.to_vec()));
                if found != every.best {
                    return Err(format!("seed {seed}, figure {}: {found:?} and {:?}", book.figure, every.best));
                }
                ways += found.is_some() as usize;
                bent += (marks.len() > 2) as usize;
            }
            Ok(())
        });
    }
    report.case("chains often enough", |_| {
        if ways >= 2_500 && bent >= 800 && left <= 30 { Ok(()) } else { Err(format!("{ways} ways, {bent} with bends, {left} left")) }
    });
}

pub fn charges(p: &impl Planner, report: &mut Report) {
    known(p, report);
    random_yards(p, report);
    refusals(p, report);
}
