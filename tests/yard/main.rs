//! Tests of the yard planner: the rows of docs/RULES.md, and random yards against a second planner.

#[cfg(not(plain))]
#[path = "../../bindings/abi.rs"]
mod abi;
#[cfg(not(plain))]
mod bends;
mod charges;
#[cfg(not(plain))]
#[path = "../files/converter.rs"]
mod converter;
#[cfg(not(plain))]
mod converting;
mod degenerate;
mod duct_router;
mod duct_yards;
#[cfg(not(plain))]
mod ducts;
#[cfg(not(plain))]
mod empty_lists;
#[cfg(not(plain))]
#[path = "../files/files.rs"]
mod files;
mod fuzz;
#[cfg(not(plain))]
mod lent;
#[cfg(not(plain))]
#[path = "../../bindings/linked.rs"]
mod linked;
#[cfg(not(plain))]
mod move_quotes;
#[cfg(not(plain))]
mod pieces;
#[cfg(plain)]
mod plain_planner;
#[cfg(not(plain))]
mod quotes;
mod random;
#[cfg(not(plain))]
#[path = "../files/reader.rs"]
mod reader;
#[cfg(not(plain))]
mod reading;
mod rectangles;
mod reference;
#[cfg(not(plain))]
mod replaying;
mod seams;
#[cfg(not(plain))]
mod share_calls;
#[cfg(not(plain))]
mod share_rows;
#[cfg(not(plain))]
mod shares;
#[path = "../../bindings/tables.rs"]
mod tables;
mod totals;
mod trials;

use random::{Random, Style, FULL, STYLES};
use reference::Book;
use std::panic::{catch_unwind, AssertUnwindSafe};
use std::time::Instant;
use tables::{Edit, Planner, Tables, BLOCKS, FIGURE, PAIRS, ROUTES, RUNS, TOTALS};

#[cfg(not(plain))]
fn planner() -> impl Planner {
    linked::Linked
}

#[cfg(plain)]
fn planner() -> impl Planner {
    plain_planner::Plain
}

/// The counts of one run of the tests, and the failures shown so far.
pub struct Report {
    passed: usize,
    failed: usize,
    group: (usize, usize, usize),
    since: Instant,
}

impl Report {
    /// Count one case; a failure says what went wrong.
    pub fn case(&mut self, name: &str, run: impl FnOnce(&mut usize) -> Result<(), String>) {
        let mut calls = 0;
        let outcome = catch_unwind(AssertUnwindSafe(|| run(&mut calls))).unwrap_or_else(|e| {
            let text = e.downcast_ref::<String>().cloned().or(e.downcast_ref::<&str>().map(|s| s.to_string()));
            Err(format!("stopped: {}", text.unwrap_or_default()))
        });
        self.group.2 += calls;
        match outcome {
            Ok(()) => self.group.0 += 1,
            Err(why) => {
                self.group.1 += 1;
                if self.group.1 <= 3 {
                    println!("FAILED {name}: {why}");
                }
            }
        }
    }

    fn end_group(&mut self, name: &str) {
        let (passed, failed, calls) = self.group;
        println!("tests/yard {name}: {passed} passed, {failed} failed ({calls} calls, {:.1} s)", self.since.elapsed().as_secs_f64());
        self.passed += passed;
        self.failed += failed;
        self.group = (0, 0, 0);
        self.since = Instant::now();
    }
}

/// A started yard.
pub fn started(p: &impl Planner) -> Result<Tables, String> {
    let mut t = Tables::unstarted();
    same_answer("start", p.start(&mut t), 0)?;
    same_tables("start", &t, &Book::new().drawing())?;
    Ok(t)
}

pub fn same_answer(what: &str, got: u32, right: u32) -> Result<(), String> {
    if got == right {
        Ok(())
    } else {
        Err(format!("{what}: answer {got}, should be {right}"))
    }
}

pub fn same_tables(what: &str, got: &Tables, right: &Tables) -> Result<(), String> {
    match got.difference(right) {
        None => Ok(()),
        Some(why) => Err(format!("{what}: {why}")),
    }
}

/// Feed a list of edits to the planner and to the book. Every answer and every table must agree.
fn replay(p: &impl Planner, edits: &[Edit], calls: &mut usize) -> Result<Tables, String> {
    let mut t = started(p)?;
    let mut book = Book::new();
    for (at, e) in edits.iter().enumerate() {
        let what = format!("edit {} {e:?}", at + 1);
        let before = t.clone();
        let (answer, right) = (p.edit(&mut t, e), book.step(e));
        *calls += 1;
        same_answer(&what, answer, right)?;
        same_tables(&what, &t, &if right == 0 { book.drawing() } else { before })?;
    }
    Ok(t)
}

/// The failure of a list, with as few edits as can be found in a while.
fn shrunk(p: &impl Planner, edits: &[Edit], why: String) -> String {
    let begin = Instant::now();
    let (mut edits, mut why) = (edits.to_vec(), why);
    let mut part = edits.len() / 2;
    while part > 0 && begin.elapsed().as_secs() < 20 {
        let mut at = 0;
        while at < edits.len() && begin.elapsed().as_secs() < 20 {
            let mut fewer = edits.clone();
            fewer.drain(at..(at + part).min(edits.len()));
            match catch_unwind(AssertUnwindSafe(|| replay(p, &fewer, &mut 0))) {
                Ok(Err(text)) => (edits, why) = (fewer, text),
                _ => at += part,
            }
        }
        part /= 2;
    }
    let lines: Vec<String> = edits.iter().map(|e| format!("  {e:?}")).collect();
    format!("{why}\nthe edits:\n{}", lines.join("\n"))
}

/// A list and a check after it; if it goes wrong, fewer edits that do, where that is asked for.
fn random_list(p: &impl Planner, edits: &[Edit], shrink: bool, calls: &mut usize) -> Result<(), String> {
    match replay(p, edits, calls) {
        Ok(t) => same_answer("check after the list", p.check(&t), 0),
        Err(why) if shrink => Err(shrunk(p, edits, why)),
        Err(why) => Err(why),
    }
}

fn random_lists(p: &impl Planner, report: &mut Report, styles: &[Style], lists: usize, count: usize) {
    for (k, s) in styles.iter().enumerate() {
        for l in 0..lists {
            let seed = 1000 * (k as u64 + 1) + l as u64 + count as u64 * 1_000_000;
            let first = report.group.1 == 0;
            report.case(&format!("{} seed {seed}", s.name), |calls| {
                let edits = random::list(&mut Random::new(seed), s, count);
                random_list(p, &edits, first, calls)
            });
        }
    }
}

/// A drawn yard and its book.
fn random_yard(r: &mut Random, s: &Style, count: usize) -> (Book, Tables) {
    let mut book = Book::new();
    for e in random::list(r, s, count) {
        book.step(&e);
    }
    let t = book.drawing();
    (book, t)
}

/// Wrong bytes of pairs and wrong words of routes and totals, of several kinds.
fn spoil(r: &mut Random, t: &mut Tables) {
    match r.below(5) {
        0 => t.pairs.iter_mut().for_each(|b| *b = r.next() as u8),
        1 => t.pairs.iter_mut().for_each(|b| *b = r.pick(&[0, 1, 2, 5, 12, 23, 24, 25, 128, 253, 254, 254, 254, 255])),
        2 => t.pairs.fill(r.pick(&[0, 7, 23, 24, 253, 254, 255])),
        _ => {
            for _ in 0..1 + r.below(2000) {
                let at = r.below(PAIRS);
                t.pairs[at] = r.pick(&[0, 1, 2, 3, 23, 24, 200, 253, 254, 254, 255]);
            }
        }
    }
    if r.percent(70) {
        t.routes.iter_mut().for_each(|w| *w = r.next() as u32);
    }
    if r.percent(70) {
        spoil_totals(r, t);
    }
}

/// Words of totals that are wrong, but for luck: all of them, some, or one.
fn spoil_totals(r: &mut Random, t: &mut Tables) {
    let at = r.below(TOTALS);
    match r.below(7) {
        0 => t.totals.iter_mut().for_each(|w| *w = r.next() as u32),
        1 => t.totals.fill(r.pick(&[0, 1, u32::MAX])),
        2 => t.totals.iter_mut().for_each(|w| *w = w.wrapping_add(1)),
        3 => t.totals[at] = t.totals[at].wrapping_add(r.pick(&[1, u32::MAX])),
        4 => t.totals[at] = r.pick(&[0, 7, u32::MAX]),
        5 => t.totals.rotate_left(1),
        _ => (0..6).for_each(|_| t.totals[r.below(TOTALS)] = r.next() as u32),
    }
}

fn spoiled_tables(p: &impl Planner, report: &mut Report) {
    for seed in 1..=400u64 {
        let s = if seed % 10 == 0 { FULL[seed as usize / 10 % 3] } else { STYLES[seed as usize % 10] };
        report.case(&format!("spoiled, {}, seed {seed}", s.name), |calls| {
            let mut r = Random::new(seed ^ 0x5B01_1ED0);
            let (mut book, mut t) = random_yard(&mut r, &s, 50);
            let mut edits = vec![];
            spoil(&mut r, &mut t);
            for _ in 0..12 {
                if r.percent(20) {
                    spoil(&mut r, &mut t);
                }
                let e = random::edit(&mut r, &s, &book);
                book.step(&e);
                edits.push(format!("{e:?}"));
                let (right, after) = reference::edited(&t, &e);
                let answer = p.edit(&mut t, &e);
                *calls += 1;
                let what = format!("edits after spoiling:\n  {}\nthe last", edits.join("\n  "));
                same_answer(&what, answer, right)?;
                same_tables(&what, &t, &after)?;
            }
            Ok(())
        });
    }
}

/// Bytes that leave one chain, through all 192 corners: the longest route there can be.
fn longest_routes(p: &impl Planner, report: &mut Report) {
    for seed in 1..=6u64 {
        report.case(&format!("a route of 194 marks, seed {seed}"), |calls| {
            let mut r = Random::new(seed);
            let mut book = Book::new();
            for n in 0..24u16 {
                // octagons in two far corners of the yard
                let at = if n % 2 == 0 { n } else { 32767 - 12 - n };
                let octagon = [4, 0, 8, 0, 12, 4, 12, 8, 8, 12, 4, 12, 0, 8, 0, 4];
                same_answer("block", book.step(&Edit::AddBlock(n as u32, octagon.map(|c| at + c).to_vec())), 0)?;
            }
            for m in 0..3 {
                book.step(&Edit::AddRun(m, [32767, 32767, 0, 0]));
            }
            // corners of even and of odd blocks in turn, for the greatest length
            let mut order: Vec<usize> = (0..192).map(|k| 16 * (k / 2 / 8) + 8 * (k % 2) + k / 2 % 8).collect();
            if seed > 2 {
                for k in (1..192).rev() {
                    order.swap(k, r.below(k + 1));
                }
            }
            let mut t = book.drawing();
            t.pairs.fill(if seed % 2 == 0 { 255 } else { 23 });
            for m in [0, 2] {
                let chain: Vec<usize> = [192 + 2 * m].into_iter().chain(order.iter().copied()).chain([193 + 2 * m]).collect();
                chain.windows(2).for_each(|w| t.pairs[tables::pair_index(w[0], w[1])] = 254);
            }
            let e = Edit::RemoveRun(1);
            let (right, after) = reference::edited(&t, &e);
            same_answer("edit", p.edit(&mut t, &e), right)?;
            *calls += 1;
            same_tables("edit", &t, &after)?;
            match t.route(2) {
                (1, length, marks) if marks.len() == 194 && (seed > 2 || length > 8_900_000) => Ok(()),
                other => Err(format!("route {other:?}")),
            }
        });
    }
}

/// Every call once, with arguments that are right or wrong.
fn every_edit(r: &mut Random) -> Vec<Edit> {
    let n = r.pick(&[0, 1, 23, 24, 1000]);
    vec![
        Edit::AddBlock(n, vec![10, 10, 20, 10, 20, 20, 10, 20]),
        Edit::AddBlock(n, vec![]),
        Edit::RemoveBlock(n),
        Edit::MoveBlock(n, 1, -1),
        Edit::AddRun(n, [0, 15, 30, 15]),
        Edit::RemoveRun(n),
        Edit::MoveRun(n, [0, 15, 30, 40000]),
        Edit::SetCharge(500),
        Edit::SetCharge(1001),
    ]
}

/// Tables of wrong lengths: every call answers 1 and changes nothing.
fn all_answer_one(p: &impl Planner, r: &mut Random, mut t: Tables, calls: &mut usize) -> Result<(), String> {
    let before = t.clone();
    for e in every_edit(r) {
        *calls += 1;
        same_answer(&format!("{e:?}"), p.edit(&mut t, &e), 1)?;
        same_tables(&format!("{e:?}"), &t, &before)?;
    }
    *calls += 2;
    same_answer("check", p.check(&t), 1)?;
    same_answer("start", p.start(&mut t), 1)?;
    same_tables("start", &t, &before)
}

fn wrong_lengths(p: &impl Planner, report: &mut Report) {
    let lengths = |right: usize| [0, 1, right / 2, right - 1, right + 1, right + 17, 2 * right];
    for seed in 0..35u64 {
        let (table, kind) = ((seed / 7) as usize, (seed % 7) as usize);
        report.case(&format!("wrong lengths, seed {seed}"), |calls| {
            let mut r = Random::new(seed);
            let (_, mut t) = random_yard(&mut r, &STYLES[1], 30);
            match table {
                0 => t.blocks.resize(lengths(BLOCKS)[kind], 0),
                1 => t.runs.resize(lengths(RUNS)[kind], 0),
                2 => t.pairs.resize(lengths(PAIRS)[kind], 255),
                3 => t.routes.resize(lengths(ROUTES)[kind], 0),
                _ => t.totals.resize(lengths(TOTALS)[kind], 0),
            }
            // Question 1 comes before 2.
            if r.percent(50) && !t.blocks.is_empty() {
                t.blocks[0] = 9;
            }
            all_answer_one(p, &mut r, t, calls)
        });
    }
    report.case("all five empty", |calls| {
        let t = Tables { blocks: vec![], runs: vec![], pairs: vec![], routes: vec![], totals: vec![] };
        all_answer_one(p, &mut Random::new(1), t, calls)
    });
    report.case("two lengths exchanged", |calls| {
        let mut t = Book::new().drawing();
        std::mem::swap(&mut t.blocks, &mut t.runs);
        all_answer_one(p, &mut Random::new(2), t, calls)
    });
}

/// Change some words of the records.
fn scramble(r: &mut Random, t: &mut Tables) {
    let word = |r: &mut Random| r.pick(&[0, 1, 2, 3, 4, 8, 9, 15, 100, 32767, 32768, 65535, 12345]);
    match r.below(9) {
        0 => t.blocks.iter_mut().for_each(|w| *w = r.next() as u16),
        1 => t.runs.iter_mut().for_each(|w| *w = r.next() as u16),
        2 => {
            let n = r.below(24);
            (17 * n..17 * n + 17).for_each(|at| t.blocks[at] = r.below(16) as u16);
        }
        3 => {
            let n = r.below(24);
            t.blocks[17 * n] = word(r);
        }
        4 => {
            let m = r.below(24);
            t.runs[5 * m] = word(r);
        }
        5 => {
            let at = r.below(RUNS);
            t.runs[at] = word(r);
        }
        6 => {
            let at = r.below(BLOCKS);
            t.blocks[at] = t.blocks[at].wrapping_add(r.pick(&[1, 65535, 2, 5]));
        }
        7 => t.runs[FIGURE] = r.pick(&[1, 500, 1000, 1001, 1024, 65535]),
        _ => {
            let at = r.below(BLOCKS);
            t.blocks[at] = word(r);
        }
    }
}

fn wrong_records(p: &impl Planner, report: &mut Report) {
    let mut refused = 0;
    for seed in 1..=300u64 {
        let s = STYLES[seed as usize % 10];
        report.case(&format!("records, seed {seed}"), |calls| {
            let mut r = Random::new(seed ^ 0x0EC0_0D50);
            let (mut book, mut t) = random_yard(&mut r, &s, 40);
            scramble(&mut r, &mut t);
            if let Some(stored) = reference::stored_book(&t) {
                book = stored;
            } else {
                refused += 1;
            }
            for k in 0..4 {
                let e = if k == 0 { every_edit(&mut r).swap_remove(r.below(9)) } else { random::edit(&mut r, &s, &book) };
                let (right, after) = reference::edited(&t, &e);
                let words = format!("{e:?} over blocks {:?} runs {:?}", t.blocks, t.runs);
                let answer = p.edit(&mut t, &e);
                *calls += 1;
                same_answer(&words, answer, right)?;
                same_tables(&words, &t, &after)?;
                book.step(&e);
            }
            *calls += 1;
            same_answer(&format!("check over blocks {:?} runs {:?}", t.blocks, t.runs), p.check(&t), reference::checked(&t))
        });
    }
    report.case("records refused often enough", |_| if refused > 100 { Ok(()) } else { Err(format!("only {refused} of 300")) });
}

fn checks(p: &impl Planner, report: &mut Report) {
    for seed in 1..=40u64 {
        let s = if seed % 8 == 0 { FULL[seed as usize / 8 % 3] } else { STYLES[seed as usize % 10] };
        report.case(&format!("check, {}, seed {seed}", s.name), |calls| {
            let mut r = Random::new(seed ^ 0xC4EC);
            let (book, t) = random_yard(&mut r, &s, 60);
            same_answer("check of a drawn yard", p.check(&t), 0)?;
            for _ in 0..25 {
                let (mut byte, mut word) = (t.clone(), t.clone());
                let at = r.below(PAIRS);
                byte.pairs[at] = byte.pairs[at].wrapping_add(1 + r.below(255) as u8);
                same_answer(&format!("check with pair byte {at} made {}", byte.pairs[at]), p.check(&byte), 11)?;
                // a word of a present run's route half of the time
                let run = (0..24).find(|&m| !book.runs[(m + seed as usize) % 24].is_empty()).map_or(0, |m| (m + seed as usize) % 24);
                let at = if r.percent(50) { 197 * run + r.below(8) } else { r.below(ROUTES) };
                word.routes[at] = word.routes[at].wrapping_add(r.pick(&[1, u32::MAX, 256, 0x8000_0000, 7]));
                same_answer(&format!("check with route word {at} made {}", word.routes[at]), p.check(&word), 11)?;
                let (mut total, at) = (t.clone(), r.below(TOTALS));
                total.totals[at] = total.totals[at].wrapping_add(r.pick(&[1, u32::MAX, 256, 0x8000_0000, 7]));
                same_answer(&format!("check with total {at} made {}", total.totals[at]), p.check(&total), 11)?;
                *calls += 3;
            }
            Ok(())
        });
    }
    report.case("first and last entries", |calls| {
        let (_, t) = random_yard(&mut Random::new(77), &STYLES[2], 60);
        for at in [0, 1, 2, PAIRS - 2, PAIRS - 1] {
            let mut byte = t.clone();
            byte.pairs[at] ^= 1;
            same_answer("check", p.check(&byte), 11)?;
        }
        for at in [0, 1, 196, 197, ROUTES - 1] {
            let mut word = t.clone();
            word.routes[at] ^= 1;
            same_answer("check", p.check(&word), 11)?;
        }
        for at in [0, 1, TOTALS - 2, TOTALS - 1] {
            let mut word = t.clone();
            word.totals[at] ^= 1;
            same_answer("check", p.check(&word), 11)?;
        }
        *calls += 14;
        Ok(())
    });
    report.case("another equal route is not the route", |calls| {
        // S from both sides: the way over marks 3 and 2 is as long as that over 0 and 1.
        let mut book = Book::new();
        book.step(&Edit::AddBlock(0, vec![10, 10, 20, 10, 20, 20, 10, 20]));
        book.step(&Edit::AddRun(0, [0, 15, 30, 15]));
        let mut t = book.drawing();
        t.routes[4] = 3;
        t.routes[5] = 2;
        *calls += 1;
        same_answer("check", p.check(&t), 11)
    });
}

/// The second planner's own parts against a third way.
fn own_parts(report: &mut Report) {
    report.case("hiding two ways", |calls| {
        let mut r = Random::new(5);
        for k in 0..400_000 {
            let s = STYLES[k % 10];
            let corners = random::good_corners(&mut r, &s);
            let end = |r: &mut Random| match r.below(3) {
                0 => corners[r.below(corners.len())],
                _ => (r.between(s.low, s.high), r.between(s.low, s.high)),
            };
            let (a, b) = (end(&mut r), end(&mut r));
            *calls += 1;
            if reference::hides(&corners, a, b) != reference::hides_by_cutting(&corners, a, b) {
                return Err(format!("{corners:?} {a:?} {b:?}"));
            }
        }
        Ok(())
    });
    report.case("roots", |calls| {
        let mut r = Random::new(6);
        for _ in 0..200_000 {
            let (a, b) = ((r.between(0, 32767), r.between(0, 32767)), (r.between(0, 32767), r.between(0, 32767)));
            let (w, square) = (reference::length(a, b), ((a.0 - b.0).pow(2) + (a.1 - b.1).pow(2)) as u64);
            *calls += 1;
            if w * w < square || (w > 0 && (w - 1) * (w - 1) >= square) {
                return Err(format!("{a:?} {b:?} {w}"));
            }
        }
        Ok(())
    });
}

fn main() {
    let words: Vec<u64> = std::env::args().skip(1).filter_map(|w| w.parse().ok()).collect();
    let [seconds, seed] = words[..] else {
        eprintln!("tests/yard: the words are a number of seconds and a seed");
        std::process::exit(2);
    };
    let p = planner();
    let mut report = Report { passed: 0, failed: 0, group: (0, 0, 0), since: Instant::now() };
    std::panic::set_hook(Box::new(|_| {}));
    trials::trial_yards(&p, &mut report);
    report.end_group("trial yards");
    trials::shortcuts(&p, &mut report);
    report.end_group("shortcuts");
    own_parts(&mut report);
    seams::own_parts(&mut report);
    charges::own_parts(&mut report);
    report.end_group("the second planner's parts");
    rectangles::edges(&p, &mut report);
    report.end_group("edges of rectangles");
    random_lists(&p, &mut report, &STYLES, 9, 300);
    report.end_group("random lists of edits");
    random_lists(&p, &mut report, &FULL, 4, 200);
    report.end_group("random lists, full yards");
    degenerate::degenerate(&p, &mut report);
    report.end_group("degenerate yards, small and stretched");
    seams::seams(&p, &mut report);
    report.end_group("seams");
    charges::charges(&p, &mut report);
    report.end_group("charges");
    totals::totals(&p, &mut report);
    report.end_group("totals");
    spoiled_tables(&p, &mut report);
    longest_routes(&p, &mut report);
    report.end_group("spoiled pairs, routes and totals");
    wrong_lengths(&p, &mut report);
    report.end_group("wrong table lengths");
    wrong_records(&p, &mut report);
    report.end_group("wrong records");
    checks(&p, &mut report);
    report.end_group("check");
    duct_yards::two_ways(&mut report);
    report.end_group("the second duct router's parts");
    #[cfg(not(plain))]
    {
        reading::reading(&mut report);
        report.end_group("reading");
        replaying::replaying(&mut report);
        report.end_group("replays");
        converting::converting(&mut report);
        report.end_group("conversions");
        empty_lists::empty_lists(&mut report);
        report.end_group("lists that are NULL");
        ducts::ducts(&mut report);
        report.end_group("ducts");
        quotes::quotes(&mut report);
        report.end_group("quotes");
        move_quotes::move_quotes(&mut report);
        report.end_group("quotes of moves");
        pieces::pieces(&mut report);
        report.end_group("pieces");
        shares::shares(&mut report);
        report.end_group("shares");
    }
    fuzz::fuzz(&p, &mut report, seconds, seed);
    report.end_group("fuzzing");
    println!("tests/yard: {} passed, {} failed", report.passed, report.failed);
    std::process::exit(if report.failed == 0 { 0 } else { 1 });
}
