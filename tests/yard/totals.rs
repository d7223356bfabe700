//! Totals: words worked out by hand; edits over totals, pairs and routes that are wrong, after which the words are a recount
//! of the pairs and routes that are left; the check of every wrong word and every wrong length; and yards redrawn from
//! their records.

use crate::random::{self, Random, Style, FULL, STYLES};
use crate::reference::{self, Book};
use crate::tables::{pair_index, Edit, Planner, Tables, FIGURE, PAIRS, SUM, TOTALS};
use crate::{all_answer_one, random_yard, same_answer, same_tables, spoil_totals, started, Report};
use std::collections::BTreeMap;

/// A recount of tables as they stand: every byte of pairs under its value, of which the first 24 are blocks; and the
/// lengths of the routes whose state is found, which may be too much for 32 bits where routes are wrong.
fn recount(t: &Tables) -> Vec<u64> {
    let mut bytes = [0; 256];
    t.pairs.iter().for_each(|&byte| bytes[byte as usize] += 1);
    let found = (0..24).map(|m| t.route(m)).filter(|route| route.0 == 1);
    bytes[..24].iter().copied().chain([found.map(|route| u64::from(route.1)).sum()]).collect()
}

fn recounted(t: &Tables) -> bool {
    t.totals.iter().map(|&word| u64::from(word)).eq(recount(t))
}

fn same_words(what: &str, got: &[u32], right: &[u32]) -> Result<(), String> {
    if got == right { Ok(()) } else { Err(format!("{what}: totals {got:?}, should be {right:?}")) }
}

/// An edit that must be done, and the totals after it that are not 0.
type Step = (Edit, &'static [(usize, u32)]);

/// Yards whose totals were worked out by hand.
fn known_rows() -> Vec<(&'static str, Vec<Step>)> {
    let block = |number: u32, [w, s, e, n]: [u16; 4]| Edit::AddBlock(number, vec![w, s, e, s, e, n, w, n]);
    let square = |number: u32| block(number, [10, 10, 20, 20]);
    let run = |number: u32, ends: [u16; 4]| Edit::AddRun(number, ends);
    vec![
        // two diagonals; from either end the two far corners, and the other end
        ("a run round a block", vec![
            (square(0), &[(0, 2)]),
            (run(0, [0, 15, 30, 15]), &[(0, 7), (SUM, 34)]),
            // 12 + 10 + 12, charged 15 each
            (Edit::SetCharge(15), &[(0, 7), (SUM, 45)]),
            (Edit::SetCharge(1000), &[(0, 7), (SUM, 3000)]),
            // a run in one place is free, and sees what run 0's first end sees
            (run(1, [0, 15, 0, 15]), &[(0, 13), (SUM, 3000)]),
            (Edit::SetCharge(0), &[(0, 13), (SUM, 34)]),
            (Edit::RemoveRun(1), &[(0, 7), (SUM, 34)]),
            // far in the north each end sees all corners but one
            (Edit::MoveBlock(0, 0, 100), &[(0, 4), (SUM, 30)]),
            (Edit::RemoveBlock(0), &[(SUM, 30)]),
            (Edit::RemoveRun(0), &[]),
        ]),
        ("the last block and the last run", vec![
            (run(23, [0, 15, 30, 15]), &[(SUM, 30)]),
            (square(23), &[(23, 7), (SUM, 34)]),
            (Edit::MoveRun(23, [0, 10, 30, 10]), &[(23, 4), (SUM, 30)]),
            (Edit::RemoveRun(23), &[(23, 2)]),
            (Edit::RemoveBlock(23), &[]),
        ]),
        // straights in the seam of two blocks name neither
        ("two blocks that touch", vec![
            (square(0), &[(0, 2)]),
            (block(1, [20, 10, 30, 20]), &[(0, 6), (1, 4)]),
            (run(0, [20, 0, 20, 30]), &[(0, 8), (1, 6), (SUM, 40)]),
            (Edit::MoveRun(0, [20, 15, 20, 30]), &[(0, 9), (1, 7)]),
            (Edit::RemoveBlock(0), &[(1, 5), (SUM, 15)]),
        ]),
        // a straight through both names the lower alone
        ("two slabs in a row", vec![
            (block(5, [10, 0, 12, 20]), &[(5, 2)]),
            (block(2, [20, 0, 22, 20]), &[(2, 6), (5, 4)]),
            (run(0, [0, 10, 40, 10]), &[(2, 15), (5, 8), (SUM, 48)]),
            (Edit::RemoveBlock(2), &[(5, 7), (SUM, 47)]),
        ]),
        ("a run with no way", vec![
            (square(7), &[(7, 2)]),
            (run(1, [0, 0, 3, 4]), &[(7, 4), (SUM, 5)]),
            // from inside the block everything is hidden
            (run(0, [15, 15, 30, 15]), &[(7, 14), (SUM, 5)]),
            (Edit::SetCharge(6), &[(7, 14), (SUM, 6)]),
            (Edit::RemoveBlock(7), &[(SUM, 21)]),
            (Edit::SetCharge(0), &[(SUM, 20)]),
            (Edit::RemoveRun(0), &[(SUM, 5)]),
            (Edit::RemoveRun(1), &[]),
        ]),
    ]
}

/// The 25 words, of which these are not 0.
fn words(rows: &[(usize, u32)]) -> Vec<u32> {
    let mut all = vec![0; TOTALS];
    rows.iter().for_each(|&(at, word)| all[at] = word);
    all
}

fn known(p: &impl Planner, report: &mut Report) {
    for (name, steps) in known_rows() {
        for spoiled in [false, true] {
            report.case(&format!("totals, {name}, spoiled before each edit: {spoiled}"), |calls| {
                let (mut t, mut book, mut r) = (started(p)?, Book::new(), Random::new(21));
                for (e, rows) in &steps {
                    if spoiled {
                        spoil_totals(&mut r, &mut t);
                    }
                    *calls += 2;
                    same_answer(&format!("{e:?}"), p.edit(&mut t, e), book.step(e))?;
                    same_words(&format!("{e:?}"), &t.totals, &words(rows))?;
                    same_tables(&format!("{e:?}"), &t, &book.drawing())?;
                    same_answer("check", p.check(&t), 0)?;
                }
                Ok(())
            });
        }
    }
    report.case("seams in the yard of two blocks that touch", |_| {
        let mut book = Book::new();
        for (e, _) in &known_rows()[2].1[..3] {
            book.step(e);
        }
        match book.drawing().pairs.iter().filter(|&&byte| byte == 253).count() {
            25 => Ok(()),
            count => Err(format!("{count} straights in the seam")),
        }
    });
    report.case("start sets totals to 0", |calls| {
        for word in [0, 1, 0xABCD_ABCD, u32::MAX] {
            let mut t = Tables { totals: vec![word; TOTALS], ..Tables::unstarted() };
            *calls += 1;
            same_answer("start", p.start(&mut t), 0)?;
            same_words("start", &t.totals, &[0; TOTALS])?;
        }
        Ok(())
    });
}

fn done(e: &Edit) -> &'static str {
    match e {
        Edit::AddBlock(..) => "block added",
        Edit::RemoveBlock(_) => "block removed",
        Edit::MoveBlock(..) => "block moved",
        Edit::AddRun(..) => "run added",
        Edit::RemoveRun(_) => "run removed",
        Edit::MoveRun(..) => "run moved",
        Edit::SetCharge(_) => "figure set",
    }
}

/// How many of the cases that a test names were met.
#[derive(Default)]
struct Seen(BTreeMap<&'static str, usize>);

impl Seen {
    fn add(&mut self, what: &'static str, is: bool) {
        *self.0.entry(what).or_default() += is as usize;
    }

    /// What an accepted edit was given, and what it left to count.
    fn accepted(&mut self, e: &Edit, before: &Tables, after: &Tables, book: &Book) {
        self.add(done(e), true);
        self.add(if recounted(before) { "over right totals" } else { "over totals that are no recount" }, true);
        self.add("totals as they were", before.totals == after.totals);
        let changed = (0..TOTALS).filter(|&at| before.totals[at] != after.totals[at]).count();
        self.add("one total changed", changed == 1);
        self.add("every total changed", changed == TOTALS);
        let found = |t: &Tables, state: u32| (0..24).any(|m| t.route(m).0 == state && t.route(m).1 > 0);
        self.add("over a length of no way", found(before, 2));
        self.add("over a length of an absent run", found(before, 0));
        self.add("over lengths that are too much for 32 bits", recount(before)[SUM] > u32::MAX.into());
        self.add("a run with no way left", (0..24).any(|m| after.route(m).0 == 2));
        let marks = book.marks();
        let hidden = (0..240).flat_map(|j| (0..j).map(move |i| (i, j))).filter(|&(i, j)| after.pairs[pair_index(i, j)] < 24);
        self.add("a block named for absent marks", hidden.into_iter().any(|(i, j)| marks[i].is_none() || marks[j].is_none()));
        self.add("an absent block named", (0..24).any(|n| book.blocks[n].is_empty() && after.totals[n] > 0));
        self.add("bytes from 24 to 252 left", after.pairs.iter().any(|byte| (24..=252).contains(byte)));
        self.add("bytes 253 left", after.pairs.contains(&253));
    }

    fn often_enough(&self, report: &mut Report, rows: &[(&'static str, usize)]) {
        report.case("totals of every kind often enough", |_| {
            let count = |what: &str| self.0.get(what).copied().unwrap_or(0);
            let few: Vec<String> = rows.iter().filter(|row| count(row.0) < row.1).map(|row| format!("only {} of '{}'", count(row.0), row.0)).collect();
            if few.is_empty() && self.0.len() == rows.len() { Ok(()) } else { Err(format!("{} kinds, {}", self.0.len(), few.join(", "))) }
        });
    }
}

/// Routes of any state with any length.
fn spoil_routes(r: &mut Random, t: &mut Tables) {
    for words in t.routes.chunks_mut(197) {
        words[0] = r.pick(&[0, 1, 1, 1, 2, 2, 3, 256, u32::MAX]);
        let any = r.next() as u32;
        words[1] = r.pick(&[0, 1, 34, 46_340, 1 << 31, u32::MAX, any]);
    }
}

/// Bytes of pairs of any value, those of absent marks too.
fn spoil_pairs(r: &mut Random, t: &mut Tables) {
    for _ in 0..1 + r.below(3000) {
        t.pairs[r.below(PAIRS)] = r.next() as u8;
    }
}

/// Totals, the tables that they are made from, or nothing.
fn spoil_some(r: &mut Random, t: &mut Tables) {
    if r.percent(70) {
        spoil_totals(r, t);
    }
    if r.percent(40) {
        spoil_routes(r, t);
    }
    if r.percent(30) {
        spoil_pairs(r, t);
    }
}

/// An edit over tables right or wrong: totals are then a recount of what it leaves, or every table is as it was.
fn edited(p: &impl Planner, t: &mut Tables, book: &mut Book, e: &Edit, seen: &mut Seen, calls: &mut usize) -> Result<(), String> {
    let before = t.clone();
    let (answer, right) = (p.edit(t, e), book.step(e));
    *calls += 1;
    same_answer(&format!("{e:?}"), answer, right)?;
    if right != 0 {
        seen.add(if recounted(&before) { "refused over right totals" } else { "refused over totals that are no recount" }, true);
        return same_tables(&format!("{e:?} refused"), t, &before);
    }
    if !recounted(t) {
        return Err(format!("{e:?}: totals {:?}, a recount gives {:?}", t.totals, recount(t)));
    }
    seen.accepted(e, &before, t, book);
    Ok(())
}

/// Edits over tables that are spoiled before each; after some of them every table against the second planner.
fn spoiled(p: &impl Planner, r: &mut Random, s: &Style, seen: &mut Seen, calls: &mut usize) -> Result<(), String> {
    let (mut book, mut t) = random_yard(r, s, 40);
    for k in 0..12 {
        spoil_some(r, &mut t);
        let e = random::edit(r, s, &book);
        let due = (k % 4 == 0).then(|| reference::edited(&t, &e).1);
        edited(p, &mut t, &mut book, &e, seen, calls)?;
        due.map_or(Ok(()), |due| same_tables(&format!("{e:?}"), &t, &due))?;
    }
    Ok(())
}

/// A random yard of any kind.
pub fn one(p: &impl Planner, r: &mut Random, calls: &mut usize) -> Result<(), String> {
    let s = random::any_style(r);
    spoiled(p, r, &s, &mut Seen::default(), calls)?;
    redrawn(p, r, &s, calls)
}

fn random_yards(p: &impl Planner, report: &mut Report) {
    let mut seen = Seen::default();
    for (at, s) in STYLES.iter().chain(&FULL).enumerate() {
        for seed in 0..if s.blocks == 24 { 6 } else { 30 } {
            report.case(&format!("totals, {}, seed {seed}", s.name), |calls| {
                let mut r = Random::new(12_000_000 + 1000 * at as u64 + seed);
                spoiled(p, &mut r, s, &mut seen, calls)
            });
        }
    }
    seen.often_enough(report, &OFTEN);
}

/// How often at least the random yards meet each case.
const OFTEN: [(&str, usize); 22] = [
    ("block added", 500),
    ("block removed", 240),
    ("block moved", 900),
    ("run added", 420),
    ("run removed", 140),
    ("run moved", 260),
    ("figure set", 110),
    ("over right totals", 260),
    ("over totals that are no recount", 2_300),
    ("refused over right totals", 80),
    ("refused over totals that are no recount", 750),
    ("totals as they were", 20),
    ("one total changed", 30),
    ("every total changed", 900),
    ("over a length of no way", 1_100),
    ("over a length of an absent run", 1_000),
    ("over lengths that are too much for 32 bits", 1_000),
    ("a run with no way left", 1_400),
    ("a block named for absent marks", 2_000),
    ("an absent block named", 1_900),
    ("bytes from 24 to 252 left", 2_000),
    ("bytes 253 left", 1_100),
];

/// A yard that the check answers 0, made by edits, and drawn again from its records in any order: the same words.
fn redrawn(p: &impl Planner, r: &mut Random, s: &Style, calls: &mut usize) -> Result<(), String> {
    let mut t = started(p)?;
    for e in random::list(r, s, 60) {
        *calls += 1;
        p.edit(&mut t, &e);
        spoil_totals(r, &mut t);
    }
    let figure = Edit::SetCharge(t.figure());
    same_answer("the figure that stands", p.edit(&mut t, &figure), 0)?;
    same_answer("check", p.check(&t), 0)?;
    let mut adds = vec![figure];
    for n in 0..24 {
        let block = &t.blocks[17 * n..17 * n + 17];
        if block[0] > 0 {
            adds.push(Edit::AddBlock(n as u32, block[1..1 + 2 * block[0] as usize].to_vec()));
        }
        if let [1, a, b, c, d] = t.runs[5 * n..5 * n + 5] {
            adds.push(Edit::AddRun(n as u32, [a, b, c, d]));
        }
    }
    for k in (1..adds.len()).rev() {
        adds.swap(k, r.below(k + 1));
    }
    let mut again = started(p)?;
    *calls += adds.len() + 2;
    adds.iter().try_for_each(|e| same_answer(&format!("{e:?}"), p.edit(&mut again, e), 0))?;
    same_words("redrawn", &again.totals, &t.totals)?;
    same_tables("redrawn", &again, &t)
}

fn redrawn_yards(p: &impl Planner, report: &mut Report) {
    for (at, s) in STYLES.iter().chain(&FULL).enumerate() {
        for seed in 0..if s.blocks == 24 { 3 } else { 10 } {
            report.case(&format!("totals redrawn, {}, seed {seed}", s.name), |calls| {
                redrawn(p, &mut Random::new(12_100_000 + 1000 * at as u64 + seed), s, calls)
            });
        }
    }
}

/// Each word wrong alone, under right pairs and routes.
fn wrong_words(p: &impl Planner, report: &mut Report) {
    for (at, s) in STYLES.iter().chain(&FULL).enumerate() {
        report.case(&format!("check of every wrong total, {}", s.name), |calls| {
            let (_, right) = random_yard(&mut Random::new(12_200_000 + at as u64), s, 60);
            same_answer("check", p.check(&right), 0)?;
            for at in 0..TOTALS {
                let word = right.totals[at];
                for other in [word.wrapping_add(1), word.wrapping_sub(1), 0, u32::MAX].into_iter().filter(|&other| other != word) {
                    let mut t = right.clone();
                    t.totals[at] = other;
                    *calls += 1;
                    same_answer(&format!("check with total {at} made {other}"), p.check(&t), 11)?;
                }
            }
            Ok(())
        });
    }
    report.case("check of totals that would be right for other pairs or routes", |calls| {
        let mut r = Random::new(12_300_000);
        for s in &STYLES {
            for _ in 0..20 {
                let (_, mut t) = random_yard(&mut r, s, 40);
                if r.percent(50) { spoil_routes(&mut r, &mut t) } else { spoil_pairs(&mut r, &mut t) }
                // as far as 32 bits go
                t.totals = recount(&t).into_iter().map(|word| word as u32).collect();
                *calls += 1;
                same_answer("check", p.check(&t), reference::checked(&t))?;
            }
        }
        Ok(())
    });
}

/// Routes whose lengths are too much for a sum of 32 bits: the check answers 11, and an edit makes them anew.
fn too_long(p: &impl Planner, report: &mut Report) {
    for length in [u32::MAX, 1 << 31, u32::MAX / 24 + 1] {
        report.case(&format!("24 stored routes of length {length}"), |calls| {
            for seed in 0..10 {
                let mut r = Random::new(12_400_000 + seed);
                let (book, right) = if seed == 0 { (Book::new(), Book::new().drawing()) } else { random_yard(&mut r, &FULL[seed as usize % 3], 60) };
                let mut t = right.clone();
                t.routes.chunks_mut(197).for_each(|words| words[..2].copy_from_slice(&[1, length]));
                for sum in [right.sum(), length.wrapping_mul(24), u32::MAX, 0] {
                    t.totals[SUM] = sum;
                    *calls += 2;
                    same_answer(&format!("check with sum {sum}"), p.check(&t), 11)?;
                    let mut after = t.clone();
                    same_answer("the figure that stands", p.edit(&mut after, &Edit::SetCharge(book.figure)), 0)?;
                    same_tables("the figure that stands", &after, &right)?;
                }
            }
            Ok(())
        });
    }
}

/// Bytes that leave one chain through all 192 corners, from one end of the yard to the other and back: the greatest sum.
fn greatest_sum(p: &impl Planner, report: &mut Report) {
    report.case("24 routes of 194 marks", |calls| {
        let mut book = Book::new();
        for n in 0..24u16 {
            let at = if n % 2 == 0 { n } else { 32767 - 12 - n };
            let octagon = [4, 0, 8, 0, 12, 4, 12, 8, 8, 12, 4, 12, 0, 8, 0, 4];
            same_answer("block", book.step(&Edit::AddBlock(n.into(), octagon.map(|c| at + c).to_vec())), 0)?;
        }
        for m in 0..24 {
            book.step(&Edit::AddRun(m, [32767, 32767, 0, 0]));
        }
        let mut t = book.drawing();
        t.pairs.fill(255);
        let corners: Vec<usize> = (0..192).map(|k| 16 * (k / 2 / 8) + 8 * (k % 2) + k / 2 % 8).collect();
        for m in 0..24 {
            let chain: Vec<usize> = [192 + 2 * m].into_iter().chain(corners.iter().copied()).chain([193 + 2 * m]).collect();
            chain.windows(2).for_each(|w| t.pairs[pair_index(w[0], w[1])] = 254);
        }
        let e = Edit::SetCharge(1000);
        let (_, due) = reference::edited(&t, &e);
        *calls += 1;
        same_answer("edit", p.edit(&mut t, &e), 0)?;
        same_tables("edit", &t, &due)?;
        if t.sum() > 213_600_000 && t.totals[..SUM] == [0; SUM] { Ok(()) } else { Err(format!("totals {:?}", t.totals)) }
    });
}

/// Totals of every other length, over records right and wrong: question 1, and it comes first.
fn wrong_lengths(p: &impl Planner, report: &mut Report) {
    for words in (0..=60).filter(|&words| words != TOTALS) {
        report.case(&format!("{words} words of totals"), |calls| {
            let mut r = Random::new(12_500_000 + words as u64);
            let (_, mut t) = random_yard(&mut r, &STYLES[1], 30);
            t.totals.resize(words, 7);
            t.runs[FIGURE] = r.pick(&[0, 0, 1000, 1001]);
            all_answer_one(p, &mut r, t, calls)
        });
    }
}

pub fn totals(p: &impl Planner, report: &mut Report) {
    known(p, report);
    random_yards(p, report);
    redrawn_yards(p, report);
    wrong_words(p, report);
    too_long(p, report);
    greatest_sum(p, report);
    wrong_lengths(p, report);
}
