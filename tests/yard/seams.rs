//! Seams: small yards on a coarse lattice whose blocks touch by a side or a corner, overlap, lie in one another or are equal,
//! with runs onto and along their seams, beside yards whose blocks are apart. Every answer and every byte against the
//! second planner.

use crate::degenerate::{end, moved, on_lattice, relative, words, Stretch};
use crate::duct_yards::cut_box;
use crate::random::{good_corners, Random, Style, STYLES};
use crate::rectangles;
use crate::reference::{self, clear, clear_by_cutting, hides, in_seam, in_seam_by_cutting, Book, Place};
use crate::tables::{pair_index, Edit, Planner, Tables};
use crate::{same_answer, same_tables, started, Report};
use std::collections::{BTreeMap, BTreeSet};

const SEAM: u8 = 253;
const CLEAR: u8 = 254;
const ABSENT: u8 = 255;

fn turn(p: Place, q: Place, d: Place) -> i64 {
    (q.0 - p.0) * (d.1 - p.1) - (q.1 - p.1) * (d.0 - p.0)
}

fn sides(corners: &[Place]) -> impl Iterator<Item = (Place, Place)> + '_ {
    corners.iter().copied().zip(corners.iter().copied().cycle().skip(1))
}

/// Whether a place belongs to a block.
fn belongs(place: Place, corners: &[Place]) -> bool {
    !corners.is_empty() && sides(corners).all(|(p, q)| turn(p, q, place) >= 0)
}

/// Whether the line of a side of one block keeps the other off; strictly, or with points on the line allowed.
fn kept_off(one: &[Place], other: &[Place], strictly: bool) -> bool {
    sides(one).any(|(p, q)| other.iter().all(|&c| turn(p, q, c) < !strictly as i64))
}

/// How two blocks lie to each other: with no point in common, touching, or with more in common.
#[derive(Clone, Copy, Debug, PartialEq, Eq, PartialOrd, Ord)]
enum Meeting {
    Apart,
    ByCorner,
    BySide,
    Across,
    Inside,
    Equal,
}

fn meeting(one: &[Place], other: &[Place]) -> Meeting {
    let within = |a: &[Place], b: &[Place]| a.iter().all(|&c| belongs(c, b));
    let off = |strictly: bool| kept_off(one, other, strictly) || kept_off(other, one, strictly);
    let common = || one.iter().chain(other).filter(|&&c| belongs(c, one) && belongs(c, other)).collect::<BTreeSet<_>>().len();
    match (within(one, other), within(other, one)) {
        (true, true) => Meeting::Equal,
        (true, false) | (false, true) => Meeting::Inside,
        _ if off(true) => Meeting::Apart,
        _ if !off(false) => Meeting::Across,
        _ if common() > 1 => Meeting::BySide,
        _ => Meeting::ByCorner,
    }
}

fn standing(book: &Book) -> Vec<usize> {
    (0..24).filter(|&n| !book.blocks[n].is_empty()).collect()
}

/// Whether no two blocks share a point.
fn all_apart(book: &Book) -> bool {
    let all = standing(book);
    all.iter().all(|&n| all.iter().all(|&m| m >= n || meeting(&book.blocks[n], &book.blocks[m]) == Meeting::Apart))
}

/// How many of the cases that a test names were met.
#[derive(Default)]
struct Seen(BTreeMap<String, usize>);

impl Seen {
    fn add(&mut self, what: impl Into<String>) {
        *self.0.entry(what.into()).or_default() += 1;
    }

    fn often_enough(&self, report: &mut Report, rows: &[(&str, usize)]) {
        report.case("seams of every kind often enough", |_| {
            let count = |what: &str| self.0.get(what).copied().unwrap_or(0);
            let few: Vec<String> = rows.iter().filter(|row| count(row.0) < row.1).map(|row| format!("only {} of {:?}", count(row.0), row.0)).collect();
            if few.is_empty() { Ok(()) } else { Err(few.join(", ")) }
        });
    }
}

/// A kind of yard, on a lattice of so many steps.
#[derive(Clone, Copy)]
struct Kind {
    name: &'static str,
    span: i64,
    size: i64,
    blocks: usize,
    /// Blocks that share a point with one before are left out.
    apart: bool,
}

const KINDS: [Kind; 6] = [
    Kind { name: "4 steps", span: 4, size: 3, blocks: 4, apart: false },
    Kind { name: "6 steps", span: 6, size: 4, blocks: 6, apart: false },
    Kind { name: "8 steps, large blocks", span: 8, size: 8, blocks: 5, apart: false },
    Kind { name: "8 steps, many small blocks", span: 8, size: 2, blocks: 10, apart: false },
    Kind { name: "9 steps, apart", span: 9, size: 3, blocks: 6, apart: true },
    Kind { name: "12 steps, apart", span: 12, size: 6, blocks: 5, apart: true },
];

/// Records of a yard before they are edits, in steps of the lattice.
struct Plan {
    kind: Kind,
    blocks: BTreeMap<u32, Vec<Place>>,
    edits: Vec<Edit>,
}

impl Plan {
    fn fits(&self, number: u32, corners: &[Place]) -> bool {
        let others = self.blocks.iter().filter(|other| *other.0 != number);
        on_lattice(corners, self.kind.span) && (!self.kind.apart || others.into_iter().all(|other| meeting(other.1, corners) == Meeting::Apart))
    }

    /// A block that has to do with one before, or a new one; none after some that do not fit.
    fn block(&self, r: &mut Random) -> Option<Vec<Place>> {
        let s = Style { name: "", low: 0, high: self.kind.span, size: self.kind.size, blocks: 0, runs: 0 };
        let all: Vec<&Vec<Place>> = self.blocks.values().collect();
        let any = |r: &mut Random| {
            let at = r.below(all.len().max(1));
            match r.below(20) {
                0 if s.size > 2 => cut_box(r, s.high, s.size),
                k if k < 4 || all.is_empty() => good_corners(r, &s),
                _ => relative(r, all[at]),
            }
        };
        (0..20).map(|_| any(r)).find(|corners| self.fits(24, corners))
    }

    fn anywhere(&self, r: &mut Random) -> Place {
        (r.between(0, self.kind.span), r.between(0, self.kind.span))
    }

    /// Places that belong to two blocks, inside none.
    fn on_seams(&self) -> Vec<Place> {
        let all = (0..=self.kind.span).flat_map(|e| (0..=self.kind.span).map(move |n| (e, n)));
        let blocks = || self.blocks.values();
        all.filter(|&p| blocks().filter(|b| belongs(p, b)).count() > 1 && !blocks().any(|b| hides(b, p, p))).collect()
    }

    /// On a seam, in one place, along a side or past it, or near blocks.
    fn ends(&self, r: &mut Random) -> [u16; 4] {
        let (seams, all) = (self.on_seams(), self.blocks.values().collect::<Vec<_>>());
        let near = |r: &mut Random| {
            let at = r.below(all.len().max(1));
            if all.is_empty() { self.anywhere(r) } else { end(r, all[at], self.kind.span) }
        };
        let first = if !seams.is_empty() && r.percent(25) { r.pick(&seams) } else { near(r) };
        let second = match r.below(10) {
            0 => first,
            1..=3 => self.anywhere(r),
            4 if !seams.is_empty() => r.pick(&seams),
            _ => near(r),
        };
        let mut both = [first, second];
        if !all.is_empty() && r.percent(25) {
            let corners = all[r.below(all.len())];
            let (p, q) = sides(corners).nth(r.below(corners.len())).unwrap_or((first, second));
            let past = |p: Place, q: Place| Some((2 * q.0 - p.0, 2 * q.1 - p.1)).filter(|&c| on_lattice(&[c], self.kind.span)).unwrap_or(q);
            both = [past(q, p), past(p, q)];
        }
        let ends = words(&both);
        [ends[0], ends[1], ends[2], ends[3]]
    }

    fn add_block(&mut self, r: &mut Random) {
        let number = r.below(24) as u32;
        if let (false, Some(corners)) = (self.blocks.contains_key(&number), self.block(r)) {
            self.edits.push(Edit::AddBlock(number, words(&corners)));
            self.blocks.insert(number, corners);
        }
    }

    fn move_block(&mut self, r: &mut Random, number: u32) {
        let from = self.blocks[&number].clone();
        let others: Vec<&Vec<Place>> = self.blocks.values().collect();
        let onto = others[r.below(others.len())];
        let (c, d) = (from[r.below(from.len())], onto[r.below(onto.len())]);
        let by = if r.percent(50) { (r.between(-1, 1), r.between(-1, 1)) } else { (d.0 - c.0, d.1 - c.1) };
        let to = moved(&from, by);
        if self.fits(number, &to) {
            self.edits.push(Edit::MoveBlock(number, by.0 as i16, by.1 as i16));
            self.blocks.insert(number, to);
        }
    }

    fn edit(&mut self, r: &mut Random) {
        let numbers: Vec<u32> = self.blocks.keys().copied().collect();
        let run = r.below(3) as u32;
        match r.below(12) {
            0 => self.edits.push(Edit::RemoveRun(run)),
            1 => self.edits.push(Edit::AddRun(run, self.ends(r))),
            2 | 3 => self.edits.push(Edit::MoveRun(run, self.ends(r))),
            4 | 5 if self.blocks.len() < self.kind.blocks => self.add_block(r),
            6 if numbers.len() > 2 => {
                let number = r.pick(&numbers);
                self.blocks.remove(&number);
                self.edits.push(Edit::RemoveBlock(number));
            }
            _ if !numbers.is_empty() => {
                let number = r.pick(&numbers);
                self.move_block(r, number);
            }
            _ => self.add_block(r),
        }
    }
}

/// Edits that make a yard of a kind and go on over it, stretched; now and then a least charge.
fn edits(r: &mut Random, kind: Kind) -> Vec<Edit> {
    let mut plan = Plan { kind, blocks: BTreeMap::new(), edits: vec![] };
    for _ in 0..kind.blocks {
        plan.add_block(r);
    }
    for run in 0..3 {
        plan.edits.push(Edit::AddRun(run, plan.ends(r)));
    }
    for _ in 0..8 {
        plan.edit(r);
    }
    let stretch = r.pick(&Stretch::all(kind.span));
    let mut edits: Vec<Edit> = plan.edits.iter().map(|e| stretch.edit(e)).collect();
    for _ in 0..r.below(3) {
        let at = r.below(edits.len() + 1);
        edits.insert(at, Edit::SetCharge(r.pick(&[0, 1, 3, 1000, 1001])));
    }
    edits
}

/// The number of a block that an edit is of.
fn edited_block(e: &Edit) -> Option<usize> {
    match e {
        Edit::AddBlock(n, _) | Edit::RemoveBlock(n) | Edit::MoveBlock(n, _, _) => Some(*n as usize),
        _ => None,
    }
}

/// The marks of each pair and what tables hold for it.
fn pairs(t: &Tables) -> impl Iterator<Item = (usize, usize, u8)> + '_ {
    (0..240).flat_map(|j| (0..j).map(move |i| (i, j))).zip(&t.pairs).map(|((i, j), &byte)| (i, j, byte))
}

impl Seen {
    /// What an accepted edit made of bytes of marks that are not its own.
    fn changes(&mut self, before: (&Book, &Tables), after: (&Book, &Tables), e: &Edit) {
        let Some(n) = edited_block(e) else { return };
        for ((i, j, old), &new) in pairs(before.1).zip(&after.1.pairs) {
            match (old, new) {
                _ if old == new || i / 8 == n || j / 8 == n => {}
                (SEAM, CLEAR) => self.partners("a seam becomes clear", before.0, n, i, j),
                (CLEAR, SEAM) => self.partners("a clear pair becomes a seam", after.0, n, i, j),
                (SEAM, 0..=23) => self.add("a seam becomes hidden by a block"),
                (0..=23, SEAM) => self.add("a pair that a block hid becomes a seam"),
                _ => {}
            }
        }
    }

    /// Whether the block that was edited has the lower or the higher number of the two that share a point.
    fn partners(&mut self, what: &str, with: &Book, n: usize, i: usize, j: usize) {
        let marks = with.marks();
        let (Some(a), Some(b)) = (marks[i], marks[j]) else { return };
        for m in standing(with).into_iter().filter(|&m| m != n) {
            if in_seam_by_cutting(&[with.blocks[n].clone(), with.blocks[m].clone()], a, b) {
                self.add(format!("{what}, the edited number {}", if n < m { "lower" } else { "higher" }));
            }
        }
    }

    /// The kinds of seams in a drawing.
    fn drawn(&mut self, book: &Book, t: &Tables) {
        let (marks, all) = (book.marks(), standing(book));
        all.iter().for_each(|&n| self.add(format!("blocks of {} corners", book.blocks[n].len())));
        for (i, j, _) in pairs(t).filter(|pair| pair.2 == SEAM) {
            self.add(["seam between corners", "seam from a corner to an end", "seam between ends"][(i >= 192) as usize + (j >= 192) as usize]);
            let (Some(a), Some(b)) = (marks[i], marks[j]) else { continue };
            if a == b {
                self.add("seam at one place");
            }
            // those of runs alone: there are many others
            for (&n, &m) in all.iter().filter(|_| j >= 192).flat_map(|n| all.iter().map(move |m| (n, m))).filter(|(n, m)| n < m) {
                let two = [book.blocks[n].clone(), book.blocks[m].clone()];
                if in_seam_by_cutting(&two, a, b) {
                    self.add(format!("seam {:?}", meeting(&two[0], &two[1])));
                    self.add(if m == n + 1 { "seam of neighbouring numbers" } else { "seam of numbers far apart" });
                }
            }
        }
    }
}

/// An end that belongs to two blocks has no way.
fn ends_on_seams(book: &Book, t: &Tables, seen: &mut Seen) -> Result<(), String> {
    for (m, ends) in book.runs.iter().enumerate() {
        let twice = |p: &&Place| book.blocks.iter().filter(|b| belongs(**p, b)).count() > 1;
        if let Some(p) = ends.iter().find(twice) {
            seen.add("end on a seam");
            if !book.blocks.iter().any(|b| hides(b, *p, *p)) {
                seen.add("end on a seam, inside no block");
            }
            if t.routes[197 * m..197 * m + 197] != [&[2][..], &[0; 196]].concat() {
                return Err(format!("run {m} from {:?} to {:?} has a way", ends[0], ends[1]));
            }
        }
    }
    Ok(())
}

/// The edits one by one, each byte against the book's drawing.
fn drawn_yard(p: &impl Planner, edits: &[Edit], seen: &mut Seen, calls: &mut usize) -> Result<(Book, Tables), String> {
    let (mut book, mut t) = (Book::new(), started(p)?);
    for e in edits {
        let (book_before, before) = (book.clone(), t.clone());
        let (answer, right) = (p.edit(&mut t, e), book.step(e));
        *calls += 1;
        same_answer(&format!("{e:?}"), answer, right)?;
        same_tables(&format!("{e:?}"), &t, &if right == 0 { book.drawing() } else { before.clone() })?;
        if right == 0 {
            seen.changes((&book_before, &before), (&book, &t), e);
        }
    }
    seen.drawn(&book, &t);
    ends_on_seams(&book, &t, seen)?;
    Ok((book, t))
}

/// The check of a right drawing, and of one with a seam's byte made clear or a clear one a seam's.
fn checked(p: &impl Planner, r: &mut Random, t: &Tables, seen: &mut Seen, calls: &mut usize) -> Result<(), String> {
    *calls += 1;
    same_answer("check", p.check(t), 0)?;
    for (is, not) in [(SEAM, CLEAR), (CLEAR, SEAM), (SEAM, ABSENT), (SEAM, 0)] {
        let places: Vec<usize> = (0..t.pairs.len()).filter(|&at| t.pairs[at] == is).collect();
        if places.is_empty() {
            continue;
        }
        let mut other = t.clone();
        other.pairs[r.pick(&places)] = not;
        seen.add(format!("check of {is} made {not}"));
        *calls += 1;
        same_answer(&format!("check with a byte {is} made {not}"), p.check(&other), 11)?;
    }
    Ok(())
}

/// Some bytes of pairs made others, most often such that the edit of block n treats in its own way.
fn spoil(r: &mut Random, t: &mut Tables, n: u8) {
    let bytes = [SEAM, SEAM, CLEAR, CLEAR, n, n, ABSENT, 252, 24, 0, 23, (n + 1) % 24, n.saturating_sub(1)];
    let share = r.pick(&[3, 30, 100]);
    for byte in t.pairs.iter_mut() {
        if share == 100 || r.percent(share) {
            *byte = r.pick(&bytes);
        }
    }
}

/// What an accepted edit over spoiled tables made of each kind of byte, of marks that are not its own.
fn spoiled_kinds(book: &Book, e: &Edit, before: &Tables, after: &Tables, seen: &mut Seen) {
    const OLD: [&str; 3] = ["253", "254", "other byte"];
    const NEW: [&str; 5] = ["the same", "a block's", "a seam's", "clear", "absent"];
    let there: Vec<bool> = book.marks().iter().map(|mark| mark.is_some()).collect();
    let mut counts = [[[0; 5]; 2]; 3];
    for ((i, j, old), &new) in pairs(before).zip(&after.pairs) {
        let own = match (edited_block(e), e) {
            (Some(n), _) => i / 8 == n || j / 8 == n,
            (None, Edit::SetCharge(_)) => false,
            (None, _) => i >= 192 || j >= 192,
        };
        let is = [old == SEAM, old == CLEAR, old > 23].iter().position(|&is| is);
        let becomes = [new == old, new < 24, new == SEAM, new == CLEAR].iter().position(|&is| is).unwrap_or(4);
        if let (Some(is), false) = (is, own) {
            counts[is][(there[i] && there[j]) as usize][becomes] += 1;
        }
    }
    let edit = match (edited_block(e), e) {
        (Some(_), _) => "block's",
        (None, Edit::SetCharge(_)) => "figure's",
        (None, _) => "run's",
    };
    for (is, old) in OLD.iter().enumerate() {
        for (there, marks) in ["absent", "present"].iter().enumerate() {
            for (becomes, new) in NEW.iter().enumerate() {
                *seen.0.entry(format!("{old} of {marks} marks, after a {edit} edit {new}")).or_default() += counts[is][there][becomes];
            }
        }
    }
}

/// Edits over tables with wrong bytes.
fn spoiled(p: &impl Planner, r: &mut Random, drawn: (&Book, &Tables), edits: &[Edit], seen: &mut Seen, calls: &mut usize) -> Result<(), String> {
    let (mut book, mut t) = (drawn.0.clone(), drawn.1.clone());
    for k in 0..5 {
        let numbers = standing(&book);
        let number = if numbers.is_empty() { r.below(24) } else { r.pick(&numbers) } as u32;
        let e = match r.below(8) {
            0..=3 => Edit::MoveBlock(number, r.between(-1, 1) as i16, r.between(-1, 1) as i16),
            4 => Edit::MoveBlock(number, 0, 0),
            5 => Edit::RemoveBlock(number),
            _ => edits[r.below(edits.len())].clone(),
        };
        let n = edited_block(&e).map_or(5, |n| n as u8 % 24);
        if k == 0 || r.percent(40) {
            spoil(r, &mut t, n);
        }
        let before = t.clone();
        let (right, after) = reference::edited(&t, &e);
        let answer = p.edit(&mut t, &e);
        *calls += 1;
        let what = || format!("{e:?} over spoiled pairs of blocks {:?} runs {:?}", before.blocks, before.runs);
        same_answer(&what(), answer, right)?;
        same_tables(&what(), &t, &after)?;
        book.step(&e);
        if right == 0 {
            spoiled_kinds(&book, &e, &before, &t, seen);
        }
    }
    Ok(())
}

/// A yard drawn before seams were hidden: the same bytes where no two blocks share a point, and else a block's edit draws
/// it anew, by whichever block.
fn drawn_before(p: &impl Planner, r: &mut Random, book: &Book, seen: &mut Seen, calls: &mut usize) -> Result<(), String> {
    let (mut old, new) = (book.drawing_before_seams(), book.drawing());
    let apart = all_apart(book);
    match (apart, old == new) {
        (true, true) => seen.add("blocks apart, the same drawing"),
        (true, false) => return Err("no two blocks share a point, and the drawing is another".to_string()),
        (false, true) => seen.add("blocks that share a point, the same drawing"),
        (false, false) => seen.add("blocks that share a point, another drawing"),
    }
    *calls += 1;
    same_answer("check of the drawing before seams", p.check(&old), if old == new { 0 } else { 11 })?;
    if let [_, ..] = standing(book)[..] {
        let n = r.pick(&standing(book));
        *calls += 1;
        same_answer("move", p.edit(&mut old, &Edit::MoveBlock(n as u32, 0, 0)), 0)?;
        same_tables("a move by nothing over the drawing before seams", &old, &new)?;
    }
    Ok(())
}

/// What the calls that quote and draw make of a yard.
#[cfg(not(plain))]
fn quoted(r: &mut Random, k: u64, book: &Book, t: &Tables, seen: &mut Seen, calls: &mut usize) -> Result<(), String> {
    crate::quotes::as_stored(r, t, calls)?;
    if standing(book).len() <= 8 {
        let ways = crate::ducts::every_run(r, book, calls)?;
        ways.iter().for_each(|way| seen.add(if *way { "duct" } else { "no duct" }));
    }
    if k % 25 == 0 {
        seen.add("drawn pieces");
        crate::pieces::every_run(r, book, calls)?;
    }
    Ok(())
}

#[cfg(plain)]
fn quoted(_: &mut Random, _: u64, _: &Book, _: &Tables, _: &mut Seen, _: &mut usize) -> Result<(), String> {
    Ok(())
}

/// What moves of its blocks would cost.
#[cfg(not(plain))]
fn moves_quoted(r: &mut Random, book: &Book, t: &Tables, calls: &mut usize) -> Result<(), String> {
    crate::move_quotes::of_yard(r, book, t, 1, calls)
}

#[cfg(plain)]
fn moves_quoted(_: &mut Random, _: &Book, _: &Tables, _: &mut usize) -> Result<(), String> {
    Ok(())
}

fn yard(p: &impl Planner, r: &mut Random, k: u64, kind: Kind, seen: &mut Seen, calls: &mut usize) -> Result<(), String> {
    let edits = edits(r, kind);
    let shown = |why: String| format!("{why}\nthe edits:\n{}", edits.iter().map(|e| format!("  {e:?}")).collect::<Vec<_>>().join("\n"));
    let (book, t) = drawn_yard(p, &edits, seen, calls).map_err(shown)?;
    checked(p, r, &t, seen, calls).map_err(shown)?;
    drawn_before(p, r, &book, seen, calls).map_err(shown)?;
    quoted(r, k, &book, &t, seen, calls).map_err(shown)?;
    spoiled(p, r, (&book, &t), &edits, seen, calls).map_err(shown)?;
    moves_quoted(r, &book, &t, calls).map_err(shown)
}

/// A random yard of any kind.
pub fn one(p: &impl Planner, r: &mut Random, calls: &mut usize) -> Result<(), String> {
    let kind = r.pick(&KINDS);
    yard(p, r, 1, kind, &mut Seen::default(), calls)
}

fn random_yards(p: &impl Planner, report: &mut Report) {
    let mut seen = Seen::default();
    for (at, kind) in KINDS.iter().enumerate() {
        for group in 0..10 {
            report.case(&format!("seams, {}, yards from {}", kind.name, 30 * group), |calls| {
                (30 * group..30 * group + 30).try_for_each(|k| {
                    let mut r = Random::new(10_000_000 + 100_000 * at as u64 + k);
                    yard(p, &mut r, k, *kind, &mut seen, calls).map_err(|why| format!("yard {k}: {why}"))
                })
            });
        }
    }
    seen.often_enough(report, &OFTEN);
    #[cfg(not(plain))]
    seen.often_enough(report, &[("duct", 500), ("no duct", 500), ("drawn pieces", 50)]);
}

/// How often at least the random yards meet each case.
const OFTEN: [(&str, usize); 50] = [
    ("seam between corners", 60_000),
    ("seam from a corner to an end", 25_000),
    ("seam between ends", 2_000),
    ("seam at one place", 10_000),
    ("seam ByCorner", 30_000),
    ("seam BySide", 40_000),
    ("seam Across", 15_000),
    ("seam Inside", 20_000),
    ("seam Equal", 35_000),
    ("seam of neighbouring numbers", 12_000),
    ("seam of numbers far apart", 100_000),
    ("end on a seam", 1_300),
    ("end on a seam, inside no block", 1_000),
    ("a seam becomes clear, the edited number lower", 4_000),
    ("a seam becomes clear, the edited number higher", 3_500),
    ("a clear pair becomes a seam, the edited number lower", 5_500),
    ("a clear pair becomes a seam, the edited number higher", 5_500),
    ("a seam becomes hidden by a block", 20_000),
    ("a pair that a block hid becomes a seam", 10_000),
    ("blocks of 3 corners", 1_700),
    ("blocks of 4 corners", 2_900),
    ("blocks of 5 corners", 500),
    ("blocks of 6 corners", 150),
    ("blocks of 7 corners", 30),
    ("blocks of 8 corners", 400),
    ("check of 253 made 254", 750),
    ("check of 253 made 255", 750),
    ("check of 253 made 0", 750),
    ("check of 254 made 253", 1_100),
    ("blocks apart, the same drawing", 400),
    ("blocks that share a point, another drawing", 750),
    ("blocks that share a point, the same drawing", 8),
    ("253 of present marks, after a block's edit the same", 100_000),
    ("253 of present marks, after a block's edit clear", 10_000),
    ("253 of present marks, after a block's edit a block's", 30_000),
    ("253 of absent marks, after a block's edit absent", 1_000_000),
    ("254 of present marks, after a block's edit the same", 90_000),
    ("254 of present marks, after a block's edit a seam's", 10_000),
    ("254 of present marks, after a block's edit a block's", 30_000),
    ("254 of absent marks, after a block's edit absent", 1_000_000),
    ("other byte of present marks, after a block's edit the same", 80_000),
    ("other byte of present marks, after a block's edit a block's", 15_000),
    ("other byte of absent marks, after a block's edit the same", 1_000_000),
    ("253 of present marks, after a run's edit the same", 5_000),
    ("254 of present marks, after a run's edit the same", 5_000),
    ("253 of absent marks, after a run's edit the same", 100_000),
    ("254 of absent marks, after a run's edit the same", 100_000),
    ("253 of present marks, after a figure's edit the same", 4_500),
    ("254 of present marks, after a figure's edit the same", 3_500),
    ("other byte of present marks, after a figure's edit the same", 3_500),
];

/// Two blocks on a grid of ten places each way, and how they lie to each other.
const TWO: [(Meeting, &[Place], &[Place]); 12] = [
    (Meeting::BySide, &[(2, 2), (5, 2), (5, 6), (2, 6)], &[(5, 2), (8, 2), (8, 6), (5, 6)]),
    (Meeting::BySide, &[(2, 2), (5, 2), (5, 6), (2, 6)], &[(5, 4), (8, 3), (8, 8), (5, 8)]),
    (Meeting::BySide, &[(1, 1), (8, 2), (3, 8)], &[(8, 2), (8, 8), (3, 8)]),
    (Meeting::ByCorner, &[(2, 2), (5, 2), (5, 5), (2, 5)], &[(5, 5), (8, 5), (8, 8), (5, 8)]),
    (Meeting::ByCorner, &[(2, 2), (5, 2), (5, 6), (2, 6)], &[(5, 4), (8, 2), (8, 7)]),
    (Meeting::ByCorner, &[(4, 1), (7, 4), (4, 7), (1, 4)], &[(7, 4), (9, 3), (9, 6)]),
    (Meeting::Across, &[(2, 4), (8, 4), (8, 6), (2, 6)], &[(4, 2), (6, 2), (6, 8), (4, 8)]),
    (Meeting::Across, &[(2, 2), (6, 2), (6, 6), (2, 6)], &[(4, 2), (8, 2), (8, 6), (4, 6)]),
    (Meeting::Inside, &[(2, 2), (8, 2), (8, 8), (2, 8)], &[(4, 2), (6, 2), (6, 5), (4, 5)]),
    (Meeting::Inside, &[(2, 2), (8, 2), (8, 8), (2, 8)], &[(2, 2), (8, 5), (5, 8)]),
    (Meeting::Equal, &[(4, 1), (7, 4), (4, 7), (1, 4)], &[(7, 4), (4, 7), (1, 4), (4, 1)]),
    (Meeting::Apart, &[(2, 2), (5, 2), (2, 6)], &[(3, 6), (5, 3), (5, 6)]),
];

/// Every straight of a grid past two blocks, under numbers in either order.
fn grids(p: &impl Planner, report: &mut Report) {
    for (k, &(how, one, other)) in TWO.iter().enumerate() {
        report.case(&format!("every straight past two blocks, {how:?}, pair {k}"), |calls| {
            if meeting(one, other) != how || meeting(other, one) != how {
                return Err(format!("{:?}", meeting(one, other)));
            }
            let mut seams = 0;
            for (first, second) in [(k, 23 - k / 2), (k + 3, k + 2)] {
                for runs in rectangles::run_pairs() {
                    let mut book = Book::new();
                    book.blocks[first] = one.to_vec();
                    book.blocks[second] = other.to_vec();
                    book.runs[..runs.len()].clone_from_slice(&runs);
                    let right = book.drawing();
                    *calls += 2;
                    same_answer("check", p.check(&right), 0)?;
                    let mut t = book.drawing_before_seams();
                    same_answer("move", p.edit(&mut t, &Edit::MoveBlock(first as u32, 0, 0)), 0)?;
                    same_tables("a move by nothing", &t, &right)?;
                    seams += right.pairs.iter().filter(|&&byte| byte == SEAM).count();
                }
            }
            if (seams > 0) == (how != Meeting::Apart) { Ok(()) } else { Err(format!("{seams} straights in a seam")) }
        });
    }
}

/// Bytes worked out by hand: blocks, the straight, and its byte.
fn known(p: &impl Planner, report: &mut Report) {
    let bar = |w: u16, s: u16, e: u16, n: u16| vec![w, s, e, s, e, n, w, n];
    let square = || bar(10, 10, 20, 20);
    let rows: [(&str, Vec<Vec<u16>>, [u16; 4], u8); 22] = [
        ("in the seam", vec![square(), bar(20, 10, 30, 20)], [20, 0, 20, 30], SEAM),
        ("onto the seam's end", vec![square(), bar(20, 10, 30, 20)], [20, 0, 20, 10], SEAM),
        ("short of the seam's end", vec![square(), bar(20, 10, 30, 20)], [20, 0, 20, 9], CLEAR),
        ("across the seam's end", vec![square(), bar(20, 10, 30, 20)], [0, 10, 40, 10], SEAM),
        ("through the seam's end aslant", vec![square(), bar(20, 10, 30, 20)], [19, 9, 21, 11], 1),
        ("past the seam's end", vec![square(), bar(20, 10, 30, 20)], [0, 9, 40, 9], CLEAR),
        ("one place in the seam", vec![square(), bar(20, 10, 30, 20)], [20, 15, 20, 15], SEAM),
        ("one place at the seam's end", vec![square(), bar(20, 10, 30, 20)], [20, 20, 20, 20], SEAM),
        ("along a side up to the seam", vec![square(), bar(20, 10, 30, 20)], [10, 10, 20, 10], SEAM),
        ("along a side short of it", vec![square(), bar(20, 10, 30, 20)], [10, 10, 19, 10], CLEAR),
        ("a step of sides", vec![square(), bar(20, 15, 30, 25)], [20, 0, 20, 30], SEAM),
        ("between sides that only face", vec![square(), bar(21, 10, 31, 20)], [20, 0, 20, 30], CLEAR),
        ("in line, a side of each", vec![square(), bar(20, 21, 30, 31)], [20, 0, 20, 40], CLEAR),
        ("corner at corner", vec![square(), bar(20, 20, 30, 30)], [10, 30, 30, 10], SEAM),
        ("corner at corner, along a side of each", vec![square(), bar(20, 20, 30, 30)], [20, 0, 20, 40], SEAM),
        ("past the two corners", vec![square(), bar(20, 20, 30, 30)], [0, 10, 40, 10], CLEAR),
        ("a corner on a side", vec![square(), vec![20, 15, 30, 10, 30, 20]], [20, 10, 20, 14], CLEAR),
        ("onto a corner on a side", vec![square(), vec![20, 15, 30, 10, 30, 20]], [20, 10, 20, 15], SEAM),
        ("twice the same, a side", vec![square(), square()], [0, 10, 30, 10], SEAM),
        ("twice the same, a corner", vec![square(), square()], [0, 20, 20, 0], SEAM),
        ("inside another, a common side", vec![square(), bar(12, 10, 15, 13)], [0, 10, 12, 10], SEAM),
        ("inside another, the rest of the side", vec![square(), bar(12, 10, 15, 13)], [0, 10, 11, 10], CLEAR),
    ];
    for (name, blocks, straight, byte) in rows {
        report.case(&format!("seams, {name}"), |calls| {
            let back = [straight[2], straight[3], straight[0], straight[1]];
            for (numbers, ends) in [([0, 1], straight), ([0, 1], back), ([3, 22], straight)] {
                let mut t = started(p)?;
                let adds = blocks.iter().zip(numbers).map(|(corners, n)| Edit::AddBlock(n, corners.clone()));
                for e in adds.chain([Edit::AddRun(0, ends)]) {
                    *calls += 1;
                    same_answer(&format!("{e:?}"), p.edit(&mut t, &e), 0)?;
                }
                let due = if byte < 24 { numbers[byte as usize] as u8 } else { byte };
                if t.pairs[pair_index(192, 193)] != due {
                    return Err(format!("{ends:?}: byte {}, should be {due}", t.pairs[pair_index(192, 193)]));
                }
            }
            Ok(())
        });
    }
}

/// The second planner's parts: three ways to find a seam.
pub fn own_parts(report: &mut Report) {
    report.case("seams three ways", |calls| {
        let (mut r, mut found) = (Random::new(7), [0; 3]);
        for k in 0..100_000 {
            let s = STYLES[k % 10];
            let mut blocks = vec![good_corners(&mut r, &s)];
            for _ in 0..1 + r.below(3) {
                let of = blocks[r.below(blocks.len())].clone();
                blocks.push(if r.percent(30) { good_corners(&mut r, &s) } else { relative(&mut r, &of) });
            }
            let corners: Vec<Place> = blocks.concat();
            let any = |r: &mut Random| if r.percent(60) { r.pick(&corners) } else { (r.between(s.low, s.high), r.between(s.low, s.high)) };
            let (a, b) = (any(&mut r), any(&mut r));
            let seam = in_seam(&blocks, a, b);
            *calls += 1;
            if seam != in_seam_by_cutting(&blocks, a, b) || clear(&blocks, a, b) != clear_by_cutting(&blocks, a, b) {
                return Err(format!("{blocks:?} {a:?} {b:?}"));
            }
            let hidden = blocks.iter().any(|c| hides(c, a, b));
            found[if hidden { 0 } else { 1 + seam as usize }] += 1;
            if !hidden && seam != in_seam_at_places(&blocks, a, b) {
                return Err(format!("{blocks:?} {a:?} {b:?} at places"));
            }
        }
        if found.iter().all(|&n| n > 10_000) { Ok(()) } else { Err(format!("{found:?}")) }
    });
    report.case("blocks apart two ways", |calls| {
        let (mut r, mut found) = (Random::new(8), BTreeMap::new());
        for k in 0..50_000 {
            let s = STYLES[k % 10];
            let one = good_corners(&mut r, &s);
            let other = if r.percent(40) { good_corners(&mut r, &s) } else { relative(&mut r, &one) };
            let how = meeting(&one, &other);
            *found.entry(how).or_insert(0) += 1;
            *calls += 1;
            // a side of one that touches the other, or one inside the other
            let touching = sides(&one).any(|(p, q)| reference::touches(&other, p, q));
            let inside = belongs(other[0], &one);
            if (touching || inside) == (how == Meeting::Apart) {
                return Err(format!("{how:?}: {one:?} {other:?}"));
            }
        }
        if found.len() == 6 && found.values().all(|&n| n > 300) { Ok(()) } else { Err(format!("{found:?}")) }
    });
}

/// Where no block hides the straight, it touches each at a corner, along a side or with an end: what two have in common
/// then has an end of the straight or a corner in it.
fn in_seam_at_places(blocks: &[Vec<Place>], a: Place, b: Place) -> bool {
    let between = |c: &Place| turn(a, b, *c) == 0 && (c.0 - a.0) * (c.0 - b.0) <= 0 && (c.1 - a.1) * (c.1 - b.1) <= 0;
    let places = [a, b].into_iter().chain(blocks.iter().flatten().copied().filter(between));
    places.into_iter().any(|c| blocks.iter().filter(|corners| belongs(c, corners)).count() > 1)
}

pub fn seams(p: &impl Planner, report: &mut Report) {
    known(p, report);
    grids(p, report);
    random_yards(p, report);
}
