//! Calls in a contractor's name: the number and every byte of tables and holders against the second set of these calls. Terms
//! on both sides of every limit; histories of four contractors, with what is promised tried after every call; lists with any
//! contents, and of any length.

use crate::linked::Linked;
use crate::random::{self, Random, Style, FULL, STYLES};
use crate::reference::{self, stored_book, Book};
use crate::share_calls::{same_holders, Lent, CONTRACTORS, NOBODY, NUMBERS};
use crate::share_rows::{add, add_outside, every_kind, holding, known, remove, shift, shift_outside, ALL, NONE, NO_NUMBERS, STRANGERS};
use crate::tables::{Edit, Planner, Tables, BLOCKS, PAIRS, ROUTES, RUNS, TOTALS};
use crate::{random_yard, same_answer, same_tables, scramble, spoil, started, Report};

/// How often each number was met.
type Met = [usize; 21];

/// Each of these numbers at least so often, and no other.
fn often_enough(report: &mut Report, what: &str, met: &Met, rows: &[(usize, usize)]) {
    report.case(&format!("{what}, every number often enough"), |_| {
        let least = |n: usize| rows.iter().find(|row| row.0 == n).map(|row| row.1);
        let seldom = (0..met.len()).filter(|&n| least(n).map_or(met[n] > 0, |least| met[n] < least));
        let seldom: Vec<String> = seldom.map(|n| format!("{n} met {} times", met[n])).collect();
        if seldom.is_empty() { Ok(()) } else { Err(seldom.join(", ")) }
    });
}

/// Any holders of a yard's runs, shares that the free numbers are enough for, and ceilings that nobody is above. One contractor
/// holds more than the others, and one may be promised all that is promised.
fn fitting(r: &mut Random, tables: Tables) -> Lent {
    let busy = r.below(4) as u8;
    let mut holder = |m: usize| if tables.runs[5 * m] == 0 { NOBODY } else { r.pick(&[0, 1, 2, 3, busy, busy]) };
    let holders = (0..NUMBERS).map(&mut holder).collect();
    let mut lent = Lent { tables, holders, shares: vec![0; CONTRACTORS], ceilings: vec![0; CONTRACTORS] };
    let tally = lent.tally();
    let free = tally[usize::from(NOBODY)] as usize;
    let promised = match r.below(4) {
        0 => r.below(free + 1),
        1 => free.saturating_sub(1),
        _ => free,
    };
    let (favoured, alone) = (r.below(4), r.percent(50));
    let mut most: Vec<u8> = tally[..CONTRACTORS].iter().map(|&held| held as u8).collect();
    (0..promised).for_each(|_| most[if alone { favoured } else { r.below(4) }] += 1);
    for (c, &most) in most.iter().enumerate() {
        lent.shares[c] = if i64::from(most) > tally[c] { most } else { r.below(usize::from(most) + 1) as u8 };
        lent.ceilings[c] = most.saturating_add(r.pick(&[0, 0, 1, 3, 24, 255]));
    }
    lent
}

/// A share or a ceiling made another by one, some runs another's, or nothing.
fn nudge(r: &mut Random, lent: &mut Lent) {
    let (c, by) = (r.below(4), r.pick(&[1, 255]));
    match r.below(7) {
        0 | 1 => lent.shares[c] = lent.shares[c].wrapping_add(by),
        2 => lent.ceilings[c] = lent.ceilings[c].wrapping_add(by),
        3 => lent.holders.iter_mut().filter(|holder| **holder < 4).take(c).for_each(|holder| *holder = (*holder + 1) % 4),
        _ => {}
    }
}

/// A number that has this holder, most often.
fn number_of(r: &mut Random, holders: &[u8], holder: u8) -> u32 {
    let of: Vec<u32> = (0..24).filter(|&m| holders[m as usize] == holder).collect();
    match r.below(24) {
        0 => r.pick(&NO_NUMBERS),
        1..=3 => r.below(24) as u32,
        _ if of.is_empty() => r.below(24) as u32,
        _ => r.pick(&of),
    }
}

fn contractor(r: &mut Random, turn: usize) -> u32 {
    if r.percent(4) { r.pick(&STRANGERS) } else { turn as u32 % 4 }
}

/// A call of a contractor: of a hundred so many add, and so many remove. A stranger asks for the runs of the one whose byte it
/// has.
fn call_of(r: &mut Random, holders: &[u8], contractor: u32, kinds: (usize, usize), ends: [u16; 4]) -> Edit {
    let kind = r.below(100);
    if kind < kinds.0 {
        return Edit::AddRun(number_of(r, holders, NOBODY), ends);
    }
    let own = number_of(r, holders, contractor as u8);
    if kind < kinds.0 + kinds.1 { remove(own) } else { Edit::MoveRun(own, ends) }
}

/// Terms on both sides of every limit. A coordinate is outside, so that no run is routed: 7 stands for what is granted.
fn limits(report: &mut Report) {
    let mut met = [0; 21];
    for runs in 0..=NUMBERS {
        report.case(&format!("terms at their limits, {runs} runs"), |calls| {
            let mut r = Random::new(13_000_000 + runs as u64);
            let mut book = Book::new();
            // not the first numbers alone
            (0..runs).for_each(|k| book.runs[7 * k % NUMBERS] = vec![(k as i64, 0), (9, 9)]);
            let tables = book.drawing();
            for turn in 0..400 {
                let mut lent = fitting(&mut r, tables.clone());
                nudge(&mut r, &mut lent);
                let contractor = contractor(&mut r, turn);
                let e = call_of(&mut r, &lent.holders, contractor, (85, 0), [1, 2, 3, 32768]);
                met[lent.call(contractor, &e, calls)? as usize] += 1;
            }
            Ok(())
        });
    }
    often_enough(report, "terms at their limits", &met, &[(3, 450), (4, 450), (5, 200), (7, 3_500), (18, 1_100), (19, 550), (20, 550)]);
}

/// How often histories met each number, were full, were empty again, and had a promise to try.
#[derive(Default)]
struct Seen {
    met: Met,
    full: usize,
    emptied: usize,
    promised: usize,
}

/// A yard with its holders; the yard of the same edits in nobody's name; and one whose contractors have other names.
struct History {
    style: Style,
    turn: usize,
    lent: Lent,
    plain: Tables,
    renamed: Lent,
    names: [u8; 4],
}

/// Shares and ceilings within the rules.
fn terms(r: &mut Random) -> (Vec<u8>, Vec<u8>) {
    let (mut shares, first, among) = (vec![0; CONTRACTORS], r.below(4), 1 + r.below(4));
    for _ in 0..r.pick(&[24, 24, 24, 23, 16, 5, 0]) {
        shares[(first + r.below(among)) % 4] += 1;
    }
    let ceilings = shares.iter().map(|&share| r.pick(&[share, share, share + 2, share + 6, 24, 24, 25, 255])).collect();
    (shares, ceilings)
}

/// An edit of a block or of the least charge.
fn plain_edit(r: &mut Random, s: &Style, book: &Book) -> Edit {
    if r.percent(25) {
        return Edit::SetCharge(random::figure(r, s));
    }
    loop {
        let e = random::edit(r, s, book);
        if !matches!(e, Edit::AddRun(..) | Edit::RemoveRun(_) | Edit::MoveRun(..)) {
            return e;
        }
    }
}

impl History {
    /// A started yard, then some edits of blocks.
    fn new(r: &mut Random, s: &Style, calls: &mut usize) -> Result<History, String> {
        let plain = started(&Linked)?;
        let (shares, ceilings) = terms(r);
        let mut names = [0, 1, 2, 3];
        (1..4).rev().for_each(|k| names.swap(k, r.below(k + 1)));
        let lent = Lent { tables: plain.clone(), holders: vec![NOBODY; NUMBERS], shares, ceilings };
        let mut renamed = lent.clone();
        for (c, &name) in names.iter().enumerate() {
            renamed.shares[usize::from(name)] = lent.shares[c];
            renamed.ceilings[usize::from(name)] = lent.ceilings[c];
        }
        let mut history = History { style: *s, turn: 0, lent, plain, renamed, names };
        (0..r.below(s.blocks + 1)).try_for_each(|_| history.edit(r, calls))?;
        Ok(history)
    }

    fn book(&self) -> Result<Book, String> {
        stored_book(&self.lent.tables).ok_or("wrong records".to_string())
    }

    fn free(&self) -> Vec<u32> {
        (0..24).filter(|&m| self.lent.tables.runs[5 * m as usize] == 0).collect()
    }

    /// An edit in nobody's name.
    fn edit(&mut self, r: &mut Random, calls: &mut usize) -> Result<(), String> {
        let e = plain_edit(r, &self.style, &self.book()?);
        let (number, due) = reference::edited(&self.lent.tables, &e);
        for t in [&mut self.lent.tables, &mut self.plain, &mut self.renamed.tables] {
            *calls += 1;
            same_answer(&format!("{e:?}"), Linked.edit(t, &e), number)?;
            same_tables(&format!("{e:?}"), t, &due)?;
        }
        Ok(())
    }

    fn call(&mut self, contractor: u32, e: &Edit, calls: &mut usize) -> Result<u32, String> {
        let number = self.lent.call(contractor, e, calls)?;
        if number == 0 {
            *calls += 1;
            same_answer(&format!("{e:?} in nobody's name"), Linked.edit(&mut self.plain, e), 0)?;
        }
        same_tables(&format!("{e:?} in nobody's name"), &self.plain, &self.lent.tables)?;
        let name = self.names.get(contractor as usize).map_or(contractor, |&name| name.into());
        let what = format!("{e:?} under another name");
        *calls += 1;
        same_answer(&what, self.renamed.ask(name, e), number)?;
        same_tables(&what, &self.renamed.tables, &self.lent.tables)?;
        let named = |&holder: &u8| self.names.get(usize::from(holder)).copied().unwrap_or(NOBODY);
        same_holders(&what, &self.renamed.holders, &self.lent.holders.iter().map(named).collect::<Vec<_>>())?;
        Ok(number)
    }

    /// The rules for shares, ceilings and holders, contractor by contractor.
    fn in_order(&self) -> Result<(), String> {
        let Lent { tables, holders, shares, ceilings } = &self.lent;
        let (mut sum, mut left) = (0, 0);
        for c in 0..CONTRACTORS {
            let (share, ceiling) = (usize::from(shares[c]), usize::from(ceilings[c]));
            let held = holders.iter().filter(|&&holder| usize::from(holder) == c).count();
            if share > ceiling || held > ceiling {
                return Err(format!("contractor {c} holds {held} with share {share} and ceiling {ceiling}"));
            }
            sum += share;
            left += share.saturating_sub(held);
        }
        let named = (0..NUMBERS).all(|m| if tables.runs[5 * m] == 1 { holders[m] <= 3 } else { holders[m] == NOBODY });
        if named && sum <= 24 && left <= self.free().len() { Ok(()) } else { Err(format!("{holders:?}, {left} of {sum} left")) }
    }

    /// A contractor that holds fewer runs than promised, in turn, finds a free number, and adding there is not turned down.
    fn promised(&self, r: &mut Random, seen: &mut Seen, calls: &mut usize) -> Result<(), String> {
        let tally = self.lent.tally();
        let below = (0..CONTRACTORS).map(|k| (self.turn + k) % 4).find(|&c| tally[c] < self.lent.shares[c].into());
        let Some(c) = below else { return Ok(()) };
        let free = self.free();
        if free.is_empty() {
            return Err(format!("contractor {c} finds no free number"));
        }
        let e = Edit::AddRun(r.pick(&free), [0; 4].map(|_| r.pick(&[0, 9, 500, 32767])));
        seen.promised += 1;
        *calls += 1;
        same_answer(&format!("{e:?}, promised to {c}"), self.lent.clone().ask(c as u32, &e), 0)
    }

    /// The call over a copy with wrong terms or holders, or with a run that was edited in nobody's name.
    fn wrongly(&self, r: &mut Random, contractor: u32, e: &Edit, seen: &mut Seen, calls: &mut usize) -> Result<(), String> {
        let (mut lent, c, m) = (self.lent.clone(), r.below(4), r.below(NUMBERS));
        let taken = lent.holders[m] != NOBODY;
        match r.below(6) {
            0 => (lent.shares[c], lent.ceilings[c]) = (1 + c as u8, c as u8),
            1 => (lent.shares[c], lent.ceilings[c]) = (25, 255),
            2 => lent.holders[m] = if taken { r.pick(&[4, 128, 254, 255]) } else { r.pick(&[0, 3, 4, 254]) },
            3 if taken => _ = Linked.edit(&mut lent.tables, &remove(m as u32)),
            3 => _ = Linked.edit(&mut lent.tables, &add(m as u32)),
            4 if taken => _ = Linked.edit(&mut lent.tables, &shift(m as u32)),
            _ => (lent.shares[c], lent.ceilings[c]) = (0, (lent.tally()[c] - 1).max(0) as u8),
        }
        seen.met[lent.call(contractor, e, calls)? as usize] += 1;
        Ok(())
    }

    fn step(&mut self, r: &mut Random, kinds: (usize, usize), seen: &mut Seen, calls: &mut usize) -> Result<(), String> {
        if r.percent(12) {
            self.edit(r, calls)?;
        }
        let contractor = contractor(r, self.turn);
        let ends = random::ends(r, &self.style, &self.book()?);
        let e = call_of(r, &self.lent.holders, contractor, kinds, ends);
        if r.percent(8) {
            self.wrongly(r, contractor, &e, seen, calls)?;
        }
        seen.met[self.call(contractor, &e, calls)? as usize] += 1;
        self.in_order()?;
        self.promised(r, seen, calls)?;
        self.turn += 1;
        if self.turn % 16 == 0 {
            *calls += 1;
            same_answer("check", Linked.check(&self.lent.tables), 0)?;
        }
        Ok(())
    }
}

/// The four in turn: adding until no number is free, or for a while, then removing until none is taken.
fn history(r: &mut Random, s: &Style, seen: &mut Seen, calls: &mut usize) -> Result<(), String> {
    let mut h = History::new(r, s, calls)?;
    while !h.free().is_empty() && h.turn < 120 {
        h.step(r, (80, 6), seen, calls)?;
    }
    seen.full += h.free().is_empty() as usize;
    while h.free().len() < NUMBERS && h.turn < 400 {
        h.step(r, (8, 84), seen, calls)?;
    }
    seen.emptied += (h.free().len() == NUMBERS) as usize;
    *calls += 1;
    same_answer("check", Linked.check(&h.lent.tables), 0)
}

fn histories(report: &mut Report) {
    let mut seen = Seen::default();
    for (at, s) in STYLES.iter().chain(&FULL).enumerate() {
        for seed in 0..if s.blocks == 24 { 2 } else { 6 } {
            report.case(&format!("shares, {}, seed {seed}", s.name), |calls| {
                history(&mut Random::new(13_100_000 + 1000 * at as u64 + seed), s, &mut seen, calls)
            });
        }
    }
    often_enough(report, "histories", &seen.met, &HISTORIES);
    report.case("histories that fill the yard and empty it", |_| {
        let Seen { full, emptied, promised, .. } = seen;
        let enough = full >= 40 && emptied >= 60 && promised >= 5_000;
        if enough { Ok(()) } else { Err(format!("{full} full, {emptied} emptied, {promised} promised")) }
    });
}

const HISTORIES: [(usize, usize); 8] = [(0, 3_500), (3, 550), (4, 180), (5, 1_700), (7, 80), (18, 480), (19, 650), (20, 550)];

/// Any bytes: all of them, one value for all, or one byte.
fn any_bytes(r: &mut Random, list: &mut [u8]) {
    let (any, one) = (r.next() as u8, r.below(list.len()));
    let byte = r.pick(&[0, 1, 2, 3, 4, 24, 25, 127, 128, 254, 255, any]);
    match r.below(4) {
        0 => list.iter_mut().for_each(|b| *b = r.next() as u8),
        1 => list.fill(byte),
        _ => list[one] = byte,
    }
}

/// Calls over lists with any contents. Neither 2 nor 18 looks at pairs, routes and totals.
fn spoiled(r: &mut Random, s: &Style, met: &mut Met, calls: &mut usize) -> Result<(), String> {
    let (book, t) = random_yard(r, s, 40);
    let mut lent = fitting(r, t);
    for turn in 0..12 {
        let mut other = lent.clone();
        if r.percent(60) {
            spoil(r, &mut other.tables);
        }
        if r.percent(10) {
            scramble(r, &mut other.tables);
        }
        for list in [&mut other.holders, &mut other.shares, &mut other.ceilings] {
            if r.percent(10) {
                any_bytes(r, list);
            }
        }
        let contractor = contractor(r, turn);
        let ends = random::ends(r, s, &book);
        let e = call_of(r, &other.holders, contractor, (50, 25), ends);
        let number = other.call(contractor, &e, calls)?;
        met[number as usize] += 1;
        if number == 0 {
            lent = other;
        }
    }
    Ok(())
}

fn spoiled_yards(report: &mut Report) {
    let mut met = [0; 21];
    for (at, s) in STYLES.iter().enumerate() {
        for seed in 0..40 {
            report.case(&format!("shares, spoiled, {}, seed {seed}", s.name), |calls| {
                spoiled(&mut Random::new(13_200_000 + 1000 * at as u64 + seed), s, &mut met, calls)
            });
        }
    }
    often_enough(report, "spoiled", &met, &SPOILED);
}

const SPOILED: [(usize, usize); 9] = [(0, 1_300), (2, 240), (3, 170), (4, 24), (5, 500), (7, 55), (18, 550), (19, 110), (20, 150)];

/// One of the eight lists made longer or shorter.
fn resize(lent: &mut Lent, list: usize, other: impl Fn(usize) -> usize) {
    match list {
        0 => lent.tables.blocks.resize(other(BLOCKS), 0),
        1 => lent.tables.runs.resize(other(RUNS), 0),
        2 => lent.tables.pairs.resize(other(PAIRS), 255),
        3 => lent.tables.routes.resize(other(ROUTES), 0),
        4 => lent.tables.totals.resize(other(TOTALS), 0),
        5 => lent.holders.resize(other(NUMBERS), NOBODY),
        6 => lent.shares.resize(other(CONTRACTORS), 0),
        _ => lent.ceilings.resize(other(CONTRACTORS), 24),
    }
}

/// Every call by a contractor on a number answers 1.
fn all_answer_one(lent: &mut Lent, contractor: u32, m: u32, calls: &mut usize) -> Result<(), String> {
    let every = [add(m), add_outside(m), remove(m), shift(m), shift_outside(m)];
    every.iter().try_for_each(|e| lent.answered(contractor, e, 1, calls))
}

/// Each length wrong alone, where other questions fail too, and together with another length.
fn wrong_lengths(report: &mut Report) {
    let lengths: [fn(usize) -> usize; 5] = [|_| 0, |right| right - 1, |right| right + 1, |right| 2 * right, |right| right + 256];
    for (list, k) in (0..8).flat_map(|list| (0..5).map(move |k| (list, k))) {
        report.case(&format!("shares, list {list} of another length, kind {k}"), |calls| {
            let mut r = Random::new(13_300_000 + 10 * list as u64 + k as u64);
            let right = holding([3, 2, 0, 0], [3; 4], [9; 4]);
            let (mut alone, mut wrong) = (right.clone(), right);
            scramble(&mut r, &mut wrong.tables);
            for list in [&mut wrong.holders, &mut wrong.shares, &mut wrong.ceilings] {
                any_bytes(&mut r, list);
            }
            resize(&mut alone, list, lengths[k]);
            resize(&mut wrong, list, lengths[k]);
            for (contractor, m) in [(0, 0), (1, 0), (0, 9), (4, 0), (0, 24), (u32::MAX, u32::MAX)] {
                all_answer_one(&mut alone, contractor, m, calls)?;
                all_answer_one(&mut wrong, contractor, m, calls)?;
            }
            resize(&mut alone, r.below(8), lengths[r.below(5)]);
            all_answer_one(&mut alone, 0, 0, calls)
        });
    }
    report.case("shares, lengths exchanged, and all eight empty", |calls| {
        let mut lent = holding([3, 2, 0, 0], NONE, ALL);
        std::mem::swap(&mut lent.holders, &mut lent.shares);
        all_answer_one(&mut lent, 0, 0, calls)?;
        (0..8).for_each(|list| resize(&mut lent, list, |_| 0));
        all_answer_one(&mut lent, 0, 0, calls)
    });
}

/// A random history, and a spoiled yard.
pub fn one(r: &mut Random, calls: &mut usize) -> Result<(), String> {
    let s = random::any_style(r);
    history(r, &s, &mut Seen::default(), calls)?;
    spoiled(r, &s, &mut [0; 21], calls)
}

pub fn shares(report: &mut Report) {
    known(report);
    every_kind(report);
    limits(report);
    histories(report);
    spoiled_yards(report);
    wrong_lengths(report);
}
