//! A quote is lent blocks, runs and lists of its own, and a call that draws or quotes a move the other three tables as well:
//! what such a call must make of them, and the cases in which every one is refused.

use crate::duct_yards::{seeded, shown, SMALL};
use crate::random::Random;
use crate::reference::{stored_book, Book, Place};
use crate::tables::{Tables, BLOCKS, FIGURE, PAIRS, ROUTES, RUNS, TOTALS};
use crate::{same_answer, scramble, spoil, Report};

/// The lists that a call fills.
pub trait Lists: Clone {
    const NAME: &'static str;
    const COUNT: usize;
    /// Whether the call is lent pairs, routes and totals too.
    const ALL_TABLES: bool = false;
    /// The numbers that calls over changed records get.
    const NUMBERS: &'static [usize];
    /// With words that an accepted call must overwrite.
    fn filled(r: &mut Random) -> Self;
    fn lengths_right(&self) -> bool;
    fn resize(&mut self, list: usize, other: impl Fn(usize) -> usize);
    /// What the call's number is the number of.
    fn numbered(book: &Book) -> &[Vec<Place>] {
        &book.runs
    }
    /// A yard where this number alone is taken, with so many records of the other kind.
    fn yard(r: &mut Random, others: usize, number: usize) -> Book {
        yard_of(r, others, number)
    }
    /// What an accepted call leaves, or the number of a question of its own.
    fn due(&self, t: &Tables, book: &Book, number: usize) -> Result<Self, u32>;
    fn call(&mut self, t: &Tables, number: u32) -> u32;
    fn difference(&self, due: &Self) -> Option<String>;
}

pub fn any_words(r: &mut Random, count: usize) -> Vec<u32> {
    match r.below(8) {
        0 => vec![0; count],
        1 => vec![u32::MAX; count],
        _ => (0..count).map(|_| r.next() as u32).collect(),
    }
}

/// What a call is lent, of any length and with any contents.
#[derive(Clone)]
pub struct Lent<L> {
    tables: Tables,
    lists: L,
}

impl<L: Lists> Lent<L> {
    /// How many tables the call is lent.
    const TABLES: usize = if L::ALL_TABLES { 5 } else { 2 };

    /// A book's records, or its whole drawing, and any lists.
    pub fn new(r: &mut Random, book: &Book) -> Lent<L> {
        if L::ALL_TABLES {
            return Lent::over(r, book.drawing());
        }
        let mut tables = Tables { blocks: vec![0; BLOCKS], runs: vec![0; RUNS], pairs: vec![], routes: vec![], totals: vec![] };
        book.write_records(&mut tables);
        Lent::over(r, tables)
    }

    pub fn over(r: &mut Random, tables: Tables) -> Lent<L> {
        Lent { tables, lists: L::filled(r) }
    }

    fn lengths_right(&self) -> bool {
        let t = &self.tables;
        let others = if L::ALL_TABLES { (PAIRS, ROUTES, TOTALS) } else { (0, 0, 0) };
        let records_right = (t.blocks.len(), t.runs.len()) == (BLOCKS, RUNS);
        records_right && (t.pairs.len(), t.routes.len(), t.totals.len()) == others && self.lists.lengths_right()
    }

    fn quoted(&self, number: u32) -> Result<L, u32> {
        if !self.lengths_right() {
            return Err(1);
        }
        let book = stored_book(&self.tables).ok_or(2u32)?;
        match L::numbered(&book).get(number as usize) {
            None => Err(3),
            Some(places) if places.is_empty() => Err(5),
            Some(_) => self.lists.due(&self.tables, &book, number as usize),
        }
    }

    /// The list with this number: the tables first, then the call's own.
    fn resize(&mut self, list: usize, other: impl Fn(usize) -> usize) {
        match list {
            0 => self.tables.blocks.resize(other(BLOCKS), 0),
            1 => self.tables.runs.resize(other(RUNS), 0),
            2 if L::ALL_TABLES => self.tables.pairs.resize(other(PAIRS), 255),
            3 if L::ALL_TABLES => self.tables.routes.resize(other(ROUTES), 0),
            4 if L::ALL_TABLES => self.tables.totals.resize(other(TOTALS), 0),
            own => self.lists.resize(own - Self::TABLES, other),
        }
    }

    /// The number that is due and what the lists must hold after the call.
    pub fn due(&self, number: u32) -> (u32, L) {
        self.quoted(number).map_or_else(|answer| (answer, self.lists.clone()), |lists| (0, lists))
    }

    /// Make the call and compare. The answer is given back.
    pub fn call(&self, number: u32) -> Result<u32, String> {
        let mut lists = self.lists.clone();
        let answer = lists.call(&self.tables, number);
        let (right, due) = self.due(number);
        same_answer(L::NAME, answer, right)?;
        lists.difference(&due).map_or(Ok(right), |why| Err(format!("answer {right}, {why}")))
    }

    /// A call that must be answered so.
    pub fn answered(&self, number: u32, right: u32, calls: &mut usize) -> Result<(), String> {
        *calls += 1;
        self.call(number).and_then(|answer| same_answer("the case", answer, right))
    }
}

/// The quote of a run, over a yard with fewer blocks if that goes wrong too.
pub fn compared<L: Lists>(r: &mut Random, book: &Book, run: usize) -> Result<(), String> {
    let Err(why) = Lent::<L>::new(r, book).call(run as u32) else { return Ok(()) };
    for n in (0..24).filter(|&n| !book.blocks[n].is_empty()) {
        let mut fewer = book.clone();
        fewer.blocks[n].clear();
        compared::<L>(r, &fewer, run)?;
    }
    Err(format!("{why}: {}", shown(book, run)))
}

const NUMBERS: [u32; 9] = [24, 25, 31, 48, 255, 65535, 65536, 1 << 31, u32::MAX];

/// A yard of so many blocks and, of the runs, just the one with this number, under any least charge.
pub fn yard_of(r: &mut Random, blocks: usize, run: usize) -> Book {
    let mut book = Book::new();
    while book.blocks.iter().filter(|b| !b.is_empty()).count() < blocks {
        book.blocks[r.below(24)] = SMALL.block(r);
    }
    book.runs[run] = vec![(r.between(0, 5), r.between(0, 5)), (r.between(0, 5), r.between(0, 5))];
    book.figure = r.pick(&[0, 0, 1, 3, 25, 1000]);
    book
}

pub fn refusals<L: Lists>(report: &mut Report) {
    report.case(&format!("{}, numbers that are not below 24", L::NAME), |calls| {
        for (k, others) in [0, 1, 8, 9, 24].into_iter().enumerate() {
            let mut r = seeded(400_000 + k);
            let book = L::yard(&mut r, others, 0);
            let lent = Lent::<L>::new(&mut r, &book);
            NUMBERS.iter().try_for_each(|&number| lent.answered(number, 3, calls))?;
        }
        Ok(())
    });
    report.case(&format!("{}, numbers that are free", L::NAME), |calls| {
        for k in 0..24usize {
            let mut r = seeded(410_000 + k);
            // 5 comes before 7 and 12
            let book = L::yard(&mut r, k, k);
            let lent = Lent::<L>::new(&mut r, &book);
            (0..24).filter(|&number| number != k as u32).try_for_each(|number| lent.answered(number, 5, calls))?;
        }
        Ok(())
    });
    wrong_lengths::<L>(report);
    wrong_blocks::<L>(report);
    wrong_runs::<L>(report);
    wrong_figures::<L>(report);
    changed_records::<L>(report);
}

/// Every length wrong alone and together with others, over yards that other questions fail for too.
fn wrong_lengths<L: Lists>(report: &mut Report) {
    for list in 0..Lent::<L>::TABLES + L::COUNT {
        report.case(&format!("{}, list {list} of another length", L::NAME), |calls| {
            for k in 0..60 {
                let mut r = seeded(430_000 + 100 * list + k);
                let others = r.below(12);
                let book = L::yard(&mut r, others, 3);
                let mut lent = Lent::<L>::new(&mut r, &book);
                if r.percent(40) {
                    scramble(&mut r, &mut lent.tables);
                }
                if L::ALL_TABLES && r.percent(40) {
                    spoil(&mut r, &mut lent.tables);
                }
                let other = |right: usize| [0, right - 1, right + 1, if right == 1 { 3 } else { 1 }, right / 2, 2 * right][k % 6];
                lent.resize(list, other);
                lent.resize(r.below(8), other);
                lent.answered(r.pick(&[3, 3, 4, 24, u32::MAX]), 1, calls)?;
            }
            Ok(())
        });
    }
    report.case(&format!("{}, lengths of blocks and runs exchanged", L::NAME), |calls| {
        let mut r = seeded(440_000);
        let book = L::yard(&mut r, 2, 3);
        let mut lent = Lent::<L>::new(&mut r, &book);
        std::mem::swap(&mut lent.tables.blocks, &mut lent.tables.runs);
        lent.answered(3, 1, calls)
    });
}

/// A wrong record in each place of its table, for a number that is taken, one that is free, and two that are not below 24.
fn wrong_record<L: Lists>(report: &mut Report, what: &str, size: usize, of: fn(&mut Tables) -> &mut Vec<u16>, record: &[u16]) {
    report.case(&format!("{} over a record with {what}", L::NAME), |calls| {
        for n in 0..24 {
            let mut r = seeded(450_000 + n);
            let book = L::yard(&mut r, 3, 3);
            let mut lent = Lent::<L>::new(&mut r, &book);
            let words = &mut of(&mut lent.tables)[size * n..size * n + size];
            words.fill(0);
            words[..record.len()].copy_from_slice(record);
            [3, 4, 24, u32::MAX].iter().try_for_each(|&number| lent.answered(number, 2, calls))?;
        }
        Ok(())
    });
}

fn wrong_blocks<L: Lists>(report: &mut Report) {
    let rows: [(&str, &[u16]); 16] = [
        ("one corner", &[1, 10, 10]),
        ("two corners", &[2, 10, 10, 20, 10]),
        ("nine corners", &[9, 10, 0, 20, 0, 30, 10, 30, 20, 20, 30, 10, 30, 0, 20, 0, 10]),
        ("65,535 corners", &[65535]),
        ("no corners but a word", &[0, 1]),
        ("no corners but the last word", &[0, 0, 0, 0, 0, 0, 0, 0, 0, 0, 0, 0, 0, 0, 0, 0, 1]),
        ("a word after its corners", &[3, 10, 10, 20, 10, 20, 20, 1]),
        ("the last word after its corners", &[3, 10, 10, 20, 10, 20, 20, 0, 0, 0, 0, 0, 0, 0, 0, 0, 1]),
        ("a corner too far east", &[3, 10, 10, 32768, 10, 20, 20]),
        ("a corner too far north", &[3, 10, 10, 20, 10, 20, 32768]),
        ("its corners clockwise", &[4, 10, 10, 10, 20, 20, 20, 20, 10]),
        ("its corners on one line", &[3, 0, 0, 1, 1, 2, 2]),
        ("a corner on a side", &[4, 10, 10, 15, 10, 20, 10, 20, 20]),
        ("a corner twice", &[4, 10, 10, 10, 10, 20, 10, 20, 20]),
        ("a dent", &[4, 10, 10, 20, 10, 12, 12, 10, 20]),
        ("the star", &[5, 10, 0, 16, 20, 0, 8, 20, 8, 4, 20]),
    ];
    rows.iter().for_each(|(what, record)| wrong_record::<L>(report, what, 17, |t| &mut t.blocks, record));
}

fn wrong_runs<L: Lists>(report: &mut Report) {
    for state in [2, 3, 256, 65535] {
        wrong_record::<L>(report, &format!("state {state}"), 5, |t| &mut t.runs, &[state, 1, 1, 5, 5]);
    }
    for k in 1..5 {
        for (state, word) in [(0, 1), (1, 32768), (1, 65535)] {
            let mut record = [state, 0, 0, 0, 0];
            record[k] = word;
            wrong_record::<L>(report, &format!("state {state} and word {k} {word}"), 5, |t| &mut t.runs, &record);
        }
    }
}

fn wrong_figures<L: Lists>(report: &mut Report) {
    report.case(&format!("{} over a least charge above 1,000", L::NAME), |calls| {
        for (k, figure) in [1001, 1002, 1024, 2000, 32767, 32768, 65535].into_iter().enumerate() {
            let mut r = seeded(460_000 + k);
            let book = L::yard(&mut r, 3, 3);
            let mut lent = Lent::<L>::new(&mut r, &book);
            lent.tables.runs[FIGURE] = figure;
            [3, 4, 24, u32::MAX].iter().try_for_each(|&number| lent.answered(number, 2, calls))?;
        }
        Ok(())
    });
}

/// Records with some words changed, for any number.
fn changed_records<L: Lists>(report: &mut Report) {
    let mut numbers = [0; 13];
    for seed in 0..30 {
        report.case(&format!("{} over changed records, seed {seed}", L::NAME), |calls| {
            for k in 0..100 {
                let mut r = seeded(500_000 + 1000 * seed + k);
                let (others, taken) = (r.below(14), r.below(24));
                let book = L::yard(&mut r, others, taken);
                let mut lent = Lent::<L>::new(&mut r, &book);
                scramble(&mut r, &mut lent.tables);
                if let (true, Some(book)) = (L::ALL_TABLES && r.percent(50), stored_book(&lent.tables)) {
                    lent.tables = book.drawing();
                }
                let asked = if r.percent(70) { taken as u32 } else { r.pick(&[0, 23, 24, u32::MAX]) };
                let words = format!("number {asked} over blocks {:?} runs {:?}", lent.tables.blocks, lent.tables.runs);
                numbers[lent.call(asked).map_err(|why| format!("{why}: {words}"))? as usize] += 1;
                *calls += 1;
            }
            Ok(())
        });
    }
    report.case(&format!("{}, every number often enough", L::NAME), |_| {
        let few = L::NUMBERS.iter().any(|&n| numbers[n] < 20) || numbers[2] < 400;
        if few { Err(format!("{numbers:?}")) } else { Ok(()) }
    });
}
