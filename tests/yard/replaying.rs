//! The exported replay against the test's own reader and the second planner: its number, every word of answers and end, and
//! the tables; over files good and damaged, tables right and wrong, and lists of every length.

use crate::files::{damaged, file, random_bytes, random_file, short_file};
use crate::linked::replay;
use crate::random::{Random, STYLES};
use crate::reader::{read, HEAD, LONGEST};
use crate::reference::{checked, edited, stored_book, Book};
use crate::tables::{Edit, Tables, BLOCKS, FIGURE, PAIRS, ROUTES, RUNS, TOTALS};
use crate::{random_yard, same_answer, same_tables, scramble, spoil, Report};

const ANSWERS: usize = 4096;

/// What a replay is lent, of any length and with any contents.
#[derive(Clone)]
struct Lent {
    tables: Tables,
    answers: Vec<u32>,
    end: Vec<u64>,
}

impl Lent {
    fn new(r: &mut Random, tables: Tables, answers: usize, end: usize) -> Lent {
        Lent { tables, answers: (0..answers).map(|_| r.next() as u32).collect(), end: (0..end).map(|_| r.next()).collect() }
    }

    /// The tables after edits, their answers stored.
    fn edited(&mut self, edits: &[Edit]) {
        if checked(&self.tables) == 0 {
            // right tables are a book's drawing, and stay one
            let mut book = stored_book(&self.tables).unwrap_or_else(Book::new);
            edits.iter().enumerate().for_each(|(k, e)| self.answers[k] = book.step(e));
            self.tables = book.drawing();
        } else {
            for (k, e) in edits.iter().enumerate() {
                (self.answers[k], self.tables) = edited(&self.tables, e);
            }
        }
    }

    /// The number that is due, and all that was lent as the call must leave it.
    fn due(&self, file: &[u8]) -> (u32, Lent) {
        let mut after = self.clone();
        if self.answers.len() < ANSWERS || self.end.len() != 2 {
            return (1, after);
        }
        let (edits, stop) = read(file);
        after.edited(&edits);
        let (number, at) = stop.map_or((0, file.len()), |s| (s.number, s.at));
        after.end = vec![edits.len() as u64, at as u64];
        (number, after)
    }

    /// Replay and compare. The number and the yard are given back.
    fn call(mut self, file: &[u8], calls: &mut usize) -> Result<(u32, Tables), String> {
        let (right, due) = self.due(file);
        let number = replay(&mut self.tables, file, &mut self.answers, &mut self.end);
        *calls += 1;
        same_answer("replay", number, right)?;
        if self.end != due.end {
            return Err(format!("end {:?}, should be {:?}", self.end, due.end));
        }
        if let Some(k) = (0..due.answers.len()).find(|&k| self.answers[k] != due.answers[k]) {
            return Err(format!("word {k} of the answers {}, should be {}", self.answers[k], due.answers[k]));
        }
        same_tables("replay", &self.tables, &due.tables)?;
        Ok((right, self.tables))
    }
}

fn started() -> Tables {
    Book::new().drawing()
}

/// A file of a random kind: good, damaged, or any bytes.
fn some_file(r: &mut Random, most: usize) -> Vec<u8> {
    match r.below(4) {
        0 => random_bytes(r),
        1 => {
            let (base, other) = (random_file(r, most), random_file(r, 10));
            damaged(r, &base, &other)
        }
        _ => random_file(r, most),
    }
}

fn known(report: &mut Report) {
    let edits = [
        Edit::AddBlock(0, vec![10, 6, 14, 7, 14, 40, 10, 40]),
        Edit::AddRun(0, [0, 10, 27, 13]),
        Edit::AddBlock(1, vec![11, 1, 13, 1, 12, 5]),
    ];
    let (document, short) = (file(&edits), short_file(&edits));
    // a third block that goes 1 below 0 by its last step
    let below = [&short[..], &[1, 2, 3, 5, 0, 1, 0, 9, 0, 0xF1, 4]].concat();
    // number bytes 255 and 24, figures 500, 1,001 and 1,000
    let figures = [document.clone(), vec![7, 255, 0xF4, 1, 7, 24, 0xE9, 3, 7, 3, 0xE8, 3]].concat();
    let rows: [(&str, Vec<u8>, u32, Vec<u32>, [u64; 2]); 13] = [
        ("the listed yard and three figures", figures.clone(), 0, vec![0, 0, 0, 0, 13, 0], [6, 61]),
        ("the last figure cut off", figures[..60].to_vec(), 10, vec![0, 0, 0, 0, 13], [5, 57]),
        ("kind 8 after figures", [figures, vec![8, 0, 0, 0]].concat(), 10, vec![0, 0, 0, 0, 13, 0], [6, 61]),
        ("the listed yard", document.clone(), 0, vec![0, 0, 0], [3, 49]),
        ("the listed yard and a byte", [document, vec![5]].concat(), 10, vec![0, 0, 0], [3, 49]),
        ("the header alone", HEAD.to_vec(), 0, vec![], [0, 5]),
        ("nothing", vec![], 9, vec![], [0, 0]),
        ("version 3", b"YRD\x03\x00\x02\x00".to_vec(), 9, vec![], [0, 0]),
        ("version 2 with nothing", b"YRD\x02\x00".to_vec(), 0, vec![], [0, 5]),
        ("the listed yard in version 2", short.clone(), 0, vec![0, 0, 0], [3, 39]),
        ("version 2 cut off", short[..38].to_vec(), 10, vec![0, 0], [2, 28]),
        ("version 2 with a corner below 0", below.clone(), 22, vec![0, 0, 0], [3, 39]),
        ("version 2 with a corner below 0, cut off", below[..49].to_vec(), 10, vec![0, 0, 0], [3, 39]),
    ];
    for (name, file, number, answers, end) in rows {
        report.case(&format!("replay of {name}"), |calls| {
            let lent = Lent::new(&mut Random::new(1), started(), ANSWERS, 2);
            let (right, due) = lent.due(&file);
            if right != number || due.answers[..answers.len()] != answers || due.end != end {
                return Err(format!("the second planner says {right}, {:?}, {:?}", &due.answers[..answers.len()], due.end));
            }
            lent.call(&file, calls).map(drop)
        });
    }
}

/// As many records as a file can have, and a byte more than it can.
fn longest(report: &mut Report) {
    for (length, number) in [(LONGEST - 1, 0), (LONGEST, 10), (LONGEST + 1, 9), (3 * LONGEST, 9)] {
        report.case(&format!("replay of {length} bytes"), |calls| {
            let removals = (0..).flat_map(|k: usize| [[2, 5][k % 2], (k % 27) as u8]);
            let file: Vec<u8> = HEAD.iter().copied().chain(removals).take(length).collect();
            for answers in [ANSWERS, 5000] {
                let (right, _) = Lent::new(&mut Random::new(2), started(), answers, 2).call(&file, calls)?;
                same_answer("a file of removals", right, number)?;
            }
            Ok(())
        });
    }
}

/// A random file over tables right or wrong.
pub fn one(r: &mut Random, calls: &mut usize) -> Result<(), String> {
    let s = r.pick(&STYLES);
    let (_, mut tables) = random_yard(r, &s, 20);
    match r.below(4) {
        0 => spoil(r, &mut tables),
        1 => scramble(r, &mut tables),
        _ => {}
    }
    let file = some_file(r, 30);
    let answers = r.pick(&[4095, 4096, 4096, 4097, 5000]);
    Lent::new(r, tables, answers, 2).call(&file, calls).map(drop).map_err(|why| format!("{why}: {file:?}"))
}

fn over_right_tables(report: &mut Report) {
    let mut numbers = [0; 23];
    for seed in 0..240u64 {
        report.case(&format!("replay over right tables, seed {seed}"), |calls| {
            let mut r = Random::new(9_100_000 + seed);
            let mut tables = if seed % 3 == 0 { random_yard(&mut r, &STYLES[seed as usize % 10], 30).1 } else { started() };
            // one file after the other
            for _ in 0..2 {
                let file = some_file(&mut r, 40);
                let number;
                (number, tables) = Lent::new(&mut r, tables, ANSWERS, 2).call(&file, calls)?;
                numbers[number as usize] += 1;
            }
            Ok(())
        });
    }
    report.case("files good and bad often enough", |_| {
        if [0, 9, 10, 22].iter().all(|&n| numbers[n] >= 10) { Ok(()) } else { Err(format!("{numbers:?}")) }
    });
}

fn over_wrong_tables(report: &mut Report) {
    for seed in 0..90u64 {
        report.case(&format!("replay over wrong tables, seed {seed}"), |calls| {
            let mut r = Random::new(9_200_000 + seed);
            let (_, mut t) = random_yard(&mut r, &STYLES[seed as usize % 10], 30);
            match seed % 3 {
                0 => spoil(&mut r, &mut t),
                1 => scramble(&mut r, &mut t),
                _ => {
                    let other = |right: usize| [0, 1, right / 2, right - 1, right + 1, 2 * right][seed as usize / 15 % 6];
                    match seed / 3 % 5 {
                        0 => t.blocks.resize(other(BLOCKS), 0),
                        1 => t.runs.resize(other(RUNS), 0),
                        2 => t.pairs.resize(other(PAIRS), 255),
                        3 => t.routes.resize(other(ROUTES), 0),
                        _ => t.totals.resize(other(TOTALS), 0),
                    }
                }
            }
            let file = some_file(&mut r, 25);
            Lent::new(&mut r, t, ANSWERS, 2).call(&file, calls).map(drop)
        });
    }
}

fn lengths(report: &mut Report) {
    for answers in [0, 1, 4095, 4096, 4097, 5000] {
        for end in 0..4 {
            report.case(&format!("replay with {answers} words for answers and {end} for the end"), |calls| {
                for seed in 0..4 {
                    let mut r = Random::new(9_300_000 + 10 * answers as u64 + end as u64 + 100_000 * seed);
                    let (_, t) = random_yard(&mut r, &STYLES[1], 20);
                    let file = some_file(&mut r, 20);
                    let (number, _) = Lent::new(&mut r, t, answers, end).call(&file, calls)?;
                    if (number == 1) != (answers < 4096 || end != 2) {
                        return Err(format!("number {number}"));
                    }
                }
                Ok(())
            });
        }
    }
}

/// A stored figure above 1,000 refuses every edit, the new figure too.
fn over_wrong_figures(report: &mut Report) {
    for figure in [1001, 65535] {
        report.case(&format!("replay over a least charge of {figure}"), |calls| {
            let (_, mut t) = random_yard(&mut Random::new(3), &STYLES[1], 30);
            t.runs[FIGURE] = figure;
            let file = file(&[Edit::SetCharge(0), Edit::RemoveBlock(0), Edit::SetCharge(1001), Edit::AddRun(24, [0; 4])]);
            let lent = Lent::new(&mut Random::new(4), t, ANSWERS, 2);
            if lent.due(&file).1.answers[..4] != [2; 4] {
                return Err("the second planner takes an edit".to_string());
            }
            lent.call(&file, calls).map(drop)
        });
    }
}

/// Totals of another length refuse every edit; the replay itself answers for the file.
fn over_wrong_totals(report: &mut Report) {
    report.case("replay over totals of every other length", |calls| {
        let (_, right) = random_yard(&mut Random::new(5), &STYLES[1], 30);
        let file = file(&[Edit::SetCharge(0), Edit::RemoveBlock(24), Edit::SetCharge(1001)]);
        for words in (0..=60).filter(|&words| words != TOTALS) {
            let mut t = right.clone();
            t.totals.resize(words, 7);
            let lent = Lent::new(&mut Random::new(6), t, ANSWERS, 2);
            if lent.due(&file).1.answers[..3] != [1; 3] {
                return Err("the second planner takes an edit".to_string());
            }
            let (number, _) = lent.call(&file, calls)?;
            same_answer(&format!("{words} words of totals"), number, 0)?;
        }
        Ok(())
    });
}

pub fn replaying(report: &mut Report) {
    known(report);
    over_wrong_figures(report);
    over_wrong_totals(report);
    longest(report);
    over_right_tables(report);
    over_wrong_tables(report);
    lengths(report);
}
