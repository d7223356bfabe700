//! The benchmark: a drag step of the proved planner beside a plain one of the same algorithm, one that draws
//! everything from nothing, and Graphviz's, over several yards; the three quotes; the two calls that draw; the edits of a
//! run in a contractor's name; and the two conversions of a yard file.

#[path = "../bindings/abi.rs"]
#[allow(dead_code)]
mod abi;
mod conversions;
mod ducts;
mod graphviz;
mod move_quotes;
mod pieces;
#[allow(dead_code)]
mod plain;
mod quotes;
mod shares;
mod stack;
#[path = "../bindings/tables.rs"]
#[allow(dead_code)]
mod tables;

use plain::{Yard, BLOCKS, PAIRS, ROUTES, RUNS, TOTALS};
use std::time::Instant;
pub use tables::Tables;

impl Tables {
    pub fn yard(&mut self) -> Yard<'_> {
        Yard { blocks: &mut self.blocks, runs: &mut self.runs, pairs: &mut self.pairs, routes: &mut self.routes, totals: &mut self.totals }
    }
}

/// A grid of octagons or squares, and the block that is dragged.
#[derive(Clone, Copy)]
pub struct Grid {
    word: &'static str,
    name: &'static str,
    shape: &'static [(i32, i32)],
    blocks: usize,
    columns: usize,
    distance: u16,
    /// All measures are divided by it.
    part: i32,
    dragged: u32,
    runs: u16,
    /// The least charge of a straight.
    figure: u16,
    sum: Option<u32>,
}

const FULL: Grid = Grid { word: "drag", name: "drag yard", shape: &OCTAGON, blocks: 24, columns: 6, distance: 4000, part: 1, dragged: 8, runs: 24, figure: 0, sum: Some(692_923) };
/// The drag yard under a least charge, which no straight of its routes is shorter than: the lengths are the same.
const CHARGED: Grid = Grid { word: "drag-500", name: "drag, 500 cm", figure: 500, ..FULL };
/// The drag yard a tenth as large, in which most straights are shorter than the least charge, and without it.
const TENTH: Grid = Grid { word: "tenth", name: "a tenth", part: 10, sum: None, ..FULL };
const TENTH_CHARGED: Grid = Grid { word: "tenth-500", name: "tenth, 500 cm", figure: 500, ..TENTH };
/// The blocks overlap.
pub const CROWDED: Grid = Grid { word: "crowded", name: "crowded yard", distance: 2300, sum: Some(707_415), ..FULL };
/// Squares side by side, 4 x 6: every side within is a seam.
pub const TOUCHING: Grid = Grid { word: "touching", name: "touching yard", shape: &SQUARE, distance: 3000, sum: Some(368_907), ..FULL };
const GRIDS: [Grid; 4] = [
    Grid { word: "4", name: "grid", blocks: 4, columns: 2, dragged: 1, sum: None, ..FULL },
    Grid { word: "9", name: "grid", blocks: 9, columns: 3, dragged: 3, sum: None, ..FULL },
    Grid { word: "16", name: "grid", blocks: 16, columns: 4, dragged: 5, sum: None, ..FULL },
    // five columns: the drag yard has six
    Grid { word: "24", name: "grid", columns: 5, distance: 4000, dragged: 11, sum: None, ..FULL },
];
const YARDS: [Grid; 10] = [GRIDS[0], GRIDS[1], GRIDS[2], GRIDS[3], FULL, CHARGED, TENTH, TENTH_CHARGED, CROWDED, TOUCHING];
/// How many runs the yards of the second table have.
const RUN_COUNTS: [u16; 4] = [1, 8, 16, 24];

const OCTAGON: [(i32, i32); 8] = [(1500, -700), (1500, 700), (700, 1500), (-700, 1500), (-1500, 700), (-1500, -700), (-700, -1500), (700, -1500)];

const SQUARE: [(i32, i32); 4] = [(1500, -1500), (1500, 1500), (-1500, 1500), (-1500, -1500)];

impl Grid {
    pub fn corners(&self, n: usize) -> Vec<u16> {
        let centre = (4000 + self.distance as i32 * (n % self.columns) as i32, 6000 + self.distance as i32 * (n / self.columns) as i32);
        self.shape.iter().flat_map(|c| [centre.0 + c.0, centre.1 + c.1]).map(|v| (v / self.part) as u16).collect()
    }

    pub fn ends(&self, m: u16) -> [u16; 4] {
        [500 + 10 * m, 3000 + 700 * m, 28000 - 10 * m, 3000 + 700 * ((7 * m + 5) % 24)].map(|v| v / self.part as u16)
    }

    /// The yard before the drag.
    pub fn tables(&self) -> Tables {
        let mut t = Tables::unstarted();
        let mut yard = t.yard();
        assert_eq!(yard.start(), 0);
        for n in 0..self.blocks {
            assert_eq!(yard.add_block(n as u32, &self.corners(n)), 0);
        }
        for m in 0..self.runs {
            assert_eq!(yard.add_run(m as u32, self.ends(m)), 0);
        }
        assert_eq!(yard.set_charge(self.figure), 0);
        t
    }

    /// Graphviz takes disjoint blocks only, and knows no charges.
    fn for_graphviz(&self) -> bool {
        self.distance >= 3000 + 450 && self.figure == 0
    }

    /// The displacements of a drag of so many steps: step i, from 0, goes to ((37 i) mod 900 - 450, (53 i) mod 900 - 450)
    /// from the centre.
    pub fn displacements(&self, steps: i32) -> Vec<(i16, i16)> {
        let mut at = (0, 0);
        (0..steps)
            .map(|i| {
                let to = ((37 * i % 900 - 450) / self.part, (53 * i % 900 - 450) / self.part);
                let by = ((to.0 - at.0) as i16, (to.1 - at.1) as i16);
                at = to;
                by
            })
            .collect()
    }
}

const STEPS: i32 = 200;
const ROUNDS: usize = 5;
/// Graphviz's steps are long.
const GRAPHVIZ_STEPS: i32 = 5;
const GRAPHVIZ_ROUNDS: usize = 2;

#[derive(Clone, Copy, PartialEq)]
enum Planner {
    Ours,
    /// Ours, with each step quoted before it is made.
    Quoted,
    Plain,
    FromNothing,
    Graphviz,
}

/// One step of the plain planner, under a name for callgrind.
#[no_mangle]
#[inline(never)]
extern "C" fn plain_move_block(t: &mut Tables, number: u32, east: i16, north: i16) -> u32 {
    t.yard().move_block(number, east, north)
}

#[no_mangle]
#[inline(never)]
extern "C" fn redraw_move_block(t: &mut Tables, number: u32, east: i16, north: i16) -> u32 {
    t.yard().move_block_and_redraw(number, east, north)
}

#[no_mangle]
#[inline(never)]
extern "C" fn graphviz_move_block(t: &mut Tables, number: u32, east: i16, north: i16) -> u32 {
    graphviz::move_block(t, number, (east, north))
}

fn step(p: Planner, t: &mut Tables, number: u32, by: (i16, i16)) -> u32 {
    match p {
        Planner::Ours => unsafe {
            abi::yard_move_block(
                t.blocks.as_mut_ptr(), t.blocks.len(), t.runs.as_mut_ptr(), t.runs.len(),
                t.pairs.as_mut_ptr(), t.pairs.len(), t.routes.as_mut_ptr(), t.routes.len(),
                t.totals.as_mut_ptr(), t.totals.len(), number, by.0, by.1,
            )
        },
        Planner::Quoted => move_quotes::quoted_step(t, number, by),
        Planner::Plain => plain_move_block(t, number, by.0, by.1),
        Planner::FromNothing => redraw_move_block(t, number, by.0, by.1),
        Planner::Graphviz => graphviz_move_block(t, number, by.0, by.1),
    }
}

/// Drag, and give the microseconds of a step.
fn drag(p: Planner, g: &Grid, t: &mut Tables, by: &[(i16, i16)]) -> f64 {
    let begin = Instant::now();
    for &b in by {
        assert_eq!(step(p, t, g.dragged, b), 0);
    }
    begin.elapsed().as_secs_f64() * 1e6 / by.len() as f64
}

/// The least time of a step over several drags, of each planner in turn.
fn times(g: &Grid) -> [f64; 3] {
    let begin = g.tables();
    let by = g.displacements(STEPS);
    let mut least = [f64::MAX; 3];
    for _ in 0..ROUNDS {
        let mut after = vec![];
        for (k, p) in [Planner::Ours, Planner::Plain, Planner::FromNothing].into_iter().enumerate() {
            let mut t = begin.clone();
            least[k] = least[k].min(drag(p, g, &mut t, &by));
            after.push(t);
        }
        assert!(after[0] == after[1] && after[1] == after[2], "{}: the planners' tables differ after the drag", g.word);
        if let Some(sum) = g.sum {
            assert_eq!(after[0].sum(), sum, "{}: summed length", g.word);
        }
    }
    least
}

/// The same of Graphviz's planner; after each step its routes must be as long as ours.
fn graphviz_time(g: &Grid) -> Option<f64> {
    if !graphviz::INSTALLED || !g.for_graphviz() {
        return None;
    }
    let by = g.displacements(GRAPHVIZ_STEPS);
    let mut ours = g.tables();
    for &b in &by {
        assert_eq!(step(Planner::Ours, &mut ours, g.dragged, b), 0);
        assert!(graphviz::agrees(&ours), "{}: Graphviz's routes have other lengths", g.word);
    }
    (0..GRAPHVIZ_ROUNDS).map(|_| drag(Planner::Graphviz, g, &mut g.tables(), &by)).reduce(f64::min)
}

/// The least time of our step alone.
fn our_time(g: &Grid) -> f64 {
    let by = g.displacements(STEPS);
    (0..ROUNDS).map(|_| drag(Planner::Ours, g, &mut g.tables(), &by)).fold(f64::MAX, f64::min)
}

/// What callgrind counted: lines of planner, yard, runs and instructions, of duct, yard and instructions, and of quote,
/// yard, what was counted and its number for each route.
struct Counts(String);

impl Counts {
    fn read(path: &str) -> Counts {
        Counts(std::fs::read_to_string(path).unwrap_or_default())
    }

    fn of(&self, planner: &str, g: &Grid) -> Option<f64> {
        let wanted = format!("{planner} {} {} ", g.word, g.runs);
        self.0.lines().find_map(|l| l.strip_prefix(&wanted)?.parse().ok())
    }

    fn duct(&self, word: &str) -> Option<f64> {
        let wanted = format!("duct {word} ");
        self.0.lines().find_map(|l| l.strip_prefix(&wanted)?.parse().ok())
    }

    /// What was counted of a yard's route quotes, each with its numbers.
    fn quotes(&self, g: &Grid) -> Vec<(&str, Vec<f64>)> {
        let prefix = format!("quote {} ", g.word);
        let words = self.0.lines().filter_map(|l| l.strip_prefix(&prefix)?.split_once(' '));
        words.map(|(name, numbers)| (name, numbers.split(' ').filter_map(|n| n.parse().ok()).collect())).collect()
    }
}

fn show(v: Option<f64>, digits: usize) -> String {
    v.map_or("-".to_string(), |v| format!("{v:.digits$}"))
}

fn print_table(counts: &Counts) {
    println!("One drag step with 24 runs. Time: ours in microseconds, the others as multiples of ours in the same run (least of {ROUNDS} drags of {STEPS}");
    println!("steps, Graphviz {GRAPHVIZ_ROUNDS} of {GRAPHVIZ_STEPS}). Instructions: thousands, by callgrind inside the call. Plain: the same algorithm in safe Rust.");
    println!("Ratio: ours to plain. Redraw: the plain one drawing all pairs and routes from nothing. Graphviz: Pobsopen and a Pobspath for each run, disjoint blocks");
    println!("and plain lengths only. Pairs: their redrawing; where that is no call of its own, all but routes and totals.");
    println!();
    println!("{:<13} {:>6} |{:^34}|{:^67}", "", "", "time", "instructions");
    println!(
        "{:<13} {:>6} |{:>8} {:>7} {:>7} {:>9}|{:>8} {:>8} {:>8} {:>6} {:>8} {:>5} {:>8} {:>9}",
        "yard", "blocks", "ours", "plain", "redraw", "Graphviz", "ours", "pairs", "routes", "totals", "plain", "ratio", "redraw", "Graphviz"
    );
    for g in &YARDS {
        let [ours, plain, nothing] = times(g);
        let (count, routes, totals, plainly) = (counts.of("proved", g), counts.of("routes", g), counts.of("totals", g), counts.of("plain", g));
        let rest = count.zip(routes).map(|(a, b)| a - b - totals.unwrap_or(0.0));
        let thousands = |v: Option<f64>| show(v.map(|v| v / 1000.0), 0);
        println!(
            "{:<13} {:>6} |{ours:>8.0} {:>7.2} {:>7.2} {:>9}|{:>8} {:>8} {:>8} {:>6} {:>8} {:>5} {:>8} {:>9}",
            g.name,
            g.blocks,
            plain / ours,
            nothing / ours,
            show(graphviz_time(g).map(|t| t / ours), 1),
            thousands(count),
            thousands(counts.of("pairs", g).or(rest)),
            thousands(routes),
            thousands(totals),
            thousands(plainly),
            show(count.zip(plainly).map(|(a, b)| a / b), 2),
            thousands(counts.of("redraw", g)),
            thousands(counts.of("graphviz", g)),
        );
    }
    println!();
    if let Some((totals, count)) = counts.of("totals", &FULL).zip(counts.of("proved", &FULL)) {
        let share = 100.0 * totals / count;
        println!("Totals take {:.1} of the {:.0} thousand instructions of a step of the drag yard, {share:.1} %.", totals / 1000.0, count / 1000.0);
    }
    let sums: Vec<String> = YARDS.iter().filter_map(|g| Some(format!("{} ({})", g.sum?, g.name))).collect();
    println!("After each drag the tables of ours, plain and redraw are the same bytes; summed lengths, from totals, {}.", sums.join(", "));
    if graphviz::INSTALLED {
        println!("Graphviz's lengths, unrounded, are at most ours, and ours at most a centimetre more for each of its straights.");
    }
}

/// How our step grows with blocks and runs.
fn print_growth(counts: &Counts) {
    println!("Our drag step by blocks and runs (the grids above): microseconds, and thousands of instructions.");
    println!();
    let heads: Vec<String> = RUN_COUNTS.iter().map(|r| format!("{:>15}", format!("{r} run{}", if *r == 1 { "" } else { "s" }))).collect();
    println!("{:>6} |{}", "blocks", heads.concat());
    for g in &GRIDS {
        let cells: Vec<String> = RUN_COUNTS
            .iter()
            .map(|&runs| {
                let g = Grid { runs, ..*g };
                format!("{:>7.0} {:>7}", our_time(&g), show(counts.of("proved", &g).map(|c| c / 1000.0), 0))
            })
            .collect();
        println!("{:>6} |{}", g.blocks, cells.concat());
    }
}

fn grid(word: &str) -> Grid {
    *YARDS.iter().find(|g| g.word == word).expect("a grid's word")
}

fn main() {
    let args: Vec<String> = std::env::args().collect();
    let words: Vec<&str> = args[1..].iter().map(|s| s.as_str()).collect();
    match words[..] {
        ["table", counts] => {
            let counts = Counts::read(counts);
            print_table(&counts);
            println!();
            print_growth(&counts);
        }
        ["ducts", counts] => ducts::print(&Counts::read(counts)),
        ["quotes", counts] => quotes::print(&Counts::read(counts)),
        ["moves", counts] => move_quotes::print(&Counts::read(counts)),
        ["stack"] => stack::print(),
        // for callgrind: one duct quote
        ["duct", word] => ducts::once(word),
        // for callgrind: the quote of every route of a yard
        ["quote", word] => quotes::every_route(&grid(word).tables()),
        // for callgrind: a drag of some steps, nothing printed
        ["drag", planner, word, runs, steps] => {
            let p = match planner {
                "proved" => Planner::Ours,
                "quoted" => Planner::Quoted,
                "plain" => Planner::Plain,
                "redraw" => Planner::FromNothing,
                "graphviz" => Planner::Graphviz,
                _ => panic!("bench: no planner {planner}"),
            };
            let g = Grid { runs: runs.parse().expect("a count of runs"), ..grid(word) };
            drag(p, &g, &mut g.tables(), &g.displacements(steps.parse().expect("a count of steps")));
        }
        // for callgrind: one check of a yard
        ["check", word] => {
            let t = grid(word).tables();
            // The five tables are apart, live for the call, and as long as stated.
            let answer = unsafe {
                abi::yard_check(
                    t.blocks.as_ptr(), BLOCKS, t.runs.as_ptr(), RUNS, t.pairs.as_ptr(), PAIRS,
                    t.routes.as_ptr(), ROUTES, t.totals.as_ptr(), TOTALS,
                )
            };
            assert_eq!(answer, 0);
        }
        // for callgrind: a long file shortened and lengthened again
        ["convert"] => conversions::once(),
        // for callgrind: a run of a yard edited in nobody's name and in a contractor's
        ["shares", word] => shares::once(&grid(word)),
        // for callgrind: one bend of a yard, by both calls that draw
        ["pieces", word] => pieces::once(&grid(word).tables()),
        // for callgrind: all routes of the drag yard where every pair's byte says clear, by a move of a run to its own ends
        ["clear", steps] => {
            let mut t = FULL.tables();
            for _ in 0..steps.parse().expect("a count of steps") {
                t.pairs.fill(254);
                let e: [u16; 4] = t.runs[116..120].try_into().expect("a run's ends");
                // The five tables are apart, live for the call, and as long as stated.
                let answer = unsafe {
                    abi::yard_move_run(
                        t.blocks.as_mut_ptr(), BLOCKS, t.runs.as_mut_ptr(), RUNS, t.pairs.as_mut_ptr(), PAIRS,
                        t.routes.as_mut_ptr(), ROUTES, t.totals.as_mut_ptr(), TOTALS, 23, e[0], e[1], e[2], e[3],
                    )
                };
                assert_eq!(answer, 0);
            }
        }
        _ => panic!("bench: wrong words {words:?}"),
    }
}
