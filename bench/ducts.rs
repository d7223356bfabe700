//! The duct quote: a run across octagons of the drag yard's shape, and through walls.

use crate::plain::{BLOCKS, RUNS};
use crate::{abi, show, Counts, Tables, FULL, OCTAGON};
use std::time::Instant;

pub const QUOTE: usize = 3;
pub const CROSSINGS: usize = 8712;
const ROUNDS: usize = 20;

/// An octagon like the drag yard's, no two of whose corners lie on one line.
const UNEVEN: [(i32, i32); 8] = [(1500, -650), (1450, 750), (700, 1500), (-750, 1450), (-1500, 650), (-1450, -750), (-700, -1500), (750, -1450)];

/// The lines of walls of the shaft and of the spiral, in steps of 3,000.
const SHAFT: [[i32; 4]; 8] = [[1, 1, 1, 7], [1, 1, 5, 1], [5, 1, 5, 7], [1, 2, 4, 2], [2, 3, 5, 3], [1, 4, 4, 4], [2, 5, 5, 5], [1, 6, 4, 6]];
const SPIRAL: [[i32; 4]; 8] = [[4, 4, 5, 4], [5, 4, 5, 5], [3, 5, 5, 5], [3, 3, 3, 5], [3, 3, 6, 3], [6, 3, 6, 6], [2, 6, 6, 6], [2, 2, 2, 6]];

type Corners = Vec<u16>;

/// A yard and the ends of its run 0.
pub struct Yard {
    pub word: &'static str,
    name: &'static str,
    blocks: fn() -> Vec<Corners>,
    ends: [u16; 4],
}

fn drag(count: usize) -> Vec<Corners> {
    (0..count).map(|n| FULL.corners(n)).collect()
}

/// The drag yard's octagons or others, so placed that no two of them share a line.
fn staggered(octagon: &[(i32, i32)], count: i32) -> Vec<Corners> {
    let centre = |k: i32| (3000 + 3307 * k, 4000 + 2503 * (3 * k % 8));
    (0..count).map(|k| octagon.iter().flat_map(|c| [(centre(k).0 + c.0) as u16, (centre(k).1 + c.1) as u16]).collect()).collect()
}

/// Walls with their corners cut off, each by cuts of its own, and with sides that lean by a centimetre: no two corners
/// lie on one line.
fn walls(lines: &[[i32; 4]]) -> Vec<Corners> {
    let wall = |(k, line): (usize, &[i32; 4])| {
        let [w, s, e, n] = [(line[0], -1), (line[1], -1), (line[2], 1), (line[3], 1)].map(|(at, side)| 3000 * at + side * (400 + 9 * k as i32));
        let cut = |c: i32| 100 + 20 * c + 3 * k as i32;
        let corners = [
            (w + cut(0), s), (e - cut(1), s + 1), (e, s + cut(2)), (e - 1, n - cut(3)),
            (e - cut(4), n), (w + cut(5), n - 1), (w, n - cut(6)), (w + 1, s + cut(7)),
        ];
        corners.iter().flat_map(|c| [c.0 as u16, c.1 as u16]).collect()
    };
    lines.iter().enumerate().map(wall).collect()
}

pub const YARDS: [Yard; 11] = [
    Yard { word: "drag-1", name: "the drag yard's first octagon", blocks: || drag(1), ends: [540, 5800, 27960, 9300] },
    Yard { word: "drag-2", name: "the drag yard's first 2", blocks: || drag(2), ends: [540, 5800, 27960, 9300] },
    Yard { word: "drag-4", name: "the drag yard's first 4", blocks: || drag(4), ends: [540, 5800, 27960, 9300] },
    Yard { word: "drag-8", name: "the drag yard's first 8", blocks: || drag(8), ends: [540, 5800, 27960, 9300] },
    Yard { word: "apart-1", name: "1 octagon of that shape", blocks: || staggered(&OCTAGON, 1), ends: [500, 9000, 31000, 15000] },
    Yard { word: "apart-2", name: "2 that share no line", blocks: || staggered(&OCTAGON, 2), ends: [500, 9000, 31000, 15000] },
    Yard { word: "apart-4", name: "4 that share no line", blocks: || staggered(&OCTAGON, 4), ends: [500, 9000, 31000, 15000] },
    Yard { word: "apart-8", name: "8 that share no line", blocks: || staggered(&OCTAGON, 8), ends: [500, 9000, 31000, 15000] },
    Yard { word: "uneven-8", name: "8 with no two corners on a line", blocks: || staggered(&UNEVEN, 8), ends: [500, 9000, 31000, 15000] },
    Yard { word: "spiral", name: "a spiral of 8 walls", blocks: || walls(&SPIRAL), ends: [10500, 13500, 19500, 13000] },
    Yard { word: "shaft", name: "a shaft barred by 5 of 8 walls", blocks: || walls(&SHAFT), ends: [4500, 4500, 4500, 19500] },
];

impl Yard {
    pub fn tables(&self) -> Tables {
        let mut t = Tables::unstarted();
        let mut yard = t.yard();
        assert_eq!(yard.start(), 0);
        for (n, corners) in (self.blocks)().iter().enumerate() {
            assert_eq!(yard.add_block(n as u32, corners), 0, "{}: block {n}", self.word);
        }
        assert_eq!(yard.add_run(0, self.ends), 0);
        t
    }

    /// How many lines there are of each direction.
    fn lines(&self) -> [usize; 2] {
        let words: Vec<u16> = (self.blocks)().concat().into_iter().chain(self.ends).collect();
        [0, 1].map(|k| words.iter().skip(k).step_by(2).collect::<std::collections::HashSet<_>>().len())
    }
}

/// The cost and the count of crossings of run 0's duct.
fn quote(t: &Tables, crossings: &mut [u16]) -> [u32; 2] {
    let mut quote = [0; QUOTE];
    // The four lists are apart, live for the call, and as long as stated.
    let answer = unsafe {
        abi::yard_quote_duct(
            t.blocks.as_ptr(), BLOCKS, t.runs.as_ptr(), RUNS, 0, quote.as_mut_ptr(), QUOTE, crossings.as_mut_ptr(), CROSSINGS,
        )
    };
    assert_eq!((answer, quote[0]), (0, 1), "a duct that is found");
    [quote[1], quote[2]]
}

/// For callgrind: one quote.
pub fn once(word: &str) {
    let yard = YARDS.iter().find(|y| y.word == word).expect("a yard's word");
    quote(&yard.tables(), &mut vec![0; CROSSINGS]);
}

/// What the quote says, and the least microseconds of several.
fn timed(t: &Tables) -> ([u32; 2], f64) {
    let mut crossings = vec![0; CROSSINGS];
    let mut outcome = ([0; 2], f64::MAX);
    for _ in 0..ROUNDS {
        let begin = Instant::now();
        outcome.0 = quote(t, &mut crossings);
        outcome.1 = outcome.1.min(begin.elapsed().as_secs_f64() * 1e6);
    }
    outcome
}

pub fn print(counts: &Counts) {
    println!("A duct quote of a run across octagons of the drag yard's shape, or through walls: lines north-south and east-west, what the quote says,");
    println!("microseconds (least of {ROUNDS}), and thousands of instructions by callgrind inside the call.");
    println!();
    println!("{:<33} {:>8} {:>8} {:>10} {:>8} {:>13}", "yard", "lines", "cost", "crossings", "time", "instructions");
    for y in &YARDS {
        let ([cost, count], time) = timed(&y.tables());
        let lines = y.lines().map(|n| n.to_string()).join(" x ");
        let instructions = show(counts.duct(y.word).map(|n| n / 1000.0), 0);
        println!("{:<33} {lines:>8} {cost:>8} {count:>10} {time:>8.0} {instructions:>13}", y.name);
    }
}
