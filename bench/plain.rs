//! The same algorithm as the proved planner, in plain Rust: the yardstick of the benchmark.
//! Also a redraw from nothing, for comparison.

#[path = "plain_pairs.rs"]
mod pairs;
#[path = "plain_routes.rs"]
mod routes;

use pairs::{Side, Sights};
use routes::Network;

pub const BLOCKS: usize = 408;
pub const RUNS: usize = 121;
pub const PAIRS: usize = 28680;
pub const ROUTES: usize = 4728;
pub const TOTALS: usize = 25;

/// The word of runs that holds the least charge, and the largest that it may be.
const FIGURE: usize = 120;
const LARGEST_FIGURE: u16 = 1000;

/// The word of totals that holds the sum of the lengths of found runs.
const SUM: usize = 24;

/// The five lent tables.
pub struct Yard<'a> {
    pub blocks: &'a mut [u16],
    pub runs: &'a mut [u16],
    pub pairs: &'a mut [u8],
    pub routes: &'a mut [u32],
    pub totals: &'a mut [u32],
}

/// East and north, each from 0 to 32,767.
type Place = (i16, i16);

fn corner(block: &[u16], k: usize) -> Place {
    (block[1 + 2 * k] as i16, block[2 + 2 * k] as i16)
}

fn convex(block: &[u16]) -> bool {
    let count = block[0] as usize;
    (0..count).all(|k| {
        let next = if k + 1 == count { 0 } else { k + 1 };
        let side = Side::between(corner(block, k), corner(block, next));
        (0..count).all(|other| other == k || other == next || side.has_left(corner(block, other)))
    })
}

fn block_words(blocks: &[u16], n: usize) -> &[u16] {
    &blocks[17 * n..17 * n + 17]
}

/// Where the pairs of mark j with the marks below it begin.
fn row(j: usize) -> usize {
    (j * j - j) / 2
}

/// The bits that are set in a word, in order.
fn bits(mut word: u64) -> impl Iterator<Item = usize> {
    std::iter::from_fn(move || {
        let lowest = (word != 0).then_some(word.trailing_zeros() as usize);
        word &= word.wrapping_sub(1);
        lowest
    })
}

fn block_allowed(words: &[u16]) -> bool {
    let count = words[0] as usize;
    if count == 0 {
        return words.iter().all(|&w| w == 0);
    }
    (3..=8).contains(&count)
        && words[1 + 2 * count..].iter().all(|&w| w == 0)
        && words[1..1 + 2 * count].iter().all(|&w| w <= 32767)
        && convex(words)
}

fn run_allowed(words: &[u16]) -> bool {
    words.iter().all(|&w| w == 0) || (words[0] == 1 && words[1..].iter().all(|&w| w <= 32767))
}

impl Yard<'_> {
    fn question_1(&self) -> bool {
        (self.blocks.len(), self.runs.len(), self.pairs.len(), self.routes.len(), self.totals.len()) == (BLOCKS, RUNS, PAIRS, ROUTES, TOTALS)
    }

    fn question_2(&self) -> bool {
        (0..24).all(|n| block_allowed(block_words(self.blocks, n)))
            && (0..24).all(|m| run_allowed(&self.runs[5 * m..5 * m + 5]))
            && self.runs[FIGURE] <= LARGEST_FIGURE
    }

    /// Questions 1, 2, 3, and 4 or 5.
    fn refusal(&self, number: u32, of_blocks: bool, taken: bool) -> u32 {
        if !self.question_1() {
            return 1;
        }
        if !self.question_2() {
            return 2;
        }
        if number >= 24 {
            return 3;
        }
        let n = number as usize;
        let word = if of_blocks { self.blocks[17 * n] } else { self.runs[5 * n] };
        match (word != 0, taken) {
            (true, false) => 4,
            (false, true) => 5,
            _ => 0,
        }
    }

    pub fn start(&mut self) -> u32 {
        if !self.question_1() {
            return 1;
        }
        self.blocks.fill(0);
        self.runs.fill(0);
        self.pairs.fill(255);
        self.routes.fill(0);
        self.totals.fill(0);
        0
    }

    pub fn add_block(&mut self, number: u32, corners: &[u16]) -> u32 {
        let answer = self.refusal(number, true, false);
        if answer != 0 {
            return answer;
        }
        if corners.len() < 6 || corners.len() > 16 || corners.len() % 2 != 0 {
            return 6;
        }
        if corners.iter().any(|&w| w > 32767) {
            return 7;
        }
        let mut words = [0u16; 17];
        words[0] = (corners.len() / 2) as u16;
        words[1..1 + corners.len()].copy_from_slice(corners);
        if !convex(&words) {
            return 8;
        }
        self.write_block(number as usize, &words)
    }

    pub fn remove_block(&mut self, number: u32) -> u32 {
        let answer = self.refusal(number, true, true);
        if answer != 0 {
            return answer;
        }
        self.write_block(number as usize, &[0u16; 17])
    }

    /// The words of the block after a move, or the number of the question that refuses it.
    fn moved(&self, number: u32, east: i16, north: i16) -> Result<[u16; 17], u32> {
        let answer = self.refusal(number, true, true);
        if answer != 0 {
            return Err(answer);
        }
        let mut words = [0u16; 17];
        words.copy_from_slice(block_words(self.blocks, number as usize));
        for k in 0..words[0] as usize {
            let to = (words[1 + 2 * k] as i32 + east as i32, words[2 + 2 * k] as i32 + north as i32);
            if to.0 < 0 || to.0 > 32767 || to.1 < 0 || to.1 > 32767 {
                return Err(7);
            }
            words[1 + 2 * k] = to.0 as u16;
            words[2 + 2 * k] = to.1 as u16;
        }
        Ok(words)
    }

    pub fn move_block(&mut self, number: u32, east: i16, north: i16) -> u32 {
        match self.moved(number, east, north) {
            Ok(words) => self.write_block(number as usize, &words),
            Err(answer) => answer,
        }
    }

    /// The same move, with all pairs and all routes drawn from nothing.
    pub fn move_block_and_redraw(&mut self, number: u32, east: i16, north: i16) -> u32 {
        match self.moved(number, east, north) {
            Ok(words) => {
                let n = number as usize;
                self.blocks[17 * n..17 * n + 17].copy_from_slice(&words);
                self.redraw_all_pairs();
                self.write_routes();
                self.write_totals();
                0
            }
            Err(answer) => answer,
        }
    }

    pub fn add_run(&mut self, number: u32, ends: [u16; 4]) -> u32 {
        self.set_run(number, ends, false)
    }

    pub fn move_run(&mut self, number: u32, ends: [u16; 4]) -> u32 {
        self.set_run(number, ends, true)
    }

    fn set_run(&mut self, number: u32, ends: [u16; 4], taken: bool) -> u32 {
        let answer = self.refusal(number, false, taken);
        if answer != 0 {
            return answer;
        }
        if ends.iter().any(|&w| w > 32767) {
            return 7;
        }
        self.write_run(number as usize, [1, ends[0], ends[1], ends[2], ends[3]])
    }

    pub fn remove_run(&mut self, number: u32) -> u32 {
        let answer = self.refusal(number, false, true);
        if answer != 0 {
            return answer;
        }
        self.write_run(number as usize, [0; 5])
    }

    pub fn set_charge(&mut self, figure: u16) -> u32 {
        if !self.question_1() {
            return 1;
        }
        if !self.question_2() {
            return 2;
        }
        if figure > LARGEST_FIGURE {
            return 13;
        }
        self.runs[FIGURE] = figure;
        self.write_routes();
        self.write_totals();
        0
    }

    pub fn check(&mut self) -> u32 {
        if !self.question_1() {
            return 1;
        }
        if !self.question_2() {
            return 2;
        }
        let mut due = [0; PAIRS];
        Sights::of(self.blocks, self.runs).draw(&mut due);
        if due[..] != self.pairs[..] {
            return 11;
        }
        let (routes, totals) = (self.routes.to_vec(), self.totals.to_vec());
        self.write_routes();
        self.write_totals();
        let right = routes[..] == self.routes[..] && totals[..] == self.totals[..];
        self.routes.copy_from_slice(&routes);
        self.totals.copy_from_slice(&totals);
        if right {
            0
        } else {
            11
        }
    }

    fn write_block(&mut self, n: usize, words: &[u16; 17]) -> u32 {
        self.blocks[17 * n..17 * n + 17].copy_from_slice(words);
        self.redraw_after_block(n);
        self.write_routes();
        self.write_totals();
        0
    }

    fn write_run(&mut self, m: usize, words: [u16; 5]) -> u32 {
        self.runs[5 * m..5 * m + 5].copy_from_slice(&words);
        Sights::of(self.blocks, self.runs).redraw_after_run(m, self.pairs);
        self.write_routes();
        self.write_totals();
        0
    }

    #[inline(never)]
    fn redraw_after_block(&mut self, n: usize) {
        Sights::of(self.blocks, self.runs).redraw_after_block(n, self.pairs);
    }

    #[inline(never)]
    fn redraw_all_pairs(&mut self) {
        Sights::of(self.blocks, self.runs).draw(self.pairs);
    }

    #[inline(never)]
    fn write_routes(&mut self) {
        let net = Network::of(self.blocks, self.runs, self.pairs);
        for (m, record) in self.routes.chunks_exact_mut(197).enumerate() {
            net.write_route(m, record);
        }
    }

    /// How many pairs name each block, and the sum of the lengths of found runs.
    #[inline(never)]
    fn write_totals(&mut self) {
        let mut counts = [0; 256];
        for &byte in self.pairs.iter() {
            counts[byte as usize] += 1;
        }
        self.totals[..SUM].copy_from_slice(&counts[..SUM]);
        self.totals[SUM] = self.routes.chunks_exact(197).filter(|record| record[0] == 1).map(|record| record[1]).sum();
    }
}
