//! The pair table of the plain planner. Each mark has a code for each block, made once a call, of the sides that it is not
//! strictly left of. Where two marks' codes share a bit, the block does not hide the straight between them, and they touch
//! only where a mark belongs to the block or both are in line with that side.

use super::{bits, block_words, corner, row, Place};
use std::ops::Range;

const MARKS: usize = 240;
const SEAM: u8 = 253;
pub const CLEAR: u8 = 254;
const ABSENT: u8 = 255;

/// Where each mark is, and whether it is present.
pub struct Marks {
    pub east: [i16; MARKS],
    pub north: [i16; MARKS],
    pub present: [bool; MARKS],
}

impl Marks {
    pub fn of(blocks: &[u16], runs: &[u16]) -> Marks {
        let mut marks = Marks { east: [0; MARKS], north: [0; MARKS], present: [false; MARKS] };
        for (n, block) in blocks.chunks_exact(17).enumerate() {
            marks.put(8 * n, block, |k| k < block[0] as usize);
        }
        for (m, run) in runs.chunks_exact(5).enumerate() {
            marks.put(192 + 2 * m, run, |_| run[0] != 0);
        }
        marks
    }

    /// The marks of a block or run, from the given one on.
    fn put(&mut self, from: usize, record: &[u16], there: impl Fn(usize) -> bool) {
        for (k, place) in record[1..].chunks_exact(2).enumerate() {
            self.east[from + k] = place[0] as i16;
            self.north[from + k] = place[1] as i16;
            self.present[from + k] = there(k);
        }
    }

    pub fn place(&self, mark: usize) -> Place {
        (self.east[mark], self.north[mark])
    }
}

/// A side of a block or another straight, by how far it goes east and north, and a number that its places have in common.
#[derive(Clone, Copy, Default)]
pub struct Side {
    east: i16,
    north: i16,
    level: i32,
}

impl Side {
    pub fn between(p: Place, q: Place) -> Side {
        let (east, north) = (q.0 - p.0, q.1 - p.1);
        Side { east, north, level: east as i32 * p.1 as i32 - north as i32 * p.0 as i32 }
    }

    /// Above 0 where a place is left of the side, 0 on its line. Fits, since no coordinate is above 32,767.
    fn turn(&self, place: Place) -> i32 {
        self.east as i32 * place.1 as i32 - self.north as i32 * place.0 as i32 - self.level
    }

    pub fn has_left(&self, place: Place) -> bool {
        self.east as i32 * place.1 as i32 - self.north as i32 * place.0 as i32 > self.level
    }
}

/// The sides of a block, from each corner to the next.
#[derive(Clone, Copy, Default)]
struct Sides {
    count: usize,
    all: [Side; 8],
}

/// The code of each mark for one block: bit k is set where the mark is not strictly left of side k. The bits from the last
/// side on repeat it, so that bit 7 is the side before corner 0. For an absent block all bits are set.
type Codes = [u8; MARKS];

/// The sides that bound what is left of a straight, each by the turns of both ends: the tightest of those that the first
/// end is right of, and of those that the second is right of.
#[derive(Clone, Copy)]
struct Span {
    low: (i64, i64),
    up: (i64, i64),
}

const WHOLE: Span = Span { low: (1, 1), up: (1, 1) };

/// What of a straight from a to b, between the sides kept before, belongs to a block, sides and corners included.
#[inline(always)]
fn reach(block: &Sides, mut kept: Span, a: Place, b: Place) -> Option<Span> {
    for side in &block.all[..block.count] {
        let (from, to) = (side.turn(a) as i64, side.turn(b) as i64);
        if from < 0 {
            if to < 0 {
                return None;
            }
            if from * kept.low.1 < kept.low.0 * to {
                kept.low = (from, to);
            }
        } else if to < 0 && to * kept.up.0 < kept.up.1 * from {
            kept.up = (from, to);
        }
    }
    let apart = kept.low.0 < 0 && kept.up.1 < 0 && kept.up.0 * kept.low.1 < kept.low.0 * kept.up.1;
    (!apart).then_some(kept)
}

/// The least and the greatest coordinate of a block, east and north. An absent block has no point in common with another.
fn rectangle(block: &[u16]) -> [(u16, u16); 2] {
    let corners = &block[1..1 + 2 * block[0] as usize];
    std::array::from_fn(|i| corners.iter().skip(i).step_by(2).fold((u16::MAX, 0), |(least, most), &w| (least.min(w), most.max(w))))
}

/// For each block a bit for each other whose enclosing rectangle has a point in common with its own.
fn masks(blocks: &[u16]) -> [u64; 24] {
    let rectangles: [_; 24] = std::array::from_fn(|n| rectangle(block_words(blocks, n)));
    let mut masks = [0; 24];
    for (n, a) in rectangles.iter().enumerate() {
        for (m, b) in rectangles[..n].iter().enumerate() {
            if a[0].0 <= b[0].1 && b[0].0 <= a[0].1 && a[1].0 <= b[1].1 && b[1].0 <= a[1].1 {
                masks[n] |= 1 << m;
                masks[m] |= 1 << n;
            }
        }
    }
    masks
}

/// What tells the byte of any two marks.
pub struct Sights {
    marks: Marks,
    sides: [Sides; 24],
    codes: [Codes; 24],
    /// For each block the others that it can have a point in common with, as bits.
    masks: [u64; 24],
    /// Whether no two blocks can.
    alone: bool,
    /// For each mark the blocks that can and that have a side in line with it, as bits, and 24 bits above those that it belongs to.
    lines: [u64; MARKS],
}

impl Sights {
    pub fn of(blocks: &[u16], runs: &[u16]) -> Sights {
        let (marks, masks) = (Marks::of(blocks, runs), masks(blocks));
        let alone = masks == [0; 24];
        let mut sights = Sights { marks, sides: [Sides::default(); 24], codes: [[255; MARKS]; 24], masks, alone, lines: [0; MARKS] };
        for (n, block) in blocks.chunks_exact(17).enumerate().filter(|(_, block)| block[0] != 0) {
            sights.encode(n, block);
            if masks[n] != 0 {
                sights.align(n);
            }
        }
        sights
    }

    /// The sides and codes of a present block.
    fn encode(&mut self, n: usize, block: &[u16]) {
        let count = block[0] as usize;
        self.sides[n].count = count;
        self.codes[n].fill(0);
        for k in 0..count {
            let (next, bits) = if k + 1 < count { (k + 1, 1 << k) } else { (0, 255 << k) };
            let side = Side::between(corner(block, k), corner(block, next));
            self.sides[n].all[k] = side;
            for ((code, &east), &north) in self.codes[n].iter_mut().zip(&self.marks.east).zip(&self.marks.north) {
                *code |= if side.has_left((east, north)) { 0 } else { bits };
            }
        }
    }

    /// The marks in line with a side of block n, and of these, right of no side, those that belong to it.
    fn align(&mut self, n: usize) {
        let Sides { count, all } = &self.sides[n];
        let mut said = [0u8; MARKS];
        for side in &all[..*count] {
            for ((said, &east), &north) in said.iter_mut().zip(&self.marks.east).zip(&self.marks.north) {
                let turn = side.turn((east, north));
                *said |= (turn == 0) as u8 | ((turn < 0) as u8) << 1;
            }
        }
        for (line, said) in self.lines.iter_mut().zip(said) {
            *line |= ((said & 1) as u64) << n | ((said == 1) as u64) << (24 + n);
        }
    }

    /// Whether block n has a side that neither mark is strictly left of. Then it does not hide the straight between them.
    #[inline(always)]
    fn beside(&self, n: usize, i: usize, j: usize) -> bool {
        self.codes[n][i] & self.codes[n][j] != 0
    }

    /// Whether block n hides the straight between two present marks that are not beside it.
    #[inline(always)]
    fn hides(&self, n: usize, i: usize, j: usize) -> bool {
        let (here, there) = (self.codes[n][i], self.codes[n][j]);
        here == 0 || there == 0 || self.crosses(n, here, i, j)
    }

    /// The same where neither is inside: whether the straight goes between the two corners that bound what mark i, of the code
    /// given, sees of the block.
    #[inline(always)]
    fn crosses(&self, n: usize, code: u8, i: usize, j: usize) -> bool {
        let before = code.rotate_left(1);
        let left = 8 * n + (code & !before).trailing_zeros() as usize;
        let right = 8 * n + (before & !code).trailing_zeros() as usize;
        let straight = Side::between(self.marks.place(i), self.marks.place(j));
        straight.turn(self.marks.place(left)) > 0 && straight.turn(self.marks.place(right)) < 0
    }

    /// Whether some point of the straight between two marks belongs to two blocks. It touches only those given, which it is not
    /// beside, those that an end belongs to, and those with sides in line with both.
    fn shared(&self, i: usize, j: usize, opened: u64) -> bool {
        let (a, b) = (self.marks.place(i), self.marks.place(j));
        let (first, last) = (self.lines[i], self.lines[j]);
        let mut rest = (opened | (first & last) | ((first | last) >> 24)) & 0xff_ffff;
        while rest != 0 {
            let p = rest.trailing_zeros() as usize;
            rest &= rest - 1;
            let others = rest & self.masks[p];
            if others == 0 {
                continue;
            }
            let first = reach(&self.sides[p], WHOLE, a, b);
            if first.is_some_and(|kept| bits(others).any(|q| reach(&self.sides[q], kept, a, b).is_some())) {
                return true;
            }
        }
        false
    }

    /// The byte of two marks: the lowest block that hides the straight between them; else 253 if a point of it belongs to two,
    /// and 254 if none does; 255 where a mark is absent.
    fn byte(&self, i: usize, j: usize) -> u8 {
        if !self.marks.present[i] || !self.marks.present[j] {
            return ABSENT;
        }
        let mut opened = 0;
        let mut hides = |n: usize| {
            if self.beside(n, i, j) {
                return false;
            }
            opened |= 1 << n;
            self.hides(n, i, j)
        };
        // four blocks a turn
        match (0..24).step_by(4).find_map(|n| (n..n + 4).find(|&n| hides(n))) {
            Some(n) => n as u8,
            None if !self.alone && self.shared(i, j, opened) => SEAM,
            None => CLEAR,
        }
    }

    /// Whether block n hides the straight between mark i, if that is present, and mark j, which is; they are not beside it.
    #[inline(never)]
    fn covers(&self, n: usize, i: usize, j: usize) -> bool {
        self.marks.present[i] && self.hides(n, i, j)
    }

    /// All pairs.
    pub fn draw(&self, pairs: &mut [u8]) {
        for j in 1..MARKS {
            self.draw_part(&mut pairs[row(j)..][..j], j, 0..j);
        }
    }

    /// The pairs after an edit of run m.
    pub fn redraw_after_run(&self, m: usize, pairs: &mut [u8]) {
        for end in [192 + 2 * m, 193 + 2 * m] {
            self.draw_part(&mut pairs[row(end)..][..end], end, 0..end);
            for j in end + 1..MARKS {
                pairs[row(j) + end] = self.byte(end, j);
            }
        }
    }

    /// The pairs after an edit of block n.
    pub fn redraw_after_block(&self, n: usize, pairs: &mut [u8]) {
        let (own, after) = (8 * n, 8 * n + 8);
        for j in 1..MARKS {
            let row = &mut pairs[row(j)..][..j];
            if j < own {
                self.redraw_part(n, row, j, 0..j);
            } else if j < after {
                self.draw_part(row, j, 0..j);
            } else {
                self.redraw_part(n, row, j, 0..own);
                self.draw_part(row, j, own..after);
                self.redraw_part(n, row, j, after..j);
            }
        }
    }

    /// The bytes of mark j with some of the marks below it.
    fn draw_part(&self, row: &mut [u8], j: usize, below: Range<usize>) {
        for i in below {
            row[i] = self.byte(i, j);
        }
    }

    /// The same of marks that are none of block n's, after an edit of that block: worked out afresh where the byte was n, 253
    /// or 254, and where it was more, only block n is tried.
    fn redraw_part(&self, n: usize, row: &mut [u8], j: usize, below: Range<usize>) {
        let number = n as u8;
        let fresh = |old: u8| old == number || old == SEAM || old == CLEAR;
        if !self.marks.present[j] {
            return row[below].iter_mut().for_each(|byte| *byte = if fresh(*byte) { ABSENT } else { *byte });
        }
        let (row, codes, code) = (&mut row[..below.end], &self.codes[n][..below.end], self.codes[n][j]);
        for i in below {
            let old = row[i];
            if old < number {
                continue;
            }
            if fresh(old) {
                row[i] = self.byte(i, j);
            } else if codes[i] & code == 0 && self.covers(n, i, j) {
                row[i] = number;
            }
        }
    }
}
