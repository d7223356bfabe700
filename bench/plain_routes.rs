//! The routes of the plain planner: which corners see which, as bits, once for all runs; then for each run a search backwards
//! from its second end, directed towards the first, and a walk forwards by the keys found.

use super::pairs::{Marks, CLEAR};
use super::{bits, row, FIGURE};

const CORNERS: usize = 192;

/// Corners, as bits.
type Set = [u64; 3];

fn insert(set: &mut Set, v: usize) {
    set[v / 64] |= 1 << (v % 64);
}

fn remove(set: &mut Set, v: usize) {
    set[v / 64] &= !(1 << (v % 64));
}

/// The corners of a set, in order.
fn members(set: &Set) -> impl Iterator<Item = usize> + '_ {
    (0..3).flat_map(|k| bits(set[k]).map(move |b| 64 * k + b))
}

/// The root of x, rounded down.
fn root_down(x: u32) -> u32 {
    if x == 0 {
        return 0;
    }
    let half = 2 * root_down(x / 4);
    if (half + 1) * (half + 1) <= x {
        half + 1
    } else {
        half
    }
}

/// The root of x, which is not 0, rounded up: a guess by two of Newton's steps, if it turns out right.
fn root_up(x: u32) -> u32 {
    let half = (33 - x.leading_zeros()) / 2;
    let mut guess = ((x >> half) + (1 << half)) / 2 + 1;
    guess = (guess + x / guess) / 2;
    guess = (guess + x / guess) / 2;
    if guess * guess < x {
        guess += 1;
    }
    if guess * guess >= x && (guess - 1) * (guess - 1) < x {
        return guess;
    }
    let root = root_down(x);
    if root * root < x {
        root + 1
    } else {
        root
    }
}

/// What a straight is charged, by its squares.
fn charge(figure: u32, square: u32) -> u32 {
    if square == 0 {
        0
    } else {
        root_up(square).max(figure)
    }
}

/// The squares of the longest straight of a length.
fn longest(length: u32) -> u64 {
    length as u64 * length as u64
}

/// Whether a charge is more than a number, without a root.
fn dearer(figure: u32, square: u32, most: u32) -> bool {
    square != 0 && (most < figure || longest(most) < square as u64)
}

/// Whether a charge is the number, without a root.
fn costs(figure: u32, square: u32, number: u32) -> bool {
    if square == 0 {
        return number == 0;
    }
    !dearer(figure, square, number) && (number == figure || longest(number - 1) < square as u64)
}

/// 256 x a whole number that a straight is at least as long as, by its differences and without a root: its longest shadow in
/// five directions, or a little less.
fn at_least(east: i32, north: i32) -> u32 {
    let (east, north) = (east.unsigned_abs(), north.unsigned_abs());
    let (hi, lo) = (east.max(north), east.min(north));
    let flat = (256 * hi).max(250 * hi + 55 * lo).max(236 * hi + 99 * lo);
    256 * (flat.max(213 * hi + 142 * lo).max(181 * hi + 181 * lo) / 256)
}

/// The key of a mark that no chain is known from. Keys of chains are less, and a key with what is ahead still fits.
const NONE: u32 = 4_000_000_000;

/// What the searches of all runs have in common.
pub struct Network<'a> {
    pairs: &'a [u8],
    figure: u32,
    marks: Marks,
    /// The present corners, and for each those that it has a clear straight to.
    corners: Set,
    seen: [Set; CORNERS],
}

impl<'a> Network<'a> {
    pub fn of(blocks: &[u16], runs: &[u16], pairs: &'a [u8]) -> Network<'a> {
        let marks = Marks::of(blocks, runs);
        let (mut corners, mut seen) = (Set::default(), [Set::default(); CORNERS]);
        for j in (0..CORNERS).filter(|&j| marks.present[j]) {
            insert(&mut corners, j);
            for (i, &byte) in pairs[row(j)..][..j].iter().enumerate() {
                if byte == CLEAR && marks.present[i] {
                    insert(&mut seen[i], j);
                    insert(&mut seen[j], i);
                }
            }
        }
        Network { pairs, figure: runs[FIGURE] as u32, marks, corners, seen }
    }

    /// The bytes of an end with all corners.
    fn bytes(&self, end: usize) -> &'a [u8; CORNERS] {
        self.pairs[row(end)..].first_chunk().expect("a row of the pair table")
    }

    fn differences(&self, u: usize, v: usize) -> (i32, i32) {
        let (a, b) = (self.marks.place(u), self.marks.place(v));
        (b.0 as i32 - a.0 as i32, b.1 as i32 - a.1 as i32)
    }

    fn squares(&self, u: usize, v: usize) -> u32 {
        let (east, north) = self.differences(u, v);
        (east * east + north * north) as u32
    }

    /// The key of v, so far old, once s is settled with the key given. A root is taken only where it becomes less.
    #[inline(always)]
    fn improved(&self, v: usize, s: usize, key: u32, old: u32) -> u32 {
        if old < key + 2 {
            return old;
        }
        let square = self.squares(s, v);
        if dearer(self.figure, square, (old - key - 2) / 256) {
            return old;
        }
        key + 256 * charge(self.figure, square) + 1
    }

    /// The route record of run m.
    pub fn write_route(&self, m: usize, record: &mut [u32]) {
        record.fill(0);
        if !self.marks.present[192 + 2 * m] {
            return;
        }
        let search = Search::of(self, 192 + 2 * m);
        if search.goal == NONE {
            record[0] = 2;
        } else {
            let count = search.walk(&mut record[3..]);
            record[..3].copy_from_slice(&[1, search.goal / 256, count]);
        }
    }
}

/// The search of one run. A key is 256 x charges + straights of the best chain from a mark to the second end, as far as known.
struct Search<'a> {
    net: &'a Network<'a>,
    first: usize,
    /// The key of the first end, and those of the corners.
    goal: u32,
    keys: [u32; CORNERS],
    /// The corners that are not settled.
    open: Set,
    /// The reached ones of these in no order, each as 256 x (its key + what is ahead of it) + its number; where each stands,
    /// and how many there are.
    front: [u64; CORNERS],
    at: [u8; CORNERS],
    count: usize,
}

impl<'a> Search<'a> {
    /// From the second end until no corner is left by which the first could have a better chain.
    fn of(net: &'a Network, first: usize) -> Search<'a> {
        let (keys, front, at) = ([NONE; CORNERS], [0; CORNERS], [0; CORNERS]);
        let mut search = Search { net, first, goal: NONE, keys, open: net.corners, front, at, count: 0 };
        let second = first + 1;
        let mut seen = Set::default();
        for (v, &byte) in net.bytes(second).iter().enumerate() {
            if byte == CLEAR {
                insert(&mut seen, v);
            }
        }
        search.settle(second, 0, net.pairs[row(second) + first], &seen);
        while let Some(s) = search.take() {
            search.settle(s, search.keys[s], net.bytes(first)[s], &net.seen[s]);
        }
        search
    }

    /// Improve the first end, if its byte with s says clear, and the open ones of the corners that s sees, by the straight to s.
    fn settle(&mut self, s: usize, key: u32, byte: u8, seen: &Set) {
        let net = self.net;
        if byte == CLEAR {
            self.goal = net.improved(self.first, s, key, self.goal);
        }
        for k in 0..3 {
            for b in bits(seen[k] & self.open[k]) {
                let v = 64 * k + b;
                let old = self.keys[v];
                let new = net.improved(v, s, key, old);
                if new != old {
                    self.keys[v] = new;
                    self.advance(v, old, new);
                }
            }
        }
    }

    /// Put v in the front, or give it its new key there.
    fn advance(&mut self, v: usize, old: u32, new: u32) {
        if old == NONE {
            let (east, north) = self.net.differences(v, self.first);
            self.front[self.count] = 256 * (new + at_least(east, north)) as u64 + v as u64;
            self.at[v] = self.count as u8;
            self.count += 1;
        } else {
            self.front[self.at[v] as usize] -= 256 * (old - new) as u64;
        }
    }

    /// Take the least out of the front, if the first end can have a better chain by it.
    fn take(&mut self) -> Option<usize> {
        let (fours, rest) = self.front[..self.count].as_chunks::<4>();
        let lanes = fours.iter().fold([u64::MAX; 4], |least, four| std::array::from_fn(|k| least[k].min(four[k])));
        let least = lanes.iter().chain(rest).fold(u64::MAX, |least, &one| least.min(one));
        if least / 256 >= self.goal as u64 {
            return None;
        }
        let s = least as usize % 256;
        remove(&mut self.open, s);
        self.count -= 1;
        let last = self.front[self.count];
        self.front[self.at[s] as usize] = last;
        self.at[last as usize % 256] = self.at[s];
        Some(s)
    }

    /// Forwards from the first end, always to the lowest mark on a best chain. Answers how many marks there are.
    fn walk(&self, marks: &mut [u32]) -> u32 {
        let (first, second) = (self.first, self.first + 1);
        let bytes = self.net.bytes(first);
        marks[0] = first as u32;
        let mut count = 1;
        let mut v = (0..CORNERS).find(|&u| bytes[u] == CLEAR && self.tight(first, self.goal, u)).unwrap_or(second);
        while v != second {
            marks[count] = v as u32;
            count += 1;
            v = members(&self.net.seen[v]).find(|&u| self.tight(v, self.keys[v], u)).unwrap_or(second);
        }
        marks[count] = second as u32;
        count as u32 + 1
    }

    /// Whether a clear straight from v, with the key given, to corner u is charged what their keys say.
    fn tight(&self, v: usize, key: u32, u: usize) -> bool {
        let more = key.saturating_sub(self.keys[u]);
        more % 256 == 1 && costs(self.net.figure, self.net.squares(v, u), more / 256)
    }
}
