//! A second planner, unrelated to the proved one: its own book, a fresh drawing each time, hiding by separating
//! lines, seams by points that are tried, roots by bisection, routes by correcting labels that carry their whole list of
//! marks from the first end.

use crate::tables::{pair_index, Edit, Tables, BLOCKS, FIGURE, PAIRS, ROUTES, RUNS, TOTALS};
use std::collections::VecDeque;

pub type Place = (i64, i64);

fn cross(p: Place, q: Place, d: Place) -> i64 {
    (q.0 - p.0) * (d.1 - p.1) - (q.1 - p.1) * (d.0 - p.0)
}

/// Hidden: no line parallel to a side, nor the straight's own line, has the straight on one side and the inside of
/// the block on the other.
pub fn hides(corners: &[Place], a: Place, b: Place) -> bool {
    let count = corners.len();
    for k in 0..count {
        let (p, q) = (corners[k], corners[(k + 1) % count]);
        if cross(p, q, a) <= 0 && cross(p, q, b) <= 0 {
            return false;
        }
    }
    if count == 0 || a == b {
        return count != 0;
    }
    let left = corners.iter().any(|&c| cross(a, b, c) > 0);
    let right = corners.iter().any(|&c| cross(a, b, c) < 0);
    left && right
}

/// Hidden, a third way: cut the straight by the open half plane of each side, in exact fractions.
pub fn hides_by_cutting(corners: &[Place], a: Place, b: Place) -> bool {
    // The fractions t of the straight that are left, from low to high; open tells that the end itself is cut off.
    let (mut low, mut low_open) = ((0i128, 1i128), false);
    let (mut high, mut high_open) = ((1i128, 1i128), false);
    for k in 0..corners.len() {
        let (p, q) = (corners[k], corners[(k + 1) % corners.len()]);
        let (from, to) = (cross(p, q, a) as i128, cross(p, q, b) as i128);
        let slope = to - from;
        if slope == 0 {
            if from <= 0 {
                return false;
            }
        } else if slope > 0 {
            let cut = (-from, slope);
            if cut.0 * low.1 >= low.0 * cut.1 {
                (low, low_open) = (cut, true);
            }
        } else {
            let cut = (from, -slope);
            if cut.0 * high.1 <= high.0 * cut.1 {
                (high, high_open) = (cut, true);
            }
        }
    }
    let (l, h) = (low.0 * high.1, high.0 * low.1);
    !corners.is_empty() && (l < h || (l == h && !low_open && !high_open))
}

/// Whether a straight has a point in a block, sides and corners included: no line parallel to a side, nor the straight's
/// own line, keeps them apart.
pub fn touches(corners: &[Place], a: Place, b: Place) -> bool {
    let count = corners.len();
    for k in 0..count {
        let (p, q) = (corners[k], corners[(k + 1) % count]);
        if cross(p, q, a) < 0 && cross(p, q, b) < 0 {
            return false;
        }
    }
    let left = corners.iter().any(|&c| cross(a, b, c) >= 0);
    let right = corners.iter().any(|&c| cross(a, b, c) <= 0);
    left && right
}

/// The corners of the rectangle round some places, the one in the south-west first.
fn frame(places: &[Place]) -> (Place, Place) {
    let grown = |f: (Place, Place), p: &Place| ((f.0 .0.min(p.0), f.0 .1.min(p.1)), (f.1 .0.max(p.0), f.1 .1.max(p.1)));
    places.iter().fold((places[0], places[0]), grown)
}

/// The turns of both ends of a straight against each side of a block.
fn turns(corners: &[Place], a: Place, b: Place) -> Vec<(i128, i128)> {
    let next = corners.iter().cycle().skip(1);
    corners.iter().zip(next).map(|(&p, &q)| (cross(p, q, a).into(), cross(p, q, b).into())).collect()
}

/// Whether the point that is the fraction x / w of the way along a straight belongs to a block.
fn holds(sides: &[(i128, i128)], x: i128, w: i128) -> bool {
    sides.iter().all(|&(from, to)| (w - x) * from + x * to >= 0)
}

/// In a seam: some point of the straight belongs to two of the blocks. What two of them have of it in common is a part
/// with both its ends, so it is enough to try the straight's own ends and the points where it crosses the line of a side.
pub fn in_seam<'a>(blocks: impl IntoIterator<Item = &'a Vec<Place>>, a: Place, b: Place) -> bool {
    let near = blocks.into_iter().filter(|corners| touches(corners, a, b));
    let near: Vec<_> = near.map(|corners| turns(corners, a, b)).collect();
    let twice = |x: i128, w: i128| near.iter().filter(|sides| holds(sides, x, w)).nth(1).is_some();
    let mut crossed = near.iter().flatten().filter(|&&(from, to)| from.signum() * to.signum() < 0);
    near.len() > 1 && (twice(0, 1) || twice(1, 1) || crossed.any(|(from, to)| twice(from.abs(), (from - to).abs())))
}

/// The part of a straight in a block, sides and corners included, as two fractions of the way along it.
fn part_by_cutting(corners: &[Place], a: Place, b: Place) -> Option<[(i128, i128); 2]> {
    let (mut low, mut high) = ((0, 1), (1, 1));
    for (from, to) in turns(corners, a, b) {
        let slope = to - from;
        if slope == 0 && from < 0 {
            return None;
        } else if slope > 0 && -from * low.1 > low.0 * slope {
            low = (-from, slope);
        } else if slope < 0 && from * high.1 < high.0 * -slope {
            high = (from, -slope);
        }
    }
    (!corners.is_empty() && low.0 * high.1 <= high.0 * low.1).then_some([low, high])
}

/// In a seam, a third way: cut out the part of the straight in each block, and compare the parts two by two.
pub fn in_seam_by_cutting(blocks: &[Vec<Place>], a: Place, b: Place) -> bool {
    let parts: Vec<_> = blocks.iter().filter_map(|corners| part_by_cutting(corners, a, b)).collect();
    let before = |end: (i128, i128), start: (i128, i128)| end.0 * start.1 < start.0 * end.1;
    let meet = |one: &[(i128, i128); 2], other: &[(i128, i128); 2]| !before(one[1], other[0]) && !before(other[1], one[0]);
    (0..parts.len()).any(|k| parts[..k].iter().any(|other| meet(&parts[k], other)))
}

/// Clear: no block hides the straight, and it is in no seam.
pub fn clear(blocks: &[Vec<Place>], a: Place, b: Place) -> bool {
    !blocks.iter().any(|corners| hides(corners, a, b)) && !in_seam(blocks, a, b)
}

pub fn clear_by_cutting(blocks: &[Vec<Place>], a: Place, b: Place) -> bool {
    !blocks.iter().any(|corners| hides_by_cutting(corners, a, b)) && !in_seam_by_cutting(blocks, a, b)
}

/// The smallest whole w with w x w at least the sum of the squared differences.
pub fn length(a: Place, b: Place) -> u64 {
    let square = ((a.0 - b.0) * (a.0 - b.0) + (a.1 - b.1) * (a.1 - b.1)) as u64;
    let (mut below, mut enough) = (0u64, 65536u64);
    while below < enough {
        let middle = (below + enough) / 2;
        if middle * middle >= square {
            enough = middle;
        } else {
            below = middle + 1;
        }
    }
    enough
}

/// The largest least charge that a yard may keep.
const LARGEST_FIGURE: u16 = 1000;

/// What a straight is charged: its length, but at least the figure; nothing from a place to itself.
pub fn charge(figure: u16, a: Place, b: Place) -> u64 {
    if a == b { 0 } else { length(a, b).max(figure.into()) }
}

pub fn convex(corners: &[Place]) -> bool {
    let count = corners.len();
    (0..count).all(|k| {
        let next = (k + 1) % count;
        (0..count).filter(|&o| o != k && o != next).all(|o| cross(corners[k], corners[next], corners[o]) > 0)
    })
}

fn places(words: &[u16]) -> Vec<Place> {
    words.chunks(2).map(|w| (w[0] as i64, w[1] as i64)).collect()
}

fn in_range(p: &Place) -> bool {
    (0..=32767).contains(&p.0) && (0..=32767).contains(&p.1)
}

/// The plain book: the corners of each block and the ends of each run, an empty place having none; and the least charge.
#[derive(Clone)]
pub struct Book {
    pub blocks: Vec<Vec<Place>>,
    pub runs: Vec<Vec<Place>>,
    pub figure: u16,
}

impl Book {
    pub fn new() -> Book {
        Book { blocks: vec![vec![]; 24], runs: vec![vec![]; 24], figure: 0 }
    }

    /// Questions 3 to 8 and 13.
    pub fn answer(&self, e: &Edit) -> u32 {
        let (of, number, adding) = match e {
            Edit::AddBlock(n, _) => (&self.blocks, *n, true),
            Edit::RemoveBlock(n) | Edit::MoveBlock(n, _, _) => (&self.blocks, *n, false),
            Edit::AddRun(m, _) => (&self.runs, *m, true),
            Edit::RemoveRun(m) | Edit::MoveRun(m, _) => (&self.runs, *m, false),
            Edit::SetCharge(figure) => return if *figure > LARGEST_FIGURE { 13 } else { 0 },
        };
        if number >= 24 {
            return 3;
        }
        let free = of[number as usize].is_empty();
        if adding && !free {
            return 4;
        }
        if !adding && free {
            return 5;
        }
        match e {
            Edit::AddBlock(_, words) if words.len() < 6 || words.len() > 16 || words.len() % 2 == 1 => 6,
            Edit::RemoveBlock(_) | Edit::RemoveRun(_) => 0,
            _ if !self.written(e).iter().all(in_range) => 7,
            Edit::AddBlock(_, words) if !convex(&places(words)) => 8,
            _ => 0,
        }
    }

    /// What an accepted edit leaves at its place.
    fn written(&self, e: &Edit) -> Vec<Place> {
        match e {
            Edit::AddBlock(_, words) => places(words),
            Edit::MoveBlock(n, east, north) => {
                self.blocks[*n as usize].iter().map(|p| (p.0 + *east as i64, p.1 + *north as i64)).collect()
            }
            Edit::AddRun(_, ends) | Edit::MoveRun(_, ends) => places(ends),
            Edit::RemoveBlock(_) | Edit::RemoveRun(_) | Edit::SetCharge(_) => vec![],
        }
    }

    pub fn step(&mut self, e: &Edit) -> u32 {
        let answer = self.answer(e);
        if answer == 0 {
            let left = self.written(e);
            match e {
                Edit::AddBlock(n, _) | Edit::RemoveBlock(n) | Edit::MoveBlock(n, _, _) => self.blocks[*n as usize] = left,
                Edit::AddRun(m, _) | Edit::RemoveRun(m) | Edit::MoveRun(m, _) => self.runs[*m as usize] = left,
                Edit::SetCharge(figure) => self.figure = *figure,
            }
        }
        answer
    }

    /// The place of each mark, if it is present.
    pub fn marks(&self) -> Vec<Option<Place>> {
        let corners = self.blocks.iter().flat_map(|b| (0..8).map(move |k| b.get(k).copied()));
        let ends = self.runs.iter().flat_map(|r| (0..2).map(move |k| r.get(k).copied()));
        corners.chain(ends).collect()
    }

    /// The byte of a pair under the rule from before seams were hidden.
    fn byte_before_seams(&self, a: Option<Place>, b: Option<Place>) -> u8 {
        match (a, b) {
            (Some(a), Some(b)) => self.blocks.iter().position(|c| hides(c, a, b)).map_or(254, |n| n as u8),
            _ => 255,
        }
    }

    /// The byte of each pair. Blocks whose rectangle does not reach a straight's are not tried for a seam.
    fn byte(&self) -> impl Fn(Option<Place>, Option<Place>) -> u8 + '_ {
        let frames: Vec<_> = self.blocks.iter().filter(|corners| !corners.is_empty()).map(|corners| (frame(corners), corners)).collect();
        move |a, b| match (self.byte_before_seams(a, b), a, b) {
            (254, Some(a), Some(b)) => {
                let (low, high) = frame(&[a, b]);
                let reaches = |f: &(Place, Place)| f.0 .0 <= high.0 && f.0 .1 <= high.1 && f.1 .0 >= low.0 && f.1 .1 >= low.1;
                let near = frames.iter().filter(|(frame, _)| reaches(frame)).map(|&(_, corners)| corners);
                254 - in_seam(near, a, b) as u8
            }
            (byte, _, _) => byte,
        }
    }

    pub fn write_records(&self, t: &mut Tables) {
        t.blocks.fill(0);
        t.runs.fill(0);
        t.runs[FIGURE] = self.figure;
        for (n, corners) in self.blocks.iter().enumerate() {
            t.blocks[17 * n] = corners.len() as u16;
            for (k, c) in corners.iter().enumerate() {
                t.blocks[17 * n + 1 + 2 * k] = c.0 as u16;
                t.blocks[17 * n + 2 + 2 * k] = c.1 as u16;
            }
        }
        for (m, ends) in self.runs.iter().enumerate() {
            for (k, c) in ends.iter().enumerate() {
                t.runs[5 * m] = 1;
                t.runs[5 * m + 1 + 2 * k] = c.0 as u16;
                t.runs[5 * m + 2 + 2 * k] = c.1 as u16;
            }
        }
    }

    /// The fresh drawing.
    pub fn drawing(&self) -> Tables {
        self.drawing_with(self.byte(), self.price())
    }

    /// As it was drawn before seams were hidden.
    pub fn drawing_before_seams(&self) -> Tables {
        self.drawing_with(|a, b| self.byte_before_seams(a, b), self.price())
    }

    /// As if each straight were charged its plain length, whatever the figure.
    pub fn drawing_by_lengths(&self) -> Tables {
        self.drawing_with(self.byte(), length)
    }

    fn price(&self) -> impl Fn(Place, Place) -> u64 {
        let figure = self.figure;
        move |a, b| charge(figure, a, b)
    }

    fn drawing_with(&self, byte: impl Fn(Option<Place>, Option<Place>) -> u8, price: impl Fn(Place, Place) -> u64) -> Tables {
        let mut t = Tables { blocks: vec![0; BLOCKS], runs: vec![0; RUNS], pairs: vec![255; PAIRS], routes: vec![0; ROUTES], totals: vec![] };
        self.write_records(&mut t);
        let marks = self.marks();
        for j in 0..240 {
            for i in 0..j {
                t.pairs[pair_index(i, j)] = byte(marks[i], marks[j]);
            }
        }
        self.write_routes(&mut t, price);
        t.totals = totals(&t.pairs, &t.routes);
        t
    }

    /// The routes of the graph that the pair bytes say, right or wrong, each straight at its price.
    fn write_routes(&self, t: &mut Tables, price: impl Fn(Place, Place) -> u64) {
        let marks = self.marks();
        let corners: Vec<usize> = (0..192).filter(|&i| marks[i].is_some()).collect();
        let straight = |i: usize, j: usize| match t.pairs[pair_index(i, j)] {
            254 => Some((j, price(marks[i]?, marks[j]?))),
            _ => None,
        };
        let from: Vec<Vec<(usize, u64)>> = (0..192)
            .map(|i| match marks[i] {
                Some(_) => corners.iter().filter(|&&j| j != i).filter_map(|&j| straight(i, j)).collect(),
                None => vec![],
            })
            .collect();
        let mut routes = vec![0; ROUTES];
        for m in (0..24).filter(|&m| !self.runs[m].is_empty()) {
            let (first, second) = (192 + 2 * m, 193 + 2 * m);
            let words = &mut routes[197 * m..197 * m + 197];
            let route = best_chain(first, second, |i| {
                let mut out = if i < 192 { from[i].clone() } else { corners.iter().filter_map(|&j| straight(i, j)).collect() };
                out.extend(straight(i, second));
                out
            });
            match route {
                None => words[0] = 2,
                Some((sum, marks)) => {
                    words[..3].copy_from_slice(&[1, sum as u32, marks.len() as u32]);
                    for (word, mark) in words[3..].iter_mut().zip(marks) {
                        *word = mark as u32;
                    }
                }
            }
        }
        t.routes = routes;
    }
}

/// For each block how many bytes of pairs are its number, then what the found routes are charged in all.
pub fn totals(pairs: &[u8], routes: &[u32]) -> Vec<u32> {
    let mut naming = [0; 24];
    pairs.iter().filter(|&&byte| byte < 24).for_each(|&byte| naming[byte as usize] += 1);
    let sum: u64 = routes.chunks(197).map(|words| if let [1, length, ..] = words { u64::from(*length) } else { 0 }).sum();
    naming.into_iter().chain([u32::try_from(sum).expect("a sum of 32 bits")]).collect()
}

/// The least sum of prices, then the fewest straights, then the first list of marks.
fn best_chain(first: usize, second: usize, from: impl Fn(usize) -> Vec<(usize, u64)>) -> Option<(u64, Vec<usize>)> {
    let mut best: Vec<Option<(u64, Vec<usize>)>> = vec![None; 240];
    best[first] = Some((0, vec![first]));
    let mut waiting = VecDeque::from([first]);
    let mut queued = vec![false; 240];
    while let Some(i) = waiting.pop_front() {
        queued[i] = false;
        let Some((so_far, list)) = best[i].clone() else { continue };
        for (j, straight) in from(i) {
            let sum = so_far + straight;
            let better = match &best[j] {
                None => true,
                Some((old, marks)) => {
                    let order = (sum, list.len() + 1).cmp(&(*old, marks.len()));
                    order.then_with(|| list.iter().chain([&j]).cmp(marks.iter())).is_lt()
                }
            };
            if better {
                let marks = list.iter().copied().chain([j]).collect();
                best[j] = Some((sum, marks));
                if j != second && !queued[j] {
                    queued[j] = true;
                    waiting.push_back(j);
                }
            }
        }
    }
    best[second].take()
}

pub fn lengths_right(t: &Tables) -> bool {
    (t.blocks.len(), t.runs.len(), t.pairs.len(), t.routes.len(), t.totals.len()) == (BLOCKS, RUNS, PAIRS, ROUTES, TOTALS)
}

/// Question 2: the book that the stored records and figure say, if each is one that the tables allow.
pub fn stored_book(t: &Tables) -> Option<Book> {
    let mut book = Book::new();
    for (n, words) in t.blocks.chunks(17).enumerate() {
        let count = words[0] as usize;
        if count > 8 || count == 1 || count == 2 || words[1 + 2 * count..].iter().any(|&w| w != 0) {
            return None;
        }
        let corners = places(&words[1..1 + 2 * count]);
        if !corners.iter().all(in_range) || !convex(&corners) {
            return None;
        }
        book.blocks[n] = corners;
    }
    for (m, words) in t.runs[..FIGURE].chunks(5).enumerate() {
        match words[0] {
            0 if words == [0; 5] => {}
            1 if words[1..].iter().all(|&w| w < 32768) => book.runs[m] = places(&words[1..]),
            _ => return None,
        }
    }
    book.figure = t.runs[FIGURE];
    (book.figure <= LARGEST_FIGURE).then_some(book)
}

/// The answer and the tables that an edit must leave over any tables, right or wrong.
pub fn edited(t: &Tables, e: &Edit) -> (u32, Tables) {
    if !lengths_right(t) {
        return (1, t.clone());
    }
    let Some(mut book) = stored_book(t) else { return (2, t.clone()) };
    let answer = book.step(e);
    let mut after = t.clone();
    if answer == 0 {
        book.write_records(&mut after);
        treat_pairs(&book, e, &mut after.pairs);
        book.write_routes(&mut after, book.price());
        after.totals = totals(&after.pairs, &after.routes);
    }
    (answer, after)
}

/// How an accepted edit treats pairs, in tables right or wrong: docs/RULES.md, "The calls and their questions".
fn treat_pairs(book: &Book, e: &Edit, pairs: &mut [u8]) {
    let (marks, fresh) = (book.marks(), book.byte());
    let (own, block) = match e {
        Edit::AddBlock(n, _) | Edit::RemoveBlock(n) | Edit::MoveBlock(n, _, _) => (8 * *n as usize..8 * *n as usize + 8, Some(*n as u8)),
        Edit::AddRun(m, _) | Edit::RemoveRun(m) | Edit::MoveRun(m, _) => (192 + 2 * *m as usize..194 + 2 * *m as usize, None),
        Edit::SetCharge(_) => return,
    };
    for j in 0..240 {
        for i in 0..j {
            let byte = &mut pairs[pair_index(i, j)];
            let afresh = |n: u8| *byte == n || *byte == 253 || *byte == 254;
            if own.contains(&i) || own.contains(&j) || block.is_some_and(afresh) {
                *byte = fresh(marks[i], marks[j]);
            } else if let (Some(n), Some(a), Some(b)) = (block, marks[i], marks[j]) {
                if *byte > n && hides(&book.blocks[n as usize], a, b) {
                    *byte = n;
                }
            }
        }
    }
}

/// What the check must answer.
pub fn checked(t: &Tables) -> u32 {
    if !lengths_right(t) {
        return 1;
    }
    match stored_book(t) {
        None => 2,
        Some(book) if book.drawing() == *t => 0,
        Some(_) => 11,
    }
}
