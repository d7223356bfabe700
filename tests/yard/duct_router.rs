//! A second duct router (docs/RULES.md, "Ducts"), unrelated to the proved one: paths are lists of places, priced as the
//! request says and compared whole. One way goes along every path that does not meet itself, for yards of few lines;
//! the other extends paths from the first end, the least first.

use crate::reference::{clear, clear_by_cutting, Book, Place};
use std::cmp::Reverse;
use std::collections::{BTreeSet, BinaryHeap, HashSet};

pub const CHANGE: i64 = 25;

/// A path, in the order of the request: cost, changes of direction, crossings east before north.
#[derive(Clone, Debug, PartialEq, Eq, PartialOrd, Ord)]
pub struct Path {
    pub cost: i64,
    pub changes: i64,
    pub crossings: Vec<Place>,
}

fn distance(a: Place, b: Place) -> i64 {
    (a.0 - b.0).abs() + (a.1 - b.1).abs()
}

fn in_line(a: Place, b: Place, c: Place) -> bool {
    (a.0 == b.0 && b.0 == c.0) || (a.1 == b.1 && b.1 == c.1)
}

fn priced(crossings: Vec<Place>) -> Path {
    let length: i64 = crossings.windows(2).map(|w| distance(w[0], w[1])).sum();
    let changes = crossings.windows(3).filter(|w| !in_line(w[0], w[1], w[2])).count() as i64;
    Path { cost: length + CHANGE * changes, changes, crossings }
}

/// The lines of a run's duct: through every corner of a block and through its two ends.
pub struct Lines<'a> {
    book: &'a Book,
    first: Place,
    second: Place,
    easts: BTreeSet<i64>,
    norths: BTreeSet<i64>,
}

impl Lines<'_> {
    pub fn new<'a>(book: &'a Book, ends: &[Place]) -> Lines<'a> {
        let places = || book.blocks.iter().flatten().chain(ends);
        Lines {
            book,
            first: ends[0],
            second: ends[1],
            easts: places().map(|p| p.0).collect(),
            norths: places().map(|p| p.1).collect(),
        }
    }

    /// The neighbouring crossings.
    fn beside(&self, at: Place) -> impl Iterator<Item = Place> {
        let next = |of: &BTreeSet<i64>, v: i64| [of.range(..v).next_back().copied(), of.range(v + 1..).next().copied()];
        let (east, north) = (next(&self.easts, at.0), next(&self.norths, at.1));
        let sideways = east.into_iter().flatten().map(move |e| (e, at.1));
        sideways.chain(north.into_iter().flatten().map(move |n| (at.0, n)))
    }

    fn clear(&self, a: Place, b: Place) -> bool {
        clear(&self.book.blocks, a, b)
    }

    /// The least path, by taking the least of all paths that wait to be extended. Of the paths that reach a crossing
    /// along the same axis the least comes first, and whatever extends another of them would be less behind it.
    pub fn least(&self) -> Option<Path> {
        if !self.clear(self.first, self.first) {
            return None;
        }
        let mut waiting = BinaryHeap::from([Reverse(priced(vec![self.first]))]);
        let mut reached = HashSet::new();
        while let Some(Reverse(path)) = waiting.pop() {
            let at = path.crossings[path.crossings.len() - 1];
            if at == self.second {
                return Some(path);
            }
            let before = path.crossings.iter().rev().nth(1).copied();
            if !reached.insert((at, before.map(|b| b.0 == at.0))) {
                continue;
            }
            for next in self.beside(at).filter(|&next| self.clear(at, next)) {
                let change = before.is_some_and(|b| !in_line(b, at, next)) as i64;
                let crossings = [&path.crossings[..], &[next]].concat();
                let cost = path.cost + distance(at, next) + CHANGE * change;
                waiting.push(Reverse(Path { cost, changes: path.changes + change, crossings }));
            }
        }
        None
    }
}

/// What going along every path found.
pub struct Tried {
    pub least: Option<Path>,
    /// Paths of the least cost with more changes, and of the least cost and changes with another list.
    pub by_changes: usize,
    pub by_crossings: usize,
}

/// Every path of a yard of few lines, hiding tested by cutting.
struct Every<'a> {
    lines: &'a Lines<'a>,
    steps: HashSet<(Place, Place)>,
    found: Vec<Path>,
    limit: i64,
    left: usize,
}

impl Every<'_> {
    /// Go on from the last crossing of a list, without meeting it again, where the cost so far and the plain distance
    /// that is left stay within the limit.
    fn go(&mut self, crossings: &mut Vec<Place>) -> Option<()> {
        self.left = self.left.checked_sub(1)?;
        let at = crossings[crossings.len() - 1];
        let path = priced(crossings.clone());
        if path.cost + distance(at, self.lines.second) > self.limit {
            return Some(());
        }
        if at == self.lines.second {
            self.found.push(path);
            return Some(());
        }
        for next in self.lines.beside(at) {
            if !crossings.contains(&next) && self.steps.contains(&(at, next)) {
                crossings.push(next);
                self.go(crossings)?;
                crossings.pop();
            }
        }
        Some(())
    }
}

impl Lines<'_> {
    fn clear_by_cutting(&self, a: Place, b: Place) -> bool {
        clear_by_cutting(&self.book.blocks, a, b)
    }

    fn clear_steps(&self) -> HashSet<(Place, Place)> {
        let all = self.easts.iter().flat_map(|&e| self.norths.iter().map(move |&n| (e, n)));
        all.flat_map(|a| self.beside(a).map(move |b| (a, b))).filter(|&(a, b)| self.clear_by_cutting(a, b)).collect()
    }

    /// Whether clear steps lead from the first end to the second.
    fn joined(&self, steps: &HashSet<(Place, Place)>) -> bool {
        let mut seen = HashSet::from([self.first]);
        let mut open = vec![self.first];
        while let Some(at) = open.pop() {
            open.extend(self.beside(at).filter(|&next| steps.contains(&(at, next)) && seen.insert(next)));
        }
        seen.contains(&self.second) && self.clear_by_cutting(self.first, self.first)
    }

    /// The least of all paths up to a cost, which is raised until there is one; none after so many lists.
    pub fn tried(&self, most: usize) -> Option<Tried> {
        let steps = self.clear_steps();
        if !self.joined(&steps) {
            return Some(Tried { least: None, by_changes: 0, by_crossings: 0 });
        }
        let mut every = Every { lines: self, steps, found: vec![], limit: distance(self.first, self.second), left: most };
        while every.found.is_empty() {
            every.go(&mut vec![self.first])?;
            every.limit += CHANGE;
        }
        let least = every.found.iter().min()?.clone();
        let equal = |p: &&Path| p.cost == least.cost;
        let by_changes = every.found.iter().filter(equal).filter(|p| p.changes > least.changes).count();
        let by_crossings = every.found.iter().filter(equal).filter(|p| p.changes == least.changes).count() - 1;
        Some(Tried { least: Some(least), by_changes, by_crossings })
    }
}
