//! Places for the numbers of blocks, the numbers at the ends of runs and the labels of runs, so that they overlap little.

use crate::plane::{along, centre, distance, distance_to_line, length, Box, Point};

pub struct Line {
    pub points: Vec<Point>,
    /// Size of its label.
    pub wide: f64,
    pub tall: f64,
}

pub struct Page {
    pub area: Box,
    /// The outlines of the blocks, and the sizes of their numbers.
    pub blocks: Vec<(Vec<Point>, f64, f64)>,
    /// Where runs end, and the sizes of the numbers there.
    pub ends: Vec<(Point, f64, f64)>,
    pub lines: Vec<Line>,
}

/// A box for each of these.
pub struct Placed {
    pub numbers: Vec<Box>,
    pub ends: Vec<Box>,
    pub labels: Vec<Box>,
}

const GAP: f64 = 0.9;

/// The cost of a box by what is drawn under it, `own` the line that it belongs to.
fn drawn_under(page: &Page, b: &Box, own: Option<usize>) -> f64 {
    let mut cost = 0.0;
    let near = b.grown(0.8);
    for (k, line) in page.lines.iter().enumerate() {
        for w in line.points.windows(2) {
            cost += if own == Some(k) { 1.2 * b.part_of(w[0], w[1]) } else { 1.4 * b.part_of(w[0], w[1]) + 0.3 * near.part_of(w[0], w[1]) };
        }
        for &end in [line.points.first(), line.points.last()].into_iter().flatten() {
            cost += if Box::around(end, 2.2, 2.2).shared(b) > 0.0 { 8.0 } else { 0.0 };
        }
    }
    for (corners, ..) in &page.blocks {
        for k in 0..corners.len() {
            cost += 0.5 * b.part_of(corners[k], corners[(k + 1) % corners.len()]);
        }
    }
    if b.inside(&page.area) {
        cost
    } else {
        cost + 1000.0
    }
}

fn label_under(placed: &[Box], b: &Box) -> f64 {
    let grown = b.grown(0.7);
    placed.iter().map(|other| grown.shared(other)).filter(|&area| area > 0.0).map(|area| 60.0 + 10.0 * area).sum()
}

/// The eight boxes that touch a point's surroundings, nearest first.
fn beside(p: Point, wide: f64, tall: f64, by: f64) -> Vec<Box> {
    let (east, down) = (wide / 2.0 + by, tall / 2.0 + by);
    [(0.0, -down), (0.0, down), (east, 0.0), (-east, 0.0), (east, -down), (-east, -down), (east, down), (-east, down)]
        .iter()
        .map(|d| Box::around((p.0 + d.0, p.1 + d.1), wide, tall))
        .collect()
}

/// The least costly of some boxes, by what each costs where it is, the labels under it and the rest. No cost is below 0, so
/// that the rest is worked out only where it can matter.
fn least(mut boxes: Vec<(f64, Box)>, placed: &[Box], rest: impl Fn(&Box) -> f64) -> Option<Box> {
    boxes.sort_by(|a, b| a.0.total_cmp(&b.0));
    let mut best = (f64::MAX, None);
    for (here, b) in boxes {
        let known = if here < best.0 { here + label_under(placed, &b) } else { break };
        let cost = if known < best.0 { known + rest(&b) } else { continue };
        if cost < best.0 {
            best = (cost, Some(b));
        }
    }
    best.1
}

/// In the middle of the block if it is free there, else near it.
fn place_number(page: &Page, k: usize, placed: &[Box]) -> Option<Box> {
    let (corners, wide, tall) = &page.blocks[k];
    let middle = centre(corners);
    let mut boxes = vec![(0.0, Box::around(middle, *wide, *tall))];
    for &c in corners {
        for share in [0.35, 0.6] {
            let between = (middle.0 + share * (c.0 - middle.0), middle.1 + share * (c.1 - middle.1));
            boxes.push((1.0 + 0.05 * distance(between, middle), Box::around(between, *wide, *tall)));
        }
        boxes.extend(beside(c, *wide, *tall, 0.3).into_iter().map(|b| (9.0 + 0.1 * distance(b.centre(), middle), b)));
    }
    least(boxes, placed, |b| drawn_under(page, b, None))
}

fn place_end(page: &Page, k: usize, placed: &[Box]) -> Option<Box> {
    let (at, wide, tall) = page.ends[k];
    let boxes = [1.3, 2.1].into_iter().flat_map(|by| beside(at, wide, tall, by).into_iter().map(move |b| (by, b)));
    least(boxes.collect(), placed, |b| drawn_under(page, b, None))
}

/// Near the middle of the line, better where no other line is close, and best where it shares no straight.
fn place_label(page: &Page, k: usize, placed: &[Box]) -> Option<Box> {
    let line = &page.lines[k];
    let whole = length(&line.points);
    let others = || page.lines.iter().enumerate().filter(|&(o, _)| o != k).map(|(_, o)| o);
    let nearest = |p: Point| others().fold(f64::MAX, |least, o| distance_to_line(p, &o.points, least));
    let steps = (whole / 1.5).ceil().clamp(2.0, 200.0) as usize;
    let mut candidates = vec![];
    for s in 0..=steps {
        let far = whole * s as f64 / steps as f64;
        let (p, direction) = along(&line.points, far);
        let close = nearest(p);
        let base = 0.05 * (far - whole / 2.0).abs() + 1.5 * (3.0 - close).max(0.0) + if close < 0.3 { 8.0 } else { 0.0 };
        // on the line, and on both sides just clear of it
        let off = (line.wide * direction.1.abs() + line.tall * direction.0.abs()) / 2.0 + GAP;
        for by in [0.0, off, -off] {
            candidates.push((base, Box::around((p.0 + by * direction.1, p.1 - by * direction.0), line.wide, line.tall)));
        }
        candidates.extend(beside(p, line.wide, line.tall, 1.3).into_iter().map(|b| (base + 0.5, b)));
    }
    // nearer to its own line than to another
    let doubt = |b: &Box| 1.5 * (distance_to_line(b.centre(), &line.points, f64::MAX) + 2.0 - nearest(b.centre())).max(0.0);
    least(candidates, placed, |b| doubt(b) + drawn_under(page, b, Some(k)))
}

pub fn place(page: &Page) -> Placed {
    let (numbers, ends) = (page.blocks.len(), page.ends.len());
    let all = numbers + ends + page.lines.len();
    let mut placed: Vec<Option<Box>> = vec![None; all];
    for _ in 0..4 {
        for k in 0..all {
            let others: Vec<Box> = (0..all).filter(|&o| o != k).filter_map(|o| placed[o]).collect();
            placed[k] = match k {
                k if k < numbers => place_number(page, k, &others),
                k if k < numbers + ends => place_end(page, k - numbers, &others),
                _ => place_label(page, k - numbers - ends, &others),
            };
        }
    }
    let mut boxes = placed.into_iter().flatten();
    let mut next = |count: usize| -> Vec<Box> { boxes.by_ref().take(count).collect() };
    Placed { numbers: next(numbers), ends: next(ends), labels: next(page.lines.len()) }
}
