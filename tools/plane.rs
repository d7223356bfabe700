//! Points, boxes and straights on the page, in millimetres, east and down.

pub type Point = (f64, f64);

#[derive(Clone, Copy)]
pub struct Box {
    pub left: f64,
    pub top: f64,
    pub right: f64,
    pub bottom: f64,
}

impl Box {
    pub fn around(centre: Point, wide: f64, tall: f64) -> Box {
        Box { left: centre.0 - wide / 2.0, top: centre.1 - tall / 2.0, right: centre.0 + wide / 2.0, bottom: centre.1 + tall / 2.0 }
    }

    pub fn centre(&self) -> Point {
        ((self.left + self.right) / 2.0, (self.top + self.bottom) / 2.0)
    }

    pub fn grown(&self, by: f64) -> Box {
        Box { left: self.left - by, top: self.top - by, right: self.right + by, bottom: self.bottom + by }
    }

    pub fn inside(&self, other: &Box) -> bool {
        self.left >= other.left && self.right <= other.right && self.top >= other.top && self.bottom <= other.bottom
    }

    /// The area that two boxes share.
    pub fn shared(&self, other: &Box) -> f64 {
        let wide = self.right.min(other.right) - self.left.max(other.left);
        let tall = self.bottom.min(other.bottom) - self.top.max(other.top);
        wide.max(0.0) * tall.max(0.0)
    }

    fn spanning(a: Point, b: Point) -> Box {
        Box { left: a.0.min(b.0), top: a.1.min(b.1), right: a.0.max(b.0), bottom: a.1.max(b.1) }
    }

    fn apart(&self, other: &Box) -> bool {
        self.right < other.left || self.left > other.right || self.bottom < other.top || self.top > other.bottom
    }

    /// The length of the part of a straight that lies in the box.
    pub fn part_of(&self, a: Point, b: Point) -> f64 {
        if self.apart(&Box::spanning(a, b)) {
            return 0.0;
        }
        let (mut from, mut to) = (0.0f64, 1.0f64);
        for (at, by, low, high) in [(a.0, b.0 - a.0, self.left, self.right), (a.1, b.1 - a.1, self.top, self.bottom)] {
            if by == 0.0 {
                if at < low || at > high {
                    return 0.0;
                }
            } else {
                let (one, two) = ((low - at) / by, (high - at) / by);
                from = from.max(one.min(two));
                to = to.min(one.max(two));
            }
        }
        (to - from).max(0.0) * distance(a, b)
    }
}

pub fn distance(a: Point, b: Point) -> f64 {
    ((a.0 - b.0) * (a.0 - b.0) + (a.1 - b.1) * (a.1 - b.1)).sqrt()
}

/// From a point to the nearest of a line of straights where that is less than a limit, else the limit.
pub fn distance_to_line(p: Point, line: &[Point], limit: f64) -> f64 {
    line.windows(2).fold(limit, |least, w| {
        let near = !Box::spanning(w[0], w[1]).apart(&Box::around(p, 2.0 * least, 2.0 * least));
        if near { least.min(distance_to(p, w[0], w[1])) } else { least }
    })
}

/// From a point to the nearest of a straight.
fn distance_to(p: Point, a: Point, b: Point) -> f64 {
    let (east, down) = (b.0 - a.0, b.1 - a.1);
    let square = east * east + down * down;
    let t = if square == 0.0 { 0.0 } else { (((p.0 - a.0) * east + (p.1 - a.1) * down) / square).clamp(0.0, 1.0) };
    distance(p, (a.0 + t * east, a.1 + t * down))
}

/// The point so far along a line of straights, and the direction there.
pub fn along(line: &[Point], mut far: f64) -> (Point, Point) {
    let mut direction = (1.0, 0.0);
    for w in line.windows(2) {
        let length = distance(w[0], w[1]);
        if length > 0.0 {
            direction = ((w[1].0 - w[0].0) / length, (w[1].1 - w[0].1) / length);
            if far <= length {
                return ((w[0].0 + far * direction.0, w[0].1 + far * direction.1), direction);
            }
        }
        far -= length;
    }
    (line[line.len() - 1], direction)
}

pub fn length(line: &[Point]) -> f64 {
    line.windows(2).map(|w| distance(w[0], w[1])).sum()
}

/// The centre of the area of a polygon.
pub fn centre(corners: &[Point]) -> Point {
    let first = corners[0];
    let (mut area, mut east, mut down) = (0.0, 0.0, 0.0);
    for w in corners.windows(2) {
        let (a, b) = ((w[0].0 - first.0, w[0].1 - first.1), (w[1].0 - first.0, w[1].1 - first.1));
        let twice = a.0 * b.1 - a.1 * b.0;
        area += twice;
        east += twice * (a.0 + b.0);
        down += twice * (a.1 + b.1);
    }
    (first.0 + east / (3.0 * area), first.1 + down / (3.0 * area))
}
