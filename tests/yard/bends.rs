//! The drawing of a route in exact fractions, by the words of its rule: a bend starts an eighth of the way from its mark to
//! the mark before it, finishes an eighth of the way to the mark after it, and its points are found by de Casteljau's
//! construction with both control points at the mark; straights fill the gaps.

use crate::reference::{Book, Place};

/// In lowest terms, the second number above 0.
#[derive(Clone, Copy, PartialEq, Eq, Debug)]
pub struct Fraction(pub i128, pub i128);

impl Fraction {
    pub fn new(over: i128, under: i128) -> Fraction {
        let (mut common, mut rest) = (over.abs(), under);
        while rest != 0 {
            (common, rest) = (rest, common % rest);
        }
        Fraction(over / common, under / common)
    }

    /// So many eighths of the way to another.
    fn towards(self, to: Fraction, eighths: i128) -> Fraction {
        let way = to.0 * self.1 - self.0 * to.1;
        Fraction::new(8 * self.0 * to.1 + eighths * way, 8 * self.1 * to.1)
    }
}

/// East and north.
pub type Spot = [Fraction; 2];

fn spot(p: Place) -> Spot {
    [Fraction::new(p.0.into(), 1), Fraction::new(p.1.into(), 1)]
}

fn towards(from: Spot, to: Spot, eighths: i128) -> Spot {
    [from[0].towards(to[0], eighths), from[1].towards(to[1], eighths)]
}

#[derive(Clone, Copy)]
pub struct Bend {
    pub start: Spot,
    pub corner: Spot,
    pub finish: Spot,
}

impl Bend {
    /// At the middle one of three marks.
    fn at(marks: &[Place]) -> Bend {
        let corner = spot(marks[1]);
        Bend { start: towards(corner, spot(marks[0]), 1), corner, finish: towards(corner, spot(marks[2]), 1) }
    }

    /// The point at so many eighths of the curve.
    fn point(&self, eighths: i128) -> Spot {
        let mut points = vec![self.start, self.corner, self.corner, self.finish];
        while points.len() > 1 {
            points = points.windows(2).map(|w| towards(w[0], w[1], eighths)).collect();
        }
        points[0]
    }

    pub fn nine(&self) -> Vec<Spot> {
        (0..=8).map(|eighths| self.point(eighths)).collect()
    }
}

pub enum Piece {
    Straight([Spot; 2]),
    Bend(Bend),
}

/// The places of a route's marks.
pub fn places(book: &Book, marks: &[u32]) -> Vec<Place> {
    let all = book.marks();
    marks.iter().map(|&mark| all[mark as usize].expect("a present mark")).collect()
}

/// What a route over these places is drawn as.
pub fn pieces(marks: &[Place]) -> Vec<Piece> {
    let mut from = spot(marks[0]);
    let mut all = vec![];
    for bend in marks.windows(3).map(Bend::at) {
        all.extend([Piece::Straight([from, bend.start]), Piece::Bend(bend)]);
        from = bend.finish;
    }
    all.push(Piece::Straight([from, spot(marks[marks.len() - 1])]));
    all
}
