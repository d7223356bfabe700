//! The page of one run's duct: the lines that it may be laid along, the duct with its turns and its cost.

use crate::drawing::{best, head, outlines, placed, scale_bar, set, set_numbers, sheet, Frame, Key, Note, Svg};
use crate::plane::Point;
use crate::yards::{Duct, Place, Way};
use crate::{Run, Yard};

const STYLES: [&str; 7] = [
    ".grid { fill: none; stroke: #8fa3b3; stroke-width: 0.1; stroke-opacity: 0.55 }",
    ".beside { fill: none; stroke: #1f5fa8; stroke-width: 0.3; stroke-opacity: 0.4; stroke-dasharray: 0.9 0.9; stroke-linejoin: round }",
    ".duct { fill: none; stroke: #8c4a12; stroke-width: 1.5; stroke-linejoin: round; stroke-linecap: round }",
    ".inside { fill: none; stroke: #f6cf9f; stroke-width: 0.85; stroke-linejoin: round; stroke-linecap: round }",
    ".passed { fill: #8c4a12 }",
    ".turn, .tip { fill: #fff; stroke: #8c4a12; stroke-width: 0.4 }",
    ".label.cost { fill: #8c4a12; font-weight: bold }",
];

/// What is said of the duct under the title.
fn note(run: u32, duct: &Duct) -> Note {
    match duct {
        Duct::Refused(number) => {
            let why = match number {
                3 => ": the number is not below 24",
                5 => ": there is no such run",
                12 => ": more than 8 blocks stand",
                _ => "",
            };
            Note { text: format!("duct of run {run}: answer {number}{why}"), amiss: true }
        }
        Duct::NoWay => Note { text: format!("duct of run {run}: no way"), amiss: true },
        Duct::Found(way) => {
            let turns = way.turns().len() as u32;
            let length = way.cost - 25 * turns;
            let text = format!("duct of run {run}: cost {}, that is length {length} and {turns} × 25 for turns; {} crossings", way.cost, way.crossings.len());
            Note { text, amiss: false }
        }
    }
}

/// The straights through every corner and both ends, as far as the outermost of them.
fn grid(yard: &Yard, run: &Run) -> Vec<[Place; 2]> {
    let places: Vec<Place> = yard.blocks.iter().flat_map(|b| &b.1).copied().chain(run.ends).collect();
    let sorted = |of: fn(&Place) -> u16| {
        let mut all: Vec<u16> = places.iter().map(of).collect();
        all.sort();
        all.dedup();
        all
    };
    let (easts, norths) = (sorted(|p| p.0), sorted(|p| p.1));
    let (west, east, south, north) = (easts[0], easts[easts.len() - 1], norths[0], norths[norths.len() - 1]);
    let upright = easts.iter().map(|&e| [(e, south), (e, north)]);
    upright.chain(norths.iter().map(|&n| [(west, n), (east, n)])).collect()
}

fn square(svg: &mut Svg, at: Point) {
    let half = 0.75;
    let corners = [(at.0 - half, at.1 - half), (at.0 + half, at.1 - half), (at.0 + half, at.1 + half), (at.0 - half, at.1 + half)];
    svg.path("turn", &corners, true);
}

fn pipe(svg: &mut Svg, line: &[Point]) {
    svg.path("duct", line, false);
    svg.path("inside", line, false);
}

/// The ends and the turns, in order.
fn bends(way: &Way) -> Vec<Place> {
    let ends = (way.crossings[0], way.crossings[way.crossings.len() - 1]);
    [ends.0].into_iter().chain(way.turns()).chain([ends.1]).collect()
}

fn draw_way(svg: &mut Svg, frame: &Frame, way: &Way) {
    let line = frame.places(&bends(way));
    pipe(svg, &line);
    for &c in &way.crossings {
        let at = frame.place(c);
        svg.line(format_args!("<circle class=\"passed\" cx=\"{:.2}\" cy=\"{:.2}\" r=\"0.25\"/>", at.0, at.1));
    }
    line[1..line.len() - 1].iter().for_each(|&p| square(svg, p));
    svg.circle("tip", line[0]);
    svg.circle("tip", line[line.len() - 1]);
}

fn draw_ends(svg: &mut Svg, ends: &[Point]) {
    ends.iter().for_each(|&end| svg.circle("end lost", end));
}

fn draw_no_way(svg: &mut Svg, ends: &[Point]) {
    svg.path("route lost", ends, false);
    draw_ends(svg, ends);
}

fn key(svg: &mut Svg, frame: &Frame, yard: &Yard) {
    let key = Key::new(frame);
    key.block(svg, -1.0);
    let [from, to] = key.sign(0.0);
    let middle = ((from.0 + to.0) / 2.0, from.1);
    pipe(svg, &[from, to]);
    square(svg, middle);
    svg.circle("tip", from);
    svg.circle("tip", to);
    key.text(svg, 0.0, "duct with its turns: its length and 25 for each turn");
    svg.path("beside", &key.sign(1.0), false);
    key.text(svg, 1.0, &format!("the run's {} route, for comparison", best(yard)));
    svg.path("grid", &key.sign(2.0), false);
    key.text(svg, 2.0, "line through a block's corner or an end of the run");
}

/// The line that a label belongs to, and its text; a route is a line without one.
fn labelled(frame: &Frame, run: u32, duct: &Duct, drawn: Option<&Run>) -> Vec<(Vec<Point>, String)> {
    let route = drawn.filter(|r| r.length.is_some()).map(|r| (frame.line(&r.line), String::new()));
    let own = match (duct, drawn) {
        (Duct::Found(way), _) => Some((frame.places(&bends(way)), format!("run {run}: cost {}", way.cost))),
        (Duct::NoWay, Some(r)) => Some((frame.places(&r.ends), format!("run {run}: no way"))),
        _ => None,
    };
    own.into_iter().chain(route).collect()
}

pub fn svg(name: &str, yard: &Yard, run: u32, duct: &Duct) -> String {
    let frame = Frame::new(yard);
    let mut svg = sheet(&frame, name, &STYLES);
    head(&mut svg, &frame, name, yard, Some(note(run, duct)));
    let drawn = yard.runs.iter().find(|r| r.number as u32 == run);
    let (lines, texts): (Vec<Vec<Point>>, Vec<String>) = labelled(&frame, run, duct, drawn).into_iter().unzip();
    let placed = placed(&frame, yard, &[], &lines, &texts, 1.6);

    if let (Some(run), false) = (drawn, matches!(duct, Duct::Refused(_))) {
        grid(yard, run).iter().for_each(|line| svg.path("grid", &frame.places(line), false));
    }
    outlines(&frame, yard).iter().for_each(|b| svg.path("block", b, true));
    if let Some(run) = drawn.filter(|r| r.length.is_some()) {
        svg.path("beside", &frame.line(&run.line), false);
    }
    match (duct, drawn) {
        (Duct::Found(way), _) => draw_way(&mut svg, &frame, way),
        (Duct::NoWay, Some(run)) => draw_no_way(&mut svg, &frame.places(&run.ends)),
        (Duct::Refused(_), Some(run)) => draw_ends(&mut svg, &frame.places(&run.ends)),
        _ => {}
    }
    set_numbers(&mut svg, yard, &placed.numbers);
    let class = if matches!(duct, Duct::Found(_)) { "label cost" } else { "label lost" };
    placed.labels.iter().zip(&texts).filter(|(_, text)| !text.is_empty()).for_each(|(b, text)| set(&mut svg, b, class, text));
    scale_bar(&mut svg, &frame);
    key(&mut svg, &frame, yard);
    svg.line(format_args!("</svg>"));
    svg.0
}
