//! The page: scale, title, yard, scale bar and key.

use crate::labels::{self, Line, Page, Placed};
use crate::plane::{Box, Point};
use crate::rounded::{spot, Spot};
use crate::yards::Place;
use crate::{Run, Yard};
use std::collections::BTreeMap;
use std::fmt::Write;

const ROUTE: &str = "#1f5fa8";
const NO_WAY: &str = "#b3261e";
const BLOCK_FILL: &str = "#e9ecef";
const BLOCK_EDGE: &str = "#5f6b76";
const INK: &str = "#22272b";
const FAINT: &str = "#6b747c";
pub const SMALL: f64 = 3.0;

/// Two decimals, without zeros at the end.
fn figure(v: f64) -> String {
    let text = format!("{v:.2}");
    let text = text.trim_end_matches('0').trim_end_matches('.');
    if text == "-0" { "0" } else { text }.to_string()
}

/// The width of a text in a broad sans-serif font (DejaVu Sans).
pub fn width(text: &str, size: f64) -> f64 {
    let of = |c: char| match c {
        ' ' | '.' | ':' => 0.32,
        'r' => 0.41,
        'm' => 0.97,
        'w' => 0.82,
        'c' | 'y' => 0.59,
        _ => 0.636,
    };
    size * text.chars().map(of).sum::<f64>()
}

fn escaped(text: &str) -> String {
    let mut out = String::new();
    for c in text.chars() {
        match c {
            '&' => out.push_str("&amp;"),
            '<' => out.push_str("&lt;"),
            '>' => out.push_str("&gt;"),
            c if c.is_control() => out.push('\u{fffd}'),
            c => out.push(c),
        }
    }
    out
}

fn metres(cm: u32) -> String {
    if cm % 100 == 0 {
        format!("{}", cm / 100)
    } else {
        format!("{}.{:02}", cm / 100, cm % 100)
    }
}

/// Centimetres on the ground to millimetres on the page.
pub struct Frame {
    pub wide: f64,
    pub tall: f64,
    pub area: Box,
    /// One to how much, in thousandths.
    scale: u64,
    west: f64,
    south: f64,
    origin: Point,
}

pub const MARGIN: f64 = 15.0;
const HEADER: f64 = 18.0;
const FOOTER: f64 = 16.0;

impl Frame {
    pub fn new(yard: &Yard) -> Frame {
        let places: Vec<Place> = yard.blocks.iter().flat_map(|b| &b.1).chain(yard.runs.iter().flat_map(|r| &r.ends)).copied().collect();
        // at least 6 cm, with the places in the middle
        let range = |of: fn(&Place) -> u16| {
            let low = places.iter().map(of).min().unwrap_or(0) as f64;
            let high = places.iter().map(of).max().unwrap_or(0) as f64;
            let far = (high - low).max(6.0);
            ((low + high - far) / 2.0, far)
        };
        let ((west, wide), (south, tall)) = (range(|p| p.0), range(|p| p.1));
        // the round scale that fits, upright if it is the same lying
        let fits = |page: (f64, f64), scale: u64| {
            let by = 10_000.0 / scale as f64;
            wide * by <= page.0 - 2.0 * MARGIN - 6.0 && tall * by <= page.1 - 2.0 * MARGIN - HEADER - FOOTER - 6.0
        };
        let large = [200, 250, 400, 500];
        let small = (2..6).flat_map(|p| [10, 15, 20, 25, 30, 40, 50, 75].map(|m| m * 10u64.pow(p)));
        let (scale, page) = large
            .into_iter()
            .chain(small)
            .flat_map(|s| [(s, (210.0, 297.0)), (s, (297.0, 210.0))])
            .find(|&(s, page)| fits(page, s))
            .unwrap_or((5_000_000, (210.0, 297.0)));
        let area = Box { left: MARGIN, top: MARGIN + HEADER, right: page.0 - MARGIN, bottom: page.1 - MARGIN - FOOTER };
        let by = 10_000.0 / scale as f64;
        let middle = area.centre();
        Frame { wide: page.0, tall: page.1, area, scale, west, south, origin: (middle.0 - wide * by / 2.0, middle.1 + tall * by / 2.0) }
    }

    /// Millimetres on the page for a centimetre.
    fn by(&self) -> f64 {
        10_000.0 / self.scale as f64
    }

    fn point(&self, at: Spot) -> Point {
        (self.origin.0 + (at.0 - self.west) * self.by(), self.origin.1 - (at.1 - self.south) * self.by())
    }

    pub fn place(&self, p: Place) -> Point {
        self.point(spot(p))
    }

    pub fn line(&self, line: &[Spot]) -> Vec<Point> {
        line.iter().map(|&at| self.point(at)).collect()
    }

    pub fn places(&self, places: &[Place]) -> Vec<Point> {
        places.iter().map(|&p| self.place(p)).collect()
    }

    /// A length on the ground, in metres but on a page that shows very little of it.
    fn length(&self, cm: u32) -> String {
        if self.scale >= 20_000 { format!("{}.{:02} m", cm / 100, cm % 100) } else { format!("{cm} cm") }
    }

    fn scale_text(&self) -> String {
        if self.scale >= 1000 {
            format!("1 : {}", figure(self.scale as f64 / 1000.0))
        } else {
            format!("{} : 1", figure(1000.0 / self.scale as f64))
        }
    }
}

pub struct Svg(pub String);

impl Svg {
    pub fn line(&mut self, text: std::fmt::Arguments) {
        self.0.write_fmt(text).unwrap();
        self.0.push('\n');
    }

    pub fn text(&mut self, at: Point, class: &str, anchor: &str, text: &str) {
        let anchor = if anchor == "start" { String::new() } else { format!(" text-anchor=\"{anchor}\"") };
        self.line(format_args!("<text class=\"{class}\" x=\"{}\" y=\"{}\"{anchor}>{}</text>", figure(at.0), figure(at.1), escaped(text)));
    }

    pub fn path(&mut self, class: &str, points: &[Point], closed: bool) {
        let list: Vec<String> = points.iter().map(|p| format!("{},{}", figure(p.0), figure(p.1))).collect();
        let tag = if closed { "polygon" } else { "polyline" };
        self.line(format_args!("<{tag} class=\"{class}\" points=\"{}\"/>", list.join(" ")));
    }

    pub fn circle(&mut self, class: &str, at: Point) {
        self.line(format_args!("<circle class=\"{class}\" cx=\"{}\" cy=\"{}\" r=\"0.8\"/>", figure(at.0), figure(at.1)));
    }
}

fn counted(count: usize, word: &str) -> String {
    match count {
        0 => format!("no {word}s"),
        1 => format!("1 {word}"),
        _ => format!("{count} {word}s"),
    }
}

/// A line under the title, in red if something is amiss.
pub struct Note {
    pub text: String,
    pub amiss: bool,
}

fn stop_note(yard: &Yard) -> Option<Note> {
    let stop = yard.stop?;
    let why = match stop.number {
        9 => "not a yard file",
        22 => "a corner is not from 0 to 32,767; the edits before it stand",
        _ => "no whole record here; the edits before it stand",
    };
    Some(Note { text: format!("stop {} at {}: {why}", stop.number, stop.at), amiss: true })
}

pub fn head(svg: &mut Svg, frame: &Frame, name: &str, yard: &Yard, note: Option<Note>) {
    svg.text((MARGIN, MARGIN + 5.0), "title", "start", name);
    let lost = yard.runs.iter().filter(|r| r.length.is_none()).count();
    let mut line = format!("{}, {}", counted(yard.blocks.len(), "block"), counted(yard.runs.len(), "run"));
    if lost > 0 {
        write!(line, " ({lost} with no way)").unwrap();
    }
    if lost < yard.runs.len() {
        write!(line, ", {} in all", frame.length(yard.sum)).unwrap();
    }
    write!(line, "; {}", counted(yard.edits, "edit")).unwrap();
    if yard.refused > 0 {
        write!(line, ", {} refused", yard.refused).unwrap();
    }
    if yard.figure > 0 {
        write!(line, "; least charge {} cm", yard.figure).unwrap();
    }
    svg.text((MARGIN, MARGIN + 10.0), "note", "start", &line);
    for (k, note) in note.into_iter().chain(stop_note(yard)).enumerate() {
        svg.text((MARGIN, MARGIN + 14.0 + 4.0 * k as f64), if note.amiss { "note lost" } else { "note" }, "start", &note.text);
    }
    let (right, top) = (frame.wide - MARGIN - 3.0, MARGIN);
    svg.path("north", &[(right, top), (right + 2.2, top + 8.0), (right, top + 6.2), (right - 2.2, top + 8.0)], true);
    svg.text((right, top + 11.5), "note", "middle", "N");
}

/// The scale bar, about a quarter of the page long.
pub fn scale_bar(svg: &mut Svg, frame: &Frame) {
    let base = frame.tall - MARGIN - 3.0;
    let lengths = (0..5).flat_map(|p| [1u32, 2, 5].map(|m| m * 10u32.pow(p)));
    let cm = lengths.filter(|&l| l as f64 * frame.by() <= 55.0).last().unwrap_or(1);
    let long = cm as f64 * frame.by();
    let text = if cm >= 100 { format!("{} m", metres(cm)) } else { format!("{cm} cm") };
    svg.path("bar", &[(MARGIN, base - 1.2), (MARGIN, base), (MARGIN + long, base), (MARGIN + long, base - 1.2)], false);
    svg.path("bar", &[(MARGIN + long / 2.0, base - 0.8), (MARGIN + long / 2.0, base)], false);
    svg.text((MARGIN, base - 2.2), "note", "start", "0");
    svg.text((MARGIN + long, base - 2.2), "note", "middle", &text);
    svg.text((MARGIN, base + 4.0), "note", "start", &format!("scale {} on A4", frame.scale_text()));
}

/// The key of the signs: where each row of it stands, the lowest row being number 2.
pub struct Key {
    pub left: f64,
    base: f64,
}

impl Key {
    pub fn new(frame: &Frame) -> Key {
        Key { left: frame.wide - MARGIN - 88.0, base: frame.tall - MARGIN - 3.0 }
    }

    pub fn row(&self, k: f64) -> f64 {
        self.base - 4.2 + 4.1 * k
    }

    /// The middle of the left and of the right of a row's sign.
    pub fn sign(&self, k: f64) -> [Point; 2] {
        [(self.left, self.row(k)), (self.left + 8.0, self.row(k))]
    }

    pub fn text(&self, svg: &mut Svg, k: f64, text: &str) {
        svg.text((self.left + 10.5, self.row(k) + 0.9), "note", "start", text);
    }

    pub fn block(&self, svg: &mut Svg, k: f64) {
        let (left, row) = (self.left, self.row(k));
        svg.path("block", &[(left, row + 1.2), (left + 8.0, row + 1.2), (left + 8.0, row - 1.2), (left, row - 1.2)], true);
        self.text(svg, k, "block, with its number");
    }
}

/// What a route is beside all others: without a least charge its price is its length.
pub fn best(yard: &Yard) -> &'static str {
    if yard.figure > 0 { "cheapest" } else { "shortest" }
}

fn key(svg: &mut Svg, frame: &Frame, yard: &Yard) {
    let key = Key::new(frame);
    key.block(svg, 0.0);
    let run = format!("run: its {} route, numbered at both ends", best(yard));
    for (k, lost, text) in [(1.0, "", &run[..]), (2.0, " lost", "run with no way")] {
        svg.path(&format!("route{lost}"), &key.sign(k), false);
        key.sign(k).iter().for_each(|&end| svg.circle(&format!("end{lost}"), end));
        key.text(svg, k, text);
    }
}

/// A page with its styles, to be drawn on and ended.
pub fn sheet(frame: &Frame, name: &str, more: &[&str]) -> Svg {
    let mut svg = Svg(String::new());
    let (wide, tall) = (frame.wide, frame.tall);
    svg.line(format_args!("<svg xmlns=\"http://www.w3.org/2000/svg\" width=\"{wide}mm\" height=\"{tall}mm\" viewBox=\"0 0 {wide} {tall}\">"));
    svg.line(format_args!("<title>{}</title>", escaped(name)));
    svg.line(format_args!("<style>"));
    svg.line(format_args!("text {{ font-family: Helvetica, Arial, 'Liberation Sans', sans-serif; font-size: {SMALL}px; fill: {INK} }}"));
    svg.line(format_args!(".title {{ font-size: 5px; font-weight: bold }}"));
    svg.line(format_args!(".note {{ font-size: 3.1px; fill: {FAINT} }}"));
    svg.line(format_args!(".block {{ fill: {BLOCK_FILL}; fill-opacity: 0.85; stroke: {BLOCK_EDGE}; stroke-width: 0.2; stroke-linejoin: round }}"));
    svg.line(format_args!(".route {{ fill: none; stroke: {ROUTE}; stroke-width: 0.45; stroke-linejoin: round; stroke-linecap: round }}"));
    svg.line(format_args!(".end {{ fill: #fff; stroke: {ROUTE}; stroke-width: 0.35 }}"));
    svg.line(format_args!(".label {{ fill: {ROUTE}; stroke: #fff; stroke-width: 0.8; stroke-linejoin: round; paint-order: stroke }}"));
    svg.line(format_args!(".ending {{ font-weight: bold }}"));
    svg.line(format_args!(".number {{ fill: {BLOCK_EDGE}; stroke: {BLOCK_FILL}; stroke-width: 0.5; stroke-linejoin: round; paint-order: stroke }}"));
    svg.line(format_args!(".route.lost {{ stroke: {NO_WAY}; stroke-dasharray: 1.6 1.3 }}"));
    svg.line(format_args!(".end.lost {{ stroke: {NO_WAY} }}"));
    svg.line(format_args!(".label.lost, .note.lost {{ fill: {NO_WAY} }}"));
    svg.line(format_args!(".bar {{ fill: none; stroke: {INK}; stroke-width: 0.3 }}"));
    svg.line(format_args!(".north {{ fill: {FAINT} }}"));
    more.iter().for_each(|rule| svg.line(format_args!("{rule}")));
    svg.line(format_args!("</style>"));
    svg.line(format_args!("<rect width=\"{wide}\" height=\"{tall}\" fill=\"#fff\"/>"));
    svg
}

/// The outlines of the blocks on the page.
pub fn outlines(frame: &Frame, yard: &Yard) -> Vec<Vec<Point>> {
    yard.blocks.iter().map(|b| frame.places(&b.1)).collect()
}

/// The numbers of the runs that end at a place.
pub struct Ending {
    at: Point,
    text: String,
    lost: bool,
}

/// Numbers in order, neighbours as one range; none where that takes too much room.
fn ranges(numbers: &[usize]) -> Option<String> {
    let mut found: Vec<(usize, usize)> = vec![];
    for &n in numbers {
        match found.last_mut() {
            Some(last) if n <= last.1 + 1 => last.1 = n,
            _ => found.push((n, n)),
        }
    }
    let texts: Vec<String> = found.iter().map(|&(a, b)| if a == b { a.to_string() } else { format!("{a}–{b}") }).collect();
    (texts.len() <= 4).then(|| texts.join(", "))
}

fn endings(frame: &Frame, yard: &Yard) -> Vec<Ending> {
    let mut at: BTreeMap<Place, Vec<&Run>> = BTreeMap::new();
    for run in &yard.runs {
        run.ends.into_iter().for_each(|end| at.entry(end).or_default().push(run));
    }
    let ending = |(place, runs): (Place, Vec<&Run>)| {
        let text = ranges(&runs.iter().map(|r| r.number).collect::<Vec<_>>())?;
        Some(Ending { at: frame.place(place), text, lost: runs.iter().all(|r| r.length.is_none()) })
    };
    at.into_iter().filter_map(ending).collect()
}

/// Boxes for the numbers of the blocks, those at ends, and the texts of some lines, which are so much wider than a route's.
pub fn placed(frame: &Frame, yard: &Yard, endings: &[Ending], lines: &[Vec<Point>], texts: &[String], wider: f64) -> Placed {
    let tall = 0.78 * SMALL;
    let number = |b: &(usize, Vec<Place>), outline: Vec<Point>| (outline, width(&b.0.to_string(), SMALL), tall);
    let mut placed = labels::place(&Page {
        area: frame.area,
        blocks: yard.blocks.iter().zip(outlines(frame, yard)).map(|(b, outline)| number(b, outline)).collect(),
        ends: endings.iter().map(|e| (e.at, 1.1 * width(&e.text, SMALL), tall)).collect(),
        lines: lines.iter().zip(texts).map(|(l, t)| Line { points: l.clone(), wide: width(t, SMALL) + wider, tall: tall + wider }).collect(),
    });
    placed.labels.iter_mut().for_each(|b| *b = b.grown(-wider / 2.0));
    placed
}

/// A text in its box.
pub fn set(svg: &mut Svg, b: &Box, class: &str, text: &str) {
    svg.text((b.centre().0, b.bottom - 0.02 * SMALL), class, "middle", text);
}

pub fn set_numbers(svg: &mut Svg, yard: &Yard, boxes: &[Box]) {
    for ((n, _), b) in yard.blocks.iter().zip(boxes) {
        set(svg, b, "number", &n.to_string());
    }
}

pub fn svg(name: &str, yard: &Yard) -> String {
    let frame = Frame::new(yard);
    let mut svg = sheet(&frame, name, &[]);
    head(&mut svg, &frame, name, yard, None);

    let lines: Vec<Vec<Point>> = yard.runs.iter().map(|r| frame.line(&r.line)).collect();
    let texts: Vec<String> = yard
        .runs
        .iter()
        .map(|r| match r.length {
            None => format!("run {}: no way", r.number),
            Some(cm) => format!("run {}: {}", r.number, frame.length(cm)),
        })
        .collect();
    let endings = endings(&frame, yard);
    let placed = placed(&frame, yard, &endings, &lines, &texts, 0.0);

    outlines(&frame, yard).iter().for_each(|b| svg.path("block", b, true));
    let class = |of: &str, lost: bool| if lost { format!("{of} lost") } else { of.to_string() };
    for (run, line) in yard.runs.iter().zip(&lines) {
        svg.path(&class("route", run.length.is_none()), line, false);
    }
    for run in &yard.runs {
        run.ends.iter().for_each(|&end| svg.circle(&class("end", run.length.is_none()), frame.place(end)));
    }
    set_numbers(&mut svg, yard, &placed.numbers);
    for (ending, b) in endings.iter().zip(&placed.ends) {
        set(&mut svg, b, &class("label ending", ending.lost), &ending.text);
    }
    for ((run, text), b) in yard.runs.iter().zip(&texts).zip(&placed.labels) {
        set(&mut svg, b, &class("label", run.length.is_none()), text);
    }
    scale_bar(&mut svg, &frame);
    key(&mut svg, &frame, yard);
    svg.line(format_args!("</svg>"));
    svg.0
}
