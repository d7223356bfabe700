//! Tests of `yardpicture`, run as a process over random yard files: a whole SVG whose every point lies on its page, with
//! the blocks, runs, lengths and rounded lines of the second planner; and the same bytes for the same file.

#[path = "../yard/bends.rs"]
#[allow(dead_code)]
mod bends;
#[path = "../files/files.rs"]
mod files;
#[path = "../yard/random.rs"]
#[allow(dead_code)]
mod random;
#[path = "../files/reader.rs"]
mod reader;
#[path = "../yard/reference.rs"]
#[allow(dead_code)]
mod reference;
mod svg;
#[path = "../../bindings/tables.rs"]
#[allow(dead_code)]
mod tables;

use bends::{Piece, Spot};
use files::{damaged, random_bytes, random_file};
use random::Random;
use reference::Book;
use std::collections::BTreeSet;
use std::ffi::OsString;
use std::fs;
use std::os::unix::ffi::OsStringExt;
use std::process::{Command, ExitCode};
use std::time::{Duration, Instant};
use svg::Element;
use tables::Tables;

/// What the program draws.
fn drawn(program: &str, words: &[OsString]) -> Result<String, String> {
    let out = Command::new(program).args(words).output().map_err(|e| format!("{program}: {e}"))?;
    if !out.status.success() || !out.stderr.is_empty() {
        return Err(format!("{program} ended with {}: {}", out.status, String::from_utf8_lossy(&out.stderr)));
    }
    String::from_utf8(out.stdout).map_err(|_| "not UTF-8".to_string())
}

fn number(text: &str) -> Result<f64, String> {
    let plain = text.chars().all(|c| c.is_ascii_digit() || c == '.' || c == '-');
    let value = text.parse::<f64>().ok().filter(|v| plain && v.is_finite());
    value.ok_or(format!("'{text}' is not a number"))
}

/// The places that an element names.
fn places(e: &Element) -> Result<Vec<(f64, f64)>, String> {
    let pair = |x: &str, y: &str| -> Result<(f64, f64), String> { Ok((number(x)?, number(y)?)) };
    let mut all = vec![];
    for (x, y) in [("x", "y"), ("cx", "cy")] {
        if let (Some(x), Some(y)) = (e.get(x), e.get(y)) {
            all.push(pair(x, y)?);
        }
    }
    for point in e.get("points").into_iter().flat_map(|list| list.split(' ')) {
        let (x, y) = point.split_once(',').ok_or(format!("point '{point}'"))?;
        all.push(pair(x, y)?);
    }
    Ok(all)
}

fn on_page(all: &[Element]) -> Result<(), String> {
    let page = all[0].get("viewBox").ok_or("no viewBox")?;
    let page: Vec<f64> = page.split(' ').map(number).collect::<Result<_, _>>()?;
    let [0.0, 0.0, wide, tall] = page[..] else { return Err(format!("page {page:?}")) };
    if (wide, tall) != (210.0, 297.0) && (wide, tall) != (297.0, 210.0) {
        return Err(format!("page {page:?}"));
    }
    for e in all {
        if let Some(p) = places(e)?.iter().find(|p| p.0 < 0.0 || p.0 > wide || p.1 < 0.0 || p.1 > tall) {
            return Err(format!("<{}> at {p:?}, outside the page", e.name));
        }
    }
    Ok(())
}

fn texts<'a>(all: &'a [Element], class: &'a str) -> impl Iterator<Item = &'a str> {
    all.iter().filter(move |e| e.name == "text" && e.get("class") == Some(class)).map(|e| e.text.as_str())
}

fn counted(count: usize, word: &str) -> String {
    match count {
        0 => format!("no {word}s"),
        1 => format!("1 {word}"),
        _ => format!("{count} {word}s"),
    }
}

/// The runs that a text at an end names: numbers and ranges.
fn named(text: &str) -> Vec<usize> {
    let range = |part: &str| -> Option<Vec<usize>> {
        let (first, last) = part.split_once('–').unwrap_or((part, part));
        Some((first.parse().ok()?..=last.parse().ok()?).collect())
    };
    text.split(", ").flat_map(|part| range(part).unwrap_or_default()).collect()
}

/// Every place where runs end says which, unless it takes more than four ranges.
fn endings_right(book: &Book, all: &[Element]) -> Result<(), String> {
    let mut due: Vec<Vec<usize>> = vec![];
    let places: BTreeSet<_> = book.runs.iter().flatten().collect();
    for place in places {
        let here: Vec<usize> = (0..24).filter(|&m| book.runs[m].contains(place)).collect();
        let ranges = here.iter().filter(|&&m| m == 0 || !here.contains(&(m - 1))).count();
        due.extend((ranges <= 4).then_some(here));
    }
    let mut found: Vec<Vec<usize>> = texts(all, "label ending").chain(texts(all, "label ending lost")).map(named).collect();
    due.sort();
    found.sort();
    if due == found { Ok(()) } else { Err(format!("ends of runs {found:?}, should be {due:?}")) }
}

/// Millimetres on the page for a centimetre on the ground.
fn scale(all: &[Element]) -> Result<f64, String> {
    let text = texts(all, "note").find_map(|t| t.strip_prefix("scale ")?.strip_suffix(" on A4")).ok_or("no scale")?;
    let (page, ground) = text.split_once(" : ").ok_or(format!("scale '{text}'"))?;
    Ok(10.0 * number(page)? / number(ground)?)
}

/// A length as the page writes it: in metres from a scale of 1 : 20 on.
fn length(cm: u32, all: &[Element]) -> Result<String, String> {
    Ok(if scale(all)? <= 0.5 { format!("{}.{:02} m", cm / 100, cm % 100) } else { format!("{cm} cm") })
}

/// The points that a run's line must go through: its ends and the nine points of each bend between them.
fn line(book: &Book, drawing: &Tables, run: usize) -> Vec<(f64, f64)> {
    let end = |k: usize| (book.runs[run][k].0 as f64, book.runs[run][k].1 as f64);
    let nine = |piece: Piece| match piece {
        Piece::Bend(bend) => bend.nine(),
        Piece::Straight(_) => vec![],
    };
    let float = |spot: Spot| (spot[0].0 as f64 / spot[0].1 as f64, spot[1].0 as f64 / spot[1].1 as f64);
    let pieces = match drawing.route(run) {
        (1, _, marks) => bends::pieces(&bends::places(book, marks)),
        _ => vec![],
    };
    [end(0)].into_iter().chain(pieces.into_iter().flat_map(nine).map(float)).chain([end(1)]).collect()
}

/// The lines of some runs are the first of their class on the page, point for point, as exactly as two decimals are.
fn lines_right(book: &Book, drawing: &Tables, runs: &[usize], class: &str, all: &[Element]) -> Result<(), String> {
    let by = scale(all)?;
    let lines = all.iter().filter(|e| e.get("class").is_some_and(|c| c.split(' ').next() == Some(class)));
    let mut origin = None;
    for (&run, found) in runs.iter().zip(lines) {
        let (found, due) = (places(found)?, line(book, drawing, run));
        if found.len() != due.len() {
            return Err(format!("{} points of run {run}'s line, should be {}", found.len(), due.len()));
        }
        for (k, (p, d)) in found.iter().zip(due).enumerate() {
            // where the yard's place (0, 0) is on the page, by each point
            let here = (p.0 - by * d.0, p.1 + by * d.1);
            let first = *origin.get_or_insert(here);
            if (here.0 - first.0).abs() > 0.0101 || (here.1 - first.1).abs() > 0.0101 {
                return Err(format!("point {k} of run {run}'s line at {p:?}, off by {:?}", (here.0 - first.0, here.1 - first.1)));
            }
        }
    }
    Ok(())
}

/// What the page must show of the yard that a file leaves: its texts and its lines.
fn said(file: &[u8], all: &[Element], duct: Option<u32>) -> Result<(), String> {
    let (edits, stop) = reader::read(file);
    let mut book = Book::new();
    let refused = edits.iter().filter(|e| book.step(e) != 0).count();
    let drawing = book.drawing();
    let runs: Vec<usize> = (0..24).filter(|&m| drawing.route(m).0 != 0).collect();
    let lost = runs.iter().filter(|&&m| drawing.route(m).0 == 2).count();
    let blocks = book.blocks.iter().filter(|b| !b.is_empty()).count();
    let sum = if lost == runs.len() { String::new() } else { format!(", {} in all", length(drawing.sum(), all)?) };
    let lost = if lost > 0 { format!(" ({lost} with no way)") } else { String::new() };
    let refused = if refused > 0 { format!(", {refused} refused") } else { String::new() };
    let charge = if book.figure > 0 { format!("; least charge {} cm", book.figure) } else { String::new() };
    let note = format!("{}, {}{lost}{sum}; {}{refused}{charge}", counted(blocks, "block"), counted(runs.len(), "run"), counted(edits.len(), "edit"));
    let best = if book.figure > 0 { "cheapest" } else { "shortest" };
    let key = duct.map_or(format!("run: its {best} route, numbered at both ends"), |_| format!("the run's {best} route, for comparison"));
    for due in [note, key] {
        if !texts(all, "note").any(|t| t == due) {
            return Err(format!("no text '{due}'"));
        }
    }
    if let Some(stop) = stop {
        let start = format!("stop {} at {}:", stop.number, stop.at);
        texts(all, "note lost").find(|t| t.starts_with(&start)).ok_or(format!("no text '{start}'"))?;
    }
    let class = |name: &str| all.iter().filter(|e| e.get("class").is_some_and(|c| c.split(' ').next() == Some(name))).count();
    // one more of each in the key
    if class("block") != blocks + 1 || class("number") != blocks {
        return Err(format!("{} outlines and {} numbers of {blocks} blocks", class("block"), class("number")));
    }
    if let Some(run) = duct {
        let beside: Vec<usize> = runs.into_iter().filter(|&m| m as u32 == run && drawing.route(m).0 == 1).collect();
        return lines_right(&book, &drawing, &beside, "beside", all);
    }
    if class("route") != runs.len() + 2 {
        return Err(format!("{} routes of {} runs", class("route") - 2, runs.len()));
    }
    lines_right(&book, &drawing, &runs, "route", all)?;
    for m in runs {
        let (state, cm, marks) = drawing.route(m);
        let long = format!("run {m}: {}", length(cm, all)?);
        let found = match state {
            1 => texts(all, "label").any(|t| t == long),
            _ => texts(all, "label lost").any(|t| t == format!("run {m}: no way")),
        };
        if !found {
            return Err(format!("no label of run {m}: {state}, {cm}, {marks:?}"));
        }
    }
    endings_right(&book, all)
}

/// A picture of a file under a name, drawn twice.
fn tried(program: &str, file: &[u8], name: OsString, duct: Option<u32>) -> Result<(), String> {
    let path: OsString = [OsString::from("target/tests/"), name].into_iter().collect();
    fs::write(&path, file).map_err(|e| format!("{path:?}: {e}"))?;
    let option = duct.map_or(vec![], |run| vec!["--duct".into(), run.to_string().into()]);
    let words: Vec<OsString> = option.into_iter().chain([path.clone()]).collect();
    let outcome = drawn(program, &words).and_then(|svg| {
        let all = svg::elements(&svg)?;
        on_page(&all)?;
        said(file, &all, duct)?;
        if drawn(program, &words)? == svg { Ok(()) } else { Err("another picture of the same file".to_string()) }
    });
    let _ = fs::remove_file(&path);
    outcome
}

fn some_file(r: &mut Random, examples: &[Vec<u8>]) -> Vec<u8> {
    let base = if r.percent(30) { examples[r.below(examples.len())].clone() } else { random_file(r, 60) };
    match r.below(5) {
        0 => random_bytes(r),
        1 | 2 => {
            let other = random_file(r, 10);
            damaged(r, &base, &other)
        }
        _ => base,
    }
}

/// Names that are hard to write in an SVG.
const NAMES: [&[u8]; 8] = [b"plain.yrd", b"a&b.yrd", b"<svg>.yrd", b"\"quoted\" 'name'", b"&amp;", b"line\nbreak\x01\x7f", b"bytes\xff\xc3.yrd", "für 3\u{202e}".as_bytes()];

fn try_program(program: &str, seconds: u64, seed: u64) -> Result<bool, String> {
    let mut names: Vec<_> = fs::read_dir("examples").map_err(|e| e.to_string())?.filter_map(|e| Some(e.ok()?.path())).collect();
    names.retain(|path| path.extension().is_some_and(|e| e == "yrd"));
    names.sort();
    let examples: Vec<Vec<u8>> = names.iter().filter_map(|path| fs::read(path).ok()).collect();
    let (mut passed, mut failed) = (0, 0);
    let mut case = |name: String, file: &[u8], outcome: Result<(), String>| match outcome {
        Ok(()) => passed += 1,
        Err(why) => {
            failed += 1;
            if failed <= 3 {
                let path = format!("target/tests/failed-picture-{failed}.yrd");
                let kept = fs::write(&path, file).map_or(String::new(), |()| format!(" (the file is {path})"));
                println!("FAILED {name}: {why}{kept}");
            }
        }
    };
    for (k, name) in NAMES.iter().enumerate() {
        let file = &examples[k % examples.len()];
        case(format!("name {k}"), file, tried(program, file, OsString::from_vec(name.to_vec()), None));
    }
    for (path, file) in names.iter().zip(&examples) {
        case(format!("{} with the duct of run 4", path.display()), file, tried(program, file, "duct.yrd".into(), Some(4)));
    }
    println!("tests/picture fuzzing: seed {seed}, {seconds} s");
    let until = Instant::now() + Duration::from_secs(seconds);
    for k in (0..).take_while(|_| Instant::now() < until) {
        let mut r = Random::of_case(seed, k);
        let file = some_file(&mut r, &examples);
        let duct = r.percent(30).then(|| r.below(26) as u32);
        case(format!("seed {seed}, case {k}, duct {duct:?}"), &file, tried(program, &file, "picture.yrd".into(), duct));
    }
    println!("tests/picture: {passed} passed, {failed} failed");
    Ok(failed == 0 && !examples.is_empty())
}

fn main() -> ExitCode {
    let words: Vec<String> = std::env::args().skip(1).collect();
    let number = |k: usize| words.get(k).and_then(|w| w.parse::<u64>().ok());
    let outcome = match (words.first(), number(1), number(2)) {
        (Some(program), Some(seconds), Some(seed)) => try_program(program, seconds, seed),
        _ => Err("the words are a program, a number of seconds and a seed".to_string()),
    };
    match outcome {
        Ok(true) => ExitCode::SUCCESS,
        Ok(false) => ExitCode::FAILURE,
        Err(why) => {
            eprintln!("tests/picture: {why}");
            ExitCode::FAILURE
        }
    }
}
