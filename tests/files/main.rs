//! Tests of the program `yardlist`, run as a process: what it prints must be, byte for byte, the listing that the
//! test's own reader and the second planner give.

#[path = "../yard/duct_router.rs"]
#[allow(dead_code)]
mod duct_router;
mod files;
mod listing;
#[path = "../yard/random.rs"]
#[allow(dead_code)]
mod random;
mod reader;
#[path = "../yard/reference.rs"]
#[allow(dead_code)]
mod reference;
#[path = "../../bindings/tables.rs"]
#[allow(dead_code)]
mod tables;

use files::{damaged, file, random_bytes, random_file, record, short_file, short_record};
use listing::listing;
use random::Random;
use reader::{HEAD, SHORT};
use std::fs::{self, File};
use std::io::Write;
use std::process::{Command, ExitCode, Stdio};
use std::sync::atomic::{AtomicUsize, Ordering};
use std::sync::Mutex;
use std::time::{Duration, Instant};
use tables::Edit;

/// How the file reaches the program.
#[derive(Clone, Copy)]
enum Feed {
    File,
    Pipe,
    /// A pipe, so many bytes at a time.
    Pieces(usize),
}

struct Case {
    name: String,
    file: Vec<u8>,
    feed: Feed,
    /// The listing, where the document or a hand gives it.
    known: Option<&'static str>,
}

fn case(name: impl Into<String>, file: Vec<u8>) -> Case {
    Case { name: name.into(), file, feed: Feed::File, known: None }
}

struct Tests {
    program: String,
    passed: usize,
    failed: usize,
}

/// What the program prints for a file.
fn printed(program: &str, file: &[u8], feed: Feed, scratch: &str) -> Result<Vec<u8>, String> {
    let mut command = Command::new(program);
    command.stdout(Stdio::piped()).stderr(Stdio::piped());
    match feed {
        Feed::File => {
            fs::write(scratch, file).map_err(|e| format!("{scratch}: {e}"))?;
            command.stdin(File::open(scratch).map_err(|e| format!("{scratch}: {e}"))?);
        }
        _ => drop(command.stdin(Stdio::piped())),
    }
    let mut child = command.spawn().map_err(|e| format!("{program}: {e}"))?;
    if let Some(mut to) = child.stdin.take() {
        let size = if let Feed::Pieces(size) = feed { size } else { file.len().max(1) };
        for part in file.chunks(size) {
            // A program that has read enough may be gone.
            if to.write_all(part).is_err() {
                break;
            }
            if let Feed::Pieces(_) = feed {
                std::thread::sleep(Duration::from_micros(300));
            }
        }
    }
    let out = child.wait_with_output().map_err(|e| format!("{program}: {e}"))?;
    if !out.status.success() {
        return Err(format!("{program} ended with {}", out.status));
    }
    if !out.stderr.is_empty() {
        return Err(format!("standard error: {}", String::from_utf8_lossy(&out.stderr)));
    }
    Ok(out.stdout)
}

fn tried(program: &str, c: &Case, scratch: &str) -> Result<(), String> {
    let right = listing(&c.file);
    if c.known.is_some_and(|known| known != right) {
        return Err(format!("the test's own listing is wrong:\n{right}"));
    }
    let got = printed(program, &c.file, c.feed, scratch)?;
    if got == right.as_bytes() {
        return Ok(());
    }
    let got = String::from_utf8_lossy(&got).into_owned();
    let at = (0..).find(|&k| got.lines().nth(k) != right.lines().nth(k) || got.lines().nth(k).is_none()).unwrap_or(0);
    let line = |text: &str| text.lines().nth(at).unwrap_or("the end").to_string();
    Err(format!("line {} is '{}', should be '{}'", at + 1, line(&got), line(&right)))
}

impl Tests {
    /// Try the cases, two at a time. `next` gives case number k, or none when all are tried.
    fn group(&mut self, name: &str, next: impl Fn(usize) -> Option<Case> + Sync) {
        let begin = Instant::now();
        let (at, passed) = (AtomicUsize::new(0), AtomicUsize::new(0));
        let failures: Mutex<Vec<(String, Vec<u8>)>> = Mutex::new(vec![]);
        std::thread::scope(|s| {
            for thread in 0..2 {
                let (at, passed, failures, next, program) = (&at, &passed, &failures, &next, &self.program);
                s.spawn(move || {
                    let scratch = format!("target/tests/files-{thread}.yrd");
                    while let Some(c) = next(at.fetch_add(1, Ordering::Relaxed)) {
                        match tried(program, &c, &scratch) {
                            Ok(()) => drop(passed.fetch_add(1, Ordering::Relaxed)),
                            Err(why) => failures.lock().unwrap().push((format!("{}: {why}", c.name), c.file)),
                        }
                    }
                });
            }
        });
        let failures = failures.into_inner().unwrap();
        for (why, file) in failures.iter().take(3) {
            let path = format!("target/tests/failed-{}.yrd", self.failed);
            let kept = fs::write(&path, file).map_or(String::new(), |()| format!(" (the file is {path})"));
            println!("FAILED {why}{kept}");
            self.failed += 1;
        }
        self.failed += failures.len().saturating_sub(3);
        let passed = passed.into_inner();
        self.passed += passed;
        println!("tests/files {name}: {passed} passed, {} failed ({:.1} s)", failures.len(), begin.elapsed().as_secs_f64());
    }

    fn list(&mut self, name: &str, cases: Vec<Case>) {
        let cases: Vec<Mutex<Option<Case>>> = cases.into_iter().map(|c| Mutex::new(Some(c))).collect();
        self.group(name, |k| cases.get(k)?.lock().unwrap().take());
    }
}

/// Files with the listing that docs/RULES.md or a hand gives.
fn known() -> Vec<Case> {
    let with = |name: &str, file: Vec<u8>, text: &'static str| Case { known: Some(text), ..case(name, file) };
    let document = [
        Edit::AddBlock(0, vec![10, 6, 14, 7, 14, 40, 10, 40]),
        Edit::AddRun(0, [0, 10, 27, 13]),
        Edit::AddBlock(1, vec![11, 1, 13, 1, 12, 5]),
    ];
    let square = Edit::AddBlock(0, vec![10, 10, 20, 10, 20, 20, 10, 20]);
    let head = |bytes: &[u8]| [&HEAD[..], bytes].concat();
    let short = |bytes: &[u8]| [&SHORT[..], bytes].concat();
    vec![
        with("the listed yard", file(&document), "edit 1 answer 0\nedit 2 answer 0\nedit 3 answer 0\nrun 0 length 30 marks 192 10 193\n"),
        with("before block 1", file(&document[..2]), "edit 1 answer 0\nedit 2 answer 0\nrun 0 length 31 marks 192 0 1 193\n"),
        with("the square", file(&[square.clone(), Edit::AddRun(0, [0, 15, 30, 15])]), "edit 1 answer 0\nedit 2 answer 0\nrun 0 length 34 marks 192 0 1 193\n"),
        with("no way", file(&[square.clone(), Edit::AddRun(0, [0, 15, 15, 15])]), "edit 1 answer 0\nedit 2 answer 0\nrun 0 no way\n"),
        with("lowest run first", file(&[Edit::AddRun(23, [0, 0, 3, 4]), Edit::AddRun(2, [7, 7, 7, 7])]), "edit 1 answer 0\nedit 2 answer 0\nrun 2 length 0 marks 196 197\nrun 23 length 5 marks 238 239\n"),
        with("the star", file(&[Edit::AddBlock(0, vec![10, 0, 16, 20, 0, 8, 20, 8, 4, 20])]), "edit 1 answer 8\n"),
        with("a refused edit does not stop it", file(&[Edit::RemoveRun(3), Edit::RemoveBlock(24), square.clone(), square.clone(), Edit::MoveBlock(0, -11, 0), Edit::MoveBlock(0, -10, -10)]),
            "edit 1 answer 5\nedit 2 answer 3\nedit 3 answer 0\nedit 4 answer 4\nedit 5 answer 7\nedit 6 answer 0\n"),
        with("the header alone", HEAD.to_vec(), ""),
        with("nothing", vec![], "stop 9 at 0\n"),
        with("kind 0", head(&[0]), "stop 10 at 5\n"),
        with("a figure", file(&[Edit::AddRun(0, [0, 0, 3, 4]), Edit::SetCharge(6)]), "edit 1 answer 0\nedit 2 answer 0\nrun 0 length 6 marks 192 193\n"),
        with("figures of 1,000 and 1,001", file(&[Edit::AddRun(0, [0, 0, 3, 4]), Edit::SetCharge(1000), Edit::SetCharge(1001), Edit::AddRun(1, [5, 5, 5, 5])]),
            "edit 1 answer 0\nedit 2 answer 0\nedit 3 answer 13\nedit 4 answer 0\nrun 0 length 1000 marks 192 193\nrun 1 length 0 marks 194 195\n"),
        with("a figure that reroutes", file(&[Edit::AddBlock(0, vec![315, 332, 325, 332, 320, 740]), Edit::AddRun(0, [0, 500, 640, 500]), Edit::SetCharge(86)]),
            "edit 1 answer 0\nedit 2 answer 0\nedit 3 answer 0\nrun 0 length 800 marks 192 2 193\n"),
        with("a figure under number 255", head(&[7, 255, 0xE8, 3, 2, 0]), "edit 1 answer 0\nedit 2 answer 5\n"),
        with("a figure cut off", head(&[2, 0, 7, 0]), "edit 1 answer 5\nstop 10 at 7\n"),
        with("a figure cut in half", head(&[2, 0, 7, 0, 9]), "edit 1 answer 5\nstop 10 at 7\n"),
        with("kind 8", head(&[2, 0, 8, 0, 9, 0]), "edit 1 answer 5\nstop 10 at 7\n"),
        with("count 0", head(&[1, 0, 0]), "edit 1 answer 6\n"),
        with("count 2", head(&[1, 0, 2, 0, 0, 0, 0, 9, 0, 9, 0]), "edit 1 answer 6\n"),
        with("earlier edits stand", [file(&document), vec![5]].concat(), "edit 1 answer 0\nedit 2 answer 0\nedit 3 answer 0\nstop 10 at 49\nrun 0 length 30 marks 192 10 193\n"),
        with("the listed yard in version 2", short_file(&document), "edit 1 answer 0\nedit 2 answer 0\nedit 3 answer 0\nrun 0 length 30 marks 192 10 193\n"),
        with("version 2 alone", SHORT.to_vec(), ""),
        with("version 3", b"YRD\x03\x00".to_vec(), "stop 9 at 0\n"),
        with("version 2, count 0", short(&[1, 0, 0]), "edit 1 answer 6\n"),
        with("version 2, count 1", short(&[1, 0, 1, 9, 0, 9, 0]), "edit 1 answer 6\n"),
        with("version 2, a triangle by steps back and forth", short(&[1, 0, 3, 200, 0, 200, 0, 127, 128, 0, 127, 4, 0, 0, 0, 150, 0, 240, 0, 150, 0]),
            "edit 1 answer 0\nedit 2 answer 0\nrun 0 length 240 marks 192 193\n"),
        with("version 2, a corner above 32,767", short(&[2, 0, 1, 0, 3, 255, 127, 9, 0, 1, 0, 0, 9]), "edit 1 answer 5\nstop 22 at 7\n"),
        with("version 2, a corner below 0", short(&[2, 0, 1, 0, 3, 5, 0, 9, 0, 9, 0, 0xF1, 9]), "edit 1 answer 5\nstop 22 at 7\n"),
        with("version 2, a corner below 0 and cut off", short(&[2, 0, 1, 0, 3, 5, 0, 9, 0, 9, 0, 0xF1]), "edit 1 answer 5\nstop 10 at 7\n"),
        with("version 2, a corner of a count that is refused", short(&[1, 0, 1, 0, 128, 0, 0]), "stop 22 at 5\n"),
        with("version 1, a corner above 32,767", head(&[1, 0, 3, 0, 128, 9, 0, 1, 0, 0, 9, 4, 4, 0, 4]), "edit 1 answer 7\n"),
    ]
}

/// Heads and lengths.
fn heads(example: &[u8]) -> Vec<Case> {
    let mut cases = vec![];
    for length in 0..7 {
        for filler in [0, 1, 2, 5, 255] {
            let mut bytes = HEAD.to_vec();
            bytes.resize(length, filler);
            cases.push(case(format!("{length} bytes, filler {filler}"), bytes));
            cases.push(case(format!("{length} bytes of {filler}"), vec![filler; length]));
        }
    }
    for at in 0..5 {
        for value in 0..=255 {
            if value % 16 < 2 || value == HEAD[at] ^ 32 || (at == 3 && value < 16) {
                let mut bytes = example.to_vec();
                bytes[at] = value;
                cases.push(case(format!("byte {at} of the head is {value}"), bytes));
            }
        }
    }
    for version in [0u16, 1, 2, 255, 256, 257, 513, 32769, 65535] {
        let mut bytes = example.to_vec();
        bytes[3..5].copy_from_slice(&version.to_le_bytes());
        cases.push(case(format!("version {version}"), bytes));
    }
    for length in [8190, 8191, 8192, 8193, 8194, 16384, 65536, 1_000_000] {
        // all records whole where the length allows: one of three bytes, then of two
        let mut bytes = [&HEAD[..], &[1, 0, 0]].concat();
        while bytes.len() < length {
            bytes.extend([[2, 0], [5, 23]][bytes.len() / 2 % 2]);
        }
        bytes.truncate(length);
        cases.push(case(format!("{length} bytes"), bytes.clone()));
        if length < 60_000 {
            cases.push(Case { feed: Feed::Pipe, ..case(format!("{length} bytes by a pipe"), bytes) });
        }
        // the example's edits first, then two-byte records up to the end
        let mut bytes = example.to_vec();
        while bytes.len() < length {
            bytes.extend([2, 99]);
        }
        bytes.truncate(length);
        cases.push(case(format!("the example made {length} bytes long"), bytes));
        let mut noise = HEAD.to_vec();
        noise.resize(length, 255);
        cases.push(case(format!("{length} bytes, wrong at once"), noise));
    }
    cases
}

/// Kinds, numbers and counts in one version, with the record whole and a byte short or long.
fn records(file: fn(&[Edit]) -> Vec<u8>, record: fn(&Edit) -> Vec<u8>) -> Vec<Case> {
    let mut cases = vec![];
    let before = file(&[Edit::AddBlock(0, vec![10, 10, 20, 10, 20, 20, 10, 20]), Edit::AddRun(0, [0, 15, 30, 15])]);
    for kind in (0..=16).chain([31, 32, 64, 127, 128, 129, 130, 254, 255]) {
        for length in 0..12 {
            let body: Vec<u8> = [kind, 1].into_iter().chain([3, 0, 50, 0, 60, 0, 50, 0, 60, 0]).take(length).collect();
            cases.push(case(format!("kind {kind}, {length} bytes left"), [&before[..], &body].concat()));
        }
    }
    // the number byte of a figure is ignored, and a figure that is too large does not stop the file
    for number in 0..=255u8 {
        let figure = [0u16, 1, 13, 255, 256, 500, 999, 1000, 1001, 1002, 1256, 32768, 65535][number as usize % 13];
        let [low, high] = figure.to_le_bytes();
        let whole = [&before[..], &[7, number, low, high, 3, 0, 5, 0, 5, 0]].concat();
        for length in if number % 23 == 1 { before.len()..whole.len() } else { whole.len()..whole.len() + 1 } {
            cases.push(case(format!("figure {figure} under number {number}, {length} bytes"), whole[..length].to_vec()));
        }
    }
    for count in (0..=18usize).chain([63, 64, 127, 128, 254, 255]) {
        // corners on a wide arc, so that 3 to 8 of them are right
        let corners: Vec<u16> = (0..count as u16).flat_map(|k| [100 + 10 * k, 100 + k * k]).collect();
        let whole = [&before[..], &record(&Edit::AddBlock(5, corners))].concat();
        for (name, length) in [("whole", whole.len()), ("a byte short", whole.len() - 1), ("half", before.len() + 3 + 2 * count)] {
            cases.push(case(format!("count {count}, {name}"), whole[..length].to_vec()));
            for tail in [&[2u8][..], &[2, 0], &[0], &[255, 255]] {
                cases.push(case(format!("count {count}, {name}, then {tail:?}"), [&whole[..length], tail].concat()));
            }
        }
    }
    for number in 0..=255u32 {
        if number < 34 || number % 32 < 2 || number == 255 {
            let edits = [
                Edit::AddBlock(number, vec![100, 100, 120, 100, 120, 120]),
                Edit::AddRun(number, [0, 0, 99, 110]),
                Edit::MoveBlock(number, -1, 1),
                Edit::MoveRun(number, [1, 1, 130, 110]),
                Edit::RemoveRun(number),
                Edit::RemoveBlock(number),
            ];
            for upto in [4, 6] {
                cases.push(case(format!("number {number}, {upto} edits"), [&before[..], &file(&edits[..upto])[5..]].concat()));
            }
        }
    }
    for coordinate in [0, 1, 255, 256, 257, 32766, 32767, 32768, 32769, 65535u16] {
        let edits = [
            Edit::AddRun(0, [coordinate, 0, 0, 0]),
            Edit::AddRun(1, [0, coordinate, 0, 0]),
            Edit::AddRun(2, [0, 0, coordinate, 0]),
            Edit::AddRun(3, [0, 0, 0, coordinate]),
            Edit::AddBlock(0, vec![coordinate, 40, 60, 90, 20, 70]),
            Edit::AddBlock(1, vec![20, 40, 60, coordinate, 20, 70]),
            Edit::MoveBlock(0, coordinate as i16, 0),
            Edit::MoveBlock(1, 0, coordinate as i16),
            Edit::MoveRun(0, [coordinate; 4]),
        ];
        cases.push(case(format!("coordinate {coordinate}"), file(&edits)));
    }
    cases
}

fn random_files() -> Vec<Case> {
    let mut cases = vec![];
    for seed in 1..=700u64 {
        let mut r = Random::new(seed ^ 0xF11E);
        let bytes = random_file(&mut r, if seed % 7 == 0 { 400 } else { 60 });
        let feed = match seed % 20 {
            0 => Feed::Pieces(1 + bytes.len() / 40),
            1..=4 => Feed::Pipe,
            _ => Feed::File,
        };
        cases.push(Case { feed, ..case(format!("random file, seed {seed}"), bytes) });
        cases.push(case(format!("random bytes, seed {seed}"), random_bytes(&mut r)));
    }
    cases
}

fn examples() -> std::io::Result<Vec<(String, Vec<u8>)>> {
    let mut found = vec![];
    for entry in fs::read_dir("examples")? {
        let path = entry?.path();
        if path.extension().is_some_and(|e| e == "yrd") {
            found.push((path.display().to_string(), fs::read(&path)?));
        }
    }
    found.sort();
    Ok(found)
}

fn try_program(program: &str, seconds: u64, seed: u64) -> Result<bool, String> {
    let examples = examples().map_err(|e| format!("examples: {e}"))?;
    let (_, document) = examples.iter().find(|(name, _)| name.ends_with("document.yrd")).ok_or("no examples/document.yrd")?;
    let mut tests = Tests { program: program.to_string(), passed: 0, failed: 0 };
    tests.list("known listings", known());
    tests.list("heads and lengths", heads(document));
    tests.list("kinds, counts, numbers and coordinates", records(file, record));
    tests.list("the same in version 2", records(short_file, short_record));
    let truncated = |(name, bytes): &(String, Vec<u8>)| -> Vec<Case> {
        (0..=bytes.len()).map(|k| case(format!("{name}, the first {k} bytes"), bytes[..k].to_vec())).collect()
    };
    tests.list("examples cut off anywhere", examples.iter().flat_map(truncated).collect());
    let mut r = Random::new(1);
    let mut changed = vec![];
    for (name, bytes) in &examples {
        for at in 0..bytes.len() {
            let mut other = bytes.clone();
            other[at] = match r.below(3) {
                0 => other[at] ^ (1 << r.below(8)),
                1 => r.pick(&[0, 1, 2, 3, 4, 5, 6, 7, 8, 9, 23, 24, 127, 128, 255]),
                _ => r.next() as u8,
            };
            changed.push(case(format!("{name}, byte {at} made {}", other[at]), other));
        }
    }
    tests.list("examples with a byte changed", changed);
    tests.list("random files", random_files());
    println!("tests/files fuzzing: seed {seed}, {seconds} s");
    let until = Instant::now() + Duration::from_secs(seconds);
    tests.group("fuzzing", |k| {
        let mut r = Random::of_case(seed, k as u64);
        let base = if r.percent(50) { examples[r.below(examples.len())].1.clone() } else { random_file(&mut r, 40) };
        let other = random_file(&mut r, 10);
        let c = case(format!("fuzzing, seed {seed}, case {k}"), damaged(&mut r, &base, &other));
        (Instant::now() < until).then_some(c)
    });
    println!("tests/files: {} passed, {} failed", tests.passed, tests.failed);
    Ok(tests.failed == 0)
}

fn number(word: &str) -> Result<u64, String> {
    word.parse().map_err(|_| format!("'{word}' is not a number"))
}

fn main() -> ExitCode {
    let args: Vec<String> = std::env::args().skip(1).collect();
    let words: Vec<&str> = args.iter().map(|s| s.as_str()).collect();
    let outcome = match words[..] {
        ["try", program, seconds, seed] => number(seconds).and_then(|s| try_program(program, s, number(seed)?)),
        // the listing of the second planner
        ["list", path] => fs::read(path).map_err(|e| format!("{path}: {e}")).map(|bytes| {
            print!("{}", listing(&bytes));
            true
        }),
        // the ducts of the second router
        ["ducts", path] => fs::read(path).map_err(|e| format!("{path}: {e}")).map(|bytes| {
            print!("{}", listing::ducts(&bytes));
            true
        }),
        _ => Err("wrong words".to_string()),
    };
    match outcome {
        Ok(true) => ExitCode::SUCCESS,
        Ok(false) => ExitCode::FAILURE,
        Err(why) => {
            eprintln!("tests/files: {why}");
            ExitCode::FAILURE
        }
    }
}
