//! The greatest depth of stack inside each call, against the figures of `include/yard.h` and what it has its user
//! reserve: the call runs on a stack painted beforehand.

use crate::{abi::*, conversions, ducts, move_quotes, pieces, quotes, shares, Grid, Tables, CROWDED, TOUCHING};
use std::arch::asm;

const SIZE: usize = 1 << 20;

/// What to call on the painted stack.
struct Job<'a> {
    t: &'a mut Tables,
    call: Call,
}

#[derive(Clone)]
enum Call {
    Nothing,
    Start,
    AddBlock(Vec<u16>),
    RemoveBlock,
    MoveBlock(i16, i16),
    AddRun([u16; 4]),
    RemoveRun,
    MoveRun([u16; 4]),
    SetCharge(u16),
    AddRunFor([u8; 24], [u16; 4]),
    RemoveRunFor([u8; 24]),
    MoveRunFor([u8; 24], [u16; 4]),
    Check,
    Piece(u32, u32, [f64; pieces::POINTS]),
    Bend(u32, u32, [f64; pieces::NINE_POINTS]),
    Replay(Vec<u8>, Vec<u32>, [u64; 2]),
    QuoteMove(i16, i16, [u32; move_quotes::QUOTE]),
    QuoteRoute(u32, [u32; quotes::ROUTE]),
    Shorten(Vec<u8>, Vec<u8>),
    Lengthen(Vec<u8>, Vec<u8>),
    QuoteDuct([u32; ducts::QUOTE], Vec<u16>),
}

use shares::{CEILINGS, CONTRACTOR, NUMBER, SHARES};

const TABLES: usize = 48_750;
/// Of the tables, a move's quote and the stack of the calls that a panel makes.
const PANEL: usize = 65_536;

extern "C" fn perform(job: *mut Job) {
    let job = unsafe { &mut *job };
    let t = &mut *job.t;
    let (b, bl, r, rl) = (t.blocks.as_mut_ptr(), t.blocks.len(), t.runs.as_mut_ptr(), t.runs.len());
    let (p, pl, w, wl) = (t.pairs.as_mut_ptr(), t.pairs.len(), t.routes.as_mut_ptr(), t.routes.len());
    let (s, sl) = (t.totals.as_mut_ptr(), t.totals.len());
    let answer = unsafe {
        match &mut job.call {
            Call::Nothing => 0,
            Call::Start => yard_start(b, bl, r, rl, p, pl, w, wl, s, sl),
            Call::AddBlock(c) => yard_add_block(b, bl, r, rl, p, pl, w, wl, s, sl, NUMBER, c.as_ptr(), c.len()),
            Call::RemoveBlock => yard_remove_block(b, bl, r, rl, p, pl, w, wl, s, sl, NUMBER),
            Call::MoveBlock(e, n) => yard_move_block(b, bl, r, rl, p, pl, w, wl, s, sl, NUMBER, *e, *n),
            Call::AddRun(e) => yard_add_run(b, bl, r, rl, p, pl, w, wl, s, sl, NUMBER, e[0], e[1], e[2], e[3]),
            Call::RemoveRun => yard_remove_run(b, bl, r, rl, p, pl, w, wl, s, sl, NUMBER),
            Call::MoveRun(e) => yard_move_run(b, bl, r, rl, p, pl, w, wl, s, sl, NUMBER, e[0], e[1], e[2], e[3]),
            Call::SetCharge(figure) => yard_set_charge(b, bl, r, rl, p, pl, w, wl, s, sl, *figure),
            Call::AddRunFor(h, e) => {
                let (q, ql, c, cl) = (SHARES.as_ptr(), SHARES.len(), CEILINGS.as_ptr(), CEILINGS.len());
                let [e0, n0, e1, n1] = *e;
                yard_add_run_for(b, bl, r, rl, p, pl, w, wl, s, sl, h.as_mut_ptr(), 24, q, ql, c, cl, CONTRACTOR, NUMBER, e0, n0, e1, n1)
            }
            Call::RemoveRunFor(h) => {
                let (q, ql, c, cl) = (SHARES.as_ptr(), SHARES.len(), CEILINGS.as_ptr(), CEILINGS.len());
                yard_remove_run_for(b, bl, r, rl, p, pl, w, wl, s, sl, h.as_mut_ptr(), 24, q, ql, c, cl, CONTRACTOR, NUMBER)
            }
            Call::MoveRunFor(h, e) => {
                let (q, ql, c, cl) = (SHARES.as_ptr(), SHARES.len(), CEILINGS.as_ptr(), CEILINGS.len());
                let [e0, n0, e1, n1] = *e;
                yard_move_run_for(b, bl, r, rl, p, pl, w, wl, s, sl, h.as_ptr(), 24, q, ql, c, cl, CONTRACTOR, NUMBER, e0, n0, e1, n1)
            }
            Call::Check => yard_check(b, bl, r, rl, p, pl, w, wl, s, sl),
            Call::Piece(run, piece, q) => yard_piece(b, bl, r, rl, p, pl, w, wl, s, sl, *run, *piece, &mut 0, 1, q.as_mut_ptr(), q.len()),
            Call::Bend(run, piece, q) => yard_bend(b, bl, r, rl, p, pl, w, wl, s, sl, *run, *piece, &mut 0, 1, q.as_mut_ptr(), q.len()),
            Call::Replay(f, a, e) => {
                let (a, al, e, el) = (a.as_mut_ptr(), a.len(), e.as_mut_ptr(), e.len());
                yard_replay(b, bl, r, rl, p, pl, w, wl, s, sl, f.as_ptr(), f.len(), a, al, e, el)
            }
            Call::Shorten(f, b) => yard_file_shorten(f.as_ptr(), f.len(), b.as_mut_ptr(), b.len(), &mut 0, 1),
            Call::Lengthen(f, b) => yard_file_lengthen(f.as_ptr(), f.len(), b.as_mut_ptr(), b.len(), &mut 0, 1),
            Call::QuoteMove(e, n, q) => yard_quote_move(b, bl, r, rl, p, pl, w, wl, s, sl, NUMBER, *e, *n, q.as_mut_ptr(), q.len()),
            Call::QuoteRoute(run, w) => yard_quote_route(b, bl, r, rl, *run, w.as_mut_ptr(), w.len()),
            Call::QuoteDuct(q, c) => yard_quote_duct(b, bl, r, rl, 0, q.as_mut_ptr(), q.len(), c.as_mut_ptr(), c.len()),
        }
    };
    if answer != 0 {
        std::process::abort();
    }
}

/// The bytes of stack that a call touched.
fn depth(t: &mut Tables, call: Call, paint: u8) -> usize {
    let mut memory = vec![paint; SIZE];
    let top = (memory.as_mut_ptr() as usize + SIZE) & !15;
    let mut job = Job { t, call };
    unsafe {
        asm!(
            "mov r12, rsp",
            "mov rsp, {top}",
            "call {perform}",
            "mov rsp, r12",
            top = in(reg) top,
            perform = in(reg) perform as extern "C" fn(*mut Job),
            in("rdi") &mut job,
            out("r12") _,
            clobber_abi("C"),
        );
    }
    let deepest = memory.iter().position(|&b| b != paint).expect("an untouched stack");
    assert!(deepest > 4096, "the painted stack is too small");
    top - (memory.as_ptr() as usize + deepest)
}

fn greatest(calls: &[(Tables, Call)]) -> usize {
    let mut most = 0;
    for (t, call) in calls {
        for paint in [0x5A, 0xA5] {
            most = most.max(depth(&mut t.clone(), call.clone(), paint));
        }
    }
    most
}

/// Every kind of edit, in a yard where block and run 8 stand, and a block of 255 corners.
fn every_kind(yard: &Grid) -> Vec<u8> {
    let record = |kind: u8, fields: &[u16]| -> Vec<u8> {
        [kind, NUMBER as u8].into_iter().chain(fields.iter().flat_map(|f| f.to_le_bytes())).collect()
    };
    let block = |fields: &[u16]| {
        let mut bytes = record(1, fields);
        bytes.insert(2, (fields.len() / 2) as u8);
        bytes
    };
    let ends = yard.ends(NUMBER as u16);
    let edits = [
        record(3, &[100, 65_436]),
        record(6, &[0, 0, 32_767, 32_767]),
        record(2, &[]),
        block(&[0; 510]),
        block(&yard.corners(NUMBER as usize)),
        record(5, &[]),
        record(4, &ends),
        record(7, &[500]),
    ];
    [b"YRD\x01\x00".to_vec(), edits.concat()].concat()
}

/// Files of both versions with a block of 255 corners, whose result is shorter and longer.
fn conversions() -> Vec<(Tables, Call)> {
    let none = || Tables { blocks: vec![], runs: vec![], pairs: vec![], routes: vec![], totals: vec![] };
    let buffer = || vec![0; conversions::BUFFER];
    let many = [&conversions::file(4000)[..], &[1, 0, 255], &[7; 1020]].concat();
    let mut short = buffer();
    let mut length = 0;
    let answer = unsafe { yard_file_shorten(many.as_ptr(), many.len(), short.as_mut_ptr(), short.len(), &mut length, 1) };
    assert_eq!(answer, 0);
    short.truncate(length as usize);
    vec![(none(), Call::Shorten(many, buffer())), (none(), Call::Lengthen(short, buffer()))]
}

/// How many of the calls below edit, check or draw.
const PLAIN: usize = 14;

/// What each call that edits, checks or draws is tried with, over a yard; then the quote of a move; the route's quote and the
/// replay, which no panel makes, last.
fn calls(yard: &Grid) -> [(&'static str, Vec<(Tables, Call)>); PLAIN + 3] {
    let mut full = yard.tables();
    // a straight whose root is as deep as any
    assert_eq!(full.yard().move_run(0, [0, 2000, 32767, 10]), 0);
    let mut without = full.clone();
    perform(&mut Job { t: &mut without, call: Call::RemoveBlock });
    perform(&mut Job { t: &mut without, call: Call::RemoveRun });
    let move_blocks = yard.displacements(3).into_iter().map(|d| (full.clone(), Call::MoveBlock(d.0, d.1))).collect();
    let move_runs = [[0, 0, 32767, 32767], [7, 9, 7, 9]].map(|ends| (full.clone(), Call::MoveRun(ends))).to_vec();
    let add_for = vec![(without.clone(), Call::AddRunFor(shares::holders(&without), yard.ends(NUMBER as u16)))];
    let move_for = [[0, 0, 32767, 32767], [7, 9, 7, 9]].map(|ends| (full.clone(), Call::MoveRunFor(shares::holders(&full), ends))).to_vec();
    let set_charges = [0, 500, 1000].map(|figure| (full.clone(), Call::SetCharge(figure))).to_vec();
    // a straight, a bend, the last piece of a short route, and none
    let numbers = || (0..24).flat_map(|run| [0, 1, 2, u32::MAX].map(|piece| (run, piece)));
    let pieces = numbers().map(|(run, piece)| (full.clone(), Call::Piece(run, piece, [0.0; pieces::POINTS]))).collect();
    let bends = numbers().map(|(run, piece)| (full.clone(), Call::Bend(run, piece, [0.0; pieces::NINE_POINTS]))).collect();
    let mut charged = full.clone();
    assert_eq!(charged.yard().set_charge(500), 0);
    let quote = |run: u32| [&full, &charged].map(|t| (t.clone(), Call::QuoteRoute(run, [0; quotes::ROUTE])));
    let quotes = (0..24).flat_map(quote).collect();
    let quote = |by: (i16, i16)| [&full, &charged].map(|t| (t.clone(), Call::QuoteMove(by.0, by.1, [0; move_quotes::QUOTE])));
    let move_quotes = yard.displacements(6).into_iter().flat_map(quote).collect();
    let replay = Call::Replay(every_kind(yard), vec![0; 4096], [0; 2]);
    [
        ("yard_start", vec![(full.clone(), Call::Start)]),
        ("yard_add_block", vec![(without.clone(), Call::AddBlock(yard.corners(NUMBER as usize)))]),
        ("yard_remove_block", vec![(full.clone(), Call::RemoveBlock)]),
        ("yard_move_block", move_blocks),
        ("yard_add_run", vec![(without, Call::AddRun(yard.ends(NUMBER as u16)))]),
        ("yard_remove_run", vec![(full.clone(), Call::RemoveRun)]),
        ("yard_move_run", move_runs),
        ("yard_set_charge", set_charges),
        ("yard_add_run_for", add_for),
        ("yard_remove_run_for", vec![(full.clone(), Call::RemoveRunFor(shares::holders(&full)))]),
        ("yard_move_run_for", move_for),
        ("yard_check", vec![(full.clone(), Call::Check)]),
        ("yard_piece", pieces),
        ("yard_bend", bends),
        ("yard_quote_move", move_quotes),
        ("yard_quote_route", quotes),
        ("yard_replay", vec![(full, replay)]),
    ]
}

/// What the header says: the KiB that its user is to reserve, for a call, for a move's quote and for the duct quote, and the
/// bytes that were measured, of a call, of a route's quote, of a replay, of a conversion, of a move's quote and of the duct
/// quote.
fn said(header: &str) -> (Vec<usize>, Vec<usize>) {
    let words: Vec<&str> = header.split_whitespace().filter(|&w| w != "*").collect();
    let reserve = |w: &[&str]| (w[0] == "reserve" && w[2].starts_with("KiB")).then(|| w[1].parse().ok())?;
    let figure = |w: &[&str]| w[1].starts_with("bytes").then(|| w[0].strip_prefix('(')?.replace(',', "").parse().ok())?;
    (words.windows(3).filter_map(reserve).collect(), words.windows(2).filter_map(figure).collect())
}

/// Prints the depths, and stops where one is not as the header promises.
pub fn print() {
    let header = std::fs::read_to_string("include/yard.h").expect("include/yard.h");
    let (reserves, figures) = said(&header);
    let ([reserve, move_reserve, duct_reserve], [figure, route_figure, replay_figure, file_figure, move_figure, duct_figure]) =
        (&reserves[..], &figures[..])
    else {
        panic!("include/yard.h should reserve three stacks and give six figures: {reserves:?}, {figures:?}")
    };
    let frame = greatest(&[(CROWDED.tables(), Call::Nothing)]);
    println!("greatest depth of stack of a call, bytes, over the crowded yard and the touching yard");
    let mut depths = calls(&CROWDED).map(|(name, calls)| (name, greatest(&calls) - frame));
    for (most, (_, calls)) in depths.iter_mut().zip(calls(&TOUCHING)) {
        most.1 = most.1.max(greatest(&calls) - frame);
    }
    depths.iter().for_each(|(name, bytes)| println!("{name:<19} {bytes:>6}"));
    let most = depths[..PLAIN].iter().map(|d| d.1).max().unwrap_or(0);
    let [.., (_, moved), (_, route), (_, replay)] = depths;
    let file = greatest(&conversions()) - frame;
    println!("{:<19} {file:>6} with yard_file_lengthen", "yard_file_shorten");
    let quote = |y: &ducts::Yard| (y.tables(), Call::QuoteDuct([0; ducts::QUOTE], vec![0; ducts::CROSSINGS]));
    let duct = greatest(&ducts::YARDS.iter().map(quote).collect::<Vec<_>>()) - frame;
    println!("{:<19} {duct:>6} over the yards of the duct quote", "yard_quote_duct");
    let (deepest, words) = (most.max(moved), 4 * move_quotes::QUOTE);
    let panel = TABLES + words + deepest;
    println!("tables {TABLES} + quote {words} + stack {deepest} of a panel's calls = {panel} bytes, to stay below {PANEL}");
    assert!(panel < PANEL, "a panel's call takes too much stack");
    for (what, bytes, figure, reserve) in [
        ("a call", most, figure, reserve),
        ("a route's quote", route, route_figure, reserve),
        ("a replay", replay, replay_figure, reserve),
        ("a conversion", file, file_figure, reserve),
        ("a move's quote", moved, move_figure, move_reserve),
        ("a duct's quote", duct, duct_figure, duct_reserve),
    ] {
        assert!(bytes <= *figure, "{what} takes {bytes} bytes of stack, include/yard.h says {figure}");
        assert!(bytes <= reserve << 10, "{what} takes {bytes} bytes of stack, include/yard.h reserves {reserve} KiB");
    }
    println!("tests/stack: within the {figure}, {route_figure}, {replay_figure}, {file_figure}, {move_figure} and {duct_figure} bytes of include/yard.h");
}
