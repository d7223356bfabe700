//! The proved planner, from the static library `yard_abi`.

use super::abi::*;
use super::tables::{Edit, Planner, Tables};

/// A table between two margins, so that a store outside it is noticed.
struct Fenced<T> {
    all: Vec<T>,
    len: usize,
    fence: T,
}

const MARGIN: usize = 64;

impl<T: Copy + PartialEq> Fenced<T> {
    fn new(table: &[T], fence: T) -> Fenced<T> {
        let mut all = vec![fence; MARGIN];
        all.extend_from_slice(table);
        all.resize(table.len() + 2 * MARGIN, fence);
        Fenced { all, len: table.len(), fence }
    }

    fn ptr(&mut self) -> *mut T {
        self.all[MARGIN..].as_mut_ptr()
    }

    fn take(&self, table: &mut [T], name: &str) {
        let end = MARGIN + self.len;
        let whole = self.all[..MARGIN].iter().chain(&self.all[end..]).all(|&v| v == self.fence);
        assert!(whole, "a store outside {name}");
        table.copy_from_slice(&self.all[MARGIN..end]);
    }

    /// A table that was lent to be read.
    fn kept(&self, table: &[T], name: &str) {
        let mut after = table.to_vec();
        self.take(&mut after, name);
        assert!(after == table, "the call changed {name}");
    }
}

pub struct Linked;

macro_rules! fenced_call {
    ($t:expr, $f:ident $(, $arg:expr)*) => {{
        let (mut b, mut r) = (Fenced::new(&$t.blocks, 0x5A5A), Fenced::new(&$t.runs, 0x5A5A));
        let (mut p, mut w) = (Fenced::new(&$t.pairs, 0x5A), Fenced::new(&$t.routes, 0x5A5A_5A5A));
        let mut s = Fenced::new(&$t.totals, 0x5A5A_5A5A);
        // The five tables are apart, live for the call, and as long as stated.
        let answer = unsafe { $f(b.ptr(), b.len, r.ptr(), r.len, p.ptr(), p.len, w.ptr(), w.len, s.ptr(), s.len $(, $arg)*) };
        b.take(&mut $t.blocks, "blocks");
        r.take(&mut $t.runs, "runs");
        p.take(&mut $t.pairs, "pairs");
        w.take(&mut $t.routes, "routes");
        s.take(&mut $t.totals, "totals");
        answer
    }};
}

/// A call that is lent the five tables to read.
macro_rules! reading_call {
    ($t:expr, $f:ident $(, $arg:expr)*) => {{
        let mut copy = $t.clone();
        let answer = fenced_call!(copy, $f $(, $arg)*);
        assert!(copy == *$t, "the call changed a table");
        answer
    }};
}

impl Planner for Linked {
    fn start(&self, t: &mut Tables) -> u32 {
        fenced_call!(t, yard_start)
    }

    fn edit(&self, t: &mut Tables, e: &Edit) -> u32 {
        match e {
            Edit::AddBlock(n, corners) => fenced_call!(t, yard_add_block, *n, corners.as_ptr(), corners.len()),
            Edit::RemoveBlock(n) => fenced_call!(t, yard_remove_block, *n),
            Edit::MoveBlock(n, east, north) => fenced_call!(t, yard_move_block, *n, *east, *north),
            Edit::AddRun(m, e) => fenced_call!(t, yard_add_run, *m, e[0], e[1], e[2], e[3]),
            Edit::RemoveRun(m) => fenced_call!(t, yard_remove_run, *m),
            Edit::MoveRun(m, e) => fenced_call!(t, yard_move_run, *m, e[0], e[1], e[2], e[3]),
            Edit::SetCharge(figure) => fenced_call!(t, yard_set_charge, *figure),
        }
    }

    fn check(&self, t: &Tables) -> u32 {
        reading_call!(t, yard_check)
    }
}

/// A run added, removed or moved in a contractor's name: the number, and the tables and holders as the call leaves them.
pub fn edit_for(t: &mut Tables, holders: &mut [u8], shares: &[u8], ceilings: &[u8], contractor: u32, e: &Edit) -> u32 {
    let (mut h, mut s, mut c) = (Fenced::new(holders, 0x5A), Fenced::new(shares, 0x5A), Fenced::new(ceilings, 0x5A));
    // The three lists are apart too, live for the call, and as long as stated.
    macro_rules! call_for {
        ($f:ident $(, $arg:expr)*) => { fenced_call!(t, $f, h.ptr(), h.len, s.ptr(), s.len, c.ptr(), c.len, contractor $(, $arg)*) };
    }
    let answer = match e {
        Edit::AddRun(m, e) => call_for!(yard_add_run_for, *m, e[0], e[1], e[2], e[3]),
        Edit::RemoveRun(m) => call_for!(yard_remove_run_for, *m),
        Edit::MoveRun(m, e) => call_for!(yard_move_run_for, *m, e[0], e[1], e[2], e[3]),
        other => panic!("{other:?} is in nobody's name"),
    };
    match e {
        // moving only reads them
        Edit::MoveRun(..) => h.kept(holders, "holders"),
        _ => h.take(holders, "holders"),
    }
    s.kept(shares, "shares");
    c.kept(ceilings, "ceilings");
    answer
}

/// A call that draws: `yard_piece` or `yard_bend`.
type Draw = unsafe extern "C" fn(
    *const u16, usize, *const u16, usize, *const u8, usize, *const u32, usize, *const u32, usize,
    u32, u32, *mut u32, usize, *mut f64, usize,
) -> u32;

/// The floats go in, and are compared, as their bits.
fn drawn(draw: Draw, t: &Tables, run: u32, piece: u32, kind: &mut [u32], points: &mut [f64]) -> u32 {
    let mut bits: Vec<u64> = points.iter().map(|p| p.to_bits()).collect();
    let (mut k, mut p) = (Fenced::new(kind, 0x5A5A_5A5A), Fenced::new(&bits, 0x5A5A_5A5A_5A5A_5A5A));
    let answer = reading_call!(t, draw, run, piece, k.ptr(), k.len, p.ptr().cast(), p.len);
    k.take(kind, "the kind");
    p.take(&mut bits, "the points");
    points.iter_mut().zip(bits).for_each(|(point, bits)| *point = f64::from_bits(bits));
    answer
}

/// How a piece of a run's route is drawn: the number, and the two lists as the call leaves them.
pub fn piece(t: &Tables, run: u32, piece: u32, kind: &mut [u32], points: &mut [f64]) -> u32 {
    drawn(yard_piece, t, run, piece, kind, points)
}

/// The nine points of a piece that is a bend, alike.
pub fn bend(t: &Tables, run: u32, piece: u32, kind: &mut [u32], points: &mut [f64]) -> u32 {
    drawn(yard_bend, t, run, piece, kind, points)
}

/// The quote of a run, which is lent blocks and runs to read.
fn over_records(blocks: &[u16], runs: &[u16], quote: impl FnOnce(*const u16, usize, *const u16, usize) -> u32) -> u32 {
    let (mut b, mut r) = (Fenced::new(blocks, 0x5A5A), Fenced::new(runs, 0x5A5A));
    let answer = quote(b.ptr(), b.len, r.ptr(), r.len);
    b.kept(blocks, "blocks");
    r.kept(runs, "runs");
    answer
}

/// The route of a run from the records alone: the number, and the route record as the call leaves it.
pub fn quote_route(blocks: &[u16], runs: &[u16], run: u32, route: &mut [u32]) -> u32 {
    let mut w = Fenced::new(route, 0x5A5A_5A5A);
    // The three lists are apart, live for the call, and as long as stated.
    let answer = over_records(blocks, runs, |b, bl, r, rl| unsafe { yard_quote_route(b, bl, r, rl, run, w.ptr(), w.len) });
    w.take(route, "the route");
    answer
}

/// What a move of a block would make of every run's state and length: the number, and the quote as the call leaves it.
pub fn quote_move(t: &Tables, number: u32, east: i16, north: i16, quote: &mut [u32]) -> u32 {
    let mut q = Fenced::new(quote, 0x5A5A_5A5A);
    // The quote is apart too, lives for the call, and is as long as stated.
    let answer = reading_call!(t, yard_quote_move, number, east, north, q.ptr(), q.len);
    q.take(quote, "the quote");
    answer
}

/// The duct of a run: the number, and the two lists as the call leaves them.
pub fn quote_duct(blocks: &[u16], runs: &[u16], run: u32, quote: &mut [u32], crossings: &mut [u16]) -> u32 {
    let (mut q, mut c) = (Fenced::new(quote, 0x5A5A_5A5A), Fenced::new(crossings, 0x5A5A));
    // The four lists are apart, live for the call, and as long as stated.
    let answer = over_records(blocks, runs, |b, bl, r, rl| unsafe {
        yard_quote_duct(b, bl, r, rl, run, q.ptr(), q.len, c.ptr(), c.len)
    });
    q.take(quote, "the quote");
    c.take(crossings, "the crossings");
    answer
}

/// The edits of a file: the number of the stop, 0 at the file's end; the tables and the two lists as the call leaves them.
pub fn replay(t: &mut Tables, file: &[u8], answers: &mut [u32], end: &mut [u64]) -> u32 {
    let mut f = Fenced::new(file, 0x5A);
    let (mut a, mut e) = (Fenced::new(answers, 0x5A5A_5A5A), Fenced::new(end, 0x5A5A_5A5A_5A5A_5A5A));
    let number = fenced_call!(t, yard_replay, f.ptr(), f.len, a.ptr(), a.len, e.ptr(), e.len);
    f.kept(file, "the file");
    a.take(answers, "the answers");
    e.take(end, "the end");
    number
}

/// A file turned into the other version, shortened or lengthened: the number, and the two lists as the call leaves them.
pub fn convert(shorten: bool, file: &[u8], buffer: &mut [u8], length: &mut [u32]) -> u32 {
    let (mut f, mut b, mut l) = (Fenced::new(file, 0x5A), Fenced::new(buffer, 0x5A), Fenced::new(length, 0x5A5A_5A5A));
    let call = if shorten { yard_file_shorten } else { yard_file_lengthen };
    // The three lists are apart, live for the call, and as long as stated.
    let number = unsafe { call(f.ptr(), f.len, b.ptr(), b.len, l.ptr(), l.len) };
    f.kept(file, "the file");
    b.take(buffer, "the buffer");
    l.take(length, "the length");
    number
}
