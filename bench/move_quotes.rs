//! The quote of a move: each step of a drag is quoted before it is made, over the drag yard, the crowded yard and the
//! touching yard.

use crate::{abi, show, step, Counts, Planner, Tables, BLOCKS, CROWDED, FULL, PAIRS, ROUTES, RUNS, TOTALS, TOUCHING};
use std::time::Instant;

pub const QUOTE: usize = 48;
const STEPS: i32 = 50;
const ROUNDS: usize = 5;

fn quote(t: &Tables, number: u32, by: (i16, i16)) -> [u32; QUOTE] {
    let mut quote = [u32::MAX; QUOTE];
    // The six lists are apart, live for the call, and as long as stated.
    let answer = unsafe {
        abi::yard_quote_move(
            t.blocks.as_ptr(), BLOCKS, t.runs.as_ptr(), RUNS, t.pairs.as_ptr(), PAIRS, t.routes.as_ptr(), ROUTES,
            t.totals.as_ptr(), TOTALS, number, by.0, by.1, quote.as_mut_ptr(), QUOTE,
        )
    };
    assert_eq!(answer, 0);
    quote
}

/// One step, quoted and made: what it leaves must be what was quoted.
pub fn quoted_step(t: &mut Tables, number: u32, by: (i16, i16)) -> u32 {
    let quote = quote(t, number, by);
    let answer = step(Planner::Ours, t, number, by);
    let as_left = t.routes.chunks(197).enumerate().all(|(m, route)| route[..2] == [quote[m], quote[24 + m]]);
    assert!(as_left, "the move of block {number} by {by:?} leaves other lengths than were quoted");
    answer
}

/// The least microseconds of a quote, averaged over the steps of a drag.
fn time(g: &crate::Grid) -> f64 {
    let drag = || {
        let (mut t, mut sum) = (g.tables(), 0.0);
        for by in g.displacements(STEPS) {
            let begin = Instant::now();
            quote(&t, g.dragged, by);
            sum += begin.elapsed().as_secs_f64() * 1e6;
            assert_eq!(step(Planner::Ours, &mut t, g.dragged, by), 0);
        }
        sum / STEPS as f64
    };
    (0..ROUNDS).map(|_| drag()).fold(f64::MAX, f64::min)
}

pub fn print(counts: &Counts) {
    println!("The quote of a move, of all 24 runs, before each step of a drag. Time: microseconds, least of {ROUNDS} drags of {STEPS} steps. Instructions:");
    println!("thousands, by callgrind inside the call, beside those of the step itself, which are in the table above. Ratio: the quote's to the step's.");
    println!();
    println!("{:<13} {:>8} {:>12} {:>8} {:>6}", "yard", "time", "instructions", "step", "ratio");
    for g in [&FULL, &CROWDED, &TOUCHING] {
        let (count, made) = (counts.of("quoted", g), counts.of("proved", g));
        let thousands = |v: Option<f64>| show(v.map(|v| v / 1000.0), 0);
        let ratio = count.zip(made).map(|(a, b)| a / b);
        println!("{:<13} {:>8.0} {:>12} {:>8} {:>6}", g.name, time(g), thousands(count), thousands(made), show(ratio, 2));
    }
}
