//! The route quote: every run of the drag yard, the crowded yard and the touching yard, from blocks and runs alone.

use crate::{abi, Counts, Tables, BLOCKS, CROWDED, FULL, PAIRS, RUNS, TOUCHING};
use std::time::Instant;

pub const ROUTE: usize = 197;
const ROUNDS: usize = 20;

fn quote(t: &Tables, run: usize) {
    let mut route = [0; ROUTE];
    // The three lists are apart, live for the call, and as long as stated.
    let answer = unsafe {
        abi::yard_quote_route(t.blocks.as_ptr(), BLOCKS, t.runs.as_ptr(), RUNS, run as u32, route.as_mut_ptr(), ROUTE)
    };
    assert!(answer == 0 && route == t.routes[ROUTE * run..ROUTE * run + ROUTE], "run {run}: another route than the stored one");
}

pub fn every_route(t: &Tables) {
    (0..24).for_each(|run| quote(t, run));
}

/// The least microseconds of a run's quote.
fn time(t: &Tables, run: usize) -> f64 {
    let once = || {
        let begin = Instant::now();
        quote(t, run);
        begin.elapsed().as_secs_f64() * 1e6
    };
    (0..ROUNDS).map(|_| once()).fold(f64::MAX, f64::min)
}

fn print_row(yard: &str, what: &str, numbers: &[f64], digits: usize) {
    let (least, most) = numbers.iter().fold((f64::MAX, 0.0), |(least, most), &n| (n.min(least), n.max(most)));
    let sum: f64 = numbers.iter().sum();
    let average = sum / numbers.len() as f64;
    println!("{yard:<13} {what:<24} {least:>9.digits$} {average:>9.digits$} {most:>9.digits$} {sum:>9.digits$}");
}

pub fn print(counts: &Counts) {
    println!("The quote of a run's route from blocks and runs alone: least, average and most of the 24 runs, and their sum. Time: microseconds, least of");
    println!("{ROUNDS}. Instructions: thousands, by callgrind inside the call. Below them how often each function was called, beside the {PAIRS} pairs of a panel.");
    println!();
    println!("{:<13} {:<24} {:>9} {:>9} {:>9} {:>9}", "yard", "", "least", "average", "most", "sum");
    for g in [&FULL, &CROWDED, &TOUCHING] {
        let t = g.tables();
        print_row(g.name, "time", &(0..24).map(|run| time(&t, run)).collect::<Vec<_>>(), 0);
        for (what, numbers) in counts.quotes(g) {
            let unit = if what == "instructions" { 1000.0 } else { 1.0 };
            print_row(g.name, what, &numbers.iter().map(|n| n / unit).collect::<Vec<_>>(), 0);
        }
    }
}
