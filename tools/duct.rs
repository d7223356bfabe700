//! Lists the ducts of a yard file's runs: the cost, the two ends, and each crossing where the duct changes direction.

mod lists;
mod yards;

use std::process::ExitCode;
use yards::{Duct, Place, Tables, Way};

fn way_lines(run: u32, way: &Way) -> String {
    let turns = way.turns();
    let line = |word: &str, p: Place| format!("{word} {} {}\n", p.0, p.1);
    let head = format!("run {run} duct cost {} changes {} crossings {}\n", way.cost, turns.len(), way.crossings.len());
    let ends = (way.crossings[0], way.crossings[way.crossings.len() - 1]);
    let turns: String = turns.into_iter().map(|p| line("turn", p)).collect();
    head + &line("from", ends.0) + &turns + &line("to", ends.1)
}

fn duct_lines(t: &Tables, run: u32) -> String {
    match yards::duct(t, run) {
        Duct::Refused(number) => lists::refused(run, number),
        Duct::NoWay => format!("run {run} duct no way\n"),
        Duct::Found(way) => way_lines(run, &way),
    }
}

fn main() -> ExitCode {
    lists::listed("yardduct", duct_lines)
}
