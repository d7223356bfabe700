//! Lists the routes of a yard file's runs as `yardlist` does, each quoted from the blocks and runs alone.

mod lists;
mod yards;

use std::process::ExitCode;
use yards::{linked::quote_route, Tables};

fn route_line(t: &Tables, run: u32) -> String {
    let mut route = [0; 197];
    match (quote_route(&t.blocks, &t.runs, run, &mut route), &route) {
        (0, [1, length, count, marks @ ..]) => {
            let marks: String = marks[..*count as usize].iter().map(|mark| format!(" {mark}")).collect();
            format!("run {run} length {length} marks{marks}\n")
        }
        (0, _) => format!("run {run} no way\n"),
        (number, _) => lists::refused(run, number),
    }
}

fn main() -> ExitCode {
    lists::listed("yardquote", route_line)
}
