//! Random cases of several kinds from a seed, for so many seconds. The seed is printed, and the same one gives the same
//! cases again.

use crate::degenerate;
use crate::random::{self, Random};
use crate::tables::Planner;
use crate::{charges, random_list, seams, totals, Report};
use std::time::{Duration, Instant};

fn one(p: &impl Planner, k: u64, r: &mut Random, calls: &mut usize) -> Result<(), String> {
    match k % 12 {
        0 => degenerate::one(p, r, calls),
        #[cfg(not(plain))]
        1 => crate::replaying::one(r, calls),
        #[cfg(not(plain))]
        2 => crate::ducts::one(r, calls),
        #[cfg(not(plain))]
        3 => crate::quotes::one(r, calls),
        #[cfg(not(plain))]
        4 => crate::pieces::one(r, calls),
        5 => seams::one(p, r, calls),
        6 => charges::one(p, r, calls),
        7 => totals::one(p, r, calls),
        #[cfg(not(plain))]
        8 => crate::converting::one(r, calls),
        #[cfg(not(plain))]
        9 => crate::shares::one(r, calls),
        #[cfg(not(plain))]
        10 => crate::move_quotes::one(r, calls),
        _ => {
            let s = random::any_style(r);
            let edits = random::list(r, &s, 60);
            random_list(p, &edits, true, calls)
        }
    }
}

pub fn fuzz(p: &impl Planner, report: &mut Report, seconds: u64, seed: u64) {
    println!("tests/yard fuzzing: seed {seed}, {seconds} s");
    let until = Instant::now() + Duration::from_secs(seconds);
    for k in (0..).take_while(|_| Instant::now() < until) {
        report.case(&format!("fuzzing, seed {seed}, case {k}"), |calls| one(p, k, &mut Random::of_case(seed, k), calls));
    }
}
