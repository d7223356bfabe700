//! The drawing of a route: the first bend of the drag yard, as a piece and by its nine points.

use crate::{abi, Tables, BLOCKS, PAIRS, ROUTES, RUNS, TOTALS};

pub const POINTS: usize = 6;
pub const NINE_POINTS: usize = 18;

/// For callgrind: a bend of the first run that has one, by both calls.
pub fn once(t: &Tables) {
    let run = (0..24).find(|&m| t.route(m).2.len() > 2).expect("a route with a bend") as u32;
    let (b, r, p, w, s) = (t.blocks.as_ptr(), t.runs.as_ptr(), t.pairs.as_ptr(), t.routes.as_ptr(), t.totals.as_ptr());
    let (mut kinds, mut six, mut nine) = ([[0]; 2], [0.0; POINTS], [0.0; NINE_POINTS]);
    // The seven lists are apart, live for the call, and as long as stated.
    let answers = unsafe {
        [
            abi::yard_piece(b, BLOCKS, r, RUNS, p, PAIRS, w, ROUTES, s, TOTALS, run, 1, kinds[0].as_mut_ptr(), 1, six.as_mut_ptr(), POINTS),
            abi::yard_bend(b, BLOCKS, r, RUNS, p, PAIRS, w, ROUTES, s, TOTALS, run, 1, kinds[1].as_mut_ptr(), 1, nine.as_mut_ptr(), NINE_POINTS),
        ]
    };
    assert!(answers == [0, 0] && kinds == [[2], [2]] && six[..2] == nine[..2] && six[4..] == nine[16..], "another bend");
}
