//! Graphviz's path planner, where it is installed: the visibility graph is built anew at each step.

use crate::Tables;

#[cfg(graphviz)]
#[link(name = "bench_graphviz", kind = "static")]
#[link(name = "pathplan")]
extern "C" {
    fn graphviz_routes(blocks: *const u16, runs: *const u16, lengths: *mut f64, straights: *mut u32);
}

pub const INSTALLED: bool = cfg!(graphviz);

/// The routes that Graphviz finds for the stored records: length and straights of each run.
#[cfg(graphviz)]
fn routes(t: &Tables) -> ([f64; 24], [u32; 24]) {
    let (mut lengths, mut straights) = ([0.0; 24], [0; 24]);
    unsafe { graphviz_routes(t.blocks.as_ptr(), t.runs.as_ptr(), lengths.as_mut_ptr(), straights.as_mut_ptr()) };
    (lengths, straights)
}

#[cfg(not(graphviz))]
fn routes(_: &Tables) -> ([f64; 24], [u32; 24]) {
    ([0.0; 24], [0; 24])
}

/// Move a block in the records alone, and let Graphviz find the routes.
pub fn move_block(t: &mut Tables, number: u32, by: (i16, i16)) -> u32 {
    let words = &mut t.blocks[17 * number as usize..17 * number as usize + 17];
    for k in 0..words[0] as usize {
        words[1 + 2 * k] = words[1 + 2 * k].wrapping_add_signed(by.0);
        words[2 + 2 * k] = words[2 + 2 * k].wrapping_add_signed(by.1);
    }
    std::hint::black_box(routes(t));
    0
}

/// Whether our lengths are Graphviz's with each straight rounded up: not below its length, and at most one
/// centimetre more for each of its straights.
pub fn agrees(t: &Tables) -> bool {
    let (lengths, straights) = routes(t);
    (0..24).filter(|&m| t.runs[5 * m] == 1).all(|m| {
        let ours = t.routes[197 * m + 1] as f64;
        ours >= lengths[m] - 1e-6 && ours <= lengths[m] + straights[m] as f64 + 1e-6
    })
}
