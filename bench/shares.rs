//! A run of a yard removed, added again and moved, in nobody's name and then in a contractor's.

use crate::abi::*;
use crate::{Grid, Tables};

pub const NUMBER: u32 = 8;
/// The holder of that run.
pub const CONTRACTOR: u32 = NUMBER % 4;
/// Each of the four is promised six runs.
pub const SHARES: [u8; 4] = [6; 4];
pub const CEILINGS: [u8; 4] = [24; 4];

/// The contractors in turn.
pub fn holders(t: &Tables) -> [u8; 24] {
    std::array::from_fn(|m| if t.runs[5 * m] == 0 { 255 } else { m as u8 % 4 })
}

/// Edit the run on the tables as a call takes them. Every call must be done.
macro_rules! edited {
    ($t:expr, $ends:expr, $remove:ident, $add:ident, $move:ident $(, $lent:expr)*) => {{
        let (b, r, p, w, s) = (&mut $t.blocks, &mut $t.runs, &mut $t.pairs, &mut $t.routes, &mut $t.totals);
        let (b, bl, r, rl) = (b.as_mut_ptr(), b.len(), r.as_mut_ptr(), r.len());
        let (p, pl, w, wl, s, sl) = (p.as_mut_ptr(), p.len(), w.as_mut_ptr(), w.len(), s.as_mut_ptr(), s.len());
        let [e0, n0, e1, n1] = $ends;
        // The lists are apart, live for the call, and as long as stated.
        let answers = unsafe {
            [
                $remove(b, bl, r, rl, p, pl, w, wl, s, sl $(, $lent)*, NUMBER),
                $add(b, bl, r, rl, p, pl, w, wl, s, sl $(, $lent)*, NUMBER, e0, n0, e1, n1),
                $move(b, bl, r, rl, p, pl, w, wl, s, sl $(, $lent)*, NUMBER, e1, n1, e0, n0),
            ]
        };
        assert_eq!(answers, [0; 3]);
    }};
}

/// For callgrind: each of the six calls once.
pub fn once(g: &Grid) {
    let (mut plain, mut named) = (g.tables(), g.tables());
    let ends = g.ends(NUMBER as u16);
    edited!(plain, ends, yard_remove_run, yard_add_run, yard_move_run);
    let mut h = holders(&named);
    let (h, hl) = (h.as_mut_ptr(), h.len());
    let (q, ql, c, cl) = (SHARES.as_ptr(), SHARES.len(), CEILINGS.as_ptr(), CEILINGS.len());
    edited!(named, ends, yard_remove_run_for, yard_add_run_for, yard_move_run_for, h, hl, q, ql, c, cl, CONTRACTOR);
    assert!(plain == named, "other tables in a contractor's name");
}
