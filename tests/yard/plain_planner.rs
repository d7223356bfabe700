//! The plain planner of the benchmark, to try these tests without the static library (`tests/yard/run --plain`).

#[path = "../../bench/plain.rs"]
#[allow(dead_code)]
mod plain;

use crate::tables::{Edit, Planner, Tables};

pub struct Plain;

fn yard(t: &mut Tables) -> plain::Yard<'_> {
    plain::Yard { blocks: &mut t.blocks, runs: &mut t.runs, pairs: &mut t.pairs, routes: &mut t.routes, totals: &mut t.totals }
}

impl Planner for Plain {
    fn start(&self, t: &mut Tables) -> u32 {
        yard(t).start()
    }

    fn edit(&self, t: &mut Tables, e: &Edit) -> u32 {
        let mut y = yard(t);
        match e {
            Edit::AddBlock(n, corners) => y.add_block(*n, corners),
            Edit::RemoveBlock(n) => y.remove_block(*n),
            Edit::MoveBlock(n, east, north) => y.move_block(*n, *east, *north),
            Edit::AddRun(m, ends) => y.add_run(*m, *ends),
            Edit::RemoveRun(m) => y.remove_run(*m),
            Edit::MoveRun(m, ends) => y.move_run(*m, *ends),
            Edit::SetCharge(figure) => y.set_charge(*figure),
        }
    }

    fn check(&self, t: &Tables) -> u32 {
        yard(&mut t.clone()).check()
    }
}
