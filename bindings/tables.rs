//! The five tables, the edits, and what a planner does with them.

pub const BLOCKS: usize = 408;
pub const RUNS: usize = 121;
/// The word of the run table that holds the least charge of a straight.
pub const FIGURE: usize = 120;
pub const PAIRS: usize = 28680;
pub const ROUTES: usize = 4728;
pub const TOTALS: usize = 25;
/// The word of totals that holds the sum of the lengths of found runs.
pub const SUM: usize = 24;

#[derive(Clone, PartialEq, Eq)]
pub struct Tables {
    pub blocks: Vec<u16>,
    pub runs: Vec<u16>,
    pub pairs: Vec<u8>,
    pub routes: Vec<u32>,
    pub totals: Vec<u32>,
}

impl Tables {
    /// Tables of the right lengths with contents that start must overwrite.
    pub fn unstarted() -> Tables {
        let (routes, totals) = (vec![0xABCD_ABCD; ROUTES], vec![0xABCD_ABCD; TOTALS]);
        Tables { blocks: vec![0xABCD; BLOCKS], runs: vec![0xABCD; RUNS], pairs: vec![0xAB; PAIRS], routes, totals }
    }

    pub fn pair(&self, i: usize, j: usize) -> u8 {
        self.pairs[pair_index(i, j)]
    }

    /// The least charge of a straight.
    pub fn figure(&self) -> u16 {
        self.runs[FIGURE]
    }

    /// State, summed charges and marks of run m's route.
    pub fn route(&self, m: usize) -> (u32, u32, &[u32]) {
        let words = &self.routes[197 * m..197 * m + 197];
        (words[0], words[1], &words[3..3 + (words[2] as usize).min(194)])
    }

    /// The sum of the lengths of found runs.
    pub fn sum(&self) -> u32 {
        self.totals[SUM]
    }

    /// The first place where two sets of tables differ.
    pub fn difference(&self, right: &Tables) -> Option<String> {
        if let Some(at) = first_difference(&self.blocks, &right.blocks) {
            return Some(format!("blocks word {at} (block {}) is {}, should be {}", at / 17, show(&self.blocks, at), show(&right.blocks, at)));
        }
        if let Some(at) = first_difference(&self.runs, &right.runs) {
            let what = if at < FIGURE { format!("run {}", at / 5) } else { "the least charge".to_string() };
            return Some(format!("runs word {at} ({what}) is {}, should be {}", show(&self.runs, at), show(&right.runs, at)));
        }
        if let Some(at) = first_difference(&self.pairs, &right.pairs) {
            let j = (1..240).rev().find(|j| j * (j - 1) / 2 <= at).unwrap_or(0);
            let i = at - j * (j.max(1) - 1) / 2;
            return Some(format!("pair of marks {i} and {j} is {}, should be {}", show(&self.pairs, at), show(&right.pairs, at)));
        }
        if let Some(at) = first_difference(&self.routes, &right.routes) {
            let m = at / 197;
            if self.routes.len() == ROUTES && right.routes.len() == ROUTES {
                return Some(format!("route of run {m} is {:?}, should be {:?} (word {})", self.route(m), right.route(m), at % 197));
            }
            return Some(format!("routes word {at} is {}, should be {}", show(&self.routes, at), show(&right.routes, at)));
        }
        if let Some(at) = first_difference(&self.totals, &right.totals) {
            let what = if at < SUM { format!("pairs that name block {at}") } else { "the summed lengths".to_string() };
            return Some(format!("totals word {at} ({what}) is {}, should be {}", show(&self.totals, at), show(&right.totals, at)));
        }
        None
    }
}

fn first_difference<T: PartialEq>(a: &[T], b: &[T]) -> Option<usize> {
    if a == b {
        return None;
    }
    Some((0..a.len().min(b.len())).find(|&i| a[i] != b[i]).unwrap_or(a.len().min(b.len())))
}

fn show<T: std::fmt::Debug>(table: &[T], at: usize) -> String {
    table.get(at).map_or("past the end".to_string(), |v| format!("{v:?}"))
}

pub fn pair_index(i: usize, j: usize) -> usize {
    let (low, high) = (i.min(j), i.max(j));
    high * (high - 1) / 2 + low
}

#[derive(Clone, Debug, PartialEq, Eq)]
pub enum Edit {
    AddBlock(u32, Vec<u16>),
    RemoveBlock(u32),
    MoveBlock(u32, i16, i16),
    AddRun(u32, [u16; 4]),
    RemoveRun(u32),
    MoveRun(u32, [u16; 4]),
    SetCharge(u16),
}

pub trait Planner {
    fn start(&self, t: &mut Tables) -> u32;
    fn edit(&self, t: &mut Tables, e: &Edit) -> u32;
    fn check(&self, t: &Tables) -> u32;
}
