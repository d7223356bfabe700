//! The calls in a contractor's name a second time, over the second planner: their questions one after the other, with
//! holders counted under their values, and each contractor's part of the 24 numbers as one claim.

use crate::linked::edit_for;
use crate::reference::{self, stored_book, Book};
use crate::tables::{Edit, Tables};
use crate::{same_answer, same_tables};

pub const NUMBERS: usize = 24;
pub const CONTRACTORS: usize = 4;
pub const NOBODY: u8 = 255;

/// What a call in a contractor's name is lent, of any length and with any contents.
#[derive(Clone)]
pub struct Lent {
    pub tables: Tables,
    pub holders: Vec<u8>,
    pub shares: Vec<u8>,
    pub ceilings: Vec<u8>,
}

impl Lent {
    /// How many numbers have each byte as their holder.
    pub fn tally(&self) -> [i64; 256] {
        let mut tally = [0; 256];
        self.holders.iter().for_each(|&holder| tally[usize::from(holder)] += 1);
        tally
    }

    /// How many of the 24 numbers each contractor lays claim to: those that it holds, or its share where that is more.
    fn claims(&self) -> Vec<i64> {
        self.shares.iter().zip(self.tally()).map(|(&share, held)| held.max(share.into())).collect()
    }

    /// Question 18.
    fn terms_right(&self, book: &Book) -> bool {
        let named = |(ends, holder): (&Vec<_>, &u8)| if ends.is_empty() { *holder == NOBODY } else { (0..4).contains(holder) };
        self.shares.iter().zip(&self.ceilings).all(|(share, ceiling)| share <= ceiling)
            && self.shares.iter().map(|&share| i64::from(share)).sum::<i64>() <= 24
            && book.runs.iter().zip(&self.holders).all(named)
            && self.ceilings.iter().zip(self.tally()).all(|(&ceiling, held)| held <= ceiling.into())
            && self.claims().iter().sum::<i64>() <= 24
    }

    fn lengths_right(&self) -> bool {
        let own = (self.holders.len(), self.shares.len(), self.ceilings.len());
        reference::lengths_right(&self.tables) && own == (NUMBERS, CONTRACTORS, CONTRACTORS)
    }

    /// The first question that fails, or 0.
    fn answer(&self, contractor: u32, e: &Edit) -> u32 {
        if !self.lengths_right() {
            return 1;
        }
        let Some(book) = stored_book(&self.tables) else { return 2 };
        if !self.terms_right(&book) {
            return 18;
        }
        let (number, ends) = run_edit(e);
        if contractor >= 4 || number >= 24 {
            return 3;
        }
        let (own, adding) = (contractor as usize, matches!(e, Edit::AddRun(..)));
        let (taken, holder) = (!book.runs[number as usize].is_empty(), self.holders[number as usize]);
        let (held, others) = (self.tally()[own], self.claims().iter().sum::<i64>() - self.claims()[own]);
        if adding && taken {
            return 4;
        }
        if adding && held >= self.ceilings[own].into() {
            return 19;
        }
        if adding && held + 1 + others > 24 {
            return 20;
        }
        if !adding && (!taken || u32::from(holder) != contractor) {
            return 5;
        }
        if ends.iter().any(|&word| word > 32767) { 7 } else { 0 }
    }

    /// The number that is due, and what the call must leave.
    fn due(&self, contractor: u32, e: &Edit) -> (u32, Lent) {
        let (number, mut after) = (self.answer(contractor, e), self.clone());
        if number == 0 {
            let (answer, tables) = reference::edited(&self.tables, e);
            assert_eq!(answer, 0, "the second planner refuses {e:?}");
            after.tables = tables;
            match e {
                Edit::AddRun(m, _) => after.holders[*m as usize] = contractor as u8,
                Edit::RemoveRun(m) => after.holders[*m as usize] = NOBODY,
                _ => {}
            }
        }
        (number, after)
    }

    /// Make the call.
    pub fn ask(&mut self, contractor: u32, e: &Edit) -> u32 {
        edit_for(&mut self.tables, &mut self.holders, &self.shares, &self.ceilings, contractor, e)
    }

    /// Make the call and compare. The number is given back.
    pub fn call(&mut self, contractor: u32, e: &Edit, calls: &mut usize) -> Result<u32, String> {
        let (number, due) = self.due(contractor, e);
        let lists = format!("holders {:?} shares {:?} ceilings {:?}", self.holders, self.shares, self.ceilings);
        let what = format!("contractor {contractor} {e:?} with {lists}");
        *calls += 1;
        same_answer(&what, self.ask(contractor, e), number)?;
        same_tables(&what, &self.tables, &due.tables)?;
        same_holders(&what, &self.holders, &due.holders)?;
        Ok(number)
    }

    /// A call that must be answered so.
    pub fn answered(&mut self, contractor: u32, e: &Edit, number: u32, calls: &mut usize) -> Result<(), String> {
        let got = self.call(contractor, e, calls)?;
        same_answer(&format!("contractor {contractor} {e:?}, by hand"), got, number)
    }
}

pub fn same_holders(what: &str, got: &[u8], right: &[u8]) -> Result<(), String> {
    if got == right { Ok(()) } else { Err(format!("{what}: holders {got:?}, should be {right:?}")) }
}

/// The number that a run edit names and the coordinates that it brings.
pub fn run_edit(e: &Edit) -> (u32, &[u16]) {
    match e {
        Edit::AddRun(m, ends) | Edit::MoveRun(m, ends) => (*m, ends),
        Edit::RemoveRun(m) => (*m, &[]),
        other => panic!("{other:?} is no edit of a run"),
    }
}
