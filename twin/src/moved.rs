//! A job that moves: the facts that its listing shows.

use crate::job::{Uses, Way};
use crate::precedence::Precedence;
use crate::reader::Sheet;
use crate::route::MOST;
use crate::search::{self, Candidate, WORK};
use crate::Refusal;

pub struct Moved {
    pub done: usize,
    /// Over the kept occurrences.
    pub precedence: Precedence,
    /// Positions in the done list, from 0; as many as are kept.
    pub order: [u8; MOST],
    pub marking: u64,
    /// The new route's variables.
    pub variables: u32,
}

impl Moved {
    /// The job by its way, or row 13.
    pub fn by(
        way: &Way,
        sheet: &Sheet,
        uses: &Uses,
        work: &mut [u8; WORK],
    ) -> Result<Moved, Refusal> {
        match way {
            Way::Straight(marking) => Ok(Moved::straight(*marking, sheet, uses)),
            Way::Search(kept) => {
                Moved::searched(*kept, sheet, uses, work).ok_or((13, sheet.job_line()))
            }
        }
    }

    fn straight(marking: u64, sheet: &Sheet, uses: &Uses) -> Moved {
        let all = (1u128 << uses.len) - 1;
        let precedence = Precedence::of(sheet, uses, all as u64);
        Moved {
            done: uses.len,
            order: precedence.at,
            precedence,
            marking,
            variables: sheet.new.variables,
        }
    }

    fn searched(kept: u64, sheet: &Sheet, uses: &Uses, work: &mut [u8; WORK]) -> Option<Moved> {
        let precedence = Precedence::of(sheet, uses, kept);
        let mut candidates = [Candidate::default(); 16];
        for (index, candidate) in candidates.iter_mut().enumerate().take(precedence.len) {
            let step = uses.step(sheet, usize::from(precedence.at[index]))?;
            *candidate = Candidate {
                ins: step.ins,
                touches: step.ins | step.outs,
                toggle: step.toggle(),
                after: precedence.rows[index] as u16,
            };
        }
        let candidates = &candidates[..precedence.len];
        let (found, marking) = search::first_order(candidates, sheet.new.start, work)?;
        let mut order = [0; MOST];
        for (place, &index) in order.iter_mut().zip(&found[..precedence.len]) {
            *place = precedence.at[usize::from(index)];
        }
        Some(Moved {
            done: uses.len,
            precedence,
            order,
            marking,
            variables: sheet.new.variables,
        })
    }
}
