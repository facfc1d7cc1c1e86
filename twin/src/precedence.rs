//! Which of some occurrences come after which. Instead of pair by pair, the
//! occurrences met so far are held by variable, those that cut cloth as a mask, and the
//! last putter by shared place.

use crate::job::Uses;
use crate::reader::Sheet;
use crate::route::MOST;

/// Some of a job's occurrences, rising. Row i has a bit for each earlier one
/// that the i-th comes after.
pub struct Precedence {
    pub len: usize,
    /// Where each stands in the done list, from 0.
    pub at: [u8; MOST],
    pub rows: [u64; MOST],
    /// Those that write each variable.
    writers: [u64; 32],
}

impl Precedence {
    /// All of a job's occurrences, or the kept: these have the putters that they need.
    pub fn of(sheet: &Sheet, uses: &Uses, occurrences: u64) -> Precedence {
        let mut precedence = Precedence {
            len: 0,
            at: [0; MOST],
            rows: [0; MOST],
            writers: [0; 32],
        };
        let (mut users, mut cut) = ([0; 32], 0);
        let mut left = occurrences;
        while left != 0 {
            let index = left.trailing_zeros() as usize;
            left &= left - 1;
            let own = 1 << precedence.len;
            let mut row = precedence.by_variable(&mut users, own, uses, index);
            if uses.cuts(index) {
                row |= cut;
                cut |= own;
            }
            precedence.at[precedence.len] = index as u8;
            precedence.rows[precedence.len] = row;
            precedence.len += 1;
        }
        if sheet.old.shared != 0 {
            precedence.by_token(sheet, uses);
        }
        precedence
    }

    /// Those that write what one more uses, and those that use what it writes.
    #[inline(always)]
    fn by_variable(&mut self, users: &mut [u64; 32], own: u64, uses: &Uses, index: usize) -> u64 {
        let (reads, writes) = (uses.reads[index], uses.writes[index]);
        let mut row = 0;
        for variable in members(reads) {
            row |= self.writers[variable];
        }
        for variable in members(writes) {
            row |= users[variable];
            self.writers[variable] |= own;
            users[variable] |= own;
        }
        for variable in members(reads) {
            users[variable] |= own;
        }
        row
    }

    /// The putter of each token that one takes from a shared place.
    fn by_token(&mut self, sheet: &Sheet, uses: &Uses) {
        let mut putters = [0; 64];
        for (own, row) in self.rows[..self.len].iter_mut().enumerate() {
            let index = usize::from(self.at[own]);
            for place in members(uses.takes(sheet, index)) {
                *row |= putters[place];
            }
            for place in members(uses.puts(sheet, index)) {
                putters[place] = 1 << own;
            }
        }
    }

    /// The last of them that writes the variable.
    pub fn last_writer(&self, variable: usize) -> Option<u8> {
        let last = self.writers[variable].checked_ilog2()?;
        Some(self.at[last as usize])
    }
}

/// The members of a mask, rising.
#[inline(always)]
pub fn members(mask: impl Into<u64>) -> impl Iterator<Item = usize> {
    let mut left: u64 = mask.into();
    std::iter::from_fn(move || {
        if left == 0 {
            return None;
        }
        let member = left.trailing_zeros() as usize;
        left &= left - 1;
        Some(member)
    })
}
