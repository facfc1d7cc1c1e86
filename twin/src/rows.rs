//! Rows 2 and 3 on what was read of a line.

use crate::cursor::List;
use crate::route::Step;
use crate::version::Version;
use std::ops::RangeInclusive;

pub const PLACES: RangeInclusive<u64> = 1..=64;
const VARIABLES: u64 = 32;
const MOST_ENTRIES: u32 = 8;

/// A step line: its name, its lists in the order in, out, read, write, and its mark.
pub struct Line {
    pub name: u64,
    pub lists: [List; 4],
    pub cloth: bool,
}

impl Line {
    /// The step, or the number of the row that the line breaks.
    #[inline(always)]
    pub fn step<V: Version>(&self, places: u64) -> Result<Step, u32> {
        let [ins, outs, reads, writes] = &self.lists;
        let high = ins.above.max(outs.above) > places || reads.above.max(writes.above) > VARIABLES;
        if high || !V::is_name(self.name) {
            return Err(2);
        }
        if ins.mask == 0 || outs.mask == 0 || self.lists.iter().any(unlike_a_list) {
            return Err(3);
        }
        Ok(Step {
            ins: ins.mask,
            outs: outs.mask,
            reads: reads.mask as u32,
            writes: writes.mask as u32,
            name: self.name as u32,
            cloth: self.cloth,
        })
    }
}

/// Over 8 entries, or one not above the one before. Entries that rise and are
/// in range are as many as the mask's bits.
#[inline(always)]
fn unlike_a_list(list: &List) -> bool {
    list.falls || list.mask.count_ones() > MOST_ENTRIES
}
