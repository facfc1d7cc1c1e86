//! The names of a route as a set: a small open table of step numbers.

use crate::route::{Step, MOST};

/// Twice as many slots as steps, so that one is always free.
const SLOTS: usize = 128;

/// The number from 1 of the step in each slot; 0 is a free slot.
pub struct Names([u8; SLOTS]);

impl Names {
    pub fn new() -> Names {
        Names([0; SLOTS])
    }

    /// The slot that holds the name, or the free one where it would stand.
    #[inline]
    fn slot(&self, steps: &[Step; MOST], name: u32) -> usize {
        let mut slot = (name.wrapping_mul(0x9e37_79b1) >> 25) as usize;
        while let Some(step) = self.step_in(steps, slot) {
            if step.name == name {
                break;
            }
            slot = (slot + 1) % SLOTS;
        }
        slot
    }

    #[inline]
    fn step_in<'a>(&self, steps: &'a [Step; MOST], slot: usize) -> Option<&'a Step> {
        steps.get(usize::from(self.0[slot]).wrapping_sub(1))
    }

    /// Adds the name of the step that will stand at this index; false where
    /// the name is there.
    pub fn add(&mut self, steps: &[Step; MOST], index: usize, name: u32) -> bool {
        let slot = self.slot(steps, name);
        if self.0[slot] != 0 {
            return false;
        }
        self.0[slot] = index as u8 + 1;
        true
    }
}
