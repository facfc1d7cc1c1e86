//! Look-up by name: it begins after the step found last and goes round to the top.

use crate::route::Step;

/// Where the next look-up begins, and how many names were compared so far.
#[derive(Default)]
pub struct Lookup {
    from: usize,
    pub compared: usize,
}

impl Lookup {
    /// The place of the step of that name.
    #[inline]
    pub fn find(&mut self, steps: &[Step], name: u32) -> Option<usize> {
        let (above, below) = steps.split_at(self.from);
        let named = |step: &Step| step.name == name;
        let place = if let Some(place) = below.iter().position(named) {
            self.compared += place + 1;
            self.from + place
        } else if let Some(place) = above.iter().position(named) {
            self.compared += below.len() + place + 1;
            place
        } else {
            self.compared += steps.len();
            return None;
        };
        self.from = place + 1;
        Some(place)
    }
}
