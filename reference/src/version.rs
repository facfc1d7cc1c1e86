//! Versions of the sheet's layout: 01's, and the present one with 02's longer names,
//! its mark and its start lines.

/// The limits in which versions differ.
#[derive(Clone, Copy, Debug, PartialEq, Eq)]
pub struct Version {
    /// Of any number.
    pub most_digits: usize,
    pub greatest_name: u64,
    /// Whether a step form may end with the mark.
    pub cloth: bool,
    /// Whether a line with the start follows each head.
    pub start: bool,
}

impl Version {
    pub const OF_01: Version = Version {
        most_digits: 5,
        greatest_name: 65_535,
        cloth: false,
        start: false,
    };

    /// By 02, A.2, A.4 and A.5.
    pub const PRESENT: Version = Version {
        most_digits: 10,
        greatest_name: 4_294_967_295,
        cloth: true,
        start: true,
    };

    /// Whether a name may be this number.
    pub fn is_name(&self, number: u64) -> bool {
        (1..=self.greatest_name).contains(&number)
    }

    /// The line that tells a route's start, with the head at this line: the start line,
    /// or the head's own where the start is implied.
    pub fn start_line(&self, head: usize) -> usize {
        head + usize::from(self.start)
    }

    /// The line of a route's first step, or of what follows where it has none.
    pub fn first_step_line(&self, head: usize) -> usize {
        self.start_line(head) + 1
    }
}
