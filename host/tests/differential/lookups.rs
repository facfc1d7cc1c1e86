//! Random look-ups: a name among names, from beginnings in them and past them, and
//! how many names are compared for jobs, right and refused.

use crate::scripts::compare_at_once;
use reference::random::lookup::script;

/// A name among names; the names compared for a job.
const OPERATIONS: [u32; 2] = [24, 25];

#[test]
fn random_lookups() {
    let met = compare_at_once(["lookups-1", "lookups-2"], 1_000, script);
    let to_row_9: Vec<u32> = (2..=9).chain([23]).collect();
    met.operations
        .finish("operations of look-up scripts", "none", 5_000, &OPERATIONS);
    met.numbers
        .finish("answers to look-up scripts", "good", 100, &to_row_9);
}
