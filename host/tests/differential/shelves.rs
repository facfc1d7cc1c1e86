//! Random scripts of shelves: editions put on them, jobs judged from them, and
//! shelves handed in, right and bad.

use crate::scripts::compare_at_once;
use reference::random::shelf::script;

/// A shelf handed in, an edition put, a job judged.
const OPERATIONS: [u32; 3] = [20, 21, 22];

#[test]
fn random_shelves() {
    let met = compare_at_once(["shelves-1", "shelves-2"], 400, script);
    let put_and_judge: Vec<u32> = (2..=14).chain(19..=21).chain([23]).collect();
    met.operations
        .finish("operations of shelf scripts", "none", 1_000, &OPERATIONS);
    met.numbers
        .finish("answers to shelf scripts", "good", 100, &put_and_judge);
}
