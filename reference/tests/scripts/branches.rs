//! Branches taken (02, A.8), worked by hand: masks of kept and rows of the table in which
//! a taker comes after its putter.

use crate::common::{records, Facts};
use crate::letters::{Letter, Moved};

/// 10 plans, 20 tests and writes nothing, and 30 and 40 are branches behind the test. On
/// the new route the test stands first.
const SHEET: &str = "\
(old 4)
(start 0)
(step 10 (in 0) (out 1) (read) (write 0))
(step 20 (in 1) (out 2) (read) (write))
(step 30 (in 2) (out 3) (read) (write 1))
(step 40 (in 2) (out 3) (read) (write 2))
(new 4)
(start 0)
(step 20 (in 0) (out 1) (read) (write))
(step 10 (in 1) (out 2) (read) (write 0))
(step 30 (in 2) (out 3) (read) (write 1))
(step 40 (in 2) (out 3) (read) (write 2))
(job)
(done 10)
(done 20)
(done 30)
";

const LISTING: &str = "\
(moved (kept 3) (dropped 0))
(after 3 2)
(order 2 1 3)
(marking 3)
(value 0 1)
(value 1 3)
";

const OLD: [[u64; 6]; 4] = [
    [10, 1, 2, 0, 1, 0],
    [20, 2, 4, 0, 0, 0],
    [30, 4, 8, 0, 2, 0],
    [40, 4, 8, 0, 4, 0],
];

#[test]
fn a_branch_after_its_test() {
    let new = [[20, 1, 2, 0, 0, 0], [10, 2, 4, 0, 1, 0], OLD[2], OLD[3]];
    Letter {
        files: [SHEET, LISTING].map(String::from),
        facts: Facts {
            old: records(4, &OLD),
            new: records(4, &new),
            done: vec![10, 20, 30],
        },
        run: Ok(8),
        slice: Ok((7, vec![0, 0, 2])),
        judge: Ok(Moved {
            kept: 7,
            dropped: 0,
            order: vec![2, 1, 3],
            marking: 8,
            after: vec![0, 0, 2],
            writers: vec![1, 3],
        }),
        searched: true,
        tries: vec![
            (vec![2, 1, 3], [0, 0, 8]),
            (vec![3, 2, 1], [17, 1, 0]),
            (vec![2, 3, 1], [18, 2, 0]),
            (vec![1, 3], [16, 3, 0]),
        ],
    }
    .check();
}

/// The new route lacks the test: 11 at its done line.
#[test]
fn a_branch_without_its_test() {
    let untested = "(new 3)
(start 0)
(step 10 (in 0) (out 1) (read) (write 0))
(step 30 (in 1) (out 2) (read) (write 1))
(step 40 (in 1) (out 2) (read) (write 2))
";
    let (old, job) = (SHEET.find("(new").unwrap(), SHEET.find("(job").unwrap());
    let sheet = [&SHEET[..old], untested, &SHEET[job..]].concat();
    let new = [OLD[0], [30, 2, 4, 0, 2, 0], [40, 2, 4, 0, 4, 0]];
    Letter {
        files: [sheet, "(refused 11 14)\n".into()],
        facts: Facts {
            old: records(4, &OLD),
            new: records(3, &new),
            done: vec![10, 20, 30],
        },
        run: Ok(8),
        slice: Ok((7, vec![0, 0, 2])),
        judge: Err([11, 14]),
        searched: false,
        tries: vec![(vec![1, 3], [11, 14, 0])],
    }
    .check();
}
