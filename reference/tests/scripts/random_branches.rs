//! What random scripts meet of branches taken (02, A.8): on records, by value and lent, on
//! sheets, between editions, and in orders handed in.

use crate::kinds::Kinds;
use crate::kinds_of_branches::{add, answer, only_pairs_forbid, without_tokens};
use crate::random::{arguments, operations};
use crate::random_cloth::{bytes, facts};
use crate::random_shelves::between;
use reference::job::Job;
use reference::sheet::read;

/// Each kind must be met so many times.
const LEAST: usize = 3;

/// The jobs of run, slice, try and judge.
#[test]
fn jobs_meet_branches() {
    for lent in [false, true] {
        let mut kinds = Kinds::default();
        for (line, operation, _) in operations() {
            if matches!(operation, 2..=5 | 12..=15) && (operation > 10) == lent {
                add(&mut kinds, &facts(&arguments(line).job(operation)));
            }
        }
        println!("lent: {lent}");
        kinds.finish(LEAST);
    }
}

/// The sheets of print and of the C form of try.
#[test]
fn sheets_meet_branches() {
    let mut kinds = Kinds::default();
    for (line, operation, _) in operations() {
        if matches!(operation, 9 | 10) {
            if let Ok(facts) = read(&bytes(arguments(line).many())) {
                add(&mut kinds, &facts);
            }
        }
    }
    kinds.finish(LEAST);
}

#[test]
fn orders_meet_branches() {
    let mut kinds = Kinds::default();
    for (line, operation, numbers) in operations() {
        if matches!(operation, 4 | 10 | 14) && numbers[0] == 17 {
            let mut words = arguments(line);
            let facts = match operation {
                10 => read(&bytes(words.many())).unwrap(),
                _ => facts(&words.job(operation)),
            };
            let order = bytes(words.many());
            let by_pairs = only_pairs_forbid(&facts, &order, numbers[1] as usize);
            kinds.add(by_pairs, &format!("{operation:2}: 17 by pairs alone"));
        }
    }
    kinds.finish(10);
    assert_eq!(kinds.0.len(), 3);
}

/// Jobs between editions.
#[test]
fn jobs_of_shelves_meet_branches() {
    let mut kinds = Kinds::default();
    for (job, numbers) in between() {
        let facts = facts(&job);
        let Ok(job) = Job::of(&facts) else {
            continue;
        };
        let bare = without_tokens(&job);
        let moved = numbers[0] == 0;
        let pairs = job.putters.iter().any(|row| !row.is_empty());
        kinds.add(moved && pairs, "moved, with a pair");
        kinds.add(!moved && pairs, "refused, with a pair");
        kinds.add(job.kept != bare.kept, "one kept for a token alone");
        kinds.add(answer(&job) != answer(&bare), "another answer");
    }
    kinds.finish(LEAST);
}
