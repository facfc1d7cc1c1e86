//! Demand 3: the values that a replay in an accepted order leaves, and the sequence
//! of its cloth occurrences.

use crate::{as_bytes, for_each_sheet, judged, permutations};
use reference::fit::try_order;
use reference::job::Job;
use reference::random::dice::mix;
use reference::sheet::Sheet;
use reference::slice;
use reference::values::{replay, Held};

/// A function for each occurrence and variable, got from a key by hashing.
fn hashed(key: u64) -> impl Fn(usize, u64, &[Held]) -> u64 {
    move |occurrence, variable, read| {
        let begin = mix(key ^ mix(occurrence as u64) ^ mix(1_000 + variable));
        read.iter().fold(begin, |hash, held| match held {
            None => mix(hash ^ 1),
            Some(value) => mix(hash.rotate_left(7) ^ value),
        })
    }
}

#[test]
fn an_accepted_order_leaves_what_the_whole_job_does() {
    let mut replays = 0;
    for_each_sheet("values", &mut |facts, dice| {
        let Ok(job) = Job::of(facts) else { return };
        let function = hashed(dice.roll());
        let whole = replay(&facts.old, &facts.done, &job.whole(), &function);
        assert_eq!(whole.taken, facts.done.len());
        for order in accepted_orders(facts, &job) {
            let moved = replay(&facts.new, &facts.done, &order, &function);
            assert_eq!(moved.taken, order.len());
            assert_eq!(try_order(facts, &as_bytes(&order)), Ok(moved.marking));
            for variable in slice::variables(&facts.new) {
                let v = variable as usize;
                assert_eq!(moved.variables[v], whole.variables[v], "variable {v}");
            }
            assert_eq!(moved.cloth, whole.cloth);
            replays += 1;
        }
    });
    println!("{replays} replays");
    assert!(replays > 3_000);
}

/// Judge's order, and for few kept every permutation that try accepts.
fn accepted_orders(facts: &Sheet, job: &Job) -> Vec<Vec<usize>> {
    let kept: Vec<usize> = job.kept.iter().copied().collect();
    let mut orders = vec![];
    if kept.len() <= 5 {
        orders = permutations(&kept);
        orders.retain(|order| try_order(facts, &as_bytes(order)).is_ok());
    }
    orders.extend(judged(facts).ok().map(|moved| moved.order));
    orders
}
