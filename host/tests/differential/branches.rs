//! Branches taken (02, A.8): jobs in which an occurrence took a token that another had put
//! on a shared place. What they would come to without that is counted, so that each way in
//! which it matters is met.

use crate::compare::compare_try;
use crate::listings::compare_listing;
use crate::scripts::Met;
use crate::seed::for_each_case;
use crate::some_order::some_order;
use crate::tally::Tally;
use crate::unwritten_scripts::over_records;
use reference::fit::{self, fit};
use reference::job::Job;
use reference::judge::{judge, WORK};
use reference::random::dice::Dice;
use reference::random::records::Facts;
use reference::random::{self, branches, jobs};
use reference::sheet::{self, Sheet};
use reference::slice::{self, Occurrences};
use std::collections::BTreeMap;

/// A random job in which an occurrence needs another's token.
fn branched(dice: &mut Dice) -> Sheet {
    loop {
        let kinds = [random::sheet, jobs::job, branches::job, branches::handing];
        let sheet = kinds[dice.below(4)];
        let facts = sheet(dice);
        let needs_a_token = |job: Job| job.putters.iter().any(|putters| !putters.is_empty());
        if Job::of(&facts).is_ok_and(needs_a_token) {
            return facts;
        }
    }
}

/// The job as if no place were shared.
fn without_tokens<'a>(job: &Job<'a>) -> Job<'a> {
    let putters = vec![Occurrences::new(); job.done.len()];
    let kept = slice::kept(&job.done, &putters, &job.sheet.new);
    Job {
        putters,
        kept,
        ..job.clone()
    }
}

/// An order for the job, or for what it would be without the tokens.
fn order_for(facts: &Sheet, dice: &mut Dice) -> Vec<u8> {
    let job = Job::of(facts).expect("a row to 9");
    let without = without_tokens(&job);
    some_order([&job, &without][dice.below(2)], dice)
}

/// What the job comes to.
fn end(facts: &Sheet) -> String {
    match judge(facts, &mut [0; WORK]) {
        Ok(moved) if moved.straight => "straight".to_string(),
        Ok(_) => "searched".to_string(),
        Err(refusal) => refusal.number.to_string(),
    }
}

/// Whether more is kept for the tokens, whether more comes after, each with what the job
/// comes to; and how an order is answered that would be fit without them.
fn kinds(facts: &Sheet, order: &[u8]) -> Vec<String> {
    let job = Job::of(facts).expect("a row to 9");
    let without = without_tokens(&job);
    let mut kinds = Vec::new();
    if job.kept != without.kept {
        kinds.push(format!("kept: {}", end(facts)));
    }
    let pairs = |job: &Job| slice::table(&job.done, &job.putters);
    if pairs(&job) != pairs(&without) {
        kinds.push(format!("ordered: {}", end(facts)));
    }
    let list: Vec<usize> = order.iter().map(|&byte| usize::from(byte)).collect();
    if fit(&without, &list) && !fit(&job, &list) {
        let answer = fit::try_order(facts, order).map_err(|refusal| refusal.number);
        kinds.push(format!("tried: {}", answer.expect_err("a fit order")));
    }
    kinds
}

#[test]
fn branched_sheets() {
    let (mut printed, mut tried) = (Tally::default(), Tally::default());
    let mut met: BTreeMap<String, usize> = BTreeMap::new();
    for_each_case("branched", 10_000, &mut |dice| {
        let facts = branched(dice);
        let bytes = sheet::text(&facts).into_bytes();
        compare_listing(&bytes, &mut printed, dice);
        let order = order_for(&facts, dice);
        tried.add(compare_try(&bytes, &order, dice).number);
        for kind in kinds(&facts, &order) {
            *met.entry(kind).or_default() += 1;
        }
    });
    printed.finish("branched sheets", "moved", 100, &[0, 10, 11, 12, 13]);
    tried.finish(
        "orders of branched sheets",
        "accepted",
        100,
        &[0, 11, 12, 16, 17, 18],
    );
    println!("branched sheets in which the tokens matter: {met:?}");
    // kept and ordered, each with six ends; and orders refused for the tokens alone
    for what in ["kept", "ordered"] {
        for end in ["straight", "searched", "10", "11", "12", "13"] {
            assert!(met[&format!("{what}: {end}")] >= 100, "{what}: {end}");
        }
    }
    for row in ["tried: 11", "tried: 16", "tried: 17"] {
        assert!(met[row] >= 20, "{row}");
    }
}

/// Sliced, tried and judged as records, by value and as lent lists.
#[test]
fn branched_records() {
    let mut met = Met::default();
    for_each_case("branched records", 500, &mut |dice| {
        let facts = branched(dice);
        let order = order_for(&facts, dice);
        let script = over_records(&Facts::of(&facts), &order);
        met.compare("branched", &script);
    });
    met.operations.finish(
        "operations on branched records",
        "none",
        450,
        &[3, 4, 5, 13, 14, 15],
    );
    met.numbers.finish(
        "answers on branched records",
        "good",
        20,
        &[0, 10, 11, 12, 13, 16, 17],
    );
}
