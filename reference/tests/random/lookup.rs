//! Look-up from where we were (02, A.3): on random lists of unique names the finding
//! is the same from every beginning, and the count is that of a way step by step.

use crate::kinds::Kinds;
use crate::{for_each_sheet, seed};
use reference::lookup::{comparisons, find, find_in_turn, step_names, total, Found};
use reference::net::run;
use reference::random::dice::{mix, Dice};
use reference::random::lookup::lists::{beginning, unique_names};
use reference::random::names;

const LISTS: u64 = 400;

/// Calls a check with each of the random lists.
fn for_each_list(check: &mut dyn FnMut(&[u64], &mut Dice)) {
    println!("seed {}, {LISTS} lists", seed());
    for number in 0..LISTS {
        let mut dice = Dice::new(mix(seed()) ^ mix(number));
        check(&unique_names(&mut dice), &mut dice);
    }
}

/// Goes from one name to the next below it, and from the last to the top, until it
/// finds the name or has compared them all.
fn step_by_step(names: &[u64], from: u64, name: u64) -> Found {
    let count = names.len();
    let mut at = if from < count as u64 {
        from as usize
    } else {
        0
    };
    let mut compared = 0;
    while compared < count {
        compared += 1;
        if names[at] == name {
            let next = at as u64 + 1;
            let at = Some(at);
            return Found { at, compared, next };
        }
        at = if at + 1 == count { 0 } else { at + 1 };
    }
    Found {
        at: None,
        compared,
        next: from,
    }
}

/// Every beginning in the list, and some past its last.
fn beginnings(names: &[u64], dice: &mut Dice) -> Vec<u64> {
    let count = names.len() as u64;
    let near = 0..=count + 2;
    let others = (0..5).map(|_| beginning(names.len(), dice));
    near.chain(others).chain([u64::MAX]).collect()
}

#[test]
fn from_every_beginning_the_finding_is_the_same() {
    let mut kinds = Kinds::default();
    for_each_list(&mut |names, dice| {
        let strange = names::fresh(names, dice);
        for from in beginnings(names, dice) {
            for name in names.iter().chain([&strange]) {
                let found = find(names, from, *name);
                let first = names.iter().position(|one| one == name);
                assert_eq!(found.at, first, "{name} from {from} of {names:?}");
                assert_eq!(found, step_by_step(names, from, *name), "of {names:?}");
                assert!(found.compared <= names.len());
                assert_eq!(found.compared == 0, names.is_empty());
                let all = found.compared == names.len();
                kinds.add(all && first.is_none(), "none, all compared");
                kinds.add(all && first.is_some(), "found, all compared");
                kinds.add(first.is_some() && found.compared == 1, "found at once");
                let above = first.is_some_and(|at| (at as u64) < from);
                let within = from < names.len() as u64;
                kinds.add(above && within, "found above the beginning");
            }
        }
        kinds.add(names.is_empty(), "no name");
        kinds.add(names.len() == 1, "one name");
        kinds.add(names.len() == 64, "64 names");
        kinds.add(names.len() > 64, "over 64 names");
        kinds.add(names.contains(&0), "a name 0");
    });
    kinds.finish(5);
}

/// The name just below costs one, the same again all, the one above all but one.
#[test]
fn after_the_step_found_last() {
    for_each_list(&mut |names, _| {
        let count = names.len();
        for last in 0..count {
            let from = find(names, 0, names[last]).next;
            let cost = |at: usize| find(names, from, names[at % count]).compared;
            assert_eq!(cost(last), count);
            if count > 1 {
                assert_eq!(cost(last + 1), 1);
                assert_eq!(cost(last + count - 1), count - 1);
            }
        }
    });
}

/// Names that follow the list cost one each, wherever the first of them stands;
/// those among them that the list lacks cost all, and change nothing else.
#[test]
fn names_that_follow() {
    for_each_list(&mut |names, dice| {
        let count = names.len();
        let strange = names::fresh(names, dice);
        for first in 0..count {
            let mut wanted = names.to_vec();
            wanted.rotate_left(first);
            assert_eq!(total(names, &wanted), first + count);
            wanted.insert(dice.below(count + 1), strange);
            assert_eq!(total(names, &wanted), first + count + count);
        }
    });
}

/// Finding in turn is finding each from where the one before left off.
#[test]
fn names_in_turn() {
    for_each_list(&mut |names, dice| {
        let others = [names::any_name(dice), names::any_name(dice)];
        let all = [names, &others].concat();
        let length = dice.below(65);
        let wanted: Vec<u64> = (0..length).map(|_| all[dice.below(all.len())]).collect();
        let mut from = 0;
        let mut compared = 0;
        for (name, found) in wanted.iter().zip(find_in_turn(names, &wanted)) {
            assert_eq!(found, step_by_step(names, from, *name));
            from = found.next;
            compared += found.compared;
        }
        assert_eq!(total(names, &wanted), compared);
    });
}

/// The totals of jobs, by the rows that run has.
#[test]
fn sheets() {
    let mut kinds = Kinds::default();
    for_each_sheet("look-up", &mut |facts, _| {
        let totals = comparisons(facts);
        assert_eq!(totals.err(), run(facts).err());
        kinds.add(totals.is_err(), "refused");
        let Ok((run, matched)) = totals else {
            return;
        };
        let done = facts.done.len();
        for (route, total) in [(&facts.old, run), (&facts.new, matched)] {
            let names = step_names(route);
            let found = find_in_turn(&names, &facts.done);
            let sum: usize = found.iter().map(|found| found.compared).sum();
            assert_eq!(total, sum);
            assert!((done..=done * names.len()).contains(&total));
            for (name, found) in facts.done.iter().zip(found) {
                assert_eq!(route.step(*name), found.at.map(|at| &route.steps[at]));
            }
        }
        let missed = facts.done.iter().any(|n| facts.new.step(*n).is_none());
        let follows = run == done;
        kinds.add(facts.done.is_empty(), "nothing done");
        kinds.add(follows && run > 2, "run that costs one each");
        kinds.add(!follows, "run that costs more");
        kinds.add(matched < run, "match that costs less");
        kinds.add(matched > run, "match that costs more");
        kinds.add(missed, "done name that the new route lacks");
    });
    kinds.finish(50);
}
