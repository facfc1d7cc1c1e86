//! Readings that nobody writes (02, A.7): how often random sheets have them, who tells
//! them, and what makes them go.

use crate::kinds::Kinds;
use crate::kinds_of_reads::{add, KINDS};
use crate::{as_bytes, for_each_sheet, judged};
use reference::fit::{try_order, try_sheet};
use reference::lookup::comparisons;
use reference::net::run;
use reference::print::listing_of;
use reference::random::dice::Dice;
use reference::random::records::Records;
use reference::refusal::Refusal;
use reference::sheet::{self, read, Route, Sheet};
use reference::shelf::Shelf;
use reference::slice::slice;

#[test]
fn sheets_meet_readings() {
    let mut kinds = Kinds::default();
    for_each_sheet("readings", &mut |facts, _| add(&mut kinds, facts));
    kinds.finish(3);
    assert_eq!(kinds.0.len(), KINDS);
}

/// The refusal by 23, if that is the answer.
fn told(facts: &Sheet) -> Option<Refusal> {
    judged(facts).err().filter(|refusal| refusal.number == 23)
}

/// The route that this line is of, and the line of its head.
fn route_at(facts: &mut Sheet, line: usize) -> (&mut Route, usize) {
    let new = facts.new_line();
    if line < new {
        (&mut facts.old, 1)
    } else {
        (&mut facts.new, new)
    }
}

/// Run, slice, try in both forms, judge, print and the names compared tell it alike;
/// put tells it for the route alone. Reading and writing don't.
#[test]
fn who_tells_it() {
    let mut count = 0;
    for_each_sheet("who tells", &mut |facts, dice| {
        let Some(refusal) = told(facts) else { return };
        let order = as_bytes(&[1, dice.below(4)]);
        let text = sheet::text(facts);
        assert_eq!(run(facts), Err(refusal));
        assert_eq!(slice(facts).err(), Some(refusal));
        assert_eq!(try_order(facts, &order), Err(refusal));
        assert_eq!(try_sheet(text.as_bytes(), &order), Err(refusal));
        assert_eq!(comparisons(facts), Err(refusal));
        let line = refusal.second;
        assert_eq!(
            listing_of(text.as_bytes()),
            format!("(refused 23 {line})\n")
        );
        let mut other = facts.clone();
        let (route, head) = route_at(&mut other, line);
        let put = Shelf::empty().put(1, &Records::of(route).by_value());
        let second = line - head + 1;
        assert_eq!(put, Err(Refusal { number: 23, second }));
        assert_eq!(read(text.as_bytes()).as_ref(), Ok(facts));
        let mut out = vec![0; text.len()];
        assert_eq!(sheet::write(facts, &mut out), Ok(text.len()));
        assert_eq!(out, text.as_bytes());
        count += 1;
    });
    println!("{count} told");
    assert!(count > 150);
}

/// A variable that the step at this line reads, and none of its route writes.
fn unwritten(facts: &Sheet, line: usize) -> u64 {
    let mut facts = facts.clone();
    let (route, head) = route_at(&mut facts, line);
    let written = |v: &&u64| route.steps.iter().any(|step| step.writes.contains(v));
    let mut reads = route.steps[line - head - 2].reads.iter();
    *reads.find(|v| !written(v)).unwrap()
}

/// Lets some step of the route write the variable too, if its list has room.
fn write_too(route: &mut Route, variable: u64, dice: &mut Dice) -> bool {
    let at = dice.below(route.steps.len());
    let writes = &mut route.steps[at].writes;
    let room = writes.len() < 8 && !writes.contains(&variable);
    if room {
        writes.push(variable);
        writes.sort();
    }
    room
}

/// Where any step of the same route writes it too, that variable isn't told at that
/// line any more; where steps of the other route do, it still is.
#[test]
fn who_writes_it() {
    let mut counts = [0, 0];
    for_each_sheet("who writes", &mut |facts, dice| {
        let Some(refusal) = told(facts) else { return };
        let line = refusal.second;
        let variable = unwritten(facts, line);
        let mut other = facts.clone();
        if write_too(route_at(&mut other, line).0, variable, dice) {
            let left = told(&other).filter(|refusal| refusal.second <= line);
            let still = left.map(|_| unwritten(&other, line));
            assert_ne!(still, Some(variable));
            counts[0] += 1;
        }
        let mut other = facts.clone();
        let elsewhere = if line < facts.new_line() {
            &mut other.new
        } else {
            &mut other.old
        };
        if write_too(elsewhere, variable, dice) {
            assert_eq!(told(&other), Some(refusal));
            counts[1] += 1;
        }
    });
    println!("written in the same route, in the other: {counts:?}");
    assert!(counts.iter().all(|count| *count > 100));
}

/// One step more that reads what nobody writes is told at its line, if no row before
/// it refuses; the step may stand anywhere.
#[test]
fn one_step_more_that_reads_it() {
    let mut counts = [0, 0];
    for_each_sheet("one step more", &mut |facts, dice| {
        if run(facts).is_err() {
            return;
        }
        let route = dice.below(2);
        let mut other = facts.clone();
        let (head, steps) = match route {
            0 => (1, &mut other.old),
            _ => (facts.new_line(), &mut other.new),
        };
        let written = |v: &u64| steps.steps.iter().any(|step| step.writes.contains(v));
        let free: Vec<u64> = (0..32).filter(|v| !written(v)).collect();
        let at = dice.below(steps.steps.len());
        let reads = &mut steps.steps[at].reads;
        if free.is_empty() || reads.len() == 8 {
            return;
        }
        reads.push(free[dice.below(free.len())]);
        reads.sort();
        let second = head + 2 + at;
        assert_eq!(told(&other), Some(Refusal { number: 23, second }));
        counts[route] += 1;
    });
    println!("in the old route, in the new one: {counts:?}");
    assert!(counts.iter().all(|count| *count > 1_000));
}
