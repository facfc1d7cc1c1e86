//! Readings that nobody writes (02, A.7): 23 where a sheet is printed or an order is tried,
//! at the first such step's line; up and down don't look for it.

use crate::compare::{compare_try, compare_way};
use crate::convert::{DOWN, FAR, UP};
use crate::listings::compare_listing;
use crate::seed::for_each_case;
use crate::tally::Tally;
use reference::print::listing_of;
use reference::random::convert::sheets::of_01;
use reference::random::dice::Dice;
use reference::random::{self, mistype, orders};
use reference::reads::{check, is_written};
use reference::sheet::{self, Route, Sheet};
use std::collections::BTreeMap;

/// Whether a step of the route reads what no step of it writes.
fn reads_unwritten(route: &Route) -> bool {
    check(route, 1).is_err()
}

/// A random sheet of which a route has such a step; half of them have only what 01's
/// layout can say, save at times another start.
pub fn mistyped(dice: &mut Dice) -> Sheet {
    loop {
        let sheet = [random::sheet, of_01][dice.below(2)];
        let mut facts = sheet(dice);
        mistype::job(&mut facts, dice);
        if reads_unwritten(&facts.old) || reads_unwritten(&facts.new) {
            return facts;
        }
    }
}

/// Of a listing with 23: its route, where the step stands there, and whether the other
/// route writes what this one doesn't, and whether there are more such steps.
fn kinds(facts: &Sheet, listing: &str) -> Vec<String> {
    let Some(line) = listing.strip_prefix("(refused 23 ") else {
        return Vec::new();
    };
    let line: usize = line.trim_end_matches(")\n").parse().expect("a line");
    let (name, route, other, first) = if line < facts.new_line() {
        ("old", &facts.old, &facts.new, 3)
    } else {
        ("new", &facts.new, &facts.old, facts.new_line() + 2)
    };
    let (before, after) = route.steps.split_at(line - first);
    let place = match (before, after) {
        ([], _) => "first",
        (_, [_]) => "last",
        _ => "middle",
    };
    let lacks = |at: usize| {
        let reads = after[at].reads.iter();
        reads.filter(|&&variable| !is_written(route, variable))
    };
    let elsewhere = lacks(0).any(|&variable| is_written(other, variable));
    let more = (1..after.len()).any(|at| lacks(at).count() > 0);
    let both = name == "old" && reads_unwritten(other);
    let more = [
        (elsewhere, "written in the other"),
        (more, "more below"),
        (both, "new too"),
    ];
    let more = more
        .iter()
        .filter(|(is_so, _)| *is_so)
        .map(|(_, kind)| *kind);
    [place]
        .into_iter()
        .chain(more)
        .map(|kind| format!("{name}: {kind}"))
        .collect()
}

#[test]
fn mistyped_sheets() {
    let (mut printed, mut tried) = (Tally::default(), Tally::default());
    let mut met: BTreeMap<String, usize> = BTreeMap::new();
    for_each_case("mistyped", 10_000, &mut |dice| {
        let facts = mistyped(dice);
        let bytes = sheet::text(&facts).into_bytes();
        compare_listing(&bytes, &mut printed, dice);
        let order = orders::order(&facts, dice);
        tried.add(compare_try(&bytes, &order, dice).number);
        for kind in kinds(&facts, &listing_of(&bytes)) {
            *met.entry(kind).or_default() += 1;
        }
    });
    printed.finish("mistyped sheets", "moved", 100, &[6, 7, 23]);
    tried.finish("orders of mistyped sheets", "accepted", 100, &[6, 7, 23]);
    println!("mistyped sheets refused by 23: {met:?}");
    // of each route five kinds, and both routes at once
    assert_eq!(met.len(), 11);
    assert!(met.values().all(|&count| count >= 100));
}

/// Down, and up again to the same bytes.
#[test]
fn mistyped_sheets_between_layouts() {
    let mut tally = Tally::default();
    for_each_case("mistyped between layouts", 5_000, &mut |dice| {
        let bytes = sheet::text(&mistyped(dice)).into_bytes();
        let (answer, lower) = compare_way(DOWN, &bytes, &[9; FAR], dice);
        tally.add(answer.number);
        if answer.number == 0 {
            let lower = &lower[..answer.written as usize];
            let (answer, upper) = compare_way(UP, lower, &[9; FAR], dice);
            assert_eq!((answer.number, &upper[..bytes.len()]), (0, &bytes[..]));
        }
    });
    tally.finish("mistyped sheets down", "written", 500, &[0, 22]);
}
