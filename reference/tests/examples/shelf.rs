//! 01's examples by way of the shelf: the answer for two editions is that of
//! the sheet with their routes.

use crate::common::refusal;
use reference::judge::WORK;
use reference::listing::listing;
use reference::random::records::Records;
use reference::refusal::Refusal;
use reference::sheet::{read, Sheet};
use reference::shelf::Shelf;
use std::fs;
use std::path::Path;

/// A letter's sheet and listing.
pub fn letter(letter: char) -> (Sheet, String) {
    let folder = Path::new(env!("CARGO_MANIFEST_DIR")).join("../examples/letters");
    let file = |kind| fs::read_to_string(folder.join(format!("{letter}.{kind}"))).unwrap();
    (read(file("sheet").as_bytes()).unwrap(), file("listing"))
}

/// The old route as edition 7, the new one as 900, and before, between and
/// after them other editions.
fn shelf_of(facts: &Sheet) -> Result<Shelf, Refusal> {
    let other = letter('A').0.old;
    let routes = [&other, &facts.old, &other, &facts.new, &other];
    let mut shelf = Shelf::empty();
    for (number, route) in [1, 7, 8, 900, 65_535].into_iter().zip(routes) {
        shelf.put(number, &Records::of(route).by_value())?;
    }
    Ok(shelf)
}

#[test]
fn a_to_l_but_e_are_answered_as_their_sheets() {
    for name in ('A'..='L').filter(|&name| name != 'E') {
        let (facts, expected) = letter(name);
        let shelf = shelf_of(&facts).unwrap();
        let answer = shelf.judge(7, 900, &facts.done, &mut [1; WORK]);
        assert_eq!(listing(&answer), expected, "{name}");
    }
}

/// E's new route reads what nobody writes: 30 is its second step, at line 4.
#[test]
fn es_new_route_is_not_stored() {
    assert_eq!(shelf_of(&letter('E').0), Err(refusal(23, 4)));
}

/// As an old route: the head is line 1, the start line 2, and 6 goes before 7.
#[test]
fn a_route_with_an_empty_start_is_not_stored() {
    let mut facts = letter('L').0;
    facts.new.start.clear();
    assert_eq!(shelf_of(&facts), Err(refusal(7, 2)));
    facts.new.places = 3;
    assert_eq!(shelf_of(&facts), Err(refusal(6, 1)));
    facts.new.start = vec![3];
    assert_eq!(shelf_of(&facts), Err(refusal(2, 2)));
    facts.new.steps.clear();
    facts.new.start = vec![0];
    assert_eq!(shelf_of(&facts), Err(refusal(4, 3)));
}
