//! Random sheets and their listings: nets that run, redrawn in small ways.

use crate::compare::compare_print;
use crate::guarded::random_bytes;
use crate::large;
use crate::seed::for_each_case;
use crate::tally::Tally;
use reference::judge::WORK;
use reference::print::listing_of;
use reference::random;
use reference::random::dice::Dice;
use reference::sheet;

/// What sheets that read come to, 0 for moved.
const NUMBERS: [u32; 10] = [0, 6, 7, 8, 9, 10, 11, 12, 13, 23];

/// Compares the listing of a sheet, with room for it and at times some more.
pub fn compare_listing(bytes: &[u8], tally: &mut Tally, dice: &mut Dice) {
    let work = random_bytes(WORK + dice.below(9), dice);
    let needed = listing_of(bytes).len();
    let out = random_bytes(needed + dice.below(9), dice);
    let (_, out) = compare_print(bytes, &work, &out, dice);
    tally.add_listing(&out[..needed]);
}

#[test]
fn random_sheets() {
    let mut tally = Tally::default();
    for_each_case("random sheets", 100_000, &mut |dice| {
        let text = sheet::text(&random::sheet(dice));
        compare_listing(text.as_bytes(), &mut tally, dice);
    });
    tally.finish("random sheets", "moved", 100, &NUMBERS);
}

#[test]
fn large_sheets() {
    let mut tally = Tally::default();
    for_each_case("large sheets", 20_000, &mut |dice| {
        let text = sheet::text(&large::sheet(dice));
        compare_listing(text.as_bytes(), &mut tally, dice);
    });
    tally.finish("large sheets", "moved", 20, &NUMBERS);
}
