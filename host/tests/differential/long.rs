//! Sheets far past the limits, with offsets past 65,535.

use crate::compare::compare_try;
use crate::listings::compare_listing;
use crate::seed::for_each_case;
use crate::tally::Tally;
use reference::random;
use reference::random::dice::Dice;
use reference::sheet;

/// A sheet with a line, an entry of a list, or a digit thousands of times; at
/// times with a broken byte somewhere.
fn long_sheet(dice: &mut Dice) -> Vec<u8> {
    let text = sheet::text(&random::sheet(dice));
    let times = dice.from_to(1_000, 20_000);
    let (after, more) = match dice.below(9) {
        0 => ("(job)\n", "(done 4294967295)\n"),
        1 => ("(in", " 0"),
        2 => ("(write", " 31"),
        3 => ("(out", " 4294967296"),
        4 => ("(old ", "7"),
        5 => ("(step ", "4294967296"),
        6 => ("(start", " 0"),
        7 => (")\n", "(step 1 (in 0) (out 1) (read) (write) (cloth))\n"),
        _ => (")\n", "(step 1 (in 0) (out 1) (read) (write))\n"),
    };
    let at = text.find(after).expect("no such form") + after.len();
    let mut bytes = [&text[..at], &more.repeat(times), &text[at..]]
        .concat()
        .into_bytes();
    if dice.chance(50) {
        let at = dice.below(bytes.len());
        bytes[at] = dice.below(256) as u8;
    }
    bytes
}

#[test]
fn long_sheets() {
    let mut tally = Tally::default();
    for_each_case("long sheets", 200, &mut |dice| {
        let bytes = long_sheet(dice);
        compare_listing(&bytes, &mut tally, dice);
        compare_try(&bytes, &[], dice);
    });
    tally.finish("long sheets", "moved", 3, &[1, 2, 3, 4]);
}
