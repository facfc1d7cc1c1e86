//! Damaged sheets: bytes changed, cut and inserted, numbers changed, lines moved.

use crate::large;
use crate::listings::compare_listing;
use crate::seed::for_each_case;
use crate::tally::Tally;
use reference::random::{self, damage::damage, dice::Dice};
use reference::sheet;

#[test]
fn damaged_sheets() {
    let mut tally = Tally::default();
    for_each_case("damaged sheets", 50_000, &mut |dice| {
        let facts = match dice.below(5) {
            0 => large::sheet(dice),
            _ => random::sheet(dice),
        };
        let bytes = damage(sheet::text(&facts).as_bytes(), dice);
        compare_listing(&bytes, &mut tally, dice);
    });
    let numbers: Vec<u32> = (0..=13).chain([23]).collect();
    tally.finish("damaged sheets", "moved", 20, &numbers);
}

/// A byte that is at home in a sheet, or any other.
fn some_byte(dice: &mut Dice) -> u8 {
    match dice.below(4) {
        0 => dice.below(256) as u8,
        1 => b"()\n "[dice.below(4)],
        _ => b'0' + dice.below(10) as u8,
    }
}

/// A sheet cut off at each of its bytes, without that byte, and with another there.
#[test]
fn every_byte_of_a_sheet() {
    let mut tally = Tally::default();
    for_each_case("bytes", 40, &mut |dice| {
        let bytes = sheet::text(&random::sheet(dice)).into_bytes();
        for at in 0..bytes.len() {
            compare_listing(&bytes[..at], &mut tally, dice);
            let mut damaged = bytes.clone();
            damaged[at] = some_byte(dice);
            compare_listing(&damaged, &mut tally, dice);
            damaged.remove(at);
            compare_listing(&damaged, &mut tally, dice);
        }
    });
    tally.finish("sheets with a byte damaged", "moved", 20, &[0, 1]);
}
