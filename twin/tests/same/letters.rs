//! 01's examples A to L: the sheets under examples/letters have the listings
//! beside them, by both programs.

use crate::same_in_all_slices;
use reference::print::listing_of;

/// Each letter's sheet and listing.
macro_rules! letters {
    ($($letter:literal)*) => {
        [$((
            include_str!(concat!("../../../examples/letters/", $letter, ".sheet")),
            include_str!(concat!("../../../examples/letters/", $letter, ".listing")),
        )),*]
    };
}

#[test]
fn a_to_l() {
    for (sheet, listing) in letters!("A" "B" "C" "D" "E" "F" "G" "H" "I" "J" "K" "L") {
        assert_eq!(listing_of(sheet.as_bytes()), listing, "{sheet}");
        same_in_all_slices(sheet.as_bytes());
    }
}
