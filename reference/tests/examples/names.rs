//! Longer step names (02, A.2): names and digits at their limits, worked by hand.

use crate::common::{lists, refused, with_line, NEW, OLD, SHEET};

/// Example A's listing.
const MOVED: &str = include_str!("../../../examples/letters/A.listing");

/// Each place of a line of example A where a number may stand, as `#`. Names
/// come first.
pub const NUMBERS: [(usize, &str); 14] = [
    (3, "(step # (in 0) (out 1) (read) (write 0))\n"),
    (10, "(step # (in 2) (out 3) (read 0 1) (write 2))\n"),
    (12, "(done #)\n"),
    (14, "(done #)\n"),
    (1, "(old #)\n"),
    (6, "(new #)\n"),
    (3, "(step 10 (in #) (out 1) (read) (write 0))\n"),
    (5, "(step 30 (in 2 #) (out 3) (read 0 1) (write 2))\n"),
    (8, "(step 20 (in 0) (out #) (read) (write 1))\n"),
    (9, "(step 10 (in 1) (out 2) (read #) (write 0))\n"),
    (10, "(step 30 (in 2) (out 3) (read 0 #) (write 2))\n"),
    (4, "(step 20 (in 1) (out 2) (read) (write 1 #))\n"),
    (2, "(start #)\n"),
    (7, "(start 0 #)\n"),
];
pub const NAMES: usize = 4;

/// Example A with this number at the `#` of a line, and its offset there.
pub fn with_number((line, form): (usize, &str), number: &str) -> (String, usize) {
    let lines = SHEET.split_inclusive('\n').take(line - 1);
    let offset = lines.map(str::len).sum::<usize>() + form.find('#').unwrap();
    (with_line(line, &form.replace('#', number)), offset)
}

/// Both routes of example A with this name in the place of 10.
fn with_name(name: u64) -> [String; 2] {
    [OLD, NEW].map(|route| route.replace("(step 10 ", &format!("(step {name} ")))
}

#[test]
fn long_names_are_plain() {
    for name in [
        65_534,
        65_535,
        65_536,
        65_546,
        99_999,
        100_000,
        999_999_999,
        1_000_000_000,
        2_147_483_648,
        4_294_967_294,
        4_294_967_295,
    ] {
        let [old, new] = with_name(name);
        lists(&old, &new, &[name, 20, 30], MOVED);
        // The name is its own in each of the three lists.
        lists(OLD, NEW, &[name, 20, 30], "(refused 8 12)\n");
        lists(&old, &new, &[10, 20, 30], "(refused 8 12)\n");
        lists(&old, NEW, &[name, 20, 30], "(refused 11 12)\n");
    }
}

/// Names that end with the same 8 or 16 bits are different names.
#[test]
fn names_that_end_alike() {
    for name in [276, 65_556, 131_092, 4_294_901_780] {
        assert_eq!(name % 256, 20);
        let [old, new] = with_name(name);
        lists(&old, &new, &[name, 20, 30], MOVED);
        lists(&old, &new, &[20, name, 30], "(refused 9 12)\n");
    }
}

#[test]
fn ten_digits_past_the_names() {
    for number in ["4294967296", "4294967297", "4294967306", "9999999999"] {
        for form in NUMBERS {
            refused(&with_number(form, number).0, 2, form.0);
        }
    }
}

/// What such a number is in its last 32 bits stands in the sheet, and has no say.
#[test]
fn numbers_that_end_as_others() {
    for name in [1, 10] {
        let [old, new] = with_name(name);
        let past = name + (1 << 32);
        lists(&old, &new, &[past, 20, 30], "(refused 2 12)\n");
        let [past_old, past_new] = with_name(past);
        lists(&past_old, &new, &[name, 20, 30], "(refused 2 3)\n");
        lists(OLD, &past_new, &[name, 20, 30], "(refused 2 9)\n");
    }
    for (form, small) in [
        (4, 4),
        (5, 4),
        (6, 0),
        (8, 1),
        (9, 0),
        (11, 2),
        (12, 0),
        (13, 1),
    ] {
        let number = ((1_u64 << 32) + small).to_string();
        refused(&with_number(NUMBERS[form], &number).0, 2, NUMBERS[form].0);
    }
}

/// Up to ten digits keep the layout, and only names get that far.
#[test]
fn six_to_ten_digits() {
    for digits in 6..=10 {
        let number = &"1234567890"[..digits];
        for form in &NUMBERS[NAMES..] {
            refused(&with_number(*form, number).0, 2, form.0);
        }
        let [old, new] = with_name(number.parse().unwrap());
        lists(&old, &new, &[number.parse().unwrap(), 20, 30], MOVED);
    }
}

/// An eleventh digit breaks the layout there, whatever the number would be:
/// 42,949,672,970 is 10 in its last 32 bits.
#[test]
fn eleven_digits() {
    for number in [
        "10000000000",
        "10000000010",
        "42949672970",
        "65535655356",
        "99999999999",
        "123456789012",
        "18446744073709551626",
    ] {
        for form in NUMBERS {
            let (text, offset) = with_number(form, number);
            refused(&text, 1, offset + 10);
            refused(&text[..offset + 11], 1, offset + 10);
            refused(&text[..offset + 10], 1, offset + 10);
        }
    }
}

#[test]
fn a_leading_zero() {
    for number in ["00", "010", "04294967295", "0000000001", "0123456789"] {
        for form in NUMBERS {
            let (text, offset) = with_number(form, number);
            refused(&text, 1, offset + 1);
        }
    }
}
