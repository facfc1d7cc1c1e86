//! Slices that are parts of bigger buffers, empty parts too: what stands right
//! before and after a slice has no say.

use crate::compare::{compare_print, compare_try, expected_try, same};
use crate::seed::for_each_case;
use reference::judge::WORK;
use reference::print::listing_of;
use reference::random;
use reference::random::dice::Dice;
use reference::sheet;

/// A part of two sheets in one buffer, the second from this offset on. It most
/// often begins with a sheet and ends at a line's end, so that the buffer goes
/// on as the sheet might.
fn some_part(two: &[u8], second: usize, dice: &mut Dice) -> (usize, usize) {
    let line_ends: Vec<usize> = (1..=two.len()).filter(|&at| two[at - 1] == b'\n').collect();
    let begin = match dice.below(8) {
        0 => dice.below(two.len() + 1),
        1..=4 => 0,
        _ => second,
    };
    let end = match dice.below(8) {
        0 => begin,
        1 => dice.from_to(begin, two.len()),
        _ => line_ends[dice.below(line_ends.len())],
    };
    (begin, end.max(begin))
}

#[test]
fn parts_of_two_sheets() {
    let mut whole = 0;
    for_each_case("parts", 10_000, &mut |dice| {
        let one = sheet::text(&random::sheet(dice));
        let two = one.clone() + &sheet::text(&random::sheet(dice));
        let (begin, end) = some_part(two.as_bytes(), one.len(), dice);
        let part = &two.as_bytes()[begin..end];
        let listing = listing_of(part);
        whole += usize::from(!listing.starts_with("(refused 1 "));
        let mut out = vec![7; listing.len()];
        let printed = host::print(part, &mut [1; WORK], &mut out);
        same(part, &(printed.number, printed.second), &(0, 0));
        same(part, &String::from_utf8_lossy(&out).into_owned(), &listing);
    });
    println!("parts: {whole} of them with the layout of a sheet");
    assert!(whole > 500);
}

/// Parts of one long list of bytes as orders.
#[test]
fn parts_of_an_order() {
    let mut accepted = 0;
    for_each_case("order parts", 10_000, &mut |dice| {
        let bytes = sheet::text(&random::sheet(dice)).into_bytes();
        let list: Vec<u8> = (0..=255).collect();
        let begin = if dice.chance(80) { 1 } else { dice.below(256) };
        let end = (begin + dice.below(12)).min(256);
        let tried = host::try_order(&bytes, &list[begin..end]);
        same(&bytes, &tried, &expected_try(&bytes, &list[begin..end]));
        accepted += usize::from(tried.number == 0);
    });
    println!("parts: {accepted} accepted as orders");
    assert!(accepted > 50);
}

/// Sheet, work and out empty, each by itself and together.
#[test]
fn empty_slices() {
    for_each_case("empty slices", 200, &mut |dice| {
        let bytes = random::bytes(dice);
        for kinds in 0..8 {
            let length = |kind, full| if kinds >> kind & 1 == 1 { full } else { 0 };
            let part = &bytes[..length(0, bytes.len())];
            let work = vec![1; length(1, WORK)];
            let out = vec![7; length(2, 4_096)];
            compare_print(part, &work, &out, dice);
            compare_try(part, &[], dice);
        }
    });
}
