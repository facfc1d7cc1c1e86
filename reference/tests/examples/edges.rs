//! The examples that 01 asks to be run, at the edges of its limits, with names as
//! long as 02 has them.

use crate::common::{both, chain, lists, longest, longest_start, sheet, step, turned_round};
use crate::common::{NEW, OLD};
use reference::print::listing_of;
use reference::sheet::{self, form};

#[test]
fn sixteen_kept_move() {
    let order: String = (1..=16).rev().map(|o| format!(" {o}")).collect();
    let values: String = (0..16)
        .map(|v| format!("(value {v} {})\n", v + 1))
        .collect();
    let listing = format!("(moved (kept 16) (dropped 0))\n(order{order})\n(marking 16)\n{values}");
    let (old, new, done) = turned_round(16);
    lists(&old, &new, &done, &listing);
}

#[test]
fn seventeen_kept_are_refused() {
    let (old, new, done) = turned_round(17);
    lists(&old, &new, &done, "(refused 10 39)\n");
}

/// Sixteen steps side by side: the new route wants the last before the first,
/// precedence the first before the last.
#[test]
fn sixteen_kept_without_a_fit_order() {
    let line = |name: u64, ins: &str| {
        let reads = if name == 16 { " 0" } else { "" };
        let (out, writes) = (format!(" {}", 15 + name), format!(" {}", name - 1));
        step(name, ins, &out, reads, &writes)
    };
    let names: Vec<u64> = (1..=16).collect();
    let rest: String = (2..=16)
        .map(|name| line(name, &format!(" {}", name - 1)))
        .collect();
    let start: Vec<u64> = (0..16).collect();
    let head = |word: &str| format!("({word} 32)\n{}\n", form("start", &start));
    let old = format!("{}{}{rest}", head("old"), line(1, " 0"));
    let new = format!("{}{}{rest}", head("new"), line(1, " 0 31"));
    lists(&old, &new, &names, "(refused 13 37)\n");
}

#[test]
fn a_straight_job_may_keep_all_64() {
    let steps = "\
(step 10 (in 0) (out 1) (read) (write))
(step 20 (in 1) (out 1) (read 5) (write 5))
";
    let (old, new) = both(2, " 0", steps);
    let mut done = vec![10];
    done.extend([20; 63]);
    let listing = listing_of(sheet(&old, &new, &done).as_bytes());
    assert!(listing.starts_with("(moved (kept 64) (dropped 0))\n(after 3 2)\n(after 4 2 3)\n"));
    assert!(listing.ends_with(" 63 64)\n(marking 1)\n(value 5 64)\n"));
}

#[test]
fn places_64_and_65() {
    let names: Vec<u64> = (1..=63).collect();
    let (old, new) = (chain("old", &names), chain("new", &names));
    let listing = listing_of(sheet(&old, &new, &names).as_bytes());
    assert!(listing.starts_with("(moved (kept 63) (dropped 0))\n"));
    assert!(listing.contains("(marking 63)\n"));
    let old65 = old.replace("(old 64)", "(old 65)");
    let new65 = new.replace("(new 64)", "(new 65)");
    lists(&old65, &new, &names, "(refused 2 1)\n");
    lists(&old, &new65, &names, "(refused 2 66)\n");
    let high = new.replace("(out 63)", "(out 64)");
    lists(&old, &high, &names, "(refused 2 130)\n");
}

#[test]
fn names_at_the_edge() {
    let listing = "(moved (kept 1) (dropped 0))\n(order 1)\n(marking 1)\n(value 0 1)\n";
    for name in [65_535, 65_536, 4_294_967_295] {
        let old = OLD.replace("(step 10 ", &format!("(step {name} "));
        let new = old.replace("(old", "(new");
        lists(&old, &new, &[name], listing);
        lists(OLD, NEW, &[name], "(refused 8 12)\n");
    }
    lists(OLD, NEW, &[4_294_967_296], "(refused 2 12)\n");
    lists(OLD, NEW, &[0], "(refused 2 12)\n");
}

#[test]
fn a_leading_zero_breaks_the_layout_at_the_next_digit() {
    let text = sheet(OLD, NEW, &[]) + "(done 010)\n";
    let offset = text.find("010").unwrap() + 1;
    assert_eq!(
        listing_of(text.as_bytes()),
        format!("(refused 1 {offset})\n")
    );
    assert_eq!(offset, 309);
}

#[test]
fn the_empty_sheet() {
    assert_eq!(listing_of(b""), "(refused 1 0)\n");
}

#[test]
fn the_longest_sheet_without_a_mark() {
    let text = longest([4_294_967_295, 1_000_000_063], &longest_start(), "");
    assert_eq!(text.len(), 19_096 + 2 * 190);
    let facts = sheet::read(text.as_bytes()).unwrap();
    assert_eq!(sheet::text(&facts), text);
}
