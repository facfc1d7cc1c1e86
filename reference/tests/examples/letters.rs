//! 01's examples A to L, with start lines and their whole listings.

use crate::common::{both, lists, NEW, OLD};

#[test]
fn a_moves_by_search() {
    let listing = "\
(moved (kept 3) (dropped 0))
(after 3 1 2)
(order 2 1 3)
(marking 3)
(value 0 1)
(value 1 2)
(value 2 3)
";
    lists(OLD, NEW, &[10, 20, 30], listing);
}

#[test]
fn b_has_nothing_done() {
    let listing = "(moved (kept 0) (dropped 0))\n(order)\n(marking 0)\n";
    lists(OLD, NEW, &[], listing);
}

#[test]
fn c_would_skip_a_step() {
    lists(OLD, NEW, &[10], "(refused 13 11)\n");
}

#[test]
fn d_would_read_too_early() {
    let reads = |route: &str| route.replace("(read) (write 1)", "(read 0) (write 1)");
    lists(&reads(OLD), &reads(NEW), &[10, 20], "(refused 13 11)\n");
}

/// The new route of E and F: without 10.
fn without_10(reads: &str) -> String {
    format!(
        "(new 3)\n(start 0)\n(step 20 (in 0) (out 1) (read) (write 1))\n\
         (step 30 (in 1) (out 2) (read{reads}) (write 2))\n"
    )
}

#[test]
fn e_reads_what_nobody_writes() {
    lists(OLD, &without_10(" 0 1"), &[10, 20], "(refused 23 9)\n");
}

#[test]
fn f_drops_a_step() {
    let listing = "(moved (kept 1) (dropped 1))\n(order 2)\n(marking 1)\n(value 1 2)\n";
    lists(OLD, &without_10(" 1"), &[10, 20], listing);
}

#[test]
fn g_writes_more() {
    let new = NEW.replace("(write 0)", "(write 0 3)");
    lists(OLD, &new, &[10], "(refused 12 12)\n");
}

#[test]
fn h_has_a_strange_name() {
    lists(OLD, NEW, &[40, 20, 30], "(refused 8 12)\n");
}

#[test]
fn i_cannot_fire() {
    lists(OLD, NEW, &[30, 20, 30], "(refused 9 12)\n");
}

#[test]
fn j_would_put_a_token_where_one_lies() {
    let steps = "\
(step 10 (in 0) (out 2) (read) (write))
(step 20 (in 1) (out 2) (read) (write))
";
    let (old, new) = both(3, " 0 1", steps);
    lists(&old, &new, &[10, 20], "(refused 9 11)\n");
}

#[test]
fn k_does_a_looped_step_twice() {
    let steps = "\
(step 10 (in 0) (out 1) (read) (write))
(step 20 (in 1) (out 1) (read) (write 0))
";
    let listing = "\
(moved (kept 3) (dropped 0))
(after 3 2)
(order 1 2 3)
(marking 1)
(value 0 3)
";
    let (old, new) = both(2, " 0", steps);
    lists(&old, &new, &[10, 20, 20], listing);
}

/// 01's start, which was implied, is empty here.
#[test]
fn l_begins_where_it_is_written() {
    let (old, new) = both(2, " 0", "(step 10 (in 0) (out 0 1) (read) (write))\n");
    let listing = "(moved (kept 0) (dropped 0))\n(order)\n(marking 0)\n";
    lists(&old, &new, &[], listing);
}
