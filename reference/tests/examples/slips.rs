//! The slips that 01 guards against, each with a sheet that shows it.

use crate::common::{lists, step};

/// A looped step builds on its own last write, and a step beside it is dropped:
/// each time that it was done is kept, and none sees its own write.
#[test]
fn a_looped_step_reads_what_it_wrote_the_time_before() {
    let steps = [
        step(10, " 0", " 1", "", " 0"),
        step(20, " 1", " 1", " 0", " 0"),
        step(30, " 1", " 2", " 0", " 1"),
    ]
    .concat();
    let old = format!(
        "(old 5)\n(start 0 3)\n{steps}{}",
        step(40, " 3", " 4", "", "")
    );
    let new = format!("(new 3)\n(start 0)\n{steps}");
    let listing = "\
(moved (kept 4) (dropped 1))
(after 2 1)
(after 4 1 2)
(after 5 1 2 4)
(order 1 2 4 5)
(marking 2)
(value 0 4)
(value 1 5)
";
    lists(&old, &new, &[10, 20, 40, 20, 30], listing);
}

/// The routes 10, 20, 30 and 10, 30, 20 in a row.
fn last_two_swapped(data: [(&str, &str); 3]) -> (String, String) {
    let line = |index: usize, place: usize| {
        let (reads, writes) = data[index];
        let (from, to) = (format!(" {place}"), format!(" {}", place + 1));
        step(10 * (index as u64 + 1), &from, &to, reads, writes)
    };
    let old = [line(0, 0), line(1, 1), line(2, 2)].concat();
    let new = [line(0, 0), line(2, 1), line(1, 2)].concat();
    (
        format!("(old 4)\n(start 0)\n{old}"),
        format!("(new 4)\n(start 0)\n{new}"),
    )
}

#[test]
fn a_later_write_does_not_slide_before_an_earlier_read() {
    let (old, new) = last_two_swapped([("", " 0"), (" 0", " 1"), ("", " 0")]);
    lists(&old, &new, &[10, 20, 30], "(refused 13 11)\n");
}

#[test]
fn two_reads_may_change_places() {
    let (old, new) = last_two_swapped([("", " 0"), (" 0", " 1"), (" 0", " 2")]);
    let listing = "\
(moved (kept 3) (dropped 0))
(after 2 1)
(after 3 1)
(order 1 3 2)
(marking 3)
(value 0 1)
(value 1 2)
(value 2 3)
";
    lists(&old, &new, &[10, 20, 30], listing);
}

/// 30 writes nothing and is never kept, but the new route needs it before 20.
#[test]
fn a_step_of_the_new_route_is_not_skipped() {
    let (old, new) = last_two_swapped([("", " 0"), ("", " 1"), ("", "")]);
    lists(&old, &new, &[10, 20, 30], "(refused 13 11)\n");
}
