//! Readings that nobody writes: in either route, at any step, among the other rows.

use crate::{same, same_in_all_slices};
use reference::judge::WORK;
use reference::print::listing_of;

/// What a step of three reads and writes; 31 is the last variable.
const LISTS: [&str; 6] = [
    "(read) (write 0)",
    "(read) (write 31)",
    "(read 0) (write)",
    "(read 31) (write 0)",
    "(read 0 31) (write 1)",
    "(read 0 1) (write 0 1)",
];

/// A route of three steps in a row with these lists.
fn route(places: u64, start: &str, lists: [usize; 3]) -> String {
    let steps = lists.map(|list| LISTS[list]);
    let step = |at: usize| {
        let (name, to) = (10 * (at + 1), at + 1);
        format!("(step {name} (in {at}) (out {to}) {})\n", steps[at])
    };
    format!(
        "{places})\n{start}\n{}",
        (0..3).map(step).collect::<String>()
    )
}

fn some_lists() -> impl Iterator<Item = [usize; 3]> {
    let all = 0..LISTS.len().pow(3);
    all.map(|number| [number, number / LISTS.len(), number / LISTS.len().pow(2)])
        .map(|lists| lists.map(|list| list % LISTS.len()))
}

/// Beside each other and by themselves; a done list that runs, one that doesn't, and one
/// with a name that the old route lacks.
#[test]
fn in_either_route() {
    let mut refused = [0, 0];
    let whole = route(4, "(start 0)", [0, 1, 4]);
    for lists in some_lists() {
        let one = route(4, "(start 0)", lists);
        for (old, new) in [(&one, &whole), (&whole, &one), (&one, &one)] {
            for done in ["", "(done 10)\n(done 20)\n", "(done 20)\n", "(done 7)\n"] {
                let sheet = format!("(old {old}(new {new}(job)\n{done}");
                same(sheet.as_bytes(), WORK, 16_384);
                let listing = listing_of(sheet.as_bytes());
                refused[usize::from(listing.starts_with("(refused 23 "))] += 1;
            }
        }
    }
    println!("not refused and refused by 23: {refused:?}");
    assert!(refused.iter().all(|&count| count > 500));
}

/// With a place in no step, or no start, in one of the routes.
#[test]
fn among_rows_6_and_7() {
    let heads = [(4, "(start 0)"), (5, "(start 0)"), (4, "(start)")];
    for (old_places, old_start) in heads {
        for (new_places, new_start) in heads {
            for lists in [[0, 1, 4], [4, 1, 0], [3, 3, 3]] {
                let old = route(old_places, old_start, lists);
                let new = route(new_places, new_start, lists);
                let sheet = format!("(old {old}(new {new}(job)\n(done 10)\n");
                same_in_all_slices(sheet.as_bytes());
            }
        }
    }
}
