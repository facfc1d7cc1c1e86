//! Look-ups from where we were, and names that stand twice: one of these operations
//! tells each edit of them from the right program.

use crate::chosen::{job, route, step};
use reference::random::records::Facts;
use reference::script::writing::{comparisons, find};
use reference::sheet::{Route, Sheet};

/// Every operation of this file, as one script.
pub fn script() -> String {
    [among(), totals(), repeated()].concat()
}

/// Each of four names, and one that is none of them, from every beginning in them,
/// and from three past the last.
fn among() -> String {
    let names = [10, 20, 30, 40];
    let mut script = String::new();
    for from in [0, 1, 2, 3, 4, 5, u64::MAX] {
        for name in [10, 20, 30, 40, 50] {
            script += &find(&names, from, name);
        }
    }
    script
}

/// Steps of these names one after another; the lines in another order.
fn chain(names: [u64; 3], lines: [usize; 3]) -> Route {
    let steps = lines.map(|at| {
        let from = at as u64;
        step(names[at], [&[from], &[from + 1]], [&[], &[from]])
    });
    route(4, &steps)
}

fn compared(job: Sheet) -> String {
    comparisons(Facts::of(&job).text(false))
}

/// A name twice: the one that ends in 8 set bits, and one behind another that ends
/// with its last 8 bits.
fn repeated() -> String {
    let lists = [[255, 255, 1], [1, 257, 257]].map(|names| chain(names, [0, 1, 2]));
    let refused = |twice: &Route| compared(job(twice, twice, &[1]));
    lists.iter().map(refused).collect()
}

/// The done list follows its route or falls, in the new route too; the new route
/// lacks its first, second or last name.
fn totals() -> String {
    let [rising, falling] = [[0, 1, 2], [2, 1, 0]].map(|lines| chain([10, 20, 30], lines));
    let lacking = [[9, 20, 30], [10, 9, 30], [10, 20, 9]];
    let lacking = lacking.map(|names| chain(names, [0, 1, 2]));
    let routes = [&rising, &falling, &lacking[0], &lacking[1], &lacking[2]];
    let mut script = String::new();
    for new in routes {
        script += &compared(job(&rising, new, &[10, 20, 30]));
        script += &compared(job(&falling, new, &[10, 20, 30]));
    }
    script += &compared(job(&rising, &rising, &[10, 30]));
    script + &compared(job(&rising, &rising, &[]))
}
