//! Places that several steps take from: one of these operations tells each edit of what is
//! shared, of who put a token, or of what is kept and ordered by that from the right
//! program.

use crate::chosen::{begun, cloth, every, job, judge, on_records, print, route, step, SLICE};
use reference::sheet::{Route, Step};

/// Every operation of this file, as one script.
pub fn script() -> String {
    [
        forks(),
        rounds(),
        in_and_out(),
        starts(),
        two_places(),
        needed(),
        other_routes(),
        redrawn(),
        last_places(),
        sixteen(),
    ]
    .concat()
}

/// A step that writes nothing.
fn silent(name: u64, ins: &[u64], outs: &[u64]) -> Step {
    step(name, [ins, outs], [&[], &[]])
}

/// A step that writes a variable.
fn writer(name: u64, ins: &[u64], outs: &[u64], variable: u64) -> Step {
    step(name, [ins, outs], [&[], &[variable]])
}

/// Jobs between the two routes, by these done lists: sliced, and judged.
fn moved(old: &Route, new: &Route, lists: &[&[u64]]) -> String {
    let each = |list: &&[u64]| {
        let job = job(old, new, list);
        on_records(SLICE, &job, &[]) + &judge(&job)
    };
    lists.iter().map(each).collect()
}

/// Jobs that go on by the route that they are on.
fn done(route: &Route, lists: &[&[u64]]) -> String {
    moved(route, route, lists)
}

/// A test, 10, so many branches behind it, from 20, and a step that goes on from all.
fn fork(branches: u64) -> Vec<Step> {
    let mut steps = vec![silent(10, &[0], &[1])];
    steps.extend((0..branches).map(|at| writer(20 + at, &[1], &[2], at)));
    steps.push(silent(30, &[2], &[3]));
    steps
}

/// One to three branches, and the steps of three the other way round; a branch, or the
/// test, that cuts cloth.
fn forks() -> String {
    let lists: [&[u64]; 3] = [&[10], &[10, 20], &[10, 20, 30]];
    let mut routes: Vec<Route> = (1..=3).map(|count| route(4, &fork(count))).collect();
    let mut turned = routes[2].clone();
    turned.steps.reverse();
    let (mut cut, mut cut_test) = (fork(2), fork(2));
    cut[1] = cloth(silent(20, &[1], &[2]));
    cut_test[0] = cloth(silent(10, &[0], &[1]));
    routes.extend([turned, route(4, &cut), route(4, &cut_test)]);
    routes.iter().map(|route| done(route, &lists)).collect()
}

/// Round and round, and then on: by a place that two steps take from and one that one
/// does, and by two that two do; by a place that the same step takes from twice. Two
/// steps that put to one place, with a taker between.
fn rounds() -> String {
    let ring = [
        silent(10, &[0], &[1]),
        writer(20, &[1], &[0], 0),
        writer(30, &[1], &[2], 1),
    ];
    let wider = [&ring[..], &[silent(11, &[0], &[1])]].concat();
    let lists: [&[u64]; 3] = [
        &[10, 20, 10, 20, 10, 30],
        &[10, 30],
        &[10, 20, 10, 20, 10, 20],
    ];
    let two = [&fork(2)[..], &[silent(11, &[2], &[1])]].concat();
    let long = [&[10, 20].repeat(31)[..], &[10, 30]].concat();
    [
        done(&route(3, &ring), &lists),
        done(&route(3, &wider), &lists),
        done(&route(2, &ring[..2]), &[&[10, 20, 10, 20]]),
        done(&route(3, &ring), &[&long]),
        done(&route(4, &two), &[&[10, 20, 11, 21], &[10, 20, 11, 21, 11]]),
    ]
    .concat()
}

/// A step with the place both in and out takes from it and doesn't put there: with a
/// taker besides, and with another such step.
fn in_and_out() -> String {
    let put = silent(10, &[0], &[1]);
    let stays = silent(15, &[1], &[1]);
    let writes = writer(16, &[1], &[1], 1);
    let takes = writer(20, &[1], &[2], 0);
    let with_taker = [put.clone(), stays.clone(), writes.clone(), takes.clone()];
    let alone = [put.clone(), writes.clone(), stays.clone()];
    let one = [put, stays, takes];
    [
        done(
            &route(3, &with_taker),
            &[&[10, 16], &[10, 15, 20], &[10, 16, 20], &[10, 16, 15, 20]],
        ),
        done(&route(2, &alone), &[&[10, 16], &[10, 15, 16, 16]]),
        done(&route(3, &one), &[&[10, 15, 20], &[10, 20]]),
    ]
    .concat()
}

/// A start token has no putter: whether the first occurrence takes it or a later one, and
/// also where the first has its place both in and out.
fn starts() -> String {
    let steps = [
        writer(20, &[0], &[1], 0),
        writer(30, &[0], &[1], 1),
        silent(10, &[1], &[0]),
        silent(5, &[2], &[3]),
        silent(15, &[0], &[0]),
    ];
    let lists: [&[u64]; 5] = [
        &[20],
        &[5, 20],
        &[15, 20],
        &[20, 10, 30],
        &[5, 30, 10, 20, 10],
    ];
    done(&begun(4, &[0, 2], &steps), &lists)
}

/// A step takes from two places at once, both shared or one of them, which one step put to
/// or two.
fn two_places() -> String {
    let both = silent(10, &[0], &[1, 2]);
    let takes = writer(20, &[1, 2], &[3], 0);
    let others = [writer(30, &[1], &[3], 1), writer(40, &[2], &[3], 2)];
    let one = [&[both, takes.clone()][..], &others].concat();
    let [first, second] = [silent(10, &[0], &[1]), silent(11, &[4], &[2])];
    let apart = [&[first, second, takes][..], &others].concat();
    let begun_twice = |steps: &[Step]| begun(5, &[0, 4], steps);
    let lists: [&[u64]; 2] = [&[10, 11, 20], &[11, 10, 20]];
    [
        done(&route(4, &one), &[&[10, 20], &[10, 30]]),
        done(&route(4, &one[..3]), &[&[10, 20]]),
        done(&begun_twice(&apart), &lists),
        done(&begun_twice(&apart[..4]), &lists),
    ]
    .concat()
}

/// What a putter needs is kept too: what it reads, and the putter of what it takes. A
/// taker that isn't kept needs nothing.
fn needed() -> String {
    let read = step(10, [&[1], &[2]], [&[3], &[]]);
    let steps = [
        writer(5, &[0], &[1], 3),
        read,
        silent(20, &[2], &[3]),
        silent(21, &[2], &[3]),
        writer(30, &[3], &[4], 0),
        silent(31, &[3], &[4]),
    ];
    let old = route(5, &steps);
    let new = route(2, &[writer(30, &[0], &[1], 0)]);
    let lists: [&[u64]; 3] = [&[5, 10, 20, 30], &[5, 10, 20, 31], &[5, 10, 21]];
    done(&old, &lists) + &moved(&old, &new, &lists)
}

/// The place is shared in one route alone, or is another one in the new route.
fn other_routes() -> String {
    let [one, two] = [1, 2].map(|count| route(4, &fork(count)));
    let untested = route(
        3,
        &[
            writer(20, &[0], &[1], 0),
            writer(21, &[0], &[1], 1),
            silent(30, &[1], &[2]),
        ],
    );
    let mut apart = two.clone();
    (apart.places, apart.start) = (6, vec![0, 4]);
    (apart.steps[2].ins, apart.steps[2].outs) = (vec![4], vec![5]);
    let pairs = [
        (&one, &two),
        (&two, &one),
        (&two, &untested),
        (&one, &untested),
    ];
    let more = [(&two, &apart), (&apart, &two), (&apart, &untested)];
    let each = |(old, new): &(&Route, &Route)| moved(old, new, &[&[10, 20]]);
    pairs.iter().chain(&more).map(each).collect()
}

/// Five steps of the route in a row.
fn row(of: &Route, names: [u64; 5]) -> Route {
    let mut steps: Vec<Step> = names
        .iter()
        .filter_map(|&name| of.step(name).cloned())
        .collect();
    for (at, step) in (0..).zip(&mut steps) {
        (step.ins, step.outs) = (vec![at], vec![at + 1]);
    }
    route(6, &steps)
}

/// Searched: a step beside the branch goes first, the test or the branch does, or each
/// stands on a place of its own; and one that nobody needs is gone.
fn redrawn() -> String {
    let idle = silent(50, &[3], &[4]);
    let beside = writer(40, &[4], &[5], 5);
    let old = route(6, &[&fork(2)[..], &[idle, beside]].concat());
    let mut own = row(&old, [10, 20, 21, 30, 40]);
    for (at, step) in (0..).zip(&mut own.steps) {
        (step.ins, step.outs) = (vec![at], vec![at]);
    }
    (own.places, own.start) = (5, (0..5).collect());
    let rows = [
        [40, 10, 20, 21, 30],
        [10, 40, 20, 21, 30],
        [20, 10, 40, 21, 30],
    ]
    .map(|names| row(&old, names));
    let orders: [&[u8]; 4] = [&[5, 1, 2], &[1, 5, 2], &[2, 1, 5], &[5, 2]];
    let each = |new: &Route| {
        let job = job(&old, new, &[10, 20, 30, 50, 40]);
        print(&job, 200) + &every(&job, &orders)
    };
    rows.iter().chain([&own]).map(each).collect()
}

/// On the last places of 64, which steps that are never done take from and put to.
fn last_places() -> String {
    let eight = |first: u64| (first..first + 8).collect::<Vec<u64>>();
    let idle = |at: u64| silent(100 + at, &eight(16 * at), &eight(16 * at + 8));
    let own = [
        silent(10, &[8], &[31, 63]),
        writer(20, &[63], &[62], 0),
        writer(30, &[31], &[30], 1),
    ];
    let more = [writer(40, &[63], &[62], 2), writer(50, &[31], &[30], 2)];
    let with = |some: &[Step]| {
        let steps: Vec<Step> = (0..4).map(idle).chain(own.clone()).collect();
        begun(64, &[8], &[&steps[..], some].concat())
    };
    let each = |some: &[Step]| done(&with(some), &[&[10, 20], &[10, 30]]);
    each(&more) + &each(&more[..1]) + &each(&more[1..]) + &each(&[])
}

/// 16 kept and 18, half of them silent, and one step more that the new route lacks.
fn sixteen() -> String {
    let again = step(20, [&[1], &[0]], [&[0], &[0]]);
    let other = silent(30, &[1], &[0]);
    let ring = [silent(10, &[0], &[1]), again, other];
    let old = begun(4, &[0, 2], &[&ring[..], &[silent(40, &[2], &[3])]].concat());
    let new = route(2, &ring);
    let of = |rounds: usize| [&[40][..], &[10, 20].repeat(rounds)].concat();
    [8, 9]
        .map(|rounds| judge(&job(&old, &new, &of(rounds))))
        .concat()
}
