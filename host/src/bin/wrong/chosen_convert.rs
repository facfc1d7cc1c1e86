//! Sheets between editions: one of these operations tells each edit that implies another
//! start, refuses at another line or in another order, or goes the other way, from the
//! right program.

use crate::chosen::{begun, cloth, job, step};
use reference::script::writing::{convert, fill};
use reference::sheet::{text, text_by, Route, Sheet};
use reference::version::Version;

const UP: u64 = 26;
const DOWN: u64 = 27;
const EITHER: u64 = 28;

/// Every operation of this file, as one script.
pub fn script() -> String {
    let parts = [
        there_and_back(),
        names(),
        marks(),
        starts(),
        first_lines(),
        nets(),
        reading(),
        second_lines(),
    ];
    parts.concat()
}

/// 1 from place 0 to place 1, and 2 from there to place 2.
fn chain() -> Route {
    let steps = [
        step(1, [&[0], &[1]], [&[], &[]]),
        step(2, [&[1], &[2]], [&[], &[]]),
    ];
    begun(3, &[0], &steps)
}

/// 3 from place 1 to place 0.
fn turned() -> Route {
    begun(2, &[1], &[step(3, [&[1], &[0]], [&[], &[]])])
}

/// Goes round, so that no place is implied.
fn round() -> Route {
    begun(1, &[0], &[step(4, [&[0], &[0]], [&[], &[]])])
}

/// Four steps over 64 places, each from the second half of sixteen to the first.
fn wide() -> Route {
    let eight = |first: u64| (first..first + 8).collect::<Vec<u64>>();
    let one = |k: u64| step(k + 1, [&eight(16 * k + 8), &eight(16 * k)], [&[], &[]]);
    let start: Vec<u64> = (0..64).filter(|place| place % 16 >= 8).collect();
    begun(64, &start, &(0..4).map(one).collect::<Vec<_>>())
}

fn given(way: u64, text: &str, room: usize) -> String {
    convert(way, text.as_bytes(), fill(room, 9))
}

fn of_01(job: &Sheet) -> String {
    text_by(job, &Version::OF_01)
}

/// Up without start lines, with room.
fn up(job: &Sheet) -> String {
    given(UP, &of_01(job), 400)
}

/// Down with start lines, with room.
fn down(job: &Sheet) -> String {
    given(DOWN, &text(job), 400)
}

/// Down into nothing: 15 doesn't go before what refuses.
fn down_without_room(job: &Sheet) -> String {
    given(DOWN, &text(job), 0)
}

/// Routes of other lengths, place counts and implied starts, with just enough room; of
/// one also with a byte less and some more, and the way that the second line tells.
fn there_and_back() -> String {
    let jobs = [
        job(&turned(), &chain(), &[3]),
        job(&turned(), &wide(), &[]),
        job(&chain(), &turned(), &[1, 2]),
    ];
    let just = |job: &Sheet| {
        let (lower, upper) = (of_01(job), text(job));
        given(UP, &lower, upper.len()) + &given(DOWN, &upper, lower.len())
    };
    let (lower, upper) = (of_01(&jobs[2]), text(&jobs[2]));
    let others = [
        given(UP, &lower, upper.len() - 1),
        given(UP, &lower, upper.len() + 3),
        given(DOWN, &upper, lower.len() - 1),
        given(DOWN, &upper, lower.len() + 3),
        given(EITHER, &lower, 400),
        given(EITHER, &upper, 400),
    ];
    jobs.iter().map(just).collect::<String>() + &others.concat()
}

/// The job of the chain, with its last step or last done name named so, or the step of
/// the other route.
fn named(place: usize, name: u64) -> Sheet {
    let mut facts = job(&chain(), &turned(), &[1, 2]);
    match place {
        0 => facts.old.steps[1].name = name,
        1 => facts.new.steps[0].name = name,
        _ => facts.done[1] = name,
    }
    facts
}

/// Names at 01's limit and past it, some ending with the same 16 bits.
fn names() -> String {
    let mut script = String::new();
    for place in 0..3 {
        for name in [65_535, 65_536] {
            script += &(up(&named(place, name)) + &down(&named(place, name)));
        }
        script += &up(&named(place, 100_000));
        for name in [131_071, 4_294_967_295] {
            script += &down_without_room(&named(place, name));
        }
    }
    script
}

/// A mark on the last step of each route, and on one with a long name.
fn marks() -> String {
    let mut script = String::new();
    for name in [5, 65_536] {
        for place in 0..2 {
            let mut facts = named(place, name);
            let steps = [&mut facts.old.steps, &mut facts.new.steps];
            let last = steps[place].last_mut().expect("no step");
            *last = cloth(last.clone());
            script += &(down(&facts) + &down_without_room(&facts));
        }
    }
    script + &up(&job(&marked(), &turned(), &[]))
}

fn marked() -> Route {
    begun(2, &[1], &[cloth(step(5, [&[1], &[0]], [&[], &[]]))])
}

/// 3 from places 0 and 1 to place 2.
fn joined() -> Route {
    begun(3, &[0, 1], &[step(3, [&[0, 1], &[2]], [&[], &[]])])
}

/// Starts other than the implied one: fewer, more, others, that of the other route; the
/// empty one is 7.
fn starts() -> String {
    let mut script = String::new();
    for start in [&[][..], &[1], &[0, 1], &[0, 2]] {
        let old = begun(3, start, &chain().steps);
        script += &down(&job(&old, &turned(), &[]));
    }
    for start in [&[][..], &[0], &[1], &[2], &[0, 1], &[0, 1, 2]] {
        let new = begun(3, start, &joined().steps);
        script += &down(&job(&chain(), &new, &[]));
    }
    script += &down(&job(&begun(3, &[1], &joined().steps), &turned(), &[]));
    for [old, new] in [[round(), chain()], [chain(), round()]] {
        let facts = job(&old, &new, &[]);
        script += &(up(&facts) + &down_without_room(&facts));
    }
    script
}

/// Two lines that 01 can't say, of which the first is told: two by two from the top down.
fn first_lines() -> String {
    let changes: [fn(&mut Sheet); 8] = [
        |facts| facts.old.start = vec![1],
        |facts| facts.old.steps[0].cloth = true,
        |facts| facts.old.steps[1].name = 65_536,
        |facts| facts.new.start = vec![2],
        |facts| facts.new.steps[0].name = 70_000,
        |facts| facts.new.steps[1].cloth = true,
        |facts| facts.done[0] = 65_536,
        |facts| facts.done[1] = 65_536,
    ];
    let two = |two: &[fn(&mut Sheet)]| {
        let mut facts = job(&chain(), &chain(), &[1, 2]);
        two.iter().for_each(|change| change(&mut facts));
        down_without_room(&facts)
    };
    changes.windows(2).map(two).collect()
}

/// Rows 6 and 7 of both routes, by both versions; and before 22 of the old route.
fn nets() -> String {
    let unused = |mut route: Route| {
        route.places += 1;
        route
    };
    let unbegun = |mut route: Route| {
        route.start.clear();
        route
    };
    let routes = [
        [unused(chain()), turned()],
        [chain(), unused(turned())],
        [unbegun(round()), turned()],
        [chain(), unbegun(round())],
        [unbegun(round()), unused(turned())],
        [unused(chain()), unbegun(round())],
        [unused(unbegun(round())), turned()],
        [marked(), unused(chain())],
        [marked(), unbegun(round())],
    ];
    let each = |[old, new]: &[Route; 2]| {
        let facts = job(old, new, &[]);
        up(&facts) + &down_without_room(&facts)
    };
    routes.iter().map(each).collect()
}

/// Rows 4, 2, 3 and 5: they go before 6, and before 22 of an earlier line.
fn reading() -> String {
    let changes: [fn(&mut Sheet); 6] = [
        |facts| facts.new.steps.clear(),
        |facts| facts.done[0] = 0,
        |facts| facts.new.steps[0].ins = vec![5],
        |facts| facts.new.steps[0].outs = vec![1, 0],
        |facts| facts.old.steps[1].name = 1,
        |facts| facts.done[0] = 4_294_967_296,
    ];
    let each = |change: &fn(&mut Sheet)| {
        let mut facts = job(&chain(), &turned(), &[1]);
        (facts.old.places, facts.old.start) = (4, vec![1]);
        change(&mut facts);
        up(&facts) + &down_without_room(&facts)
    };
    changes.iter().map(each).collect()
}

/// Sheets of the version that the way doesn't read, and beginnings by which the way is
/// told, or just not.
fn second_lines() -> String {
    let sheet = job(&turned(), &turned(), &[3]);
    let (lower, upper) = (of_01(&sheet), text(&sheet));
    let wrong = given(UP, &upper, 400) + &given(DOWN, &lower, 400);
    let damaged = [
        upper.replacen("(start 1)", "(star 1)", 1),
        upper.replacen("(start 1)", "(starts 1)", 1),
        upper.replacen("(start 1)", "(start1)", 1),
        upper.replacen("\n(start 1)", " (start 1)", 1),
        upper.replacen("\n(start 1)", "\n\n(start 1)", 1),
        lower.replacen("(old 2)", "(start 0)\n(old 2)", 1),
    ];
    let beginnings = [
        "",
        "(old 2)",
        "(old 2)\n",
        "(old 2)\n(star",
        "(old 2)\n(start",
        "(old 2)\n(start\n",
        "(old 4294967295)\n(start",
        "\n(start",
    ];
    let texts = damaged.iter().map(String::as_str).chain(beginnings);
    let told: String = texts.map(|text| given(EITHER, text, 400)).collect();
    wrong + &told
}
