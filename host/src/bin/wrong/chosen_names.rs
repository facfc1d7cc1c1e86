//! Long names and long numbers: one of these operations tells each edit of their
//! limits, or one that cuts a name down, from the right program.

use crate::chosen::{begun, cloth, job, judge, on_records, print, read, read_by_both};
use crate::chosen::{route, step, JUDGE, LENT, WRITE};
use reference::judge::WORK;
use reference::script::writing::{bytes, fill, operation};
use reference::sheet::{self, Route, Sheet, Step};

const RUN: u64 = 2;
const TRY_SHEET: u64 = 10;

/// Every operation of this file, as one script.
pub fn script() -> String {
    let names = [
        65_536,
        65_537,
        100_000,
        4_294_967_295,
        4_294_967_296,
        4_294_967_297,
        9_999_999_999,
        10_000_000_000,
        42_949_672_961,
    ];
    let parts = [
        numbers("step 1", &names),
        numbers("done 1", &names),
        numbers("old 2", &[100_000, 4_294_967_298, 10_000_000_002]),
        numbers("start 0", &[100_000, 4_294_967_296, 10_000_000_000]),
        numbers("in 0", &[100_000, 4_294_967_296, 10_000_000_000]),
        numbers("read 0", &[100_000, 4_294_967_296, 10_000_000_000]),
        long_names(),
        both_versions(),
        longest(),
    ];
    parts.concat()
}

/// Tries an order on sheets with longer numbers in the place of one. Some of them
/// end with its 16 or 32 bits.
fn numbers(word_and_number: &str, longer: &[u64]) -> String {
    let tried = |number: &u64| {
        let sheet = with_number(word_and_number, *number);
        operation(TRY_SHEET, &[bytes(sheet.as_bytes()), bytes(&[1])])
    };
    longer.iter().map(tried).collect()
}

/// A sheet that moves straight, with another number behind a word.
fn with_number(word_and_number: &str, number: u64) -> String {
    let route = "2)\n(start 0)\n(step 1 (in 0) (out 1) (read 0) (write 0))\n";
    let text = format!("(old {route}(new {route}(job)\n(done 1)\n");
    let word = word_and_number.trim_end_matches(|c: char| c.is_ascii_digit());
    text.replacen(word_and_number, &format!("{word}{number}"), 1)
}

/// Sheets at the limits of 01's version, which the present one reads if only a
/// name passes them: each is read by both.
fn both_versions() -> String {
    let names = [65_535, 65_536, 99_999, 100_000, 4_294_967_295];
    let others = [99_999, 100_000];
    let of = |word_and_number, numbers: &[u64]| -> String {
        let sheets = numbers.iter().map(|&n| with_number(word_and_number, n));
        sheets.map(|sheet| read_by_both(&sheet)).collect()
    };
    let words = ["old 2", "new 2", "in 0", "out 1", "read 0"];
    let of_names = of("step 1", &names) + &of("done 1", &names);
    of_names + &words.map(|word| of(word, &others)).concat()
}

/// Steps in a row, each with a variable of its own.
fn row(names: &[u64]) -> Route {
    let one = |(at, &name): (u64, &u64)| step(name, [&[at], &[at + 1]], [&[], &[at]]);
    let steps: Vec<Step> = (0..).zip(names).map(one).collect();
    route(names.len() as u64 + 1, &steps)
}

/// The longest sheet's records, a token on every place and every step marked, written
/// into as many bytes as 01's longest has, and into one too few.
fn longest() -> String {
    let [high, low] = [56, 24].map(|first| (first..first + 8).collect::<Vec<u64>>());
    let names: Vec<u64> = (4_000_000_000..).take(64).collect();
    let steps = names.iter();
    let steps = steps.map(|&name| cloth(step(name, [&high, &high], [&low, &low])));
    let all: Vec<u64> = (0..64).collect();
    let route = begun(64, &all, &steps.collect::<Vec<Step>>());
    let job = job(&route, &route, &names);
    let write = |room| on_records(WRITE, &job, &[fill(room, 9)]);
    [18_136, 20_499].map(write).concat()
}

/// The job of a row whose last two steps change places; their names and the
/// first end with the same 8 bits.
fn swapped() -> Sheet {
    let old = row(&[10, 65_546, 266]);
    let mut new = old.clone();
    for (at, other) in [(1, 2), (2, 1)] {
        new.steps[at].ins = old.steps[other].ins.clone();
        new.steps[at].outs = old.steps[other].outs.clone();
    }
    job(&old, &new, &[10, 65_546, 266])
}

/// Names that end alike, 65,536 and the greatest name: by value, lent and in sheets.
fn long_names() -> String {
    let swapped = swapped();
    let early = job(&swapped.old, &swapped.old, &[65_546, 10]);
    let names = [65_535, 65_536, 4_294_967_295];
    let straight = job(&row(&names), &row(&names), &names);
    let strange = [65_546, 4_294_967_295].map(|name| job(&row(&[10]), &row(&[10]), &[name]));
    let out = |job: &Sheet| fill(sheet::text(job).len(), 7);
    [
        judge(&swapped),
        on_records(JUDGE + LENT, &swapped, &[fill(WORK, 7)]),
        print(&swapped, 200),
        read(&sheet::text(&straight)),
        on_records(WRITE, &swapped, &[out(&swapped)]),
        on_records(WRITE + LENT, &straight, &[out(&straight)]),
        on_records(RUN, &early, &[]),
        on_records(RUN + LENT, &early, &[]),
        on_records(RUN, &strange[0], &[]),
        on_records(RUN + LENT, &strange[1], &[]),
        on_records(RUN, &straight, &[]),
        on_records(RUN + LENT, &straight, &[]),
    ]
    .concat()
}
