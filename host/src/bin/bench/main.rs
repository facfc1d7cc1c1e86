//! The engine's print, try, up and down and the twin's, timed on the same sheets in one
//! run; then judge from a shelf, and put.

mod cases;
mod convert;
mod shelf;
mod stack;
mod timing;

use cases::Case;
use std::hint::black_box;

const WORK: usize = 8_192;
const OUT: usize = 16_384;

fn main() {
    println!(
        "Times of one print, try, up or down, engine and twin in turn: least and median of the"
    );
    println!("rounds.");
    println!("The work and out slices are not cleared between calls.");
    println!("Stack: the engine's deepest use, in bytes.\n");
    println!(
        "{:<33} {:>6} | {:>9} {:>9} {:>5} | {:>9} {:>9} {:>5} | {:>6}",
        "case", "bytes", "engine", "twin", "ratio", "engine", "twin", "ratio", "stack"
    );
    println!("{:<40} | {:^25} | {:^25} |", "", "least", "median");
    let cases = cases::cases();
    for case in &cases {
        print_row(case);
    }
    for case in cases.iter().filter(|case| case.tried) {
        try_row(case);
    }
    convert::print_rows();
    shelf::print_rows();
}

/// The row of a case, after a look that both list it alike.
fn print_row(case: &Case) {
    let sheet = &case.sheet[..];
    listing(case);
    let stack = stack::depth(|| {
        let (mut work, mut out) = (vec![0; WORK], vec![0; OUT]);
        black_box(host::print(sheet, &mut work, &mut out));
    });
    row(case.name, sheet.len(), print_times(sheet), stack);
}

/// The row of trying the order that the case's listing gives, after a look that
/// both answer it alike.
fn try_row(case: &Case) {
    let sheet = &case.sheet[..];
    let order = order(&listing(case));
    let engine = host::try_order(sheet, &order);
    let engine = (engine.number, engine.second, engine.marking);
    assert_eq!(engine, twin::try_order(sheet, &order), "{}", case.name);
    let stack = stack::depth(|| {
        black_box(host::try_order(sheet, &order));
    });
    let times = timing::both(
        || {
            black_box(host::try_order(black_box(sheet), &order));
        },
        || {
            black_box(twin::try_order(black_box(sheet), &order));
        },
    );
    row(&format!("try: {}", case.name), sheet.len(), times, stack);
}

fn row(name: &str, bytes: usize, [engine, twin]: [timing::Times; 2], stack: usize) {
    println!(
        "{name:<33} {bytes:>6} | {:>9} {:>9} {:>5.2} | {:>9} {:>9} {:>5.2} | {stack:>6}",
        shown(engine.least),
        shown(twin.least),
        engine.least / twin.least,
        shown(engine.median),
        shown(twin.median),
        engine.median / twin.median,
    );
}

/// The listing that both give; stops where they differ.
fn listing(case: &Case) -> String {
    let (mut work, mut out) = (vec![7; WORK], vec![9; OUT]);
    let (mut twin_work, mut twin_out) = (work.clone(), out.clone());
    let engine = host::print(&case.sheet, &mut work, &mut out);
    let twin = twin::print(&case.sheet, &mut twin_work, &mut twin_out);
    let engine = (engine.number, engine.second, engine.written);
    assert_eq!(engine, twin, "{}", case.name);
    assert!(out == twin_out && work == twin_work, "{}", case.name);
    out.truncate(engine.2 as usize);
    String::from_utf8_lossy(&out).into_owned()
}

fn print_times(sheet: &[u8]) -> [timing::Times; 2] {
    let (mut work, mut out) = (vec![0; WORK], vec![0; OUT]);
    let (mut twin_work, mut twin_out) = (work.clone(), out.clone());
    timing::both(
        || {
            black_box(host::print(black_box(sheet), &mut work, &mut out));
        },
        || {
            black_box(twin::print(black_box(sheet), &mut twin_work, &mut twin_out));
        },
    )
}

/// The order of a listing, or 1 to 16 where it has none.
fn order(listing: &str) -> Vec<u8> {
    let line = listing.lines().find_map(|line| line.strip_prefix("(order"));
    match line {
        None => (1..=16).collect(),
        Some(entries) => {
            let numbers = entries.trim_end_matches(')').split(' ');
            numbers.filter_map(|number| number.parse().ok()).collect()
        }
    }
}

/// A time in nanoseconds, or in microseconds where it is long.
fn shown(time: f64) -> String {
    if time < 10_000.0 {
        format!("{time:.0} ns")
    } else {
        format!("{:.1} us", time / 1_000.0)
    }
}
