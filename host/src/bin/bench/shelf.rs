//! Judge from a shelf and put, timed through the program `time_shelf`.

use std::io::Write;
use std::path::Path;
use std::process::{Command, Stdio};
use std::time::Instant;

/// What a round does, by the program's kinds.
const KINDS: [&str; 6] = [
    "no call",
    "judge by value",
    "judge from a full shelf",
    "put of the eighth edition",
    "put refused by 20",
    "judge from a shelf refused by 19",
];
const ROUNDS: u32 = 100_000;
const RUNS: usize = 11;

/// A row for each kind, after a look that judge answers alike from a shelf.
pub fn print_rows() {
    assert_eq!(run(1, 10).1, run(2, 10).1, "judge from a shelf");
    println!("\nTimes of one round of time_shelf, in the usual job: least of the runs, each of");
    println!("{ROUNDS} rounds, less the time of a run of none.\n");
    println!("{:<33} | {:>9} {:>5}", "round", "time", "ratio");
    let times = times();
    for (kind, time) in KINDS.iter().zip(times) {
        println!(
            "{kind:<33} | {:>9} {:>5.2}",
            crate::shown(time),
            time / times[1]
        );
    }
}

/// The time of a round of each kind, in nanoseconds; the kinds take turns.
fn times() -> [f64; KINDS.len()] {
    let mut without = [f64::INFINITY; KINDS.len()];
    let mut with = without;
    for _ in 0..RUNS {
        for kind in 0..KINDS.len() {
            without[kind] = without[kind].min(run(kind, 0).0);
            with[kind] = with[kind].min(run(kind, ROUNDS).0);
        }
    }
    std::array::from_fn(|kind| (with[kind] - without[kind]).max(0.0) / f64::from(ROUNDS))
}

/// The time of a run in nanoseconds, and what it writes.
fn run(kind: usize, rounds: u32) -> (f64, Vec<u8>) {
    let program = Path::new(env!("CARGO_MANIFEST_DIR")).join("../crates/time_shelf/out/time_shelf");
    let begin = Instant::now();
    let mut child = Command::new(program)
        .stdin(Stdio::piped())
        .stdout(Stdio::piped())
        .spawn()
        .expect("no crates/time_shelf/out/time_shelf");
    let mut input = child.stdin.take().expect("no standard input");
    writeln!(input, "{kind} {rounds}").expect("not written");
    drop(input);
    let output = child.wait_with_output().expect("not run to its end");
    (begin.elapsed().as_nanos() as f64, output.stdout)
}
