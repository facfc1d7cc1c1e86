//! Runs the wrong programs. With each must-fail edit of code the program `drive`
//! must answer a script otherwise than the second program: an edit that leaves
//! every answer right shows nothing. Nothing is proved here; `rt try` compiles
//! the edited program as it stands.
//!
//! Arguments: names of crates whose edits are run; none means all.

mod chosen;
mod chosen_branches;
mod chosen_cloth;
mod chosen_convert;
mod chosen_lookups;
mod chosen_marks;
mod chosen_names;
mod chosen_reads;
mod chosen_shelves;
mod chosen_starts;
mod edit;
mod scripts;
mod trial;

use edit::Edit;
use scripts::Script;
use std::process::ExitCode;
use std::sync::atomic::{AtomicUsize, Ordering};
use std::{env, thread};
use trial::{Trial, Verdict};

fn main() -> ExitCode {
    let names: Vec<String> = env::args().skip(1).collect();
    let (code, other): (Vec<Edit>, Vec<Edit>) = edit::all(&names)
        .into_iter()
        .partition(|edit| edit.is_driven());
    let scripts = scripts::all();
    let unedited = Trial::new(0).first_wrong(&scripts);
    if !matches!(unedited, Verdict::Right) {
        println!("without an edit: {unedited}");
        return ExitCode::FAILURE;
    }
    let right = run_all(&code, &scripts);
    for edit in &other {
        println!("{edit}: not run (no code that drive reaches)");
    }
    let (wrong, other) = (code.len() - right, other.len());
    println!("{wrong} answer wrongly, {right} don't; {other} were not run");
    ExitCode::from(u8::from(right > 0))
}

/// Runs the edits, as many at a time as there are processors; gives how many
/// have not been seen to answer wrongly.
fn run_all(edits: &[Edit], scripts: &[Script]) -> usize {
    let next = &AtomicUsize::new(0);
    thread::scope(|scope| {
        let start = |number| scope.spawn(move || run_in_turn(number, edits, scripts, next));
        let workers: Vec<_> = (0..trial::workers()).map(start).collect();
        let ends = workers.into_iter().map(|worker| worker.join());
        ends.map(|right| right.expect("a worker failed")).sum()
    })
}

/// Takes the next edit that no worker has taken, until there is none.
fn run_in_turn(number: usize, edits: &[Edit], scripts: &[Script], next: &AtomicUsize) -> usize {
    let trial = Trial::new(number);
    let mut right = 0;
    while let Some(edit) = edits.get(next.fetch_add(1, Ordering::Relaxed)) {
        let verdict = trial.run(edit, scripts);
        println!("{edit}: {verdict}");
        right += usize::from(!matches!(verdict, Verdict::Wrong { .. }));
    }
    right
}
