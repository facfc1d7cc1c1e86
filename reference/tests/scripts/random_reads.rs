//! What random scripts meet of readings (02, A.7): on records, by value and lent, on
//! sheets, on shelves, in look-ups, and on the ways between editions.

use crate::direct::Route;
use crate::kinds::Kinds;
use crate::kinds_of_reads::{add, KINDS};
use crate::random::{arguments, operations};
use crate::random_cloth::{bytes, facts};
use crate::random_lookups::{lines_of, COMPARE};
use crate::random_shelves::{between, puts};
use reference::sheet::read;

/// Each kind must be met so many times.
const LEAST: usize = 3;

#[test]
fn jobs_meet_readings() {
    for lent in [false, true] {
        let mut kinds = Kinds::default();
        for (line, operation, _) in operations() {
            if matches!(operation, 2..=5 | 12..=15) && (operation > 10) == lent {
                add(&mut kinds, &facts(&arguments(line).job(operation)));
            }
        }
        println!("lent: {lent}");
        kinds.finish(LEAST);
        assert_eq!(kinds.0.len(), KINDS);
    }
}

/// The sheets of print and of the C form of try.
#[test]
fn sheets_meet_readings() {
    let mut kinds = Kinds::default();
    for (line, operation, _) in operations() {
        if matches!(operation, 9 | 10) {
            if let Ok(facts) = read(&bytes(arguments(line).many())) {
                add(&mut kinds, &facts);
            }
        }
    }
    kinds.finish(LEAST);
    assert_eq!(kinds.0.len(), KINDS);
}

/// Jobs between editions: shelves that were handed in hold routes that put refuses.
#[test]
fn jobs_of_shelves_meet_readings() {
    let mut kinds = Kinds::default();
    for (job, numbers) in between() {
        let new = job.old.steps.len() as u64 + 3;
        let [number, line] = [numbers[0], numbers[1]];
        kinds.add(number == 23 && line < new, "23 of old");
        kinds.add(number == 23 && line > new, "23 of new");
        let reads = all(&job.old, 3) != 0 && all(&job.new, 3) != 0;
        kinds.add(number == 0 && reads, "moved, with readings");
    }
    kinds.finish(LEAST);
}

fn all(route: &Route, field: usize) -> u64 {
    route.steps.iter().fold(0, |mask, step| mask | step[field])
}

/// Editions that are put, by the answer.
#[test]
fn editions_meet_readings() {
    let mut kinds = Kinds::default();
    for (route, numbers) in puts() {
        let written = all(&route, 4);
        let reads = |step: &&[u64; 6]| step[3] & !written != 0;
        let count = route.steps.iter().filter(reads).count();
        let row = numbers[0];
        let mut add = |met, kind: &str| kinds.add(met, kind);
        add(row == 23 && numbers[1] == 3, "23 at line 3");
        add(row == 23 && numbers[1] > 3, "23 at a later line");
        add(row == 23 && count > 1, "23, the first of some");
        add(row == 6 && count > 0, "6 before 23");
        add(row == 7 && count > 0, "7 before 23");
        add(row == 20 && count > 0, "20 before 23");
        add(row == 21 && count > 0, "21 before 23");
        add(row == 0 && all(&route, 3) != 0, "taken, with readings");
    }
    kinds.finish(LEAST);
    assert_eq!(kinds.0.len(), 8);
}

/// Reading, writing and the job part: what they let through, though 23 refuses it.
#[test]
fn who_does_not_look_for_it() {
    let mut kinds = Kinds::default();
    for (line, operation, numbers) in operations() {
        let facts = match operation {
            6 | 16 => read(&bytes(arguments(line).many())).ok(),
            8 | 18 => Some(facts(&arguments(line).job(operation))),
            _ => None,
        };
        let Some(facts) = facts.filter(|_| numbers[0] == 0) else {
            continue;
        };
        let refused = reference::net::run(&facts).is_err_and(|refusal| refusal.number == 23);
        kinds.add(refused, &format!("operation {operation}"));
    }
    kinds.finish(LEAST);
    assert_eq!(kinds.0.len(), 4);
}

/// The jobs of look-ups.
#[test]
fn lookups_meet_readings() {
    let mut kinds = Kinds::default();
    for (line, numbers) in lines_of(COMPARE) {
        let job = arguments(line).job(COMPARE);
        let new = job.old.steps.len() as u64 + 3;
        kinds.add(numbers[0] == 23 && numbers[1] < new, "23 of old");
        kinds.add(numbers[0] == 23 && numbers[1] > new, "23 of new");
        let reads = all(&job.old, 3) | all(&job.new, 3);
        kinds.add(numbers[0] == 0 && reads != 0, "compared, with readings");
    }
    kinds.finish(LEAST);
}

/// Whether a record past the route's `len` writes what the route reads and doesn't write.
fn written_past_len(line: &str) -> bool {
    let mut words = arguments(line);
    let mut met = false;
    for _ in 0..2 {
        let [_, _, len, count] = [(); 4].map(|()| words.next());
        let records: Vec<[u64; 6]> = (0..count)
            .map(|_| [0; 6].map(|_: u64| words.next()))
            .collect();
        let (route, past) = records.split_at(len.min(count) as usize);
        let fold = |list: &[[u64; 6]], field: usize| list.iter().fold(0, |mask, r| mask | r[field]);
        met |= fold(route, 3) & !fold(route, 4) & fold(past, 4) != 0;
    }
    met
}

/// Records past `len` write nothing.
#[test]
fn records_past_len_do_not_write() {
    let of_jobs = operations().filter(|(_, operation, _)| matches!(operation, 2..=5));
    let met = of_jobs.filter(|(line, _, numbers)| numbers[0] == 23 && written_past_len(line));
    let met = met.count();
    println!("{met} written past len alone");
    assert!(met >= LEAST);
}
