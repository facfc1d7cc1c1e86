//! Long names and numbers in random scripts: how often records and sheets have
//! them, right and wrong.

use crate::direct::{Job, Route};
use crate::random::{arguments, operations};
use std::collections::BTreeMap;

/// Whether two steps have names that end with the same bits, so many.
fn names_alike(route: &Route, bits: u32) -> bool {
    let mut ends: Vec<u64> = route.steps.iter().map(|s| s[0] % (1 << bits)).collect();
    ends.sort();
    ends.windows(2).any(|two| two[0] == two[1])
}

/// Each kind of names, and whether the job has it.
fn kinds_of_names(job: &Job) -> [(&'static str, bool); 10] {
    let steps = job.old.steps.iter().chain(&job.new.steps);
    let names: Vec<u64> = steps.map(|step| step[0]).collect();
    let long = |names: &[u64]| names.iter().any(|&name| name > 65_535);
    [
        ("step 0", names.contains(&0)),
        ("step 65,536", names.contains(&65_536)),
        ("step over 65,535", long(&names)),
        ("step 4,294,967,295", names.contains(&4_294_967_295)),
        ("steps alike in 8 bits", names_alike(&job.old, 8)),
        ("steps alike in 16 bits", names_alike(&job.old, 16)),
        ("done 0", job.done.contains(&0)),
        ("done 65,536", job.done.contains(&65_536)),
        ("done over 65,535", long(&job.done)),
        ("done 4,294,967,295", job.done.contains(&4_294_967_295)),
    ]
}

/// By value and lent, in operations that are refused and in others; with a name
/// 0 all are refused.
#[test]
fn records_have_long_names() {
    let mut counts: BTreeMap<(&str, [bool; 2]), usize> = BTreeMap::new();
    for (line, operation, numbers) in operations() {
        if matches!(operation, 2..=5 | 8 | 12..=15 | 18) {
            let kinds = kinds_of_names(&arguments(line).job(operation));
            for (kind, _) in kinds.into_iter().filter(|(_, met)| *met) {
                let lent_and_good = [operation > 10, numbers[0] == 0];
                *counts.entry((kind, lent_and_good)).or_default() += 1;
            }
        }
    }
    println!("by lent and good: {counts:?}");
    let good = |kind: &str| counts.contains_key(&(kind, [false, true]));
    assert!(!good("step 0") && !good("done 0"));
    assert_eq!(counts.len(), 10 * 4 - 2 * 2);
    assert!(counts.values().all(|count| *count >= 5));
}

/// The longest number of an operation's sheet, as digits.
fn longest_number(line: &str) -> String {
    let bytes = arguments(line).many();
    let text: String = bytes.iter().map(|&byte| byte as u8 as char).collect();
    let numbers = text.split(|c: char| !c.is_ascii_digit());
    numbers
        .max_by_key(|digits| digits.len())
        .unwrap_or("")
        .to_string()
}

#[test]
fn sheets_of_scripts_have_long_numbers() {
    let mut counts: BTreeMap<(usize, u64), usize> = BTreeMap::new();
    for (line, operation, numbers) in operations() {
        if matches!(operation, 6 | 10 | 16) {
            let digits = longest_number(line);
            *counts.entry((digits.len(), numbers[0].min(3))).or_default() += 1;
        }
    }
    println!("by digits of the longest number, and row to 3: {counts:?}");
    // Ten digits are in range or row 2, eleven are row 1.
    for met in [(5, 0), (6, 0), (10, 0), (10, 2), (11, 1)] {
        assert!(counts.get(&met) >= Some(&5), "{met:?}");
    }
    assert!(counts
        .keys()
        .all(|(digits, row)| *digits <= 10 || *row == 1));
}
