//! What random scripts meet of marks (02, A.4): on records, by value and lent, on
//! sheets, and in orders handed in.

use crate::direct::{self, Job};
use crate::kinds::Kinds;
use crate::kinds_of_cloth::{add, only_marks_forbid};
use crate::random::{arguments, operations};
use reference::record::Record;
use reference::sheet::{entries, read, Route, Sheet, MARK};

fn route(route: &direct::Route) -> Route {
    let step = |&[name, ins, outs, reads, writes, cloth]: &direct::Step| {
        let record = Record {
            name: name as u32,
            ins,
            outs,
            reads: reads as u32,
            writes: writes as u32,
            cloth: cloth == 1,
        };
        record.step()
    };
    Route {
        places: route.places,
        start: entries(route.start),
        steps: route.steps.iter().map(step).collect(),
    }
}

/// The facts of a job.
pub fn facts(job: &Job) -> Sheet {
    Sheet {
        old: route(&job.old),
        new: route(&job.new),
        done: job.done.clone(),
    }
}

pub fn bytes(numbers: Vec<u64>) -> Vec<u8> {
    numbers.into_iter().map(|number| number as u8).collect()
}

/// The jobs of run, slice, try and judge.
#[test]
fn jobs_meet_marks() {
    for lent in [false, true] {
        let mut kinds = Kinds::default();
        for (line, operation, _) in operations() {
            if matches!(operation, 2..=5 | 12..=15) && (operation > 10) == lent {
                add(&mut kinds, &facts(&arguments(line).job(operation)));
            }
        }
        println!("lent: {lent}");
        kinds.finish(5);
    }
}

/// The sheets of print and of the C form of try.
#[test]
fn sheets_meet_marks() {
    let mut kinds = Kinds::default();
    for (line, operation, _) in operations() {
        if matches!(operation, 9 | 10) {
            if let Ok(facts) = read(&bytes(arguments(line).many())) {
                add(&mut kinds, &facts);
            }
        }
    }
    kinds.finish(5);
}

#[test]
fn orders_meet_marks() {
    let mut kinds = Kinds::default();
    for (line, operation, numbers) in operations() {
        if matches!(operation, 4 | 10 | 14) && numbers[0] == 17 {
            let mut words = arguments(line);
            let facts = match operation {
                10 => read(&bytes(words.many())).unwrap(),
                _ => facts(&words.job(operation)),
            };
            let order = bytes(words.many());
            let by_marks = only_marks_forbid(&facts, &order, numbers[1] as usize);
            let kind = if by_marks {
                "by marks alone"
            } else {
                "by data"
            };
            kinds.add(true, &format!("{operation:2}: 17 {kind}"));
        }
    }
    kinds.finish(5);
    assert_eq!(kinds.0.len(), 6);
}

/// Whether the sheet up to here ends with two or more bytes of a mark.
fn ends_in_a_mark(begin: &[u8]) -> bool {
    let mark = MARK.as_bytes();
    (2..=mark.len()).any(|length| begin.ends_with(&mark[..length]))
}

/// Reading by both versions: sheets with a mark, and where a mark breaks the layout.
#[test]
fn versions_meet_marks() {
    let mut kinds = Kinds::default();
    for (line, operation, numbers) in operations() {
        if !matches!(operation, 6 | 16 | 23) {
            continue;
        }
        let sheet = bytes(arguments(line).many());
        let mark = MARK.as_bytes();
        let has_mark = sheet.windows(mark.len()).any(|part| part == mark);
        let reads = numbers[0] == 0;
        let broken = Some(numbers[1] as usize).filter(|_| numbers[0] == 1);
        let mut add = |met, kind: &str| kinds.add(met, &format!("{operation:2}: {kind}"));
        add(reads && !has_mark, "reads, no mark");
        if operation == 23 {
            assert!(!reads || !has_mark, "{line}");
            let at_mark = broken.is_some_and(|at| sheet[at..].starts_with(mark));
            add(at_mark, "1 at a mark");
        } else {
            add(reads && has_mark, "reads, marked");
            let in_mark = broken.is_some_and(|at| ends_in_a_mark(&sheet[..at]));
            add(in_mark, "1 in a mark");
        }
    }
    kinds.finish(5);
}
