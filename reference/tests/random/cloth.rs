//! Marks (02, A.4): how often random sheets meet them, right and wrong, and what they
//! change.

use crate::kinds::Kinds;
use crate::kinds_of_cloth::{add, only_marks_forbid};
use crate::{for_each_sheet, judged};
use reference::fit::try_order;
use reference::job::Job;
use reference::random::{cloth, damage::damage, orders};
use reference::sheet::{self, read, MARK};
use reference::slice::{self, Occurrences};

#[test]
fn sheets_meet_marks() {
    let mut kinds = Kinds::default();
    for_each_sheet("marks", &mut |facts, _| add(&mut kinds, facts));
    kinds.finish(10);
}

#[test]
fn orders_meet_marks() {
    let mut kinds = Kinds::default();
    for_each_sheet("orders and marks", &mut |facts, dice| {
        for _ in 0..3 {
            let order = orders::order(facts, dice);
            let position = match try_order(facts, &order) {
                Err(refusal) if refusal.number == 17 => refusal.second,
                _ => continue,
            };
            let by_marks = only_marks_forbid(facts, &order, position);
            kinds.add(by_marks, "17 by marks alone");
            kinds.add(!by_marks, "17 by data");
        }
    });
    kinds.finish(100);
}

/// Every cut is kept, and of those that write nothing no other, but for one that put a
/// token which a kept one took.
#[test]
fn cuts_are_kept() {
    for_each_sheet("kept cuts", &mut |facts, _| {
        let Ok(job) = Job::of(facts) else { return };
        let silent = |&o: &usize| job.done[o - 1].writes.is_empty();
        let cuts = slice::cloth(&job.done);
        assert!(cuts.is_subset(&job.kept));
        let putters = job.kept.iter().flat_map(|&o| job.putters[o - 1].clone());
        let kept: Occurrences = cuts.iter().copied().chain(putters).collect();
        assert!(job
            .kept
            .iter()
            .filter(|o| silent(o))
            .all(|o| kept.contains(o)));
    });
}

/// The marks of steps that aren't done change no answer.
#[test]
fn marks_of_steps_not_done() {
    let mut changed = 0;
    for_each_sheet("not done", &mut |facts, _| {
        let mut other = facts.clone();
        let steps = other.old.steps.iter_mut().chain(&mut other.new.steps);
        for step in steps.filter(|step| !facts.done.contains(&step.name)) {
            step.cloth = !step.cloth;
        }
        changed += usize::from(other != *facts);
        assert_eq!(judged(&other), judged(facts));
    });
    assert!(changed > 1_000);
}

/// What moves straight with its marks moves straight without them.
#[test]
fn a_straight_job_is_straight_without_marks() {
    let mut straight = 0;
    for_each_sheet("straight", &mut |facts, _| {
        let Ok(moved) = judged(facts) else { return };
        if moved.straight {
            let mut unmarked = facts.clone();
            cloth::clear(&mut unmarked);
            let other = judged(&unmarked).unwrap();
            assert_eq!((other.order, other.marking), (moved.order, moved.marking));
            straight += usize::from(unmarked != *facts);
        }
    });
    println!("{straight} straight with marks");
    assert!(straight > 500);
}

/// What stands in the text in the place of a mark, or near one.
fn damaged_marks(text: &str) -> Vec<&'static str> {
    let kinds = [
        (" (cloth) (cloth)", "twice"),
        ("(write) (cloth)", "after an empty list"),
        (") (cloth) (write", "before the write list"),
        (")) (cloth)", "behind the bracket"),
        (" (clot)", "a letter missing"),
        (" (cloths)", "a letter too many"),
        (" (Cloth)", "an upper case letter"),
        (" (CLOTH)", "upper case"),
        ("  (cloth)", "two spaces"),
        (" (cloth )", "a space inside"),
        (" (cloth 1)", "an entry"),
        (" (cloth)\n", "not closed"),
        (" (cloth) (in", "before the in list"),
    ];
    let met = kinds.into_iter().filter(|(wrong, _)| text.contains(wrong));
    met.map(|(_, kind)| kind).collect()
}

#[test]
fn damage_meets_marks() {
    let mut kinds = Kinds::default();
    for_each_sheet("damaged marks", &mut |facts, dice| {
        let text = sheet::text(facts);
        for _ in 0..3 {
            let bytes = damage(text.as_bytes(), dice);
            let damaged = String::from_utf8_lossy(&bytes);
            for kind in damaged_marks(&damaged) {
                kinds.add(true, kind);
            }
            let no_space = damaged.replace(MARK, "").contains("(cloth)");
            kinds.add(no_space, "without its space");
            let broken = read(&bytes).err().filter(|refusal| refusal.number == 1);
            let before = broken.map(|refusal| &bytes[..refusal.second]);
            let in_mark = |length: usize| {
                let begin = &MARK.as_bytes()[..length];
                before.is_some_and(|before| before.ends_with(begin))
            };
            for length in 2..=MARK.len() {
                kinds.add(in_mark(length), &format!("1 after {length} bytes of it"));
            }
        }
    });
    kinds.finish(10);
    assert_eq!(kinds.0.len(), 13 + 1 + 7);
}
