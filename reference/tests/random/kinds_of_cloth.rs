//! What random jobs meet of marks (02, A.4).

use crate::kinds::Kinds;
use reference::fit::{check_kept, moves_straight};
use reference::job::Job;
use reference::judge::{judge, Moved, WORK};
use reference::net;
use reference::random::cloth;
use reference::refusal::Refusal;
use reference::search;
use reference::sheet::{Sheet, Step};
use reference::slice::{self, Occurrences};

/// A job that no row to 9 refuses, beside itself without marks.
struct Marked<'a> {
    job: Job<'a>,
    bare: Job<'a>,
    cuts: Occurrences,
    answer: Result<Moved, Refusal>,
}

impl Marked<'_> {
    fn step(&self, occurrence: usize) -> &Step {
        self.job.done[occurrence - 1]
    }

    fn is_silent(&self, occurrence: usize) -> bool {
        self.step(occurrence).writes.is_empty()
    }

    fn is_cut(&self, occurrence: usize) -> bool {
        self.cuts.contains(&occurrence)
    }

    fn refused(&self, number: u32) -> bool {
        self.answer.as_ref().is_err_and(|r| r.number == number)
    }

    /// The kept occurrence of row 11 or 12.
    fn refused_at(&self, number: u32) -> Option<usize> {
        let line = self.answer.as_ref().err().filter(|r| r.number == number)?;
        Some(line.second - self.job.sheet.job_line())
    }

    fn moved_by_search(&self) -> Option<&Moved> {
        self.answer.as_ref().ok().filter(|moved| !moved.straight)
    }

    /// Whether the same kept have an order when two cuts may change places.
    fn has_an_order_without_marks(&self) -> bool {
        let job = Job {
            kept: self.job.kept.clone(),
            ..self.bare.clone()
        };
        search::first(&job, &net::start(&job.sheet.new), &job.kept).is_some()
    }

    /// The unmarked ones that are kept since a cut needs them, at last.
    fn kept_for_a_cut(&self) -> bool {
        let mut kept = self.job.kept.iter();
        kept.any(|&o| !self.bare.kept.contains(&o) && !self.is_cut(o))
    }

    fn reads_a_blank(&self, cut: usize) -> bool {
        let step = self.step(cut);
        let blank = |v: &u64| slice::last_writer_before(&self.job.done, cut, *v).is_none();
        step.reads.iter().any(blank)
    }
}

/// Counts the job's kinds.
pub fn add(kinds: &mut Kinds, facts: &Sheet) {
    let mut unmarked = facts.clone();
    cloth::clear(&mut unmarked);
    let (Ok(job), Ok(bare)) = (Job::of(facts), Job::of(&unmarked)) else {
        return;
    };
    let marked = Marked {
        cuts: slice::cloth(&job.done),
        answer: judge(facts, &mut [0; WORK]),
        job,
        bare,
    };
    add_marks(kinds, &marked);
    add_kept(kinds, &marked);
    add_moved(kinds, &marked);
    add_refused(kinds, &marked);
}

/// Which steps are marked, and which of those are done.
fn add_marks(kinds: &mut Kinds, marked: &Marked) {
    let steps = &marked.job.sheet.old.steps;
    let count = steps.iter().filter(|step| step.cloth).count();
    kinds.add(count == 0, "old route: no step marked");
    kinds.add(count == 1, "old route: one step marked");
    kinds.add(count > 1 && count < steps.len(), "old route: some marked");
    kinds.add(count > 1 && count == steps.len(), "old route: all marked");
    let cuts = &marked.cuts;
    let names: Vec<u64> = cuts.iter().map(|&o| marked.step(o).name).collect();
    let mut once = names.clone();
    once.sort();
    once.dedup();
    kinds.add(names.len() > once.len(), "done: a cut twice");
    kinds.add(cuts.len() > 16, "done: over 16 cuts");
    let blank = |&cut: &usize| marked.reads_a_blank(cut);
    kinds.add(cuts.iter().any(blank), "done: a cut that reads a blank");
}

/// Why occurrences are kept or dropped.
fn add_kept(kinds: &mut Kinds, marked: &Marked) {
    let whole = marked.job.whole();
    let any = |test: &dyn Fn(usize) -> bool| whole.iter().any(|&o| test(o));
    let silent_cut = any(&|o| marked.is_cut(o) && marked.is_silent(o));
    let dropped = any(&|o| !marked.is_cut(o) && marked.is_silent(o));
    let new_mark = |o: usize| marked.job.new_step(o).is_some_and(|step| step.cloth);
    let overwritten = any(&|o| {
        let kept = marked.bare.kept.contains(&o);
        marked.is_cut(o) && !marked.is_silent(o) && !kept
    });
    kinds.add(silent_cut, "kept: a cut that writes nothing");
    kinds.add(overwritten, "kept: a cut whose writes nobody needs");
    kinds.add(marked.kept_for_a_cut(), "kept: what a cut needs");
    let chained = any(&|o| {
        let deep = |n: &usize| !marked.job.needs(*n).is_empty();
        marked.is_cut(o) && marked.job.needs(o).iter().any(deep)
    });
    kinds.add(chained, "kept: what a cut needs, over and over");
    kinds.add(
        dropped && silent_cut,
        "one unmarked that writes nothing, beside",
    );
    let only_new = any(&|o| !marked.is_cut(o) && marked.is_silent(o) && new_mark(o));
    kinds.add(only_new, "not kept: marked in the new route alone");
}

fn add_moved(kinds: &mut Kinds, marked: &Marked) {
    let (cuts, straight) = (marked.cuts.len(), moves_straight(&marked.job));
    kinds.add(straight && cuts > 1, "straight: two cuts or more");
    kinds.add(straight && cuts > 16, "straight: over 16 cuts");
    let searched = check_kept(&marked.job).is_ok() && !straight;
    let but_for_a_mark = searched && moves_straight(&marked.bare);
    kinds.add(but_for_a_mark, "searched: straight but for a mark");
    let Some(moved) = marked.moved_by_search() else {
        return;
    };
    let silent = |&o: &usize| marked.is_cut(o) && marked.is_silent(o);
    let other = !moved.order.is_sorted();
    let kept_silent = moved.kept.iter().any(silent);
    kinds.add(kept_silent, "moved: a cut that writes nothing");
    kinds.add(kept_silent && other, "moved: the same, in another order");
    kinds.add(cuts > 1, "moved: two cuts or more");
    kinds.add(cuts > 1 && other, "moved: the same, in another order, two");
    kinds.add(marked.kept_for_a_cut(), "moved: what a cut needs");
    let dropped_silent = |o: &usize| !moved.kept.contains(o) && marked.is_silent(*o);
    let dropped = marked.job.whole().iter().any(dropped_silent);
    kinds.add(
        kept_silent && dropped,
        "moved: one unmarked beside it dropped",
    );
}

fn add_refused(kinds: &mut Kinds, marked: &Marked) {
    let few = marked.bare.kept.len() <= 16;
    kinds.add(marked.refused(10) && few, "10: over 16 by marks alone");
    let lacks = marked.refused_at(11);
    let silent = |o: usize| marked.is_cut(o) && marked.is_silent(o);
    kinds.add(lacks.is_some_and(silent), "11: a cut that writes nothing");
    // Without marks the step is the same.
    let by_mark = marked
        .refused_at(12)
        .filter(|&o| marked.bare.same_in_new(o));
    let mut add = |kind: &str, test: &dyn Fn(usize) -> bool| {
        kinds.add(
            by_mark.is_some_and(test),
            &format!("12 by the mark: {kind}"),
        );
    };
    add("writes, marked in the old route", &|o| {
        marked.is_cut(o) && !marked.is_silent(o)
    });
    add("writes nothing, marked in the old route", &silent);
    add("marked in the new route", &|o| !marked.is_cut(o));
    let no_order = marked.refused(13);
    let forbidden = no_order && marked.has_an_order_without_marks();
    kinds.add(forbidden, "13: marks alone forbid the order");
    let silent_cuts = marked.cuts.iter().filter(|&&o| silent(o)).count();
    kinds.add(
        forbidden && silent_cuts > 1,
        "13: the same, cuts that write nothing",
    );
}

/// Whether 17 is at this position for the marks alone.
pub fn only_marks_forbid(facts: &Sheet, order: &[u8], position: usize) -> bool {
    let mut unmarked = facts.clone();
    cloth::clear(&mut unmarked);
    let Ok(bare) = Job::of(&unmarked) else {
        return false;
    };
    let (one, rest) = (order[position - 1], &order[position..]);
    let early = |other: &u8| bare.comes_after(one.into(), (*other).into());
    !rest.iter().any(early)
}
