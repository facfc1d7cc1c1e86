//! Wrong readings of branches taken (02, A.8), and how often random sheets tell them from
//! the right one: by the slice, and by judge's answer.

use crate::for_each_sheet;
use crate::kinds::Kinds;
use crate::kinds_of_branches::{answer, without_tokens};
use reference::job::Job;
use reference::sheet::{Route, Step};
use reference::slice::{kept, table, Occurrences};

/// Each wrong reading must be told so many times, by slice and by judge.
const LEAST: usize = 10;

/// Who put what an occurrence takes, said of the list alone.
#[derive(Clone, Copy)]
struct Reading {
    shared: fn(&Job, u64) -> bool,
    takes: fn(&Step, u64) -> bool,
    puts: fn(&Step, u64) -> bool,
    /// Which of the earlier ones that put there.
    of_those: fn(&[usize]) -> &[usize],
}

/// The last earlier one that has the place among its outs and not among its ins.
const RIGHT: Reading = Reading {
    shared: |job, place| count(&job.sheet.old, place, has_in) > 1,
    takes: has_in,
    puts: |step, place| has_out(step, place) && !has_in(step, place),
    of_those: |all| &all[all.len().saturating_sub(1)..],
};

const WRONG: [(&str, Reading); 11] = [
    (
        "each place is shared",
        Reading {
            shared: |_, _| true,
            ..RIGHT
        },
    ),
    (
        "the new route shares",
        Reading {
            shared: |job, p| count(&job.sheet.new, p, has_in) > 1,
            ..RIGHT
        },
    ),
    (
        "three steps share",
        Reading {
            shared: |job, p| count(&job.sheet.old, p, has_in) > 2,
            ..RIGHT
        },
    ),
    (
        "steps that put share",
        Reading {
            shared: |job, p| count(&job.sheet.old, p, has_out) > 1,
            ..RIGHT
        },
    ),
    (
        "in-places less out-places share",
        Reading {
            shared: |job, p| count(&job.sheet.old, p, empties) > 1,
            ..RIGHT
        },
    ),
    (
        "done steps share",
        Reading {
            shared: |job, p| done(job, p) > 1,
            ..RIGHT
        },
    ),
    (
        "occurrences share",
        Reading {
            shared: |job, p| job.done.iter().filter(|s| has_in(s, p)).count() > 1,
            ..RIGHT
        },
    ),
    (
        "one both in and out doesn't take",
        Reading {
            takes: empties,
            ..RIGHT
        },
    ),
    (
        "one both in and out puts",
        Reading {
            puts: has_out,
            ..RIGHT
        },
    ),
    (
        "the first putter",
        Reading {
            of_those: |all| &all[..all.len().min(1)],
            ..RIGHT
        },
    ),
    (
        "every earlier putter",
        Reading {
            of_those: |all| all,
            ..RIGHT
        },
    ),
];

fn has_in(step: &Step, place: u64) -> bool {
    step.ins.contains(&place)
}

fn has_out(step: &Step, place: u64) -> bool {
    step.outs.contains(&place)
}

fn empties(step: &Step, place: u64) -> bool {
    has_in(step, place) && !has_out(step, place)
}

fn count(route: &Route, place: u64, test: fn(&Step, u64) -> bool) -> usize {
    let steps = route.steps.iter();
    steps.filter(|step| test(step, place)).count()
}

/// How many steps take from the place that were done.
fn done(job: &Job, place: u64) -> usize {
    let Route { steps, .. } = &job.sheet.old;
    let done = |step: &&Step| job.sheet.done.contains(&step.name);
    steps
        .iter()
        .filter(done)
        .filter(|step| has_in(step, place))
        .count()
}

impl Reading {
    fn putters(&self, job: &Job) -> Vec<Occurrences> {
        let places = 0..job.sheet.old.places;
        let shared: Vec<u64> = places.filter(|&place| (self.shared)(job, place)).collect();
        let row = |occurrence: usize| {
            let step = job.done[occurrence - 1];
            let taken = shared.iter().filter(|&&place| (self.takes)(step, place));
            let putters = taken.flat_map(|&place| {
                let puts = |o: &usize| (self.puts)(job.done[o - 1], place);
                let all: Vec<usize> = (1..occurrence).filter(puts).collect();
                (self.of_those)(&all).to_vec()
            });
            putters.collect()
        };
        job.whole().into_iter().map(row).collect()
    }

    /// The job by this reading.
    fn read<'a>(&self, job: &Job<'a>) -> Job<'a> {
        let putters = self.putters(job);
        Job {
            kept: kept(&job.done, &putters, &job.sheet.new),
            putters,
            ..job.clone()
        }
    }
}

type Use = for<'a> fn(&Job<'a>) -> Job<'a>;

/// The right pairs, wrongly used: what is kept, and what comes after what.
const WRONG_USES: [(&str, Use); 7] = [
    ("needed, but doesn't come after", |job| Job {
        putters: without_tokens(job).putters,
        ..job.clone()
    }),
    ("comes after, but isn't needed", |job| Job {
        kept: without_tokens(job).kept,
        ..job.clone()
    }),
    ("kept only if it writes", |job| {
        let mut job = job.clone();
        let done = job.done.clone();
        job.kept
            .retain(|o| !done[o - 1].writes.is_empty() || done[o - 1].cloth);
        job
    }),
    ("needs of those needed aren't followed", |job| {
        let bare = without_tokens(job).kept;
        let needed = bare.iter().flat_map(|o| job.putters[o - 1].clone());
        let kept = bare.iter().copied().chain(needed).collect();
        Job {
            kept,
            ..job.clone()
        }
    }),
    ("each putter is kept", |job| {
        let mut job = job.clone();
        job.kept.extend(job.putters.iter().flatten());
        job
    }),
    ("a putter comes after an earlier one", |job| {
        after_earlier(job, RIGHT.puts)
    }),
    ("a putter comes after an earlier taker", |job| {
        after_earlier(job, has_in)
    }),
];

/// The job in which one that puts on a shared place comes after the earlier ones of which
/// the test holds there.
fn after_earlier<'a>(job: &Job<'a>, test: fn(&Step, u64) -> bool) -> Job<'a> {
    let mut other = job.clone();
    let places = 0..job.sheet.old.places;
    for place in places.filter(|&place| (RIGHT.shared)(job, place)) {
        for later in job.whole() {
            if (RIGHT.puts)(job.done[later - 1], place) {
                let earlier = (1..later).filter(|o| test(job.done[o - 1], place));
                other.putters[later - 1].extend(earlier);
            }
        }
    }
    other
}

fn add(kinds: &mut Kinds, job: &Job, wrong: &Job, name: &str) {
    let rows = |job: &Job| table(&job.done, &job.putters);
    let sliced = wrong.kept != job.kept || rows(wrong) != rows(job);
    kinds.add(sliced, &format!("slice tells: {name}"));
    kinds.add(
        sliced && answer(wrong) != answer(job),
        &format!("judge tells: {name}"),
    );
}

#[test]
fn sheets_tell_wrong_readings() {
    let mut kinds = Kinds::default();
    for_each_sheet("wrong branches", &mut |facts, _| {
        let Ok(job) = Job::of(facts) else { return };
        for (name, reading) in WRONG {
            add(&mut kinds, &job, &reading.read(&job), name);
        }
        for (name, wrong) in WRONG_USES {
            add(&mut kinds, &job, &wrong(&job), name);
        }
    });
    kinds.finish(LEAST);
}

/// What the replay says of a token's putter, the list alone says too.
#[test]
fn the_list_says_who_put_a_token() {
    for_each_sheet("putters", &mut |facts, _| {
        let Ok(job) = Job::of(facts) else { return };
        assert_eq!(RIGHT.putters(&job), job.putters);
    });
}
