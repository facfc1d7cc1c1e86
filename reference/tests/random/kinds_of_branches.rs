//! What random jobs meet of branches taken (02, A.8).

use crate::kinds::Kinds;
use reference::fit::moves_straight;
use reference::job::Job;
use reference::judge::{judge_job, Moved, WORK};
use reference::refusal::Refusal;
use reference::sheet::{Route, Sheet, Step};
use reference::slice::{kept, Occurrences};
use reference::tokens::{is_shared, taken, Tokens};

/// A job that no row to 9 refuses, beside itself as it was before 02's A.8, and what
/// both are answered.
struct Branched<'a> {
    job: Job<'a>,
    bare: Job<'a>,
    /// For each occurrence the tokens that it takes.
    taken: Vec<Tokens>,
    answers: [Result<Moved, Refusal>; 2],
}

/// A token that was taken from a shared place.
#[derive(Clone, Copy)]
struct Taken {
    place: u64,
    taker: usize,
    putter: Option<usize>,
}

/// The job with no needs and no precedence by tokens.
pub fn without_tokens<'a>(job: &Job<'a>) -> Job<'a> {
    let putters = vec![Occurrences::new(); job.done.len()];
    Job {
        kept: kept(&job.done, &putters, &job.sheet.new),
        putters,
        ..job.clone()
    }
}

pub fn answer(job: &Job) -> Result<Moved, Refusal> {
    judge_job(job, &mut [0; WORK])
}

/// Both in and out.
fn looks(step: &Step, place: u64) -> bool {
    step.ins.contains(&place) && step.outs.contains(&place)
}

impl<'a> Branched<'a> {
    fn of(facts: &'a Sheet) -> Option<Branched<'a>> {
        let job = Job::of(facts).ok()?;
        let bare = without_tokens(&job);
        Some(Branched {
            taken: taken(&facts.old, &job.done),
            answers: [&bare, &job].map(answer),
            job,
            bare,
        })
    }

    fn step(&self, occurrence: usize) -> &'a Step {
        self.job.done[occurrence - 1]
    }

    /// Writes nothing and isn't marked.
    fn is_silent(&self, occurrence: usize) -> bool {
        let step = self.step(occurrence);
        step.writes.is_empty() && !step.cloth
    }

    /// The tokens that were taken from shared places.
    fn tokens(&self) -> Vec<Taken> {
        let old = &self.job.sheet.old;
        let mut all = Vec::new();
        for (tokens, taker) in self.taken.iter().zip(1..) {
            for (&place, &putter) in tokens.iter().filter(|(&place, _)| is_shared(old, place)) {
                let taken = Taken {
                    place,
                    taker,
                    putter,
                };
                all.push(taken);
            }
        }
        all
    }

    /// The kept that aren't kept without tokens.
    fn kept_for_tokens(&self) -> Vec<usize> {
        self.job.kept.difference(&self.bare.kept).copied().collect()
    }

    fn moved(&self) -> Option<&Moved> {
        self.answers[1].as_ref().ok()
    }
}

/// Counts the job's kinds.
pub fn add(kinds: &mut Kinds, facts: &Sheet) {
    let Some(branched) = Branched::of(facts) else {
        return;
    };
    add_places(kinds, &facts.old);
    add_taken(kinds, &branched);
    add_places_taken(kinds, &branched);
    add_done(kinds, &branched);
    add_kept(kinds, &branched);
    add_dropped(kinds, &branched);
    add_moved(kinds, &branched);
    add_answers(kinds, &branched);
    add_new(kinds, &branched);
}

/// How places of the old route are shared.
fn add_places(kinds: &mut Kinds, old: &Route) {
    let takers = |place: u64| {
        let steps = old.steps.iter();
        steps.filter(move |step| step.ins.contains(&place))
    };
    let counts: Vec<usize> = (0..old.places).map(|place| takers(place).count()).collect();
    let shared = counts.iter().filter(|&&count| count > 1).count();
    let mut add = |met, kind: &str| kinds.add(met, &format!("old route: {kind}"));
    add(shared == 0, "no place shared");
    add(shared == 1, "one place shared");
    add(shared > 1, "places shared");
    add(shared == 0 || counts.contains(&1), "a place with one taker");
    add(counts.contains(&2), "two take from a place");
    add(
        counts.iter().any(|&count| count > 2),
        "three or more take from one",
    );
    let any = |test: &dyn Fn(u64) -> bool| (0..old.places).any(|p| is_shared(old, p) && test(p));
    let looking = |place| takers(place).filter(|step| looks(step, place)).count();
    add(any(&|p| looking(p) > 0), "a shared place both in and out");
    add(
        any(&|p| takers(p).count() - looking(p) == 1),
        "shared but for that one taker",
    );
    add(any(&|p| old.start.contains(&p)), "a shared start place");
}

/// Who put the tokens that were taken.
fn add_taken(kinds: &mut Kinds, branched: &Branched) {
    let tokens = branched.tokens();
    let mut add = |kind: &str, test: &dyn Fn(&Taken) -> bool| {
        kinds.add(tokens.iter().any(test), &format!("taken: {kind}"));
    };
    let putter = |token: &Taken, test: &dyn Fn(usize) -> bool| token.putter.is_some_and(test);
    add("a start token", &|token| token.putter.is_none());
    add("the putter is silent", &|token| {
        putter(token, &|o| branched.is_silent(o))
    });
    add("the putter writes", &|token| {
        putter(token, &|o| !branched.is_silent(o))
    });
    add("the putter stands just before", &|token| {
        token.putter == Some(token.taker - 1)
    });
    add("the putter stands further up", &|token| {
        putter(token, &|o| o + 1 < token.taker)
    });
    add("data would say the same", &|token| {
        putter(token, &|o| branched.bare.comes_after(token.taker, o))
    });
    add("data wouldn't say so", &|token| {
        putter(token, &|o| !branched.bare.comes_after(token.taker, o))
    });
}

/// What else happened on the place.
fn add_places_taken(kinds: &mut Kinds, branched: &Branched) {
    let tokens = branched.tokens();
    let mut add = |kind: &str, test: &dyn Fn(&Taken) -> bool| {
        kinds.add(tokens.iter().any(test), &format!("taken: {kind}"));
    };
    add("both in and out", &|token| {
        looks(branched.step(token.taker), token.place)
    });
    add("after one that has it both in and out", &|token| {
        let between = token.putter.map_or(1, |o| o + 1)..token.taker;
        between
            .into_iter()
            .any(|o| looks(branched.step(o), token.place))
    });
    add("after an older token on the place", &|token| {
        let earlier = |other: &Taken| other.place == token.place && other.taker < token.taker;
        tokens
            .iter()
            .any(|other| earlier(other) && other.putter != token.putter)
    });
    add("by the only step of its takers that was done", &|token| {
        let others = branched
            .job
            .done
            .iter()
            .filter(|step| step.ins.contains(&token.place));
        let name = branched.step(token.taker).name;
        others.into_iter().all(|step| step.name == name)
    });
}

/// Pairs of the whole done list.
fn add_done(kinds: &mut Kinds, branched: &Branched) {
    let (tokens, putters) = (branched.tokens(), &branched.job.putters);
    let mut add = |met, kind: &str| kinds.add(met, &format!("done: {kind}"));
    add(
        putters.iter().any(|row| row.len() > 1),
        "takes what two put",
    );
    let again = |one: &Taken, other: &Taken| one.putter.is_some() && one.putter == other.putter;
    let two = |test: &dyn Fn(&Taken, &Taken) -> bool| {
        let mut all = tokens.iter();
        all.any(|one| {
            tokens
                .iter()
                .any(|other| again(one, other) && test(one, other))
        })
    };
    add(
        two(&|one, other| one.taker == other.taker && one.place != other.place),
        "takes two tokens of one putter",
    );
    add(
        two(&|one, other| one.taker != other.taker && one.place != other.place),
        "one putter, two takers, two places",
    );
    add(
        two(&|one, other| one.taker != other.taker && one.place == other.place),
        "one token, two takers",
    );
    let chained = |row: &Occurrences| row.iter().any(|&o| !putters[o - 1].is_empty());
    add(
        putters.iter().any(chained),
        "a putter that took from a shared place",
    );
}

/// Why occurrences are kept or dropped.
fn add_kept(kinds: &mut Kinds, branched: &Branched) {
    let more = branched.kept_for_tokens();
    let Branched { job, .. } = branched;
    let mut add = |met, kind: &str| kinds.add(met, &format!("kept: {kind}"));
    add(!more.is_empty(), "one for a token alone");
    add(
        more.iter().any(|&o| branched.is_silent(o)),
        "a silent one for a token",
    );
    add(
        more.iter().any(|&o| !branched.is_silent(o)),
        "a writer for a token alone",
    );
    let through = |&o: &usize| {
        let needed = |other: &usize| more.contains(other) && job.putters[other - 1].contains(&o);
        more.iter().any(needed)
    };
    add(
        more.iter().any(through),
        "one for a token of one for a token",
    );
    let by_data = |&o: &usize| {
        let data =
            |other: &usize| job.needs(*other).contains(&o) && !job.putters[other - 1].contains(&o);
        more.iter().any(data)
    };
    add(more.iter().any(by_data), "what one for a token reads");
    let for_a_cut = |&o: &usize| {
        let cut = |taker: usize| branched.step(taker).cloth && job.putters[taker - 1].contains(&o);
        job.whole().into_iter().any(cut)
    };
    add(
        more.iter().any(for_a_cut),
        "one for a token that a cut took",
    );
}

/// Why those that write nothing are dropped.
fn add_dropped(kinds: &mut Kinds, branched: &Branched) {
    let Branched { job, .. } = branched;
    let mut add = |met, kind: &str| kinds.add(met, &format!("dropped: {kind}"));
    let puts = |o: usize| job.putters.iter().any(|row| row.contains(&o));
    let dropped = |&o: &usize| branched.is_silent(o) && puts(o) && !job.kept.contains(&o);
    add(
        job.whole().iter().any(dropped),
        "a silent putter of a dropped taker",
    );
    let idle = |&o: &usize| branched.is_silent(o) && !puts(o);
    add(
        !branched.kept_for_tokens().is_empty() && job.whole().iter().any(idle),
        "a silent one beside a kept one",
    );
}

fn add_moved(kinds: &mut Kinds, branched: &Branched) {
    let Some(moved) = branched.moved() else {
        return;
    };
    let Branched { job, bare, .. } = branched;
    let more = branched.kept_for_tokens();
    let by_token =
        |o: usize, other: usize| job.comes_after(o, other) && !bare.comes_after(o, other);
    let mut pairs = moved.after.iter();
    let shows = pairs.any(|(one, others)| others.iter().any(|&other| by_token(*one, other)));
    let mut add = |met, kind: &str| kinds.add(met, &format!("moved: {kind}"));
    add(moved.straight && shows, "straight, a pair in an after line");
    add(
        moved.straight && more.len() + bare.kept.len() > 16,
        "straight, over 16 kept",
    );
    let searched = !moved.straight;
    let silent = more.iter().any(|&o| branched.is_silent(o));
    add(searched && shows, "a pair in an after line");
    add(searched && silent, "a silent putter");
    add(
        searched && silent && moved.dropped > 0,
        "a silent putter, others dropped",
    );
    let other = !moved.order.is_sorted();
    add(
        searched && !more.is_empty() && other,
        "one for a token, in another order",
    );
    add(searched && shows && other, "a pair, in another order");
    let first = searched
        && branched.answers[0]
            .as_ref()
            .is_ok_and(|before| more.is_empty() && before.order != moved.order);
    add(first, "the first order is another for the pairs");
    let swapped = searched && swapped_putters(job, &moved.order);
    add(swapped, "putters of a place, the later one first");
}

/// Whether two that put on one place stand in the order the other way round.
fn swapped_putters(job: &Job, order: &[usize]) -> bool {
    let puts = |o: usize, place: &u64| {
        let step = job.done[o - 1];
        step.outs.contains(place) && !step.ins.contains(place)
    };
    let same = |one: usize, other: usize| {
        let mut places = 0..job.sheet.old.places;
        places.any(|place| {
            is_shared(&job.sheet.old, place) && puts(one, &place) && puts(other, &place)
        })
    };
    let later_first = |pair: (usize, usize)| pair.0 > pair.1 && same(pair.0, pair.1);
    let mut pairs = order.iter().enumerate();
    pairs.any(|(at, &one)| order[at..].iter().any(|&other| later_first((one, other))))
}

/// Answers that differ with tokens from those without them.
const CHANGES: [[&str; 2]; 8] = [
    ["moved", "10"],
    ["moved", "11"],
    ["moved", "12"],
    ["moved", "13"],
    ["moved", "moved"],
    ["13", "11"],
    ["13", "12"],
    ["13", "moved"],
];

/// What a job is answered, without tokens and with them.
fn add_answers(kinds: &mut Kinds, branched: &Branched) {
    if moves_straight(&branched.job) {
        return;
    }
    let word = |answer: &Result<Moved, Refusal>| match answer {
        Ok(_) => "moved".to_string(),
        Err(refusal) => refusal.number.to_string(),
    };
    let [before, now] = &branched.answers;
    for [before_row, row] in CHANGES {
        let met = [word(before), word(now)] == [before_row, row] && before != now;
        kinds.add(met, &format!("answer: {before_row} is {row}"));
    }
}

/// How the new route shares.
fn add_new(kinds: &mut Kinds, branched: &Branched) {
    let Sheet { old, new, .. } = branched.job.sheet;
    let branches = |route: &Route, name: u64| {
        let ins = route.step(name).map_or(&[][..], |step| &step.ins);
        ins.iter().any(|&place| is_shared(route, place))
    };
    let done = branched
        .job
        .done
        .iter()
        .filter(|step| new.step(step.name).is_some());
    let both: Vec<[bool; 2]> = done
        .map(|step| [old, new].map(|r| branches(r, step.name)))
        .collect();
    let mut add = |met, kind: &str| kinds.add(met, &format!("new route: {kind}"));
    add(both.contains(&[true, true]), "a branch as on the old one");
    add(both.contains(&[true, false]), "no branch any more");
    add(both.contains(&[false, true]), "a branch that was none");
}

/// Whether 17 is at this position for a pair alone.
pub fn only_pairs_forbid(facts: &Sheet, order: &[u8], position: usize) -> bool {
    let Ok(job) = Job::of(facts) else {
        return false;
    };
    let bare = without_tokens(&job);
    let (one, rest) = (order[position - 1], &order[position..]);
    let early = |other: &u8| bare.comes_after(one.into(), (*other).into());
    !rest.iter().any(early)
}
