//! Jobs with steps that cut cloth: one of these operations tells each edit of what is
//! kept, of what comes after what or of the marks compared from the right program.

use crate::chosen::{every, job, judge, print, route, step};
use reference::sheet::{Route, Sheet, Step};

/// A step's name, what it reads and writes, and its mark.
type Work = (u64, &'static [u64], &'static [u64], bool);

const CUT_10: Work = (10, &[], &[], true);
const CUT_20: Work = (20, &[], &[], true);
const CUT_40: Work = (40, &[], &[], true);
/// An idle step writes nothing, and has no mark.
const IDLE_10: Work = (10, &[], &[], false);
const IDLE_30: Work = (30, &[], &[], false);
const WRITE_10: Work = (10, &[], &[0], false);
const WRITE_50: Work = (50, &[], &[0], false);
/// More cuts: these read or write.
const MARKED_10: Work = (10, &[], &[0], true);
const READ_20: Work = (20, &[0], &[], true);
const AGAIN_20: Work = (20, &[], &[0], true);
const CHANGE_20: Work = (20, &[0], &[0, 1], true);

/// Every operation of this file, as one script.
pub fn script() -> String {
    [ordered(), needed(), other_marks(), sixteen(), names()].concat()
}

/// Steps one after another.
fn chain(steps: &[Work]) -> Route {
    let one = |(at, &(name, reads, writes, cloth)): (u64, &Work)| Step {
        cloth,
        ..step(name, [&[at], &[at + 1]], [reads, writes])
    };
    let steps: Vec<Step> = (0..).zip(steps).map(one).collect();
    route(steps.len() as u64 + 1, &steps)
}

/// The job of the whole old route, in its order.
fn all_done(old: &Route, new: &Route) -> Sheet {
    let done: Vec<u64> = old.steps.iter().map(|step| step.name).collect();
    job(old, new, &done)
}

/// Cuts that write nothing, straight, with one between them dropped, turned round, on
/// places of their own, and one done again and again.
fn ordered() -> String {
    let old = chain(&[CUT_10, IDLE_30, CUT_20, CUT_40]);
    let dropped = chain(&[CUT_10, CUT_20, CUT_40]);
    let turned = chain(&[CUT_10, CUT_40, CUT_20]);
    let two = chain(&[CUT_10, CUT_20]);
    let mut beside = two.clone();
    (beside.places, beside.start) = (4, vec![0, 2]);
    (beside.steps[1].ins, beside.steps[1].outs) = (vec![2], vec![3]);
    let mut round = two.clone();
    round.places = 2;
    round.steps[1].outs = vec![1];
    let swapped = chain(&[CUT_20, CUT_10]);
    [
        print(&all_done(&old, &old), 200),
        print(&all_done(&old, &dropped), 200),
        print(&all_done(&old, &turned), 200),
        every(&all_done(&old, &old), &[&[1, 3, 4], &[1, 4, 3]]),
        every(&all_done(&old, &dropped), &[&[1, 3, 4], &[1, 2, 3, 4]]),
        every(&all_done(&old, &turned), &[&[1, 4, 3]]),
        every(&all_done(&two, &swapped), &[&[2, 1], &[1, 2]]),
        every(&all_done(&two, &beside), &[&[2, 1], &[1, 2]]),
        every(&job(&round, &round, &[10, 20, 20, 20]), &[&[1, 2, 4, 3]]),
    ]
    .concat()
}

/// A cut reads what was written before it and is written again after it; a cut writes
/// that, or reads and writes it. Then the new route lacks the cut, or has it earlier.
fn needed() -> String {
    let read = [WRITE_10, READ_20, WRITE_50];
    let read_then_idle = [&read[..], &[IDLE_30]].concat();
    let again = [WRITE_10, AGAIN_20];
    let change = [WRITE_10, IDLE_30, CHANGE_20, WRITE_50];
    let changed = [WRITE_10, CHANGE_20, WRITE_50];
    let pairs: [(&[Work], &[Work]); 6] = [
        (&read, &read),
        (&read_then_idle, &read),
        (&again, &[AGAIN_20]),
        (&change, &changed),
        (&[CUT_10, WRITE_50], &[WRITE_50]),
        (&[WRITE_50, CUT_10, IDLE_30], &[CUT_10, WRITE_50]),
    ];
    let each = |(old, new): &(&[Work], &[Work])| {
        let job = all_done(&chain(old), &chain(new));
        every(&job, &[&[1, 2, 3], &[2, 3]])
    };
    pairs.iter().map(each).collect()
}

/// One route has the mark and the other hasn't, where the step writes and where not;
/// alone, and with a step before it that the new route lacks.
fn other_marks() -> String {
    let mut script = String::new();
    for (one, other) in [(IDLE_10, CUT_10), (WRITE_10, MARKED_10)] {
        for (old, new) in [(one, other), (other, one), (other, other)] {
            let new = chain(&[new]);
            script += &every(&all_done(&chain(&[old]), &new), &[&[1], &[]]);
            script += &every(&all_done(&chain(&[IDLE_30, old]), &new), &[&[2], &[]]);
        }
    }
    script
}

/// 16 cuts and 17, and one step more that the new route lacks.
fn sixteen() -> String {
    let of = |count: u64| {
        let cut = |name| -> Work { (name, &[], &[], true) };
        let cuts: Vec<Work> = (1..=count).map(cut).collect();
        let old = [&cuts[..], &[IDLE_30]].concat();
        all_done(&chain(&old), &chain(&cuts))
    };
    judge(&of(16)) + &judge(&of(17))
}

/// Names beside the mark: one twice, marked once; 0 and the greatest name marked.
fn names() -> String {
    let greatest: Work = (4_294_967_295, &[], &[], true);
    let routes = [
        chain(&[CUT_10, IDLE_10]),
        chain(&[IDLE_10, CUT_10]),
        chain(&[(0, &[], &[], true)]),
        chain(&[CUT_20, greatest]),
    ];
    let each = |route: &Route| every(&all_done(route, route), &[&[1, 2]]);
    routes.iter().map(each).collect()
}
