//! What random jobs meet of starts (02, A.5).

use crate::kinds::Kinds;
use reference::judge::{judge, Moved, WORK};
use reference::lines;
use reference::net::{self, Marking};
use reference::refusal::Refusal;
use reference::sheet::{Route, Sheet};
use reference::version::Version;

type Answer = Result<Moved, Refusal>;

fn judged(facts: &Sheet) -> Answer {
    judge(facts, &mut [0; WORK])
}

fn refused(answer: &Answer, number: u32) -> bool {
    answer.as_ref().is_err_and(|r| r.number == number)
}

/// How often steps of these names, in turn from the start, lead back to the start.
fn rounds(route: &Route, names: &[u64]) -> usize {
    let start = net::start(route);
    let mut marking = start.clone();
    let mut rounds = 0;
    for name in names {
        let fired = route.step(*name).map(|step| net::fire(&marking, step));
        let Some(Ok(next)) = fired else { break };
        marking = next;
        rounds += usize::from(marking == start);
    }
    rounds
}

/// Counts the kinds of a job that no row to 5 refuses.
pub fn add(kinds: &mut Kinds, facts: &Sheet) {
    if lines::check(facts, &Version::PRESENT).is_err() {
        return;
    }
    let answer = judged(facts);
    add_starts(kinds, "old", &facts.old);
    add_starts(kinds, "new", &facts.new);
    kinds.add(facts.old.start == facts.new.start, "both starts alike");
    add_empty(kinds, facts, &answer);
    add_others(kinds, facts, &answer);
    if !refused(&answer, 6) && !refused(&answer, 7) {
        add_rounds(kinds, facts, &answer);
    }
}

/// How the start stands to 01's, and how many places it has.
fn add_starts(kinds: &mut Kinds, word: &str, route: &Route) {
    let (start, implied) = (net::start(route), net::implied_start(route));
    let mut add = |met, kind: &str| kinds.add(met, &format!("{word} start: {kind}"));
    let other = !start.is_empty() && start != implied;
    add(start == implied, "01's");
    add(other && implied.is_empty(), "where 01 has none");
    add(other && !implied.is_empty(), "other than 01's");
    add(
        start.is_empty() && !implied.is_empty(),
        "none where 01 has one",
    );
    add(start.len() == 1, "one place");
    add((2..=8).contains(&start.len()), "2 to 8 places");
    add(start.len() > 8, "over 8 places");
    let every = start.len() as u64 == route.places;
    add(every && route.places > 1, "all places");
}

/// 7 at each start line, and 6 at the head where both could be told.
fn add_empty(kinds: &mut Kinds, facts: &Sheet, answer: &Answer) {
    let at = |number, second| answer.as_ref().err() == Some(&Refusal { number, second });
    let (old, new) = (facts.old_line(), facts.new_line());
    kinds.add(at(7, old + 1), "7 at the old start line");
    kinds.add(at(7, new + 1), "7 at the new start line");
    let six = at(6, old) && facts.old.start.is_empty() || at(6, new) && facts.new.start.is_empty();
    kinds.add(six, "6 before an empty start");
}

fn with_starts(facts: &Sheet, [old, new]: [Marking; 2]) -> Sheet {
    let mut other = facts.clone();
    other.old.start = old.into_iter().collect();
    other.new.start = new.into_iter().collect();
    other
}

/// Jobs that are answered otherwise from other starts: 01's, and the two exchanged.
fn add_others(kinds: &mut Kinds, facts: &Sheet, answer: &Answer) {
    let written = [&facts.old, &facts.new].map(net::start);
    let implied = [&facts.old, &facts.new].map(net::implied_start);
    let [old, new] = written.clone();
    let other = |starts| judged(&with_starts(facts, starts));
    let from_01s = other(implied.clone());
    let old_from_01s = other([implied[0].clone(), new.clone()]);
    let new_from_01s = other([old.clone(), implied[1].clone()]);
    let exchanged = other([new, old]);
    let mut add = |met, kind: &str| kinds.add(met, &format!("otherwise {kind}"));
    add(from_01s != *answer, "from 01's starts");
    add(old_from_01s != *answer, "from 01's old start");
    add(new_from_01s != *answer, "from 01's new start");
    add(exchanged != *answer, "with the starts exchanged");
    let moves = answer.is_ok();
    add(
        moves && refused(&from_01s, 7),
        "from 01's starts: 7 for moved",
    );
    add(
        moves && refused(&from_01s, 9),
        "from 01's starts: 9 for moved",
    );
    add(
        moves && refused(&from_01s, 13),
        "from 01's starts: 13 for moved",
    );
    add(
        refused(answer, 9) && from_01s.is_ok(),
        "from 01's starts: moved for 9",
    );
    add(
        refused(answer, 13) && from_01s.is_ok(),
        "from 01's starts: moved for 13",
    );
    let other_end = |other: &Answer| match (answer, other) {
        (Ok(one), Ok(other)) => one.marking != other.marking,
        _ => false,
    };
    add(other_end(&from_01s), "from 01's starts: another marking");
    add(
        other_end(&exchanged),
        "with the starts exchanged: another marking",
    );
}

/// Jobs that have gone round, on the old route and by their order on the new one.
fn add_rounds(kinds: &mut Kinds, facts: &Sheet, answer: &Answer) {
    let round = rounds(&facts.old, &facts.done);
    kinds.add(round == 1, "done: round once");
    kinds.add(round > 1, "done: round more than once");
    kinds.add(round > 3, "done: round more than three times");
    let Ok(moved) = answer else {
        for number in [9, 10, 13] {
            let met = round > 0 && refused(answer, number);
            kinds.add(met, &format!("{number}: after a round"));
        }
        return;
    };
    let names: Vec<u64> = moved.order.iter().map(|&o| facts.done[o - 1]).collect();
    let again = rounds(&facts.new, &names);
    let mut add = |met, kind: &str| kinds.add(met, &format!("moved {kind}"));
    add(
        moved.straight && round > 1,
        "straight: round more than once",
    );
    add(!moved.straight && round > 0, "by search: round");
    add(
        !moved.straight && round > 1,
        "by search: round more than once",
    );
    add(
        !moved.straight && again > 0,
        "by search: round on the new route",
    );
    let other = !moved.order.is_sorted();
    add(other && round > 0, "in another order: round");
    let end = moved.marking == net::start(&facts.new);
    add(end && !moved.order.is_empty(), "to its start");
}
