//! What random sheets meet on their way between editions (02, A.6).

use crate::kinds::Kinds;
use reference::convert::{down, up, Way};
use reference::layout;
use reference::net::{self, implied_start, Marking};
use reference::refusal::Refusal;
use reference::sheet::{Route, Sheet, Step};
use reference::version::Version;

/// More than any sheet needs.
const ROOM: usize = 21_000;

/// The greatest name that 01's layout can say.
const GREATEST: u64 = 65_535;

/// Each line that 01's layout can't say, and why.
pub fn departures(facts: &Sheet) -> Vec<(usize, String)> {
    let mut all = of_route("old", &facts.old, facts.old_line());
    all.extend(of_route("new", &facts.new, facts.new_line()));
    for (index, &name) in facts.done.iter().enumerate() {
        if name > GREATEST {
            all.push((facts.done_line(index + 1), "done name".into()));
        }
    }
    all
}

fn of_route(word: &str, route: &Route, head: usize) -> Vec<(usize, String)> {
    let mut all = Vec::new();
    let mut add = |line, why: &str| all.push((line, format!("{word} {why}")));
    if net::start(route) != implied_start(route) {
        add(head + 1, "start");
    }
    for (index, step) in route.steps.iter().enumerate() {
        match (step.name > GREATEST, step.cloth) {
            (false, false) => {}
            (true, false) => add(head + 2 + index, "name"),
            (false, true) => add(head + 2 + index, "mark"),
            (true, true) => add(head + 2 + index, "name and mark"),
        }
    }
    all
}

/// Counts the kinds of a sheet that is taken up, if it is of 01's version, or down.
pub fn add(kinds: &mut Kinds, bytes: &[u8], version: &Version) {
    let ways: [(Way, &str); 2] = [(up, "up"), (down, "down")];
    let (way, word) = ways[usize::from(version.start)];
    let answer = way(bytes, &mut vec![0; ROOM]);
    let row = answer.map_or_else(|refusal| refusal.number, |_| 0);
    kinds.add(true, &format!("{word}, row {row}"));
    // What can be told of facts that keep the layout, in their range or nearly so.
    let few = |facts: &Sheet| facts.old.places <= 64 && facts.new.places <= 64;
    if let Some(facts) = layout::read(bytes, version).ok().filter(few) {
        let mut of_way = Kinds::default();
        add_places(&mut of_way, &facts, version, answer.err());
        add_names(&mut of_way, &facts, answer.err());
        add_readings(&mut of_way, &facts, answer.err());
        if version.start {
            add_departures(&mut of_way, &facts, answer.err());
            add_starts(&mut of_way, &facts, answer.err());
        }
        for (kind, count) in of_way.0 {
            kinds.add(count > 0, &format!("{word}, {kind}"));
        }
    }
    if let (Err(refusal), false) = (answer, version.start) {
        add_broken(kinds, bytes, refusal);
    }
}

/// Whether some place is in no step.
fn unused(route: &Route) -> bool {
    let in_step = |place: u64, step: &Step| step.ins.contains(&place) || step.outs.contains(&place);
    let used = |place| route.steps.iter().any(|step| in_step(place, step));
    !(0..route.places).all(used)
}

/// Rows 6 and 7 of each route, and where both or those of both routes could be told.
fn add_places(kinds: &mut Kinds, facts: &Sheet, version: &Version, refusal: Option<Refusal>) {
    let start = |route: &Route| -> Marking {
        if version.start {
            net::start(route)
        } else {
            implied_start(route)
        }
    };
    let (old, new) = (facts.old_line(), facts.new_line_by(version));
    let told = usize::from(version.start);
    let met = |number, second| refusal == Some(Refusal { number, second });
    let [old_6, new_6] = [&facts.old, &facts.new].map(unused);
    let [old_7, new_7] = [&facts.old, &facts.new].map(|route| start(route).is_empty());
    let mut add = |met, kind: &str| kinds.add(met, kind);
    add(met(6, old), "6 of old");
    add(met(6, new), "6 of new");
    add(met(7, old + told), "7 of old");
    add(met(7, new + told), "7 of new");
    add(met(6, old) && new_6, "6 of old before 6 of new");
    add(met(6, old) && new_7, "6 of old before 7 of new");
    add(met(7, old + told) && new_6, "7 of old before 6 of new");
    add(met(7, old + told) && new_7, "7 of old before 7 of new");
    if version.start {
        add(met(6, old) && old_7, "6 before 7 of old");
        add(met(6, new) && new_7, "6 before 7 of new");
    }
    let both = refusal.is_none() && !(old_6 || old_7 || new_7);
    let places = |route: &Route| implied_start(route).len();
    add(both && places(&facts.old) == 1, "goes: one old start place");
    add(
        both && places(&facts.old) > 1,
        "goes: more old start places",
    );
    add(
        both && places(&facts.new) > 1,
        "goes: more new start places",
    );
    let other = implied_start(&facts.old) != implied_start(&facts.new);
    add(both && other, "goes: two different starts");
    add(both && facts.done.is_empty(), "goes: nothing done");
    add(both && facts.done.len() == 64, "goes: 64 done");
}

/// Readings that nobody writes, which no way between editions looks for.
fn add_readings(kinds: &mut Kinds, facts: &Sheet, refusal: Option<Refusal>) {
    let [old, new] = [&facts.old, &facts.new].map(|route| {
        let written = |variable: &u64| route.steps.iter().any(|s| s.writes.contains(variable));
        let mut read = route.steps.iter().flat_map(|step| &step.reads);
        read.any(|variable| !written(variable))
    });
    let row = refusal.map_or(0, |refusal| refusal.number);
    let mut add = |met, kind: &str| kinds.add(met, &format!("{kind}, a reading nobody writes"));
    add(row == 0 && old, "goes: old");
    add(row == 0 && new, "goes: new");
    add(row == 6 && (old || new), "6");
    add(row == 7 && (old || new), "7");
    if facts.done.iter().any(|&name| name > GREATEST) {
        add(matches!(row, 2 | 22) && (old || new), "a long done name");
    }
}

/// Names at and past 65,535, by where they stand.
fn add_names(kinds: &mut Kinds, facts: &Sheet, refusal: Option<Refusal>) {
    let names = |route: &Route| route.steps.iter().map(|step| step.name).collect();
    let lists: [(&str, Vec<u64>); 3] = [
        ("old", names(&facts.old)),
        ("new", names(&facts.new)),
        ("done", facts.done.clone()),
    ];
    let row = refusal.map_or(0, |refusal| refusal.number);
    for (word, list) in lists {
        let mut add = |met, kind: &str| kinds.add(met, &format!("{word} name {kind}"));
        add(row == 0 && list.contains(&GREATEST), "65,535 goes");
        let refused = matches!(row, 2 | 22);
        add(refused && list.contains(&(GREATEST + 1)), "65,536 refused");
        let ends_as_one = |name: &u64| *name > GREATEST && !name.is_multiple_of(65_536);
        let met = refused && list.iter().any(ends_as_one);
        add(met, "over 65,536 refused");
    }
}

/// 22 by the first line's kind: alone, before another of the same or of another kind,
/// and after the rows to 7.
fn add_departures(kinds: &mut Kinds, facts: &Sheet, refusal: Option<Refusal>) {
    let all = departures(facts);
    let row = refusal.map_or(0, |refusal| refusal.number);
    let Some((line, kind)) = all.first() else {
        return;
    };
    let met = refusal
        == Some(Refusal {
            number: 22,
            second: *line,
        });
    let alone = if all.len() == 1 {
        "alone"
    } else {
        "before others"
    };
    kinds.add(met, &format!("22, {kind}, {alone}"));
    for before in [2, 3, 4, 5, 6, 7] {
        // A line further up that 01's layout can't say.
        let earlier = refusal.is_some_and(|refusal| *line < refusal.second);
        kinds.add(
            row == before && earlier,
            &format!("{before} though 22 is further up"),
        );
    }
}

/// How starts that aren't the implied ones stand to these.
fn add_starts(kinds: &mut Kinds, facts: &Sheet, refusal: Option<Refusal>) {
    if refusal.is_none_or(|refusal| refusal.number != 22) {
        return;
    }
    let written = [&facts.old, &facts.new].map(net::start);
    let implied = [&facts.old, &facts.new].map(implied_start);
    for (at, word) in ["old", "new"].into_iter().enumerate() {
        let (start, own, others) = (&written[at], &implied[at], &implied[1 - at]);
        let mut add = |met, kind: &str| {
            kinds.add(start != own && met, &format!("22, {word} start: {kind}"));
        };
        add(own.is_empty(), "none implied");
        add(!own.is_empty() && start.is_superset(own), "places more");
        add(start.is_subset(own), "places fewer");
        add(
            start.is_disjoint(own) && !own.is_empty(),
            "none of the implied",
        );
        add(start.first() == own.first(), "the first alike");
        add(start.len() == own.len(), "so many others");
        add(start == others, "the other route's");
    }
    let exchanged = written[0] == implied[1] && written[1] == implied[0];
    kinds.add(written != implied && exchanged, "22, starts exchanged");
    let both = written[0] != implied[0] && written[1] != implied[1];
    kinds.add(both, "22, both starts");
}

/// Where 01's layout breaks: at what only the present one has.
fn add_broken(kinds: &mut Kinds, bytes: &[u8], refusal: Refusal) {
    let from = |back: usize| {
        bytes
            .get(refusal.second.saturating_sub(back)..)
            .unwrap_or_default()
    };
    let mut add =
        |met, kind: &str| kinds.add(refusal.number == 1 && met, &format!("up, 1 at {kind}"));
    add(from(0).starts_with(b" (cloth)"), "a mark");
    add(from(3).starts_with(b"(start"), "a start line");
    let six = |part: &[u8]| part.len() > 5 && part[..6].iter().all(u8::is_ascii_digit);
    add(six(from(5)), "a sixth digit");
}
