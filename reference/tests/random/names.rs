//! Long names (02, A.2): how often random sheets have them, right and wrong, and
//! that a job with other names has the same answer.

use crate::kinds::Kinds;
use crate::{for_each_sheet, judged};
use reference::random::{damage::damage, names::rename};
use reference::sheet::{self, Route, Sheet};

/// Whether two different names of the route end with the same bits, so many.
fn two_alike(route: &Route, bits: u32) -> bool {
    let mut ends: Vec<u64> = route.steps.iter().map(|s| s.name % (1 << bits)).collect();
    ends.sort();
    ends.windows(2).any(|two| two[0] == two[1])
}

/// Whether a done name is no step's, but ends with the 16 bits of a step's name.
fn done_alike(facts: &Sheet) -> bool {
    let strange = |name: &&u64| facts.old.step(**name).is_none();
    let alike = |name: &u64| {
        facts
            .old
            .steps
            .iter()
            .any(|s| s.name % 65_536 == name % 65_536)
    };
    facts.done.iter().filter(strange).any(alike)
}

fn add_names(kinds: &mut Kinds, of: &str, names: &[u64]) {
    let mut add = |kind: &str, test: fn(u64) -> bool| {
        let met = names.iter().any(|&name| test(name));
        kinds.add(met, &format!("{of}: {kind}"));
    };
    add("up to 65,535", |name| name <= 65_535);
    add("over 65,535", |name| name > 65_535);
    add("65,535 or 65,536", |name| name.abs_diff(65_535) <= 1);
    add("99,999 or 100,000", |name| matches!(name, 99_999 | 100_000));
    add("ten digits", |name| name > 999_999_999);
    add("4,294,967,294", |name| name == 4_294_967_294);
    add("4,294,967,295", |name| name == 4_294_967_295);
}

#[test]
fn sheets_have_long_names() {
    let mut kinds = Kinds::default();
    for_each_sheet("long names", &mut |facts, _| {
        let steps = facts.old.steps.iter().chain(&facts.new.steps);
        let names: Vec<u64> = steps.map(|step| step.name).collect();
        add_names(&mut kinds, "steps", &names);
        add_names(&mut kinds, "done", &facts.done);
        let long = facts.done.iter().any(|&name| name > 65_535);
        kinds.add(long && judged(facts).is_ok(), "done over 65,535, moved");
        kinds.add(
            two_alike(&facts.old, 8),
            "steps that end with the same 8 bits",
        );
        kinds.add(
            two_alike(&facts.old, 16),
            "steps that end with the same 16 bits",
        );
        kinds.add(done_alike(facts), "done that ends as a step, 16 bits");
    });
    kinds.finish(10);
}

/// Each number of the sheet, with the word that it stands after.
fn numbers(bytes: &[u8]) -> Vec<(String, String)> {
    let text = String::from_utf8_lossy(bytes);
    let mut numbers = Vec::new();
    for form in text.split('(') {
        let end = form.find([' ', ')']).unwrap_or(form.len());
        let (word, rest) = form.split_at(end);
        let words = rest.split(|c: char| !c.is_ascii_digit());
        let some = words.filter(|digits| !digits.is_empty());
        numbers.extend(some.map(|digits| (word.to_string(), digits.to_string())));
    }
    numbers
}

/// Which of nine kinds of long numbers this is.
fn kind(digits: &str) -> Option<&'static str> {
    let value = digits.parse::<u64>().unwrap_or(u64::MAX);
    match (digits.len(), digits.starts_with('0')) {
        (10, true) => Some("0 and nine digits"),
        (11, true) => Some("0 and ten digits"),
        (11, false) if value == 10_000_000_000 => Some("10,000,000,000"),
        (11, false) => Some("eleven digits"),
        (10, false) if value == 9_999_999_999 => Some("9,999,999,999"),
        (10, false) if value > 4_294_967_297 => Some("over 4,294,967,297"),
        (10, false) if value > 4_294_967_295 => Some("4,294,967,296 or 7"),
        (10, false) => Some("ten digits up to 4,294,967,295"),
        (6..=9, false) => Some("six to nine digits"),
        _ => None,
    }
}

const WORDS: [&str; 9] = [
    "old", "new", "start", "step", "in", "out", "read", "write", "done",
];

#[test]
fn damage_makes_long_numbers_everywhere() {
    let mut kinds = Kinds::default();
    for_each_sheet("long numbers", &mut |facts, dice| {
        let text = sheet::text(facts);
        let damaged = (0..3).flat_map(|_| numbers(&damage(text.as_bytes(), dice)));
        for (word, digits) in damaged {
            if let (Some(kind), true) = (kind(&digits), WORDS.contains(&&word[..])) {
                kinds.add(true, &format!("{word}: {kind}"));
            }
        }
    });
    kinds.finish(5);
    assert_eq!(kinds.0.len(), 9 * WORDS.len());
}

/// A number that is a step's name in its last 32 bits: row 2, or an eleventh digit.
#[test]
fn damage_makes_numbers_that_end_as_names() {
    let mut kinds = Kinds::default();
    for_each_sheet("same 32 bits", &mut |facts, dice| {
        let bytes = damage(sheet::text(facts).as_bytes(), dice);
        let past = |word: &str| {
            let all = numbers(&bytes).into_iter().filter(|(of, _)| of == word);
            let mut values = all.map(|(_, digits)| digits.parse::<u64>().unwrap_or(0));
            values.any(|value| value >> 32 > 0 && facts.old.step(value % (1 << 32)).is_some())
        };
        let row = sheet::read(&bytes).map_or_else(|refusal| refusal.number, |_| 0);
        for word in ["step", "done"] {
            let met = past(word);
            kinds.add(met && row == 1, &format!("{word}: row 1"));
            kinds.add(met && row == 2, &format!("{word}: row 2"));
        }
    });
    kinds.finish(5);
}

#[test]
fn other_names_have_the_same_answer() {
    let mut moved = 0;
    for_each_sheet("other names", &mut |facts, dice| {
        let mut renamed = facts.clone();
        rename(&mut renamed, dice);
        let answer = judged(facts);
        assert_eq!(
            judged(&renamed),
            answer,
            "renamed\n{}",
            sheet::text(&renamed)
        );
        moved += usize::from(answer.is_ok() && renamed.done != facts.done);
    });
    println!("{moved} moved");
    assert!(moved > 1_000);
}
