//! The words of a script: where a run ends, and what stands between numbers.

use reference::random::script::PAST_A_LIMIT;
use reference::random::{convert, lookup};
use reference::script::answer;

const FIRE: &str = "1 1 10 1 2 0 1 0";

#[test]
fn a_script_that_ends_in_the_middle_of_an_operation() {
    assert_eq!(answer(""), "");
    assert_eq!(answer(" \n "), "");
    assert_eq!(answer(FIRE), "0 0 2\n");
    assert_eq!(answer(&format!("{FIRE} 1 1 10 1 2 0 1")), "0 0 2\n");
    assert_eq!(answer(&format!("{FIRE} 7 2 40")), "0 0 2\n");
    assert_eq!(
        answer(&format!("{FIRE}\n\n  {FIRE}  7 0 ")),
        "0 0 2\n0 0 2\n0\n"
    );
}

#[test]
fn a_script_with_another_byte() {
    for word in ["x", "-1", "+1", "1\t", "1,"] {
        assert_eq!(answer(&format!("{FIRE} {word} {FIRE}")), "0 0 2\n");
        let inside = FIRE.replace("10", word);
        assert_eq!(answer(&format!("{FIRE} {inside} {FIRE}")), "0 0 2\n");
    }
}

#[test]
fn an_argument_past_its_limit() {
    let of_kinds = lookup::PAST_A_LIMIT.iter().chain(&convert::PAST_A_LIMIT);
    for wrong in PAST_A_LIMIT.iter().chain(of_kinds) {
        let script = format!("{FIRE}\n{wrong} {}\n{FIRE}", "0 ".repeat(600));
        assert_eq!(answer(&script), "0 0 2\n", "{wrong}");
    }
    let most = u64::MAX;
    let largest = answer(&format!("1 {most} 0 {most} {most} 0 0 0"));
    assert_eq!(largest, format!("0 0 {most}\n"));
}

#[test]
fn firing_takes_any_marking_and_masks() {
    for (script, expected) in [
        ("1 1 0 2 1 0 0 0", "18 0 0"),
        ("1 3 0 1 2 0 0 1", "18 0 0"),
        ("1 5 0 1 3 0 0 1", "0 0 7"),
        ("1 3 0 3 2 0 0 0", "0 0 2"),
        ("1 6 0 0 0 0 0 0", "0 0 6"),
        ("1 6 0 0 1 0 0 1", "0 0 7"),
        ("1 6 4294967295 2 0 4294967295 4294967295 1", "0 0 4"),
        (
            "1 9223372036854775808 0 9223372036854775808 1 0 0 0",
            "0 0 1",
        ),
    ] {
        assert_eq!(answer(script), format!("{expected}\n"), "{script}");
    }
}
