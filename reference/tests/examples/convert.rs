//! Sheets between editions (02, A.6), worked by hand.

use crate::common::{chain, cut, of_01, refusal, sheet, step, with_line, with_lines};
use crate::common::{NEW, OLD, SHEET};
use reference::convert::{convert, down, text, up, Way};
use reference::refusal::Refusal;

/// Example A as it stands in 01.
const A_OF_01: &str = "\
(old 4)
(step 10 (in 0) (out 1) (read) (write 0))
(step 20 (in 1) (out 2) (read) (write 1))
(step 30 (in 2) (out 3) (read 0 1) (write 2))
(new 4)
(step 20 (in 0) (out 1) (read) (write 1))
(step 10 (in 1) (out 2) (read) (write 0))
(step 30 (in 2) (out 3) (read 0 1) (write 2))
(job)
(done 10)
(done 20)
(done 30)
";

/// The same as it stands now.
const A: &str = "\
(old 4)
(start 0)
(step 10 (in 0) (out 1) (read) (write 0))
(step 20 (in 1) (out 2) (read) (write 1))
(step 30 (in 2) (out 3) (read 0 1) (write 2))
(new 4)
(start 0)
(step 20 (in 0) (out 1) (read) (write 1))
(step 10 (in 1) (out 2) (read) (write 0))
(step 30 (in 2) (out 3) (read 0 1) (write 2))
(job)
(done 10)
(done 20)
(done 30)
";

/// What stands in an out slice before.
const BEFORE: u8 = 7;

/// The sheet goes this way into an out slice of this length. Gives the answer, and the
/// text and what stands behind it, or the whole out slice of a refused one.
fn go(way: Way, sheet: &str, length: usize) -> Result<String, Refusal> {
    let mut out = vec![BEFORE; length];
    let answer = way(sheet.as_bytes(), &mut out);
    let written = answer.unwrap_or(0);
    let rest = &out[written..];
    assert!(rest.iter().all(|&byte| byte == BEFORE), "of sheet\n{sheet}");
    answer.map(|_| String::from_utf8(out[..written].to_vec()).unwrap())
}

/// More than any text needs.
const ROOM: usize = 21_000;

/// The sheet goes this way into a slice that is just long enough or longer, and is
/// refused by 15 where it is shorter.
#[track_caller]
fn goes(way: Way, sheet: &str, expected: &str) {
    for length in [expected.len(), expected.len() + 1, ROOM] {
        let answer = go(way, sheet, length);
        assert_eq!(answer.as_deref(), Ok(expected), "of sheet\n{sheet}");
    }
    for length in [expected.len() - 1, expected.len() / 2, 1, 0] {
        let short = Err(refusal(15, expected.len()));
        assert_eq!(go(way, sheet, length), short, "of sheet\n{sheet}");
    }
}

/// Each of the two goes the one way and comes back the other.
#[track_caller]
fn pair(of_01: &str, present: &str) {
    for way in [up, convert] {
        goes(way, of_01, present);
    }
    for way in [down, convert] {
        goes(way, present, of_01);
    }
    assert_eq!(text(of_01.as_bytes()).as_deref(), Ok(present));
    assert_eq!(text(present.as_bytes()).as_deref(), Ok(of_01));
}

/// The sheet is refused this way by this row, with room and without.
#[track_caller]
fn refused(way: Way, sheet: &str, number: u32, second: usize) {
    for length in [ROOM, sheet.len(), 1, 0] {
        let answer = go(way, sheet, length);
        assert_eq!(answer, Err(refusal(number, second)), "of sheet\n{sheet}");
    }
}

/// The same by both ways that take a sheet of 01's layout, or of the present one.
#[track_caller]
fn up_refused(sheet: &str, number: u32, second: usize) {
    refused(up, sheet, number, second);
    refused(convert, sheet, number, second);
}

#[track_caller]
fn down_refused(sheet: &str, number: u32, second: usize) {
    refused(down, sheet, number, second);
    refused(convert, sheet, number, second);
}

/// Example A with these lines, each the present one's number and text, refused down.
#[track_caller]
fn a_refused(changes: &[(usize, &str)], number: u32, second: usize) {
    down_refused(&with_lines(changes), number, second);
}

#[test]
fn example_a() {
    assert_eq!((A, A_OF_01), (SHEET, &of_01(SHEET)[..]));
    assert_eq!((A_OF_01.len(), A.len()), (312, 332));
    pair(A_OF_01, A);
}

/// Both routes begin where 01 would, each at its own places.
#[test]
fn starts_written_out() {
    let join = step(10, " 0 2", " 1", "", " 0");
    let beside = step(10, " 0", " 1", "", "") + &step(20, " 2", " 3", "", "");
    let old = format!("(old 3)\n{join}");
    let new = format!("(new 4)\n{beside}");
    let back = step(10, " 1", " 0", "", " 0");
    let last = format!("(new 2)\n{back}");
    let with = |route: &str, start: &str| route.replacen(")\n", &format!(")\n{start}\n"), 1);
    let (old_now, new_now) = (with(&old, "(start 0 2)"), with(&new, "(start 0 2)"));
    let last_now = with(&last, "(start 1)");
    for done in [&[][..], &[10], &[65_535, 1, 1]] {
        pair(&sheet(&old, &new, done), &sheet(&old_now, &new_now, done));
        pair(&sheet(&old, &last, done), &sheet(&old_now, &last_now, done));
    }
    // The other's start is another one, and a start that is longer or shorter.
    for start in [
        "(start 0)\n",
        "(start 0 1)\n",
        "(start 1 2)\n",
        "(start 0 1 2)\n",
    ] {
        let other = sheet(&old_now.replace("(start 0 2)\n", start), &last_now, &[]);
        down_refused(&other, 22, 2);
    }
    for start in ["(start 0)\n", "(start 0 1)\n"] {
        let other = sheet(&old_now, &last_now.replace("(start 1)\n", start), &[]);
        down_refused(&other, 22, 5);
    }
}

/// 64 places and 64 done, with each name of five digits, and 64 start places.
#[test]
fn routes_at_their_limits() {
    let names: Vec<u64> = (65_473..=65_535).collect();
    let both = chain("old", &names) + &chain("new", &names);
    let now = format!("{both}(job)\n{}", "(done 65535)\n".repeat(64));
    pair(&of_01(&now), &now);
    // Each step goes from its own eight places back to these: none but the last eight
    // places is an out-place of no step.
    let eight = |first: u64| -> String { (first..first + 8).map(|n| format!(" {n}")).collect() };
    let line = |at: u64| step(at + 1, &eight(8 * at), &eight(8 * (at % 7)), "", "");
    let steps: String = (0..8).map(line).collect();
    let route = |word: &str| format!("({word} 64)\n(start{})\n{steps}", eight(56));
    let now = sheet(&route("old"), &route("new"), &[]);
    pair(&of_01(&now), &now);
    down_refused(&now.replacen(" 63)\n", ")\n", 1), 22, 2);
    // 56 places, each an in-place of some step, and only the last an out-place.
    let line = |at: u64| step(at + 1, &eight(8 * at), " 55", "", "");
    let steps: String = (0..7).map(line).collect();
    let all: String = (0..55).map(|n| format!(" {n}")).collect();
    let route = |word: &str| format!("({word} 56)\n(start{all})\n{steps}");
    let now = sheet(&route("old"), &route("new"), &[1]);
    pair(&of_01(&now), &now);
    down_refused(&now.replace("54)\n", "54 55)\n"), 22, 2);
}

/// Rows 8 and on aren't looked at: 01's examples C to K go both ways, whatever their
/// jobs are answered.
#[test]
fn jobs_that_are_refused() {
    for done in [&[][..], &[10], &[40], &[30, 30], &[30; 64]] {
        let now = sheet(OLD, NEW, done);
        pair(&of_01(&now), &now);
    }
    for line in [
        "(step 10 (in 1) (out 2) (read) (write 0 3))\n",
        "(step 11 (in 1) (out 2) (read) (write 0))\n",
        // 20's variable, which it reads before anybody wrote it.
        "(step 10 (in 1) (out 2) (read 31) (write))\n",
    ] {
        let now = with_line(9, line);
        pair(&of_01(&now), &now);
    }
}

/// A name of 65,535 goes both ways, wherever it stands.
#[test]
fn the_greatest_name() {
    let named = |name: u64| {
        let line = step(name, " 0", " 1", "", " 0");
        let new = step(name, " 1", " 2", "", " 0");
        [(3, line), (9, new), (12, format!("(done {name})\n"))]
    };
    for name in [1, 9_999, 10_000, 65_534, 65_535] {
        for (line, text) in named(name) {
            let now = with_line(line, &text);
            pair(&of_01(&now), &now);
        }
    }
    for name in [65_536, 65_546, 99_999, 100_000, 131_082, 4_294_967_295] {
        let all = named(name);
        for (line, text) in &all {
            a_refused(&[(*line, text)], 22, *line);
        }
        let changes: Vec<(usize, &str)> = all.iter().map(|(l, t)| (*l, &t[..])).collect();
        a_refused(&changes, 22, 3);
        a_refused(&changes[1..], 22, 9);
    }
    a_refused(&[(14, "(done 65536)\n")], 22, 14);
    a_refused(&[(12, "(done 40)\n"), (13, "(done 65536)\n")], 22, 13);
}

/// No mark is left out silently, also where the step isn't done or does nothing.
#[test]
fn marks() {
    let lines: Vec<&str> = SHEET.split_inclusive('\n').collect();
    for line in [3, 4, 5, 8, 9, 10] {
        let marked = lines[line - 1].replace("))\n", ") (cloth))\n");
        a_refused(&[(line, &marked)], 22, line);
        let whole = with_line(line, &marked);
        down_refused(&whole[..whole.find("(done 10)").unwrap()], 22, line);
    }
    let silent = cut(30, " 2", " 3", "", "");
    a_refused(&[(5, &silent), (10, &silent)], 22, 5);
    // 01's layout ends such a step at its write list.
    let before: usize = lines[..3].iter().map(|line| line.len()).sum();
    let marked = of_01(&with_line(3, &cut(10, " 0", " 1", "", " 0")));
    let end = before - "(start 0)\n".len() - ")\n".len();
    up_refused(&marked, 1, end);
}

/// The first line counts, top down, whatever it is that 01's layout can't say.
#[test]
fn the_first_line() {
    let lines = [
        (2, "(start 0 1)\n"),
        (3, "(step 65536 (in 0) (out 1) (read) (write 0))\n"),
        (4, "(step 20 (in 1) (out 2) (read) (write 1) (cloth))\n"),
        (7, "(start 3)\n"),
        (8, "(step 20 (in 0) (out 1) (read) (write 1) (cloth))\n"),
        (9, "(step 70000 (in 1) (out 2) (read) (write 0))\n"),
        (12, "(done 4294967295)\n"),
        (14, "(done 65536)\n"),
    ];
    for first in 0..lines.len() {
        a_refused(&lines[first..], 22, lines[first].0);
        for other in &lines[first + 1..] {
            a_refused(&[lines[first], *other], 22, lines[first].0);
        }
    }
}

/// An end for each route that leaves it no place that is an out-place of no step.
const ROUND: &str = "(step 30 (in 2) (out 0 3) (read 0 1) (write 2))\n";

/// Row 7 going up: at the head's line, where 01 tells the start.
#[test]
fn nowhere_going_up() {
    let a = |changes: &[(usize, &str)]| of_01(&with_lines(changes));
    up_refused(&a(&[(5, ROUND)]), 7, 1);
    up_refused(&a(&[(10, ROUND)]), 7, 5);
    up_refused(&a(&[(5, ROUND), (10, ROUND)]), 7, 1);
    // 6 goes before 7 of one route, and the old route before the new one.
    up_refused(&a(&[(1, "(old 5)\n")]), 6, 1);
    up_refused(&a(&[(6, "(new 5)\n")]), 6, 5);
    up_refused(&a(&[(1, "(old 5)\n"), (5, ROUND)]), 6, 1);
    up_refused(&a(&[(6, "(new 5)\n"), (10, ROUND)]), 6, 5);
    up_refused(&a(&[(5, ROUND), (6, "(new 5)\n")]), 7, 1);
    // Example L has but one step, which puts a token on each place.
    let l = |word: &str| format!("({word} 2)\n{}", step(10, " 0", " 0 1", "", ""));
    up_refused(&sheet(&l("old"), &l("new"), &[]), 7, 1);
}

/// Row 7 going down: at the start line; a start that 01 has none for is 22 there.
#[test]
fn nowhere_going_down() {
    a_refused(&[(2, "(start)\n")], 7, 2);
    a_refused(&[(7, "(start)\n")], 7, 7);
    a_refused(&[(2, "(start)\n"), (7, "(start)\n")], 7, 2);
    a_refused(&[(2, "(start)\n"), (5, ROUND)], 7, 2);
    a_refused(&[(5, ROUND)], 22, 2);
    a_refused(&[(10, ROUND)], 22, 7);
    a_refused(&[(1, "(old 5)\n"), (2, "(start)\n")], 6, 1);
    a_refused(&[(2, "(start)\n"), (6, "(new 5)\n")], 7, 2);
    a_refused(&[(6, "(new 5)\n"), (7, "(start)\n")], 6, 6);
}

/// 22 comes after the rows to 7 of both routes, wherever their lines are.
#[test]
fn after_7() {
    for other in [
        (2, "(start 1)\n"),
        (3, "(step 65536 (in 0) (out 1) (read) (write 0))\n"),
        (4, "(step 20 (in 1) (out 2) (read) (write 1) (cloth))\n"),
    ] {
        for (line, text, number) in [
            (6, "(new 65)\n", 2),
            (6, "(new 5)\n", 6),
            (7, "(start)\n", 7),
            (7, "(start 4)\n", 2),
            (7, "(start 1 0)\n", 3),
            (9, "(step 10 (in) (out 2) (read) (write 0))\n", 3),
            (9, "(step 20 (in 1) (out 2) (read) (write 0))\n", 5),
            (14, "(done 0)\n", 2),
            (14, "(done 4294967296)\n", 2),
        ] {
            a_refused(&[other, (line, text)], number, line);
        }
        let broken = with_lines(&[other, (14, "(done 30)")]);
        down_refused(&broken, 1, broken.len());
        let long = with_lines(&[other, (14, &"(done 10)\n".repeat(63))]);
        down_refused(&long, 4, 11 + 65);
    }
    a_refused(&[(1, "(old 5)\n"), (2, "(start 1)\n")], 6, 1);
    a_refused(&[(2, "(start)\n"), (12, "(done 65536)\n")], 7, 2);
}

/// Going up meets 01's rows, and never 22.
#[test]
fn rows_of_01() {
    let a = |changes: &[(usize, &str)]| of_01(&with_lines(changes));
    up_refused("", 1, 0);
    up_refused(&a(&[(14, "(done 010)\n")]), 1, 302 + 7);
    up_refused(&a(&[(14, "(done 100000)\n")]), 1, 302 + 11);
    up_refused(&a(&[(14, "(done 65536)\n")]), 2, 12);
    up_refused(
        &a(&[(3, "(step 65536 (in 0) (out 1) (read) (write 0))\n")]),
        2,
        2,
    );
    up_refused(
        &a(&[(9, "(step 10 (in 4) (out 2) (read) (write 0))\n")]),
        2,
        7,
    );
    up_refused(
        &a(&[(9, "(step 10 (in) (out 2) (read) (write 0))\n")]),
        3,
        7,
    );
    up_refused(
        &a(&[(9, "(step 20 (in 1) (out 2) (read) (write 0))\n")]),
        5,
        7,
    );
    up_refused("(old 4)\n(new 4)\n(job)\n", 4, 2);
    up_refused(&a(&[(14, &"(done 10)\n".repeat(63))]), 4, 9 + 65);
    // Each row before 6.
    up_refused(&a(&[(1, "(old 5)\n"), (14, "(done 0)\n")]), 2, 12);
    up_refused(&a(&[(5, ROUND), (14, "(done 65536)\n")]), 2, 12);
}

/// Each way takes sheets of its own layout alone.
#[test]
fn the_other_layout() {
    refused(up, A, 1, 11);
    refused(down, A_OF_01, 1, 11);
    let mixed = OLD.to_string() + &of_01(NEW) + "(job)\n";
    down_refused(&mixed, 1, OLD.len() + 11);
    refused(up, &mixed, 1, 11);
    let mixed = of_01(OLD) + NEW + "(job)\n";
    up_refused(&mixed, 1, of_01(OLD).len() + 11);
    refused(down, &mixed, 1, 11);
}

/// Where the second line doesn't begin with `(start`, the sheet goes up.
#[test]
fn another_second_line() {
    for (sheet, by_up, by_down) in [
        ("", [1, 0], [1, 0]),
        ("(start", [1, 1], [1, 1]),
        ("(old 4)", [1, 7], [1, 7]),
        ("(old 4)\n", [1, 8], [1, 8]),
        ("(old 4)\n(st", [1, 11], [1, 11]),
        ("(old 4)\n(sta", [1, 11], [1, 12]),
        ("(old 4)\n(star", [1, 11], [1, 13]),
        ("(old 4)\n(star ", [1, 11], [1, 13]),
        ("(old 4)\n (start 0)\n", [1, 8], [1, 8]),
        ("(old 123456)\n", [1, 10], [1, 13]),
        ("(old 123456)\n(star 0)\n", [1, 10], [1, 18]),
        ("(old 123456)\n\n(start 0)\n", [1, 10], [1, 13]),
    ] {
        refused(up, sheet, by_up[0], by_up[1] as usize);
        refused(down, sheet, by_down[0], by_down[1] as usize);
        refused(convert, sheet, by_up[0], by_up[1] as usize);
    }
}

/// Where it does, it goes down, whatever stands before and behind that.
#[test]
fn a_start_line_that_is_second() {
    for (sheet, by_up, by_down) in [
        ("(old 4)\n(start", [1, 11], [1, 14]),
        ("(old 4)\n(starts 0)\n", [1, 11], [1, 14]),
        ("(old 123456)\n(start", [1, 10], [1, 19]),
        ("(old 123456)\n(start 0)\n", [1, 10], [1, 23]),
        ("(old 12345678901)\n(start 0)\n", [1, 10], [1, 15]),
        ("x\n(start 0)\n", [1, 0], [1, 0]),
        ("\n(start 0)\n", [1, 0], [1, 0]),
    ] {
        refused(up, sheet, by_up[0], by_up[1] as usize);
        refused(down, sheet, by_down[0], by_down[1] as usize);
        refused(convert, sheet, by_down[0], by_down[1] as usize);
    }
    // A head out of its range, whose number 01's layout has no room for.
    let head = with_line(1, "(old 123456)\n");
    refused(up, &head, 1, 10);
    down_refused(&head, 2, 1);
}

/// A reading that nobody writes goes both ways, and doesn't hide a row that is looked for.
#[test]
fn a_reading_that_nobody_writes() {
    let old = step(20, " 1", " 2", " 7", " 1");
    let new = step(10, " 1", " 2", " 1 31", " 0");
    let changes = [(4, &old[..]), (9, &new)];
    let reads = |more: &[(usize, &str)]| with_lines(&[&changes, more].concat());
    pair(&of_01(&reads(&[])), &reads(&[]));
    for (line, wrong, row) in [
        (6, "(new 5)\n", 6),
        (7, "(start)\n", 7),
        (7, "(start 1)\n", 22),
        (13, "(done 65536)\n", 22),
    ] {
        down_refused(&reads(&[(line, wrong)]), row, line);
    }
    up_refused(&of_01(&reads(&[(6, "(new 5)\n")])), 6, 5);
    up_refused(&of_01(&reads(&[(13, "(done 65536)\n")])), 2, 11);
}
