//! Records of six numbers, the last of them the mark (02, A.4), worked by hand.

use crate::common::{answers, counted, numbers_of, padded, records, refused, slice};
use crate::common::{Facts, BY_VALUE};
use crate::letters::{Letter, Moved};
use reference::script::answer;

/// 20 cuts and writes nothing; on the new route it stands after 30.
const SHEET: &str = "\
(old 4)
(start 0)
(step 10 (in 0) (out 1) (read) (write 0))
(step 20 (in 1) (out 2) (read) (write) (cloth))
(step 30 (in 2) (out 3) (read 0) (write 1))
(new 4)
(start 0)
(step 10 (in 0) (out 1) (read) (write 0))
(step 30 (in 1) (out 2) (read 0) (write 1))
(step 20 (in 2) (out 3) (read) (write) (cloth))
(job)
(done 10)
(done 20)
(done 30)
";

const LISTING: &str = "\
(moved (kept 3) (dropped 0))
(after 3 1)
(order 1 3 2)
(marking 3)
(value 0 1)
(value 1 3)
";

fn panel() -> Letter {
    let old = [
        [10, 1, 2, 0, 1, 0],
        [20, 2, 4, 0, 0, 1],
        [30, 4, 8, 1, 2, 0],
    ];
    let new = [
        [10, 1, 2, 0, 1, 0],
        [30, 2, 4, 1, 2, 0],
        [20, 4, 8, 0, 0, 1],
    ];
    Letter {
        files: [SHEET, LISTING].map(String::from),
        facts: Facts {
            old: records(4, &old),
            new: records(4, &new),
            done: vec![10, 20, 30],
        },
        run: Ok(8),
        slice: Ok((7, vec![0, 0, 1])),
        judge: Ok(Moved {
            kept: 7,
            dropped: 0,
            order: vec![1, 3, 2],
            marking: 8,
            after: vec![0, 0, 1],
            writers: vec![1, 3],
        }),
        searched: true,
        tries: vec![
            (vec![1, 3, 2], [0, 0, 8]),
            (vec![1, 2, 3], [18, 2, 0]),
            (vec![3, 1, 2], [17, 1, 0]),
            (vec![1, 3], [16, 3, 0]),
        ],
    }
}

#[test]
fn a_panel_that_would_have_been_cut_twice() {
    panel().check();
}

#[test]
fn two_cuts_in_the_other_order() {
    let sheet = "\
(old 3)
(start 0)
(step 10 (in 0) (out 1) (read) (write) (cloth))
(step 20 (in 1) (out 2) (read) (write) (cloth))
(new 3)
(start 0)
(step 20 (in 0) (out 1) (read) (write) (cloth))
(step 10 (in 1) (out 2) (read) (write) (cloth))
(job)
(done 10)
(done 20)
";
    let listing = "(refused 13 9)\n";
    Letter {
        files: [sheet, listing].map(String::from),
        facts: Facts {
            old: records(3, &[[10, 1, 2, 0, 0, 1], [20, 2, 4, 0, 0, 1]]),
            new: records(3, &[[20, 1, 2, 0, 0, 1], [10, 2, 4, 0, 0, 1]]),
            done: vec![10, 20],
        },
        run: Ok(4),
        slice: Ok((3, vec![0, 1])),
        judge: Err([13, 9]),
        searched: true,
        tries: vec![(vec![2, 1], [17, 1, 0]), (vec![1, 2], [18, 1, 0])],
    }
    .check();
}

/// The new route's 20 isn't marked: 12 at its done line.
#[test]
fn another_mark() {
    let Letter { files, facts, .. } = panel();
    let [sheet, _] = files;
    let (first, last) = sheet.split_at(sheet.find("(new").unwrap());
    let sheet = first.to_string() + &last.replace(" (cloth)", "");
    let mut facts = facts;
    facts.new.list[2][5] = 0;
    Letter {
        files: [sheet, "(refused 12 13)\n".into()],
        facts,
        judge: Err([12, 13]),
        searched: false,
        tries: vec![(vec![1, 3, 2], [12, 13, 0])],
        ..panel()
    }
    .check();
}

/// The routes as editions: each record is shown with its mark.
#[test]
fn marks_on_a_shelf() {
    let Letter { facts, .. } = panel();
    let Facts { old, new, .. } = &facts;
    let puts = format!("21 3 {}\n21 4 {}\n", old.by_value(), new.by_value());
    let lines = answer(&format!("{puts}22 3 4 3 10 20 30 8192 9\n"));
    let lines: Vec<&str> = lines.lines().collect();
    let shown = |list: &[[u64; 6]]| slice(&padded(&list.concat(), BY_VALUE));
    let first = [vec![0, 0, 1, 3, 4, 1, 3], shown(&old.list)].concat();
    assert!(lines[0].starts_with(&crate::common::text(&first)));
    let second = [vec![0, 0, 2, 3, 4, 1, 3], shown(&old.list)].concat();
    let second = [second, vec![4, 4, 1, 3], shown(&new.list)].concat();
    assert!(lines[1].starts_with(&crate::common::text(&second)));
    let judged = answer(&format!("5 {} 8192 9", facts.by_value()));
    assert_eq!(lines[2], judged.trim_end());
}

/// Firing takes any mark, which changes nothing.
#[test]
fn firing() {
    for mark in [0, 1] {
        answers(1, &format!("1 10 1 2 0 0 {mark}"), &[0, 0, 2]);
        refused(1, &format!("2 10 1 2 0 0 {mark}"), [18, 0], 1);
    }
}

/// A mark over 1 ends the script.
#[test]
fn a_mark_is_0_or_1() {
    let right = "1 1 10 1 2 0 0 1\n";
    for wrong in [
        "2",
        "255",
        "256",
        "257",
        "4294967297",
        "18446744073709551615",
    ] {
        let list = format!("2 1 1 10 1 2 0 0 {wrong}");
        let by_value = format!("2 1 1 1 10 1 2 0 0 {wrong}");
        for operation in [
            format!("1 1 10 1 2 0 0 {wrong}"),
            format!("2 {by_value} {by_value} 0"),
            format!("12 {list} {list} 0"),
            format!("20 1 1 1 {by_value}"),
            format!("21 1 {by_value}"),
            format!("25 {by_value} {by_value} 0"),
        ] {
            let script = format!("{right}{operation}\n{right}");
            assert_eq!(answer(&script), "0 0 2\n", "{operation}");
            let script = script.replace(&format!(" 0 {wrong}"), " 0 1");
            assert_eq!(answer(&script).lines().count(), 3, "{script}");
        }
    }
}

/// 01's version breaks at the space of the first mark.
#[test]
fn by_01s_version() {
    let Letter { files, .. } = panel();
    let sheet = files[0].replace("(start 0)\n", "");
    let space = 8 + 42 + 38;
    assert_eq!(&sheet[space..space + 2], " (");
    let sheet = counted(&numbers_of(&sheet));
    refused(23, &sheet, [1, space as u64], 2 * (3 + BY_VALUE) + 65);
}

/// A lent slice has at most 21,000 bytes.
#[test]
fn the_longest_slice() {
    let script = |length: u64| format!("8 {} {length} 9", panel().facts.by_value());
    let longest = answer(&script(21_000));
    assert!(longest.starts_with("0 0 ") && longest.contains(" 21000 "));
    assert_eq!(answer(&script(21_001)), "");
}
