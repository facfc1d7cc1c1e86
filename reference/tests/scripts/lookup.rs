//! Operations 24 and 25, worked by hand: a name among others, and the names
//! compared for a job.

use crate::common::{answers, counted, facts_a, records, refused};
use reference::script::answer;

const FIND: u64 = 24;
const COMPARE: u64 = 25;

/// Position from 1, names compared and the next beginning.
#[track_caller]
fn finds(names: &[u64], from: u64, name: u64, expected: [u64; 3]) {
    let arguments = format!("{} {from} {name}", counted(names));
    answers(FIND, &arguments, &expected);
}

#[test]
fn a_name_among_others() {
    let names = [10, 20, 30, 40];
    // At the beginning, below it, just above it; the one found last.
    finds(&names, 2, 30, [3, 1, 3]);
    finds(&names, 2, 40, [4, 2, 4]);
    finds(&names, 2, 10, [1, 3, 1]);
    finds(&names, 2, 20, [2, 4, 2]);
    finds(&names, 0, 40, [4, 4, 4]);
    finds(&names, 3, 40, [4, 1, 4]);
    finds(&names, 3, 30, [3, 4, 3]);
    // Past the last at the top.
    for from in [4, 5, 6, 258, (1 << 32) + 2, 1 << 63, u64::MAX] {
        finds(&names, from, 10, [1, 1, 1]);
        finds(&names, from, 30, [3, 3, 3]);
        finds(&names, from, 40, [4, 4, 4]);
    }
}

#[test]
fn a_miss_costs_all_and_the_beginning_stays() {
    for from in [0, 1, 3, 4, 5, 1 << 32, u64::MAX] {
        finds(&[10, 20, 30, 40], from, 50, [0, 4, from]);
        finds(&[10], from, 20, [0, 1, from]);
        finds(&[10], from, 10, [1, 1, 1]);
        finds(&[], from, 10, [0, 0, from]);
    }
}

/// Any 32-bit number is a name here, and a list may have one twice.
#[test]
fn any_names() {
    let names = [0, 4_294_967_295, 0, 65_535];
    finds(&names, 1, 0, [3, 2, 3]);
    finds(&names, 3, 0, [1, 2, 1]);
    finds(&names, 2, 4_294_967_295, [2, 4, 2]);
    finds(&names, 0, 255, [0, 4, 0]);
    finds(&[1], 0, 0, [0, 1, 0]);
    finds(&[0], 0, 65_536, [0, 1, 0]);
}

#[test]
fn a_hundred_names() {
    let names: Vec<u64> = (1..=100).collect();
    finds(&names, 0, 100, [100, 100, 100]);
    finds(&names, 99, 100, [100, 1, 100]);
    finds(&names, 99, 99, [99, 100, 99]);
    finds(&names, 64, 64, [64, 100, 64]);
    finds(&names, 64, 65, [65, 1, 65]);
    finds(&names, 100, 64, [64, 64, 64]);
    finds(&names, 99, 101, [0, 100, 99]);
}

/// The answer's last number is the beginning of the next.
#[test]
fn names_in_turn() {
    let among = "3 10 20 30";
    let turns = ["0 20", "2 30", "3 30", "3 40", "3 10"];
    let script: Vec<String> = turns.iter().map(|t| format!("24 {among} {t}")).collect();
    let expected = "2 2 2\n3 1 3\n3 3 3\n0 3 3\n1 1 1\n";
    assert_eq!(answer(&script.join("\n")), expected);
}

/// Run 10 20 30, one each; match on 20 10 30, two each.
#[test]
fn example_a() {
    answers(COMPARE, &facts_a().by_value(), &[0, 0, 3, 6]);
}

#[test]
fn done_lists_of_example_a() {
    // The new route is 20 10 30, or lacks 20 or 10; then the other one writes both.
    for (done, run, matched) in [
        (&[][..], 0, [0, 0, 0]),
        (&[10], 1, [2, 1, 2]),
        (&[10, 20], 2, [4, 1 + 2, 2 + 1]),
        (&[10, 20, 30], 3, [6, 1 + 2 + 1, 2 + 1 + 1]),
    ] {
        let mut facts = facts_a();
        facts.done = done.to_vec();
        let [all, without_20, without_10] = matched;
        answers(COMPARE, &facts.by_value(), &[0, 0, run, all]);
        facts.new = records(3, &[[10, 1, 2, 0, 3, 0], [30, 2, 4, 3, 4, 0]]);
        answers(COMPARE, &facts.by_value(), &[0, 0, run, without_20]);
        facts.new.list[0][0] = 20;
        answers(COMPARE, &facts.by_value(), &[0, 0, run, without_10]);
    }
}

/// The old route's lines are 30 20 10: 10 is the third, then each stands just above
/// the last. The new one's are 10 30 20: 20 costs 30 20, and 30 from the top 10 30.
#[test]
fn lines_in_another_order() {
    let mut facts = facts_a();
    facts.old.list.reverse();
    facts.new.list.rotate_left(1);
    answers(COMPARE, &facts.by_value(), &[0, 0, 3 + 2 + 2, 1 + 2 + 2]);
}

/// 10 opens; 20 and 40 go on and 30 goes back, over and over.
#[test]
fn a_loop() {
    let mut facts = facts_a();
    let list = [
        [10, 1, 2, 0, 0, 0],
        [20, 2, 4, 0, 0, 0],
        [30, 4, 2, 0, 0, 0],
        [40, 4, 4, 0, 0, 0],
    ];
    facts.old = records(3, &list);
    facts.new = records(3, &[list[3], list[0], list[1]]);
    facts.done = vec![10, 20, 40, 40, 30, 20];
    // 40: 30 40; 40 again all; 30: 10 20 30; 20: 40 10 20.
    let run = 1 + 1 + 2 + 4 + 3 + 3;
    // 40 10 20: 10 is the second; 20; 40; 40 again all; 30 a miss; 20: 10 20.
    let matched = 2 + 1 + 1 + 3 + 3 + 2;
    answers(COMPARE, &facts.by_value(), &[0, 0, run, matched]);
}

/// Records past `len` have no name that is compared.
#[test]
fn records_past_len() {
    let facts = facts_a();
    let old = [facts.old.list.clone(), vec![[7, 1, 2, 0, 0, 0]; 3]].concat();
    let new = [vec![[20, 1, 2, 0, 2, 0]], vec![[10, 1, 2, 0, 1, 0]; 9]].concat();
    let old = records(4, &old).with_len(3);
    // Only 20 counts: 10 is a miss.
    let new = records(2, &new).with_len(1);
    answers(COMPARE, &format!("{old} {new} 3 10 20 30"), &[0, 0, 3, 3]);
}

#[test]
fn refusals_have_no_totals() {
    let mut facts = facts_a();
    for (done, refusal) in [
        (&[40][..], [8, 12]),
        (&[10, 20, 40], [8, 14]),
        (&[10, 20, 65_566], [8, 14]),
        (&[30], [9, 12]),
        (&[10, 20, 20], [9, 14]),
        (&[10, 0], [2, 13]),
    ] {
        facts.done = done.to_vec();
        refused(COMPARE, &facts.by_value(), refusal, 2);
    }
    facts.new.list[2][0] = 20;
    refused(COMPARE, &facts.by_value(), [5, 10], 2);
    facts.old.list[0][2] = 0;
    refused(COMPARE, &facts.by_value(), [3, 3], 2);
    facts.old.start = 16;
    refused(COMPARE, &facts.by_value(), [2, 2], 2);
    // No step, which the new head's line tells.
    let none = records(1, &[]).by_value();
    refused(COMPARE, &format!("{none} {none} 0"), [4, 3], 2);
}

/// Each takes its own numbers and no more.
#[test]
fn one_after_the_other() {
    let job = facts_a().by_value();
    let script = format!("24 0 5 6\n25 {job} 24 2 8 9 1 8 25 {job}\n24 1");
    let expected = "0 0 5\n0 0 3 6\n1 2 1\n0 0 3 6\n";
    assert_eq!(answer(&script), expected);
}
