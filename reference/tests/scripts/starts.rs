//! Routes that go round and starts of their own (02, A.5), worked by hand: every
//! operation on the records, by value and lent, and on the sheet.

use crate::common::{answers, begun, counted, numbers_of, padded, slice, text};
use crate::common::{Facts, Records, BY_VALUE};
use crate::direct::Step;
use crate::letters::{Letter, Moved};
use reference::script::answer;

/// 10 writes, 20 writes by it, and 30 puts the token back on place 1, where the route
/// begins. The new route begins on place 0 and has no 30.
const SHEET: &str = "\
(old 3)
(start 1)
(step 10 (in 1) (out 2) (read) (write 0))
(step 20 (in 2) (out 0) (read 0) (write 1))
(step 30 (in 0) (out 1) (read) (write))
(new 2)
(start 0)
(step 10 (in 0) (out 1) (read) (write 0))
(step 20 (in 1) (out 0) (read 0) (write 1))
(job)
(done 10)
(done 20)
(done 30)
(done 10)
(done 20)
(done 30)
(done 10)
";

const LISTING: &str = "\
(moved (kept 3) (dropped 4))
(after 5 4)
(after 7 4 5)
(order 4 5 7)
(marking 1)
(value 0 7)
(value 1 5)
";

const OLD: [Step; 3] = [
    [10, 2, 4, 0, 1, 0],
    [20, 4, 1, 1, 2, 0],
    [30, 1, 2, 0, 0, 0],
];
const NEW: [Step; 2] = [[10, 1, 2, 0, 1, 0], [20, 2, 1, 1, 2, 0]];

/// Twice round and once more: the last 10, the last 20 and the 10 that it needs are
/// kept, and go round on the new route.
fn ring() -> Letter {
    Letter {
        files: [SHEET, LISTING].map(String::from),
        facts: Facts {
            old: begun(3, 2, &OLD),
            new: begun(2, 1, &NEW),
            done: vec![10, 20, 30, 10, 20, 30, 10],
        },
        run: Ok(4),
        slice: Ok((0b101_1000, vec![0, 1, 0, 3, 11, 0, 27])),
        judge: Ok(Moved {
            kept: 0b101_1000,
            dropped: 4,
            order: vec![4, 5, 7],
            marking: 2,
            after: vec![0, 0, 0, 0, 8, 0, 24],
            writers: vec![7, 5],
        }),
        searched: true,
        tries: vec![
            (vec![4, 5, 7], [0, 0, 2]),
            (vec![4, 7, 5], [17, 2, 0]),
            (vec![5, 4, 7], [17, 1, 0]),
            (vec![4, 5], [16, 3, 0]),
            (vec![1, 5, 7], [16, 1, 0]),
        ],
    }
}

#[test]
fn twice_round_and_once_more() {
    ring().check();
}

/// The ring of its own, gone round 21 times and once more: it moves straight.
#[test]
fn to_itself() {
    let old = begun(3, 2, &OLD);
    let facts = Facts {
        old: old.clone(),
        new: old,
        done: [10, 20, 30].into_iter().cycle().take(64).collect(),
    };
    for (more, records) in [(0, facts.by_value()), (10, facts.lent())] {
        answers(2 + more, &records, &[0, 0, 4]);
        let whole: Vec<u64> = (1..=64).collect();
        answers(
            4 + more,
            &format!("{records} {}", counted(&whole)),
            &[0, 0, 4],
        );
        let judged = answer(&format!("{} {records} 8192 9", 5 + more));
        assert!(judged.starts_with(&format!("0 0 {} 0 64 1 2 3 ", u64::MAX)));
        assert!(judged.ends_with(" 8192 8192 9\n"));
    }
}

/// Both masks with bits at and above their place counts, and none.
#[test]
fn masks_of_the_ring() {
    let with = |old: u64, new: u64| {
        let mut facts = ring().facts;
        facts.old.start = old;
        facts.new.start = new;
        facts
    };
    for (old, new, refusal) in [
        (2 | 8, 1, [2, 2]),
        (8, 1, [2, 2]),
        (2, 1 | 4, [2, 7]),
        (2, 4, [2, 7]),
        (8, 4, [2, 2]),
        (0, 4, [2, 7]),
        (0, 1, [7, 2]),
        (2, 0, [7, 7]),
        (0, 0, [7, 2]),
        // 01's starts, which are none, and the two exchanged.
        (1, 2, [9, 11]),
        (3, 1, [9, 12]),
        (2, 3, [13, 10]),
    ] {
        let facts = with(old, new);
        for (judge, records) in [(5, facts.by_value()), (15, facts.lent())] {
            let searched = if refusal[0] == 13 { 0 } else { 9 };
            let work = vec![8_192, 8_192, searched];
            let expected = [padded(&refusal, 166), work].concat();
            answers(judge, &format!("{records} 8192 9"), &expected);
        }
    }
}

/// The routes as editions: each is shown with its start, right or wrong.
#[test]
fn starts_on_a_shelf() {
    let shown = |number: u64, route: &Records| {
        let head = vec![number, route.places, route.start, route.list.len() as u64];
        let records = padded(&route.list.concat(), BY_VALUE);
        [head, slice(&records)].concat()
    };
    let Facts { old, new, done } = ring().facts;
    let wrong = begun(3, u64::MAX, &OLD);
    let shelf = [
        format!("20 2 3 1 {}", old.by_value()),
        format!("2 {} 3 {}", new.by_value(), wrong.by_value()),
    ];
    let judge = format!("22 1 2 {} 8192 9", counted(&done));
    let put = format!("21 3 {}", begun(2, 4, &NEW).by_value());
    let script = format!("{}\n{judge}\n{put}\n", shelf.join(" "));
    let lines = answer(&script);
    let lines: Vec<&str> = lines.lines().collect();
    let entries = [shown(1, &old), shown(2, &new), shown(3, &wrong)].concat();
    assert!(lines[0].starts_with(&text(&[vec![2], entries.clone()].concat())));
    let judged = answer(&format!("5 {} 8192 9", ring().facts.by_value()));
    assert_eq!(lines[1], judged.trim_end());
    assert!(lines[2].starts_with(&text(&[vec![2, 2, 2], entries].concat())));
}

/// A sheet with no start line for its new route: 1 behind `(st`, in every reading.
#[test]
fn a_start_line_that_is_missing() {
    let sheet = SHEET.replace("(start 0)\n", "");
    let at = sheet.find("(new 2)\n(st").unwrap() as u64 + 11;
    let bytes = counted(&numbers_of(&sheet));
    answers(6, &bytes, &padded(&[1, at], 2 + 2 * (3 + BY_VALUE) + 65));
    answers(7, &bytes, &[0]);
    answers(10, &format!("{bytes} 0"), &[1, at, 0]);
    answers(16, &format!("{bytes} 0 0 0"), &padded(&[1, at], 9 + 3));
    // 01's version breaks at the old route's.
    answers(23, &bytes, &padded(&[1, 11], 2 + 2 * (3 + BY_VALUE) + 65));
}
