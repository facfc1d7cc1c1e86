//! A reading that nobody writes (02, A.7) in records, worked by hand: the operations that
//! look for it, by value and lent, and those that don't.

use crate::common::{answers, counted, facts_a, numbers_of, padded, records, refused, slice};
use crate::common::{text, Facts, Records};
use reference::script::{answer, writing};

/// Example A with what a record reads in the old route (0) or the new one (1).
fn reading(route: usize, record: usize, reads: u64) -> Facts {
    let mut facts = facts_a();
    [&mut facts.old, &mut facts.new][route].list[record][3] = reads;
    facts
}

/// Run, slice, try and judge are refused so, and the names compared too.
#[track_caller]
fn all_refused(facts: &Facts, refusal: [u64; 2]) {
    for (more, records) in [(0, facts.by_value()), (10, facts.lent())] {
        refused(2 + more, &records, refusal, 1);
        refused(3 + more, &records, refusal, 65);
        refused(4 + more, &format!("{records} 3 2 1 3"), refusal, 1);
        let judged = [padded(&refusal, 166), vec![8_193, 8_193, 9]].concat();
        answers(5 + more, &format!("{records} 8193 9"), &judged);
        let short = [padded(&[14, 0], 166), vec![8_191, 8_191, 9]].concat();
        answers(5 + more, &format!("{records} 8191 9"), &short);
    }
    refused(25, &facts.by_value(), refusal, 2);
}

/// Run is not refused, by value and lent.
#[track_caller]
fn runs(facts: &Facts, marking: u64) {
    answers(2, &facts.by_value(), &[0, 0, marking]);
    answers(12, &facts.lent(), &[0, 0, marking]);
}

/// 10 writes bit 0, 20 bit 1 and 30 bit 2, in both routes.
#[test]
fn masks_of_each_record() {
    for record in 0..3 {
        for reads in [8, 1 << 31, 7 | 8, 1 << 30 | 1, 0xff, 0xff00_0000] {
            all_refused(&reading(0, record, reads), [23, record as u64 + 3]);
            all_refused(&reading(1, record, reads), [23, record as u64 + 8]);
        }
        for reads in [0, 1, 2, 4, 7] {
            runs(&reading(0, record, reads), 8);
            runs(&reading(1, record, reads), 8);
        }
    }
    // What only the other route writes.
    let mut facts = reading(0, 0, 8);
    facts.new.list[0][4] |= 8;
    all_refused(&facts, [23, 3]);
    facts.old.list[2][4] |= 8;
    runs(&facts, 8);
}

#[test]
fn the_order_of_rows() {
    let mut facts = facts_a();
    facts.done[0] = 40;
    all_refused(&facts, [8, 12]);
    facts.new.list[2][3] = 8;
    all_refused(&facts, [23, 10]);
    facts.new.list[0][3] = 8;
    all_refused(&facts, [23, 8]);
    facts.new.start = 0;
    all_refused(&facts, [7, 7]);
    facts.new.places = 5;
    all_refused(&facts, [6, 6]);
    facts.old.list[2][3] = 1 << 31;
    all_refused(&facts, [23, 5]);
    facts.old.start = 0;
    all_refused(&facts, [7, 2]);
    facts.old.places = 5;
    all_refused(&facts, [6, 1]);
    facts.done[2] = 0;
    all_refused(&facts, [2, 14]);
}

/// Writing, reading and the job part let it through; print lists it.
#[test]
fn sheets() {
    let mut facts = reading(1, 0, 1 << 31);
    facts.done = vec![10];
    let bytes = written(&facts);
    let sheet = writing::bytes(&bytes);
    let length = bytes.len() as u64;
    let numbers: Vec<u64> = bytes.iter().map(|&byte| byte.into()).collect();
    let expected = [vec![0, 0, length], slice(&numbers)].concat();
    answers(8, &format!("{} {length} 7", facts.by_value()), &expected);
    answers(18, &format!("{} {length} 7", facts.lent()), &expected);
    assert!(answer(&format!("6 {sheet}")).starts_with("0 0 4 1 3 10 1 2 "));
    assert!(answer(&format!("16 {sheet} 3 3 1")).starts_with("0 0 4 1 3 4 1 3 1 "));
    answers(7, &sheet, &slice(&numbers_of("(job)\n(done 10)\n")));
    let listing = numbers_of("(refused 23 8)\n");
    let printed = [vec![0, 0, 15, 8_192, 8_192, 9], slice(&listing)].concat();
    answers(9, &format!("{sheet} 8192 9 15 7"), &printed);
    let short = [15, 15, 0, 8_192, 8_192, 9, 14, 14, 7];
    answers(9, &format!("{sheet} 8192 9 14 7"), &short);
    for order in [&[][..], &[1], &[2, 1, 3]] {
        refused(10, &format!("{sheet} {}", counted(order)), [23, 8], 1);
    }
    // Down leaves out both start lines of 10 bytes.
    let down = answer(&format!("27 {sheet} 400 7"));
    assert!(down.starts_with(&format!("0 0 {} 400 ", length - 20)));
}

/// The sheet of these facts, as write gives it.
fn written(facts: &Facts) -> Vec<u8> {
    let line = answer(&format!("8 {} 400 0", facts.by_value()));
    let numbers: Vec<u64> = line
        .split_whitespace()
        .map(|n| n.parse().unwrap())
        .collect();
    let runs = numbers[4..].chunks(2);
    let bytes = runs.flat_map(|run| vec![run[1] as u8; run[0] as usize]);
    bytes.take(numbers[2] as usize).collect()
}

/// Records past `len` write nothing, and what they read isn't told.
#[test]
fn records_past_len() {
    let list = [
        [10, 1, 2, 2, 2, 0],
        [20, 2, 1, 2, 4, 0],
        [30, 1, 1, 4 | 8, 8, 0],
        [40, 1, 1, 16, 1, 0],
    ];
    let mut facts = facts_a();
    facts.old = records(2, &list);
    facts.done = vec![10];
    let run = |facts: &Facts, len| {
        let (old, new) = (facts.old.with_len(len), facts.new.by_value());
        answer(&format!("2 {old} {new} 1 10"))
    };
    for (len, line) in [
        (1, "0 0 2\n"),
        (2, "0 0 2\n"),
        (3, "0 0 2\n"),
        (4, "23 6 0\n"),
    ] {
        assert_eq!(run(&facts, len), line);
    }
    // Only 30 writes what 10 reads, and only 40 what 20 reads.
    facts.old.list[0][3] = 8;
    facts.old.list[1][3] = 1;
    for (len, line) in [(1, 3), (2, 3), (3, 4), (4, 6)] {
        assert_eq!(run(&facts, len), format!("23 {line} 0\n"));
    }
    facts.old.list[3][3] = 0;
    assert_eq!(run(&facts, 4), "0 0 2\n");
}

/// Put tells it after 7, at the line of a route alone; a shelf handed in may hold such
/// routes, which judge tells at the lines of a sheet.
#[test]
fn shelves() {
    let Facts { old, new, .. } = facts_a();
    let mut wrong = new.clone();
    wrong.list[1][3] = 8;
    let put = |number: u64, route: &Records| format!("21 {number} {}\n", route.by_value());
    let lines =
        |script: String| -> Vec<String> { answer(&script).lines().map(String::from).collect() };
    let all = lines(put(3, &old) + &put(4, &wrong) + &put(4, &new));
    let shelf = all[0].strip_prefix("0 0 ").unwrap();
    assert_eq!(all[1], format!("23 4 {shelf}"));
    assert!(all[2].starts_with("0 0 2 "));
    let mut nowhere = wrong.clone();
    nowhere.start = 0;
    let all = lines(put(3, &old) + &put(4, &nowhere) + &put(3, &wrong));
    assert_eq!(all[1], format!("7 2 {shelf}"));
    assert_eq!(all[2], format!("20 0 {shelf}"));
    let in_hand = [(3, &old), (4, &wrong), (5, &new)];
    let editions = in_hand.map(|(number, route)| format!("{number} {}", route.by_value()));
    let judge = |pair: &str| format!("22 {pair} 1 10 8192 9\n");
    let script = format!("20 3 3 {}\n", editions.join(" "));
    let all = lines(script + &judge("3 4") + &judge("4 5") + &judge("5 3") + &judge("3 5"));
    let told = |refusal: [u64; 2]| text(&[padded(&refusal, 166), vec![8_192, 8_192, 9]].concat());
    assert_eq!(all[1], told([23, 9]));
    assert_eq!(all[2], told([23, 4]));
    assert_eq!(all[3], told([19, 0]));
    assert_eq!(
        all[4],
        text(&[padded(&[13, 11], 166), vec![8_192, 8_192, 0]].concat())
    );
}
