//! The rows that a job meets after reading, at each place where they can happen.

use crate::common::{both, line_refused, lists, refusal, refused, step};
use crate::common::{turned_round, with_line, with_lines, SHEET};
use reference::judge::{judge, WORK};
use reference::net::{fire, run, Marking};
use reference::print::{listing_of, print};
use reference::sheet::{read, Step};
use reference::slice::slice;

#[test]
fn fire_answers_18_and_0() {
    let step = |ins: &[u64], outs: &[u64]| Step {
        name: 1,
        ins: ins.to_vec(),
        outs: outs.to_vec(),
        reads: vec![],
        writes: vec![],
        cloth: false,
    };
    let on = |places: &[u64]| Marking::from_iter(places.iter().copied());
    let no = Err(refusal(18, 0));
    assert_eq!(fire(&on(&[0]), &step(&[0], &[1])), Ok(on(&[1])));
    assert_eq!(fire(&on(&[0, 2]), &step(&[0], &[0, 1])), Ok(on(&[0, 1, 2])));
    assert_eq!(fire(&on(&[0, 1]), &step(&[0, 1], &[1])), Ok(on(&[1])));
    assert_eq!(fire(&on(&[]), &step(&[], &[])), Ok(on(&[])));
    assert_eq!(fire(&on(&[1]), &step(&[0], &[1])), no);
    assert_eq!(fire(&on(&[0, 1]), &step(&[0], &[1])), no);
    assert_eq!(fire(&on(&[0]), &step(&[0, 1], &[1])), no);
}

const EMPTY: &str = "(start)\n";

#[test]
fn rows_6_and_7() {
    line_refused(1, "(old 5)\n", 6);
    line_refused(6, "(new 5)\n", 6);
    // An empty start, at its own line.
    line_refused(2, EMPTY, 7);
    line_refused(7, EMPTY, 7);
    // Row 6 goes before row 7, the old route before the new, both before row 8.
    refused(&with_lines(&[(1, "(old 5)\n"), (2, EMPTY)]), 6, 1);
    refused(&with_lines(&[(2, EMPTY), (6, "(new 5)\n")]), 7, 2);
    refused(&with_lines(&[(6, "(new 5)\n"), (7, EMPTY)]), 6, 6);
    refused(&with_lines(&[(2, EMPTY), (7, EMPTY)]), 7, 2);
    refused(&with_lines(&[(6, "(new 5)\n"), (12, "(done 40)\n")]), 6, 6);
    refused(&with_lines(&[(7, EMPTY), (12, "(done 40)\n")]), 7, 7);
    // All lines go before both.
    refused(&with_lines(&[(2, EMPTY), (14, "(done 0)\n")]), 2, 14);
    // A place that is only an in-place or only an out-place is in a step; one that
    // is only in the start is in none.
    let moved = "(moved (kept 0) (dropped 0))\n(order)\n(marking 0 2)\n";
    let steps = step(10, " 0 2", " 1", "", "") + &step(20, " 1", " 3", "", "");
    let (old, new) = both(5, " 0 4", &steps);
    lists(&old, &new, &[], "(refused 6 1)\n");
    let (old, new) = both(4, " 0 2", &steps);
    lists(&old, &new, &[], moved);
}

#[test]
fn rows_8_and_9() {
    for line in [12, 13, 14] {
        line_refused(line, "(done 40)\n", 8);
    }
    line_refused(12, "(done 20)\n", 9);
    line_refused(13, "(done 10)\n", 9);
    line_refused(14, "(done 20)\n", 9);
    // Done lines in turn: the earlier one's 9 goes before the later one's 8.
    refused(
        &with_lines(&[(12, "(done 20)\n"), (13, "(done 40)\n")]),
        9,
        12,
    );
    refused(
        &with_lines(&[(12, "(done 40)\n"), (13, "(done 10)\n")]),
        8,
        12,
    );
}

#[test]
fn run_and_slice_end_after_row_9() {
    // A job that judge refuses by 11.
    let text = with_line(9, &step(11, " 1", " 2", "", " 0"));
    refused(&text, 11, 12);
    let facts = read(text.as_bytes()).unwrap();
    assert_eq!(run(&facts), Ok(Marking::from([3])));
    let slice = slice(&facts).unwrap();
    assert_eq!(slice.kept, [1, 2, 3].into());
    assert_eq!(slice.table, [[].into(), [].into(), [1, 2].into()]);
    let stuck = read(with_line(13, "(done 30)\n").as_bytes()).unwrap();
    assert_eq!(run(&stuck), Err(refusal(9, 13)));
}

#[test]
fn rows_11_and_12_go_by_occurrence() {
    let lacks_10 = step(11, " 1", " 2", "", " 0");
    let lacks_30 = step(31, " 2", " 3", "", " 2");
    refused(&with_line(9, &lacks_10), 11, 12);
    refused(&with_line(10, &lacks_30), 11, 14);
    refused(&with_line(9, &step(10, " 1", " 2", " 1", " 0")), 12, 12);
    refused(&with_line(8, &step(20, " 0", " 1", "", " 1 7")), 12, 13);
    refused(&with_line(10, &step(30, " 2", " 3", " 0", " 2")), 12, 14);
    // Kept in turn: occurrence 1's row 12 goes before occurrence 3's row 11.
    let reads = step(10, " 1", " 2", " 1", " 0");
    refused(&with_lines(&[(9, &reads), (10, &lacks_30)]), 12, 12);
}

#[test]
fn row_10_goes_before_row_11() {
    let (old, new, done) = turned_round(17);
    let lacks = new.replace("(step 3 ", "(step 99 ");
    lists(&old, &lacks, &done, "(refused 10 39)\n");
    let (old, new, done) = turned_round(16);
    let lacks = new.replace("(step 3 ", "(step 99 ");
    lists(&old, &lacks, &done, "(refused 11 40)\n");
}

#[test]
fn row_13_goes_last() {
    // Only 10 is done, and the new route begins with 20.
    refused(&with_lines(&[(13, ""), (14, "")]), 13, 11);
    // The same job, by rows 11 and 12.
    let lacks = step(11, " 1", " 2", "", " 0");
    refused(&with_lines(&[(9, &lacks), (13, ""), (14, "")]), 11, 12);
    let reads = step(10, " 1", " 2", " 1", " 0");
    refused(&with_lines(&[(9, &reads), (13, ""), (14, "")]), 12, 12);
}

#[test]
fn a_job_may_move_with_nothing_kept() {
    // 10 has no data, and the new route lacks it; 30 writes what it wrote.
    let thirty = step(30, " 2", " 3", " 0 1", " 0 2");
    let text = with_lines(&[
        (3, &step(10, " 0", " 1", "", "")),
        (5, &thirty),
        (9, &step(11, " 1", " 2", "", "")),
        (10, &thirty),
    ]);
    let text = text.replace("(done 20)\n(done 30)\n", "");
    let listing = "(moved (kept 0) (dropped 1))\n(order)\n(marking 0)\n";
    assert_eq!(listing_of(text.as_bytes()), listing);
}

#[test]
fn row_14_goes_first_and_changes_nothing() {
    let mut work = vec![9; WORK - 1];
    let mut out = [7; 8];
    assert_eq!(print(b"", &mut work, &mut out), Err(refusal(14, 0)));
    let mut wrong = read(SHEET.as_bytes()).unwrap();
    wrong.old.places = 0;
    assert_eq!(judge(&wrong, &mut work), Err(refusal(14, 0)));
    assert!(work.iter().all(|&byte| byte == 9));
    assert_eq!(out, [7; 8]);
}

#[test]
fn the_work_slice_changes_only_by_a_search() {
    let no_data = with_lines(&[
        (3, &step(10, " 0", " 1", "", "")),
        (5, &step(30, " 2", " 3", " 0 1", " 0 2")),
        (14, ""),
    ]);
    for (text, searched) in [
        (SHEET.to_string(), true),
        // 13, and nothing kept.
        (with_lines(&[(13, ""), (14, "")]), true),
        (no_data.replace("(done 20)\n", ""), true),
        // Straight, 1, 7, 8, 11, 12 and 23.
        (with_lines(&[(12, ""), (13, ""), (14, "")]), false),
        (with_line(12, "\n"), false),
        (with_line(7, EMPTY), false),
        (with_line(12, "(done 40)\n"), false),
        (with_line(9, &step(11, " 1", " 2", "", " 0")), false),
        (with_line(9, &step(10, " 1", " 2", "", " 0 7")), false),
        (with_line(9, &step(10, " 1", " 2", " 7", " 0")), false),
    ] {
        let mut work = vec![9; WORK + 1];
        let mut out = [7; 200];
        let length = print(text.as_bytes(), &mut work, &mut out).unwrap();
        assert!(out[length..].iter().all(|&byte| byte == 7));
        let expected = if searched { 0 } else { 9 };
        assert!(work[..WORK].iter().all(|&byte| byte == expected), "{text}");
        assert_eq!(work[WORK], 9);
    }
}

#[test]
fn row_15_of_print() {
    let cut = &SHEET[..5];
    let needed = [(SHEET, 105, 0), (cut, 14, 9)];
    for (text, needed, left) in needed {
        let mut work = vec![9; WORK];
        let mut out = vec![7; needed];
        let short = print(text.as_bytes(), &mut work, &mut out[1..]);
        assert_eq!(short, Err(refusal(15, needed)));
        assert!(out.iter().all(|&byte| byte == 7));
        assert!(work.iter().all(|&byte| byte == left));
        assert_eq!(print(text.as_bytes(), &mut work, &mut out), Ok(needed));
    }
}
