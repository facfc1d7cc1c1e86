//! The rows that reading and writing meet, at each place where they can happen.

use crate::common::{line_refused, refusal, refused, step, with_line, with_lines, SHEET};
use reference::sheet::{job_part, read, read_into, write};

/// A route's lines with so many steps, each from 0 to 1.
fn many(word: &str, count: u64) -> String {
    let steps = (1..=count).map(|name| step(name, " 0", " 1", "", ""));
    format!("({word} 2)\n(start 0)\n{}", steps.collect::<String>())
}

#[test]
fn row_4() {
    let done = |count| "(done 1)\n".repeat(count);
    let sheet = |old, new, count| {
        format!(
            "{}{}(job)\n{}",
            many("old", old),
            many("new", new),
            done(count)
        )
    };
    assert!(read(sheet(64, 64, 64).as_bytes()).is_ok());
    refused(&sheet(65, 1, 0), 4, 67);
    refused(&sheet(70, 70, 70), 4, 67);
    refused(&sheet(1, 65, 0), 4, 70);
    refused(&sheet(1, 1, 65), 4, 72);
    refused(&sheet(0, 1, 0), 4, 3);
    refused(&sheet(1, 0, 0), 4, 6);
    refused(&sheet(0, 0, 0), 4, 3);
    // Row 4 goes before row 2 of the same line, an earlier line before both.
    refused("(old 2)\n(start 0)\n(new 0)\n(start)\n(job)\n", 4, 3);
    refused("(old 2)\n(start 2)\n(new 0)\n(start)\n(job)\n", 2, 2);
    refused("(old 0)\n(start 0)\n(new 0)\n(start)\n(job)\n", 2, 1);
    refused(
        &sheet(64, 1, 0).replace("(new 2)", "(step 0 (in) (out) (read) (write))\n(new 2)"),
        4,
        67,
    );
    refused(&(sheet(1, 1, 64) + "(done 0)\n"), 4, 72);
}

#[test]
fn row_2() {
    for (head, line) in [("(old", 1), ("(new", 6)] {
        for number in [0, 65, 99_999] {
            line_refused(line, &format!("{head} {number})\n"), 2);
        }
        for line in [line + 2, line + 4] {
            for wrong in [
                step(0, " 0", " 1", "", " 0"),
                step(4_294_967_296, " 0", " 1", "", " 0"),
                step(10, " 4", " 1", "", " 0"),
                step(10, " 0", " 0 4", "", " 0"),
                step(10, " 0", " 1", " 32", " 0"),
                step(10, " 0", " 1", "", " 0 99999"),
            ] {
                line_refused(line, &wrong, 2);
            }
        }
    }
    for line in [12, 14] {
        line_refused(line, "(done 0)\n", 2);
        line_refused(line, "(done 4294967296)\n", 2);
    }
    let most = step(4_294_967_295, " 3", " 0", " 31", " 0");
    assert!(read(with_line(3, &most).as_bytes()).is_ok());
}

#[test]
fn row_3() {
    let nine = " 0 1 2 3 4 5 6 7 8";
    for line in [3, 4, 5, 8, 9, 10] {
        for wrong in [
            step(99, "", " 1", "", " 0"),
            step(99, " 0", "", "", " 0"),
            step(99, " 0", " 1", nine, ""),
            step(99, " 0", " 1", "", nine),
            step(99, " 1 0", " 1", "", ""),
            step(99, " 0", " 1 1", "", ""),
            step(99, " 0", " 1", " 5 5", ""),
            step(99, " 0", " 1", "", " 31 2"),
        ] {
            line_refused(line, &wrong, 3);
        }
    }
    for (line, head) in [(1, "(old 9)\n"), (6, "(new 9)\n")] {
        for wrong in [step(99, nine, " 1", "", ""), step(99, " 1", nine, "", "")] {
            refused(
                &with_lines(&[(line, head), (line + 3, &wrong)]),
                3,
                line + 3,
            );
        }
    }
}

#[test]
fn row_5() {
    line_refused(4, &step(10, " 1", " 2", "", ""), 5);
    line_refused(5, &step(10, " 1", " 2", "", ""), 5);
    line_refused(9, &step(20, " 1", " 2", "", ""), 5);
    line_refused(10, &step(10, " 1", " 2", "", ""), 5);
    // Rows 2 and 3 of the same line go first, and so does an earlier line.
    line_refused(4, &step(10, " 1", " 4", "", ""), 2);
    line_refused(4, &step(10, " 1", "", "", ""), 3);
    let twice = step(10, " 1", " 2", "", "");
    refused(
        &with_lines(&[(4, &twice), (5, "(step 0 (in) (out) (read) (write))\n")]),
        5,
        4,
    );
    refused(
        &with_lines(&[(3, &step(10, "", "", "", " 32")), (4, &twice)]),
        2,
        3,
    );
}

#[test]
fn row_15_of_read() {
    let lent = |room| read_into(SHEET.as_bytes(), room).map(|_| ());
    assert_eq!(lent([3, 3, 3]), Ok(()));
    assert_eq!(lent([2, 0, 0]), Err(refusal(15, 3)));
    let shorter = SHEET.replace("(done 30)\n", "");
    let lent = |room| read_into(shorter.as_bytes(), room).map(|_| ());
    assert_eq!(lent([3, 3, 1]), Err(refusal(15, 2)));
    assert_eq!(lent([3, 2, 0]), Err(refusal(15, 3)));
    // Rows 1 to 5 go first; row 6 and on are not read's.
    let wrong = with_line(6, "(new 65)\n");
    assert_eq!(read_into(wrong.as_bytes(), [0; 3]), Err(refusal(2, 6)));
    for unread in [(1, "(old 5)\n"), (2, "(start)\n")] {
        let unread = with_lines(&[unread]);
        assert_eq!(read_into(unread.as_bytes(), [0; 3]), Err(refusal(15, 3)));
        assert!(read_into(unread.as_bytes(), [3; 3]).is_ok());
    }
}

#[test]
fn write_meets_its_rows() {
    let facts = read(SHEET.as_bytes()).unwrap();
    let mut out = [7; 400];
    assert_eq!(write(&facts, &mut out), Ok(SHEET.len()));
    assert_eq!(&out[..SHEET.len()], SHEET.as_bytes());
    assert!(out[SHEET.len()..].iter().all(|&byte| byte == 7));
    let mut short = vec![7; SHEET.len() - 1];
    assert_eq!(write(&facts, &mut short), Err(refusal(15, SHEET.len())));
    assert!(short.iter().all(|&byte| byte == 7));
    let mut wrong = facts.clone();
    wrong.new.steps[1].outs = vec![4];
    assert_eq!(write(&wrong, &mut short), Err(refusal(2, 9)));
    // Rows 6 and 7 are not write's.
    let mut unused = facts;
    unused.old.places = 5;
    assert_eq!(write(&unused, &mut out), Ok(SHEET.len()));
    unused.new.start.clear();
    assert_eq!(write(&unused, &mut out), Ok(SHEET.len() - 2));
}

#[test]
fn the_job_part() {
    let (answer, part) = job_part(SHEET.as_bytes());
    assert_eq!(answer, Ok(()));
    assert_eq!(part, b"(job)\n(done 10)\n(done 20)\n(done 30)\n");
    let wrong = with_line(14, "(done 0)\n");
    assert_eq!(job_part(wrong.as_bytes()), (Err(refusal(2, 14)), &b""[..]));
    // Rows 7 and 8 come later.
    assert_eq!(job_part(with_line(7, "(start)\n").as_bytes()).0, Ok(()));
    assert_eq!(job_part(with_line(12, "(done 40)\n").as_bytes()).0, Ok(()));
}
