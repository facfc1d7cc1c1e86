//! The start line in a sheet (02, A.5): where it stands, where the layout breaks, and
//! its rows.

use crate::common::{line_refused, refusal, refused, step, with_line, with_lines};
use crate::common::{NEW, OLD, SHEET};
use reference::sheet::{read, text, write};

/// Example A as it stands in 01: `(st` begins a start line, and `e` doesn't go on so.
#[test]
fn example_a_of_01() {
    let sheet = SHEET.replace("(start 0)\n", "");
    assert_eq!(sheet.len(), 312);
    refused(&sheet, 1, 11);
    assert_eq!(sheet.as_bytes()[11], b'e');
    // The line must be there for each route.
    refused(&SHEET.replacen("(start 0)\n", "", 1), 1, 11);
    let (old, new) = (OLD, NEW.replace("(start 0)\n", ""));
    refused(&format!("{old}{new}"), 1, old.len() + 11);
}

#[test]
fn any_places_that_rise() {
    for (start, mask) in [
        ("(start)\n", vec![]),
        ("(start 0)\n", vec![0]),
        ("(start 3)\n", vec![3]),
        ("(start 0 1 2 3)\n", vec![0, 1, 2, 3]),
        ("(start 1 3)\n", vec![1, 3]),
    ] {
        let sheet = with_line(2, start);
        let facts = read(sheet.as_bytes()).unwrap();
        assert_eq!((&facts.old.start, &facts.new.start), (&mask, &vec![0]));
        assert_eq!(text(&facts), sheet);
        let mut out = vec![7; sheet.len() + 1];
        assert_eq!(write(&facts, &mut out), Ok(sheet.len()));
        assert_eq!(out, [sheet.as_bytes(), &[7]].concat());
        let sheet = with_line(7, start);
        let facts = read(sheet.as_bytes()).unwrap();
        assert_eq!((&facts.old.start, &facts.new.start), (&vec![0], &mask));
        assert_eq!(text(&facts), sheet);
    }
}

/// It has no limit of 8.
#[test]
fn nine_places_and_64() {
    for count in [8, 9, 63, 64] {
        let all: String = (0..count).map(|place| format!(" {place}")).collect();
        let changes = [
            (1, "(old 64)\n"),
            (2, &format!("(start{all})\n")),
            (6, "(new 64)\n"),
            (7, &format!("(start{all})\n")),
        ];
        // Places are in no step, which comes after the lines.
        refused(&with_lines(&changes), 6, 1);
        assert!(read(with_lines(&changes).as_bytes()).is_ok());
    }
}

#[test]
fn row_2() {
    for line in [2, 7] {
        for wrong in [
            "(start 4)\n",
            "(start 0 4)\n",
            "(start 0 1 2 3 4)\n",
            "(start 5)\n",
            "(start 64)\n",
            "(start 65535)\n",
            "(start 4294967295)\n",
            "(start 4294967296)\n",
            "(start 0 4294967296)\n",
            "(start 9999999999)\n",
        ] {
            line_refused(line, wrong, 2);
        }
    }
    // The last place and the count, at the limit.
    for (places, start, row) in [(64, 63, 6), (64, 64, 2), (63, 63, 2), (5, 4, 6), (5, 5, 2)] {
        let head = format!("(old {places})\n");
        let start = format!("(start {start})\n");
        let second = if row == 2 { 2 } else { 1 };
        refused(&with_lines(&[(1, &head), (2, &start)]), row, second);
    }
}

#[test]
fn row_3() {
    for line in [2, 7] {
        for wrong in [
            "(start 1 0)\n",
            "(start 0 0)\n",
            "(start 3 3)\n",
            "(start 0 2 1)\n",
            "(start 0 1 1 2)\n",
            "(start 0 1 2 3 0)\n",
            "(start 3 2 1 0)\n",
        ] {
            line_refused(line, wrong, 3);
        }
        // On one line row 2 goes first.
        for wrong in ["(start 1 0 4)\n", "(start 4 0)\n", "(start 4 4)\n"] {
            line_refused(line, wrong, 2);
        }
    }
}

/// An empty one is no row 3, and 7 at its own line.
#[test]
fn row_7() {
    for line in [2, 7] {
        line_refused(line, "(start)\n", 7);
        assert!(read(with_line(line, "(start)\n").as_bytes()).is_ok());
    }
}

/// Each line in turn: the head, the start line, the steps.
#[test]
fn lines_in_turn() {
    let nameless = step(0, " 0", " 1", "", "");
    for (line, head) in [(1, "(old 0)\n"), (6, "(new 65)\n")] {
        for start in ["(start 4)\n", "(start 65)\n", "(start 1 0)\n", "(start)\n"] {
            let changes = [(line, head), (line + 1, start), (line + 2, &nameless[..])];
            refused(&with_lines(&changes), 2, line);
        }
    }
    for line in [2, 7] {
        let empty = step(40, "", " 1", "", "");
        for (step_line, row) in [(&nameless, 2), (&empty, 3)] {
            let changes = |start| with_lines(&[(line, start), (line + 1, step_line)]);
            refused(&changes("(start 4)\n"), 2, line);
            refused(&changes("(start 1 0)\n"), 3, line);
            refused(&changes("(start)\n"), row, line + 1);
        }
    }
    // The old start before the new one; the new start before the done lines.
    refused(
        &with_lines(&[(2, "(start 1 0)\n"), (7, "(start 4)\n")]),
        3,
        2,
    );
    refused(&with_lines(&[(5, &nameless), (7, "(start 4)\n")]), 2, 5);
    refused(
        &with_lines(&[(7, "(start 0 0)\n"), (12, "(done 0)\n")]),
        3,
        7,
    );
    // A route with no step: its start line goes before the line that follows.
    let no_step = |start: &str| format!("(old 4)\n{start}{NEW}(job)\n");
    refused(&no_step("(start 0)\n"), 4, 3);
    refused(&no_step("(start)\n"), 4, 3);
    refused(&no_step("(start 4)\n"), 2, 2);
    refused(&no_step("(start 1 0)\n"), 3, 2);
    let no_step = |start: &str| format!("{OLD}(new 4)\n{start}(job)\n");
    refused(&no_step("(start 0)\n"), 4, 8);
    refused(&no_step("(start 0 4)\n"), 2, 7);
}

/// The layout breaks at the byte after the beginning, or there if it ends.
#[test]
fn bytes_that_belong_elsewhere() {
    let old = "(old 4)\n";
    let new = format!("{OLD}(new 4)\n");
    for head in [old, &new] {
        for (begin, wrong) in [
            // Another word, or a letter that is missing, another or one too many.
            ("", "start 0)\n"),
            ("", " (start 0)\n"),
            ("", "\n(start 0)\n"),
            ("(", "Start 0)\n"),
            ("(", "new 4)\n"),
            ("(", "job)\n"),
            ("(", "done 10)\n"),
            ("(", "in 0)\n"),
            ("(", " start 0)\n"),
            ("(s", "art 0)\n"),
            ("(s", "TART 0)\n"),
            ("(st", "ep 10 (in 0) (out 1) (read) (write))\n"),
            ("(st", "rat 0)\n"),
            ("(sta", "t 0)\n"),
            ("(sta", ")\n"),
            ("(star", " 0)\n"),
            ("(star", ")\n"),
            ("(start", "s 0)\n"),
            ("(start", "0)\n"),
            ("(start", "\n"),
            ("(start", "(0))\n"),
            // Its entries.
            ("(start ", ")\n"),
            ("(start ", " 0)\n"),
            ("(start ", "(0))\n"),
            ("(start ", "-1)\n"),
            ("(start ", "\n"),
            ("(start 0", "0)\n"),
            ("(start 0", ",1)\n"),
            ("(start 0", "\n"),
            ("(start 0 ", ")\n"),
            ("(start 0 ", " 1)\n"),
            ("(start 1234567890", "1)\n"),
            // Its end.
            ("(start)", ")\n"),
            ("(start)", " \n"),
            ("(start 0)", "\r\n"),
            ("(start 0)", " (cloth)\n"),
            ("(start 0)", " (start 0)\n"),
            ("(start 0)", "(start 0)\n"),
            ("(start 0)\n", "\n"),
            // Twice.
            ("(start 0)\n(st", "art 0)\n"),
        ] {
            let begin = format!("{head}{begin}");
            refused(&format!("{begin}{wrong} and more"), 1, begin.len());
            refused(&begin, 1, begin.len());
        }
    }
}

/// It stands nowhere else: before its head, behind a step, in the job part.
#[test]
fn other_places() {
    let line = "(start 0)\n";
    let all: Vec<&str> = SHEET.split_inclusive('\n').collect();
    for before in 0..=all.len() {
        let (first, rest) = all.split_at(before);
        let begin = first.concat();
        let sheet = format!("{begin}{line}{}", rest.concat());
        // Before and behind the right line it is the right one twice.
        let at = match before {
            0 => 1,
            1 | 6 => begin.len() + line.len() + 3,
            11.. => begin.len() + 1,
            _ => begin.len() + 3,
        };
        refused(&sheet, 1, at);
    }
    // Both start lines behind their first steps, or before their heads.
    for (line, other) in [(2, 3), (7, 8)] {
        let lines: Vec<&str> = SHEET.split_inclusive('\n').collect();
        let swapped = with_lines(&[(line, lines[other - 1]), (other, lines[line - 1])]);
        let before: usize = lines[..line - 1].iter().map(|line| line.len()).sum();
        refused(&swapped, 1, before + 3);
    }
}

/// Every byte of its line, and every cut.
#[test]
fn row_1_at_every_byte() {
    let sheet = with_lines(&[(2, "(start 0 1 2)\n"), (7, "(start)\n")]);
    for at in 0..sheet.len() {
        let mut bytes = sheet.as_bytes().to_vec();
        bytes[at] = b'!';
        assert_eq!(read(&bytes), Err(refusal(1, at)));
        bytes.truncate(at);
        let job = sheet.find("(job)\n").unwrap() + 6;
        if at < job {
            assert_eq!(read(&bytes), Err(refusal(1, at)));
        }
    }
}
