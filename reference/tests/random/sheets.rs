//! What becomes of random sheets, and reading and writing them.

use crate::{for_each_sheet, judged};
use reference::judge::{Moved, WORK};
use reference::layout;
use reference::print::{listing_of, print};
use reference::random::{self, damage::damage};
use reference::refusal::Refusal;
use reference::sheet;
use reference::version::Version;
use std::collections::BTreeMap;

/// What became of a sheet, as a word.
fn outcome(answer: &Result<Moved, Refusal>) -> String {
    match answer {
        Err(refusal) => format!("refused {:2}", refusal.number),
        Ok(moved) if moved.straight && moved.order.is_empty() => "straight, nothing done".into(),
        Ok(moved) if moved.straight => "straight".into(),
        Ok(moved) if moved.order.is_empty() => "search, nothing kept".into(),
        Ok(moved) if moved.order.is_sorted() => "search, own order".into(),
        Ok(_) => "search, reordered".into(),
    }
}

#[test]
fn every_outcome_is_met() {
    let mut counts: BTreeMap<String, usize> = BTreeMap::new();
    for_each_sheet("outcomes", &mut |facts, _| {
        *counts.entry(outcome(&judged(facts))).or_default() += 1;
    });
    for (word, count) in &counts {
        println!("{count:6} {word}");
    }
    for (word, least) in [
        ("straight", 600),
        ("straight, nothing done", 60),
        ("search, nothing kept", 12),
        ("search, own order", 120),
        ("search, reordered", 300),
        ("refused  6", 12),
        ("refused  7", 30),
        ("refused  8", 30),
        ("refused  9", 60),
        ("refused 10", 100),
        ("refused 11", 100),
        ("refused 12", 100),
        ("refused 13", 600),
        ("refused 23", 150),
    ] {
        assert!(
            counts.get(word).is_some_and(|&count| count >= least),
            "{word}"
        );
    }
}

#[test]
fn writing_what_was_read_gives_the_bytes_back() {
    for_each_sheet("read and write", &mut |facts, dice| {
        let text = sheet::text(facts).into_bytes();
        assert_eq!(&layout::read(&text, &Version::PRESENT).unwrap(), facts);
        for bytes in [damage(&text, dice), text] {
            if let Ok(read) = sheet::read(&bytes) {
                let mut out = vec![0; bytes.len()];
                assert_eq!(sheet::write(&read, &mut out), Ok(bytes.len()));
                assert_eq!(out, bytes);
            }
        }
    });
}

#[test]
fn damaged_sheets_meet_every_row() {
    let mut counts: BTreeMap<u32, usize> = BTreeMap::new();
    for_each_sheet("damage", &mut |facts, dice| {
        let bytes = damage(sheet::text(facts).as_bytes(), dice);
        let answer = sheet::read(&bytes).and_then(|facts| judged(&facts));
        let number = answer.map_or_else(|refusal| refusal.number, |_| 0);
        *counts.entry(number).or_default() += 1;
    });
    println!("refused by row, 0 for moved: {counts:?}");
    for number in (0..=13).chain([23]) {
        assert!(
            counts.get(&number).is_some_and(|&count| count >= 3),
            "{number}"
        );
    }
}

#[test]
fn print_writes_the_listing_or_asks_for_its_length() {
    for_each_sheet("print", &mut |_, dice| {
        let bytes = random::bytes(dice);
        let listing = listing_of(&bytes);
        let mut out = vec![7; listing.len() + 1];
        let (short, whole) = (listing.len() - 1, listing.len());
        let needed = Refusal {
            number: 15,
            second: whole,
        };
        let mut work = [0; WORK];
        assert_eq!(print(&bytes, &mut work, &mut out[..short]), Err(needed));
        assert!(out.iter().all(|&byte| byte == 7));
        assert_eq!(print(&bytes, &mut work, &mut out), Ok(whole));
        assert_eq!(out, [listing.as_bytes(), &[7]].concat());
    });
}
