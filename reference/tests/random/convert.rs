//! Sheets between editions (02, A.6): what must hold of each random sheet of 01's
//! layout and of the present one, right or wrong.

use crate::kinds::Kinds;
use crate::kinds_of_convert::{add, departures};
use crate::{seed, Failing, SHEETS};
use reference::convert::{convert, down, text, up, Way};
use reference::net::{self, implied_start};
use reference::print::listing_of;
use reference::random::convert::sheets::{self, of_01};
use reference::random::dice::{mix, Dice};
use reference::refusal::{refuse, Refusal};
use reference::sheet::{self, read, read_by, Sheet};
use reference::version::Version;

/// More than any sheet needs.
const ROOM: usize = 21_000;

/// Each kind must be met so many times.
const LEAST: usize = 5;

type Answer = Result<Vec<u8>, Refusal>;

/// What a way gives with room; nothing else may be written.
fn go(way: Way, bytes: &[u8]) -> Answer {
    let mut out = vec![7; ROOM];
    let answer = way(bytes, &mut out);
    let written = answer.unwrap_or(0);
    assert!(out[written..].iter().all(|&byte| byte == 7));
    answer.map(|_| out[..written].to_vec())
}

/// Calls a check with random sheets of both layouts.
fn for_each(name: &str, check: &mut dyn FnMut(&[u8], &Version, &mut Dice)) {
    println!("{name}: seed {}, {SHEETS} sheets of each layout", seed());
    for version in [Version::OF_01, Version::PRESENT] {
        for number in 0..SHEETS {
            let mut dice = Dice::new(mix(seed()) ^ mix(number));
            let bytes = sheets::bytes(&version, &mut dice);
            let shown = String::from_utf8_lossy(&bytes).into_owned();
            let _failing = Failing(number, shown);
            check(&bytes, &version, &mut dice);
        }
    }
}

/// The facts with the implied starts.
fn implied(mut facts: Sheet) -> Sheet {
    for route in [&mut facts.old, &mut facts.new] {
        route.start = implied_start(route).into_iter().collect();
    }
    facts
}

/// The sheet of a version that passes the rows to 7.
fn passed(bytes: &[u8], version: &Version) -> Result<Sheet, Refusal> {
    let facts = read_by(bytes, version)?;
    net::check(&facts, version)?;
    Ok(facts)
}

/// Up by another way: the facts are read, and written with the implied starts.
fn up_by_facts(bytes: &[u8]) -> Answer {
    let facts = passed(bytes, &Version::OF_01)?;
    Ok(sheet::text(&implied(facts)).into_bytes())
}

/// Down by the same way, where each line can be said.
fn down_by_facts(bytes: &[u8]) -> Answer {
    let facts = passed(bytes, &Version::PRESENT)?;
    if let Some((line, _)) = departures(&facts).first() {
        return refuse(22, *line);
    }
    Ok(sheet::text_by(&facts, &Version::OF_01).into_bytes())
}

#[test]
fn by_the_text_and_by_the_facts() {
    for_each("by facts", &mut |bytes, _, _| {
        assert_eq!(go(up, bytes), up_by_facts(bytes));
        assert_eq!(go(down, bytes), down_by_facts(bytes));
        let is_start = |bytes: &[u8]| {
            let end = bytes.iter().position(|&byte| byte == b'\n');
            end.is_some_and(|end| bytes[end + 1..].starts_with(b"(start"))
        };
        let way = if is_start(bytes) { down } else { up };
        assert_eq!(go(convert, bytes), go(way, bytes));
        assert_eq!(text(bytes).map(String::into_bytes), go(convert, bytes));
    });
}

/// Going there and back gives the first bytes again; what up gives has the same facts
/// with the implied starts.
#[test]
fn there_and_back() {
    let mut counts = [0, 0];
    for_each("there and back", &mut |bytes, _, _| {
        for (at, there, back) in [(0, up as Way, down as Way), (1, down, up)] {
            let Ok(other) = go(there, bytes) else {
                continue;
            };
            assert_eq!(go(back, &other).as_deref(), Ok(bytes));
            assert_eq!(go(convert, &other).as_deref(), Ok(bytes));
            let (old, now) = [(bytes, &other[..]), (&other, bytes)][at];
            let facts = implied(read_by(old, &Version::OF_01).unwrap());
            assert_eq!(read(now), Ok(facts));
            counts[at] += 1;
        }
    });
    println!("up and down, down and up: {counts:?}");
    assert!(counts.iter().all(|&count| count > 1_000));
}

/// The sheet without the line behind each of its heads.
fn without_starts(bytes: &[u8]) -> Vec<u8> {
    let mut head = false;
    let mut other = Vec::new();
    for line in bytes.split_inclusive(|&byte| byte == b'\n') {
        if !head {
            other.extend(line);
        }
        head = line.starts_with(b"(old ") || line.starts_with(b"(new ");
    }
    other
}

/// Down succeeds, with room, exactly on what up gives. Up only puts in start lines, so
/// no other sheet than the one without these can be its source.
#[test]
fn down_succeeds_exactly_on_what_up_gives() {
    let mut counts = [0, 0];
    for_each("what up gives", &mut |bytes, _, _| {
        let source = without_starts(bytes);
        let given = go(up, &source).as_deref() == Ok(bytes);
        let down = go(down, bytes);
        assert_eq!(down.is_ok(), given);
        if given {
            assert_eq!(down, Ok(source));
        }
        counts[usize::from(given)] += 1;
    });
    println!("not what up gives, and what it gives: {counts:?}");
    assert!(counts.iter().all(|&count| count > 1_000));
}

/// Down's rows to 7 are those of print, save that print may have 23 of the old route
/// before 6 and 7 of the new one; what down refuses by 22 passes these.
#[test]
fn rows_to_7_are_those_of_print() {
    let mut unread = 0;
    for_each("print", &mut |bytes, _, _| {
        let listing = listing_of(bytes);
        let by_23 = listing.strip_prefix("(refused 23 ");
        let line: Option<usize> = by_23.and_then(|end| end.trim_end_matches(")\n").parse().ok());
        match (go(down, bytes), line) {
            (Err(Refusal { number, second }), Some(line)) if number < 22 => {
                assert!(matches!(number, 6 | 7) && line < second, "23 at {line}");
                unread += 1;
            }
            (Err(Refusal { number, second }), None) if number < 22 => {
                assert_eq!(listing, format!("(refused {number} {second})\n"));
            }
            _ => assert!(!(1..=7).any(|row| listing.starts_with(&format!("(refused {row} ")))),
        }
    });
    println!("{unread} with 23 of the old route before 6 or 7 of the new one");
    assert!(unread > 5);
}

/// An out slice that is too short is refused, and left as it came; a refused sheet
/// leaves it too, whatever its length.
#[test]
fn out_slices_of_all_lengths() {
    for_each("out slices", &mut |bytes, version, dice| {
        let way = if version.start { down } else { up };
        let answer = go(way, bytes);
        let needed = answer.as_ref().map_or(bytes.len(), Vec::len);
        for length in [needed, needed.saturating_sub(1), dice.below(needed + 1), 0] {
            let mut out = vec![9; length];
            let given = way(bytes, &mut out);
            match &answer {
                Ok(text) if length >= text.len() => assert_eq!((&out, given), (text, Ok(needed))),
                Ok(_) => assert_eq!(given, refuse(15, needed)),
                Err(refusal) => assert_eq!(given, Err(*refusal)),
            }
            assert!(given.is_ok() || out.iter().all(|&byte| byte == 9));
        }
    });
}

/// The random sheets meet each kind in useful number.
#[test]
fn kinds_of_sheets() {
    let mut kinds = Kinds::default();
    for_each("kinds", &mut |bytes, version, dice| {
        let other = [Version::PRESENT, Version::OF_01][usize::from(version.start)];
        let by = if dice.chance(5) { &other } else { version };
        add(&mut kinds, bytes, by);
    });
    kinds.finish(LEAST);
}

/// Facts that 01's layout can say, unless a route begins nowhere by it.
#[test]
fn facts_that_01_can_say() {
    let mut kept = 0;
    for number in 0..SHEETS {
        let facts = of_01(&mut Dice::new(mix(seed()) ^ mix(number)));
        let [old, now] = [Version::OF_01, Version::PRESENT].map(|v| sheet::text_by(&facts, &v));
        let _failing = Failing(number, now.clone());
        assert!(departures(&facts).is_empty());
        let goes = go(up, old.as_bytes()) == Ok(now.clone().into_bytes());
        assert_eq!(goes, go(down, now.as_bytes()) == Ok(old.into_bytes()));
        kept += usize::from(goes);
    }
    println!("{kept} of {SHEETS} go both ways");
    assert!(kept > 3_000);
}
