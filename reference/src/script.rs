//! Scripts: operations with their arguments, as numbers, and what each answers.
//! A script has a shelf in hand, at first the empty one: 20 hands in another, 21
//! puts an edition on it, 22 judges a job of one of its editions. 23 reads a sheet
//! by 01's version, as 6 does by the present one. 24 finds a name among others, from
//! a beginning; 25 tells how many names a job's run and its match compared. 26, 27 and
//! 28 take a sheet from 01's version to the present one, back, and from either.

pub mod answers;
pub mod arguments;
pub mod numbers;
pub mod writing;

use crate::convert::{convert, down, up};
use crate::sheet::Sheet;
use crate::shelf::Shelf;
use crate::version::Version;
use arguments::{by_value, bytes, fill, names, record, route, word};
use numbers::Numbers;

/// The text that the program must print for this script: a line for each
/// operation, up to the first one that isn't whole.
pub fn answer(script: &str) -> String {
    let lines = answers(script);
    lines.iter().map(|(_, numbers)| line(numbers)).collect()
}

/// The line of an answer.
pub fn line(numbers: &[u64]) -> String {
    let words: Vec<String> = numbers.iter().map(u64::to_string).collect();
    words.join(" ") + "\n"
}

/// Each operation's number, and the numbers of its answer.
pub fn answers(script: &str) -> Vec<(u64, Vec<u64>)> {
    let mut numbers = Numbers::of(script);
    let mut shelf = Shelf::empty();
    let next = || {
        let operation = numbers.any()?;
        Some((operation, one(operation, &mut numbers, &mut shelf)?))
    };
    std::iter::from_fn(next).collect()
}

/// The answer of one operation; none where its arguments aren't whole.
fn one(operation: u64, script: &mut Numbers, shelf: &mut Shelf) -> Option<Vec<u64>> {
    match operation {
        1 => Some(answers::fire(script.any()?, &record(script)?)),
        2 | 12 => Some(answers::run(&facts(operation, script)?)),
        3 | 13 => Some(answers::slice(&facts(operation, script)?)),
        4 | 14 => Some(answers::try_order(
            &facts(operation, script)?,
            &bytes(script)?,
        )),
        5 | 15 => Some(answers::judge(&facts(operation, script)?, fill(script)?)),
        6 => Some(answers::read(&bytes(script)?, &Version::PRESENT)),
        7 => Some(answers::job_part(&bytes(script)?)),
        8 | 18 => Some(answers::write(&facts(operation, script)?, fill(script)?)),
        9 => Some(answers::print(
            &bytes(script)?,
            fill(script)?,
            fill(script)?,
        )),
        10 => Some(answers::try_sheet(&bytes(script)?, &bytes(script)?)),
        16 => Some(answers::read_into(&bytes(script)?, lengths(script)?)),
        20 => {
            *shelf = arguments::shelf(script)?;
            Some(answers::shelf(shelf))
        }
        21 => Some(answers::put(shelf, word(script)?, &by_value(script)?)),
        22 => {
            let numbers = [word(script)?, word(script)?];
            let (done, work) = (names(script)?, fill(script)?);
            Some(answers::judge_editions(shelf, numbers, &done, work))
        }
        23 => Some(answers::read(&bytes(script)?, &Version::OF_01)),
        24 => {
            let (among, from) = (names(script)?, script.any()?);
            Some(answers::find(&among, from, word(script)?))
        }
        25 => Some(answers::comparisons(&facts(operation, script)?)),
        26 => Some(answers::convert(up, &bytes(script)?, fill(script)?)),
        27 => Some(answers::convert(down, &bytes(script)?, fill(script)?)),
        28 => Some(answers::convert(convert, &bytes(script)?, fill(script)?)),
        _ => None,
    }
}

/// Both routes and the done list; the routes of operations 12 to 18 are lent lists.
fn facts(operation: u64, script: &mut Numbers) -> Option<Sheet> {
    let lent = (12..=18).contains(&operation);
    Some(Sheet {
        old: route(script, lent)?,
        new: route(script, lent)?,
        done: names(script)?,
    })
}

/// The lengths of the lent lists for old, new and done.
fn lengths(script: &mut Numbers) -> Option<[usize; 3]> {
    let mut length = || script.most(arguments::MOST_LENT).map(|n| n as usize);
    Some([length()?, length()?, length()?])
}
