//! Hard searches: the order that print lists, or 13, against a search that
//! remembers; try on that order against the second program.

use crate::compare::{compare_try, same};
use crate::guarded::random_bytes;
use crate::hard_sheet;
use crate::remembering::first_order;
use crate::seed::for_each_case;
use reference::fit::{check_kept, moves_straight};
use reference::job::Job;
use reference::judge::WORK;
use reference::random::dice::Dice;
use reference::sheet::{self, form, Sheet};

/// The `order` or `refused` line of the engine's listing. The work slice must
/// be 0 after the search.
fn listed(bytes: &[u8], dice: &mut Dice) -> Option<String> {
    let (mut work, mut out) = (random_bytes(WORK, dice), vec![0; 4_096]);
    let printed = host::print(bytes, &mut work, &mut out);
    same(bytes, &work, &vec![0; WORK]);
    out.truncate(printed.written as usize);
    let listing = String::from_utf8_lossy(&out).into_owned();
    let wanted = |line: &&str| line.starts_with("(order") || line.starts_with("(refused");
    listing.lines().find(wanted).map(String::from)
}

/// Compares one search; gives whether there is a fit order.
fn compare_search(facts: &Sheet, order: Option<Vec<usize>>, dice: &mut Dice) -> bool {
    let bytes = sheet::text(facts).into_bytes();
    let expected = match &order {
        Some(order) => form("order", order),
        None => form("refused", &[13, facts.job_line()]),
    };
    same(&bytes, &listed(&bytes, dice), &Some(expected));
    if let Some(order) = &order {
        let order: Vec<u8> = order.iter().map(|&one| one as u8).collect();
        let tried = compare_try(&bytes, &order, dice);
        same(&bytes, &tried.number, &0);
    }
    order.is_some()
}

#[test]
fn hard_searches() {
    let (mut found, mut none, mut most_failed) = (0, 0, 0);
    for_each_case("hard", 1_500, &mut |dice| {
        let facts = hard_sheet::sheet(dice);
        let job = Job::of(&facts).expect("a row to 9");
        check_kept(&job).expect("a row to 12");
        if !moves_straight(&job) {
            let (order, failed) = first_order(&job);
            most_failed = failed.max(most_failed);
            let moves = compare_search(&facts, order, dice);
            *(if moves { &mut found } else { &mut none }) += 1;
        }
    });
    println!("hard searches: {found} found, {none} not, at most {most_failed} dead ends");
    assert!(found > 100 && none > 50 && most_failed > 500);
}
