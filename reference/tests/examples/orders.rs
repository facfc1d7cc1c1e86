//! Try on orders handed in: fit, repeated, missing, 0, 255, empty, too long.

use crate::common::{both, refusal, sheet, step, with_line, SHEET};
use reference::fit::try_sheet;
use reference::net::Marking;
use reference::refusal::Refusal;

/// Try on sheet A.
fn try_a(order: &[u8]) -> Result<Marking, Refusal> {
    try_sheet(SHEET.as_bytes(), order)
}

#[test]
fn a_fit_order_is_accepted() {
    assert_eq!(try_a(&[2, 1, 3]), Ok(Marking::from([3])));
}

#[test]
fn row_16() {
    assert_eq!(try_a(&[]), Err(refusal(16, 1)));
    assert_eq!(try_a(&[2]), Err(refusal(16, 2)));
    assert_eq!(try_a(&[2, 1]), Err(refusal(16, 3)));
    assert_eq!(try_a(&[0]), Err(refusal(16, 1)));
    assert_eq!(try_a(&[2, 1, 0]), Err(refusal(16, 3)));
    assert_eq!(try_a(&[2, 4, 3]), Err(refusal(16, 2)));
    assert_eq!(try_a(&[255, 2, 1, 3]), Err(refusal(16, 1)));
    assert_eq!(try_a(&[2, 2, 3]), Err(refusal(16, 2)));
    assert_eq!(try_a(&[2, 1, 3, 3]), Err(refusal(16, 4)));
    assert_eq!(try_a(&[2, 1, 3, 4]), Err(refusal(16, 4)));
    assert_eq!(try_a(&[3; 1_000]), Err(refusal(16, 2)));
    // The whole list is looked at for row 16 before any entry for 17.
    assert_eq!(try_a(&[3, 1, 1]), Err(refusal(16, 3)));
}

#[test]
fn rows_17_and_18() {
    assert_eq!(try_a(&[3, 1, 2]), Err(refusal(17, 1)));
    assert_eq!(try_a(&[2, 3, 1]), Err(refusal(17, 2)));
    // Entry by entry: 1 can't fire before it is seen that 3 stands too early.
    assert_eq!(try_a(&[1, 3, 2]), Err(refusal(18, 1)));
    assert_eq!(try_a(&[1, 2, 3]), Err(refusal(18, 1)));
    let stuck = with_line(10, &step(30, " 1", " 3", " 0 1", " 2"));
    assert_eq!(try_sheet(stuck.as_bytes(), &[2, 1, 3]), Err(refusal(18, 3)));
}

/// A sheet whose two routes are the same.
fn unchanged(places: u64, start: &str, steps: &[String], done: &[u64]) -> String {
    let (old, new) = both(places, start, &steps.concat());
    sheet(&old, &new, done)
}

/// 10 and 20 side by side; 10 has no data.
fn side_by_side(done: &[u64]) -> String {
    let steps = [step(10, " 0", " 1", "", ""), step(20, " 2", " 3", "", " 0")];
    unchanged(4, " 0 2", &steps, done)
}

#[test]
fn a_straight_job_takes_the_straight_list_and_the_kept() {
    let text = side_by_side(&[10, 20]);
    let tried = |order: &[u8]| try_sheet(text.as_bytes(), order);
    assert_eq!(tried(&[1, 2]), Ok(Marking::from([1, 3])));
    // Kept, as the slice has it, is 2 alone.
    assert_eq!(tried(&[2]), Ok(Marking::from([0, 3])));
    assert_eq!(tried(&[2, 1]), Err(refusal(16, 2)));
    assert_eq!(tried(&[1]), Err(refusal(16, 1)));
    assert_eq!(tried(&[1, 2, 2]), Err(refusal(16, 1)));
    assert_eq!(tried(&[]), Err(refusal(16, 1)));
}

#[test]
fn a_looped_step_is_kept_once() {
    let steps = [step(10, " 0", " 1", "", ""), step(20, " 1", " 1", "", " 0")];
    let text = unchanged(2, " 0", &steps, &[10, 20, 20]);
    let tried = |order: &[u8]| try_sheet(text.as_bytes(), order);
    assert_eq!(tried(&[1, 2, 3]), Ok(Marking::from([1])));
    assert_eq!(tried(&[3]), Err(refusal(18, 1)));
    assert_eq!(tried(&[1, 3]), Err(refusal(16, 1)));
}

#[test]
fn nothing_done_takes_the_empty_list_only() {
    let text = side_by_side(&[]);
    assert_eq!(try_sheet(text.as_bytes(), &[]), Ok(Marking::from([0, 2])));
    assert_eq!(try_sheet(text.as_bytes(), &[0]), Err(refusal(16, 1)));
    assert_eq!(try_sheet(text.as_bytes(), &[1]), Err(refusal(16, 1)));
}

/// Both routes: 10, then 20 and 30 side by side, each building on itself. 10,
/// then 20 and 30 nine times each: 19 are kept.
fn many_kept() -> String {
    let steps = [
        step(10, " 0", " 1 2", "", " 3"),
        step(20, " 1", " 1", " 4", " 4"),
        step(30, " 2", " 2", " 5", " 5"),
    ];
    let done = [vec![10], [20, 30].repeat(9)].concat();
    unchanged(3, " 0", &steps, &done)
}

#[test]
fn over_16_kept_in_a_straight_job() {
    let text = many_kept();
    let straight: Vec<u8> = (1..=19).collect();
    let even: Vec<u8> = (2..=18).step_by(2).collect();
    let odd: Vec<u8> = (3..=19).step_by(2).collect();
    let tried = |order: &[u8]| try_sheet(text.as_bytes(), order);
    assert_eq!(tried(&straight), Ok(Marking::from([1, 2])));
    assert_eq!(
        tried(&[vec![1], odd.clone(), even.clone()].concat()),
        Ok(Marking::from([1, 2]))
    );
    assert_eq!(tried(&[odd, even, vec![1]].concat()), Err(refusal(18, 1)));
}

#[test]
fn over_16_kept_in_another_job() {
    // The new 10 fills place 3 in the place of 1, so 20 can't fire.
    let text = many_kept();
    let (old, new) = text.split_at(text.find("(new").unwrap());
    let new = new
        .replace("(new 3)", "(new 4)")
        .replace("(out 1 2)", "(out 2 3)");
    let straight: Vec<u8> = (1..=19).collect();
    for order in [&straight[..], &[]] {
        let tried = try_sheet((old.to_string() + &new).as_bytes(), order);
        assert_eq!(tried, Err(refusal(10, 11)));
    }
}

#[test]
fn try_meets_the_rows_before() {
    let order = [2, 1, 3];
    let tried = |text: String| try_sheet(text.as_bytes(), &order);
    assert_eq!(tried(String::new()), Err(refusal(1, 0)));
    assert_eq!(tried(with_line(6, "(new 65)\n")), Err(refusal(2, 6)));
    assert_eq!(tried(with_line(7, "(start 4)\n")), Err(refusal(2, 7)));
    assert_eq!(tried(with_line(7, "(start 1 0)\n")), Err(refusal(3, 7)));
    assert_eq!(tried(with_line(1, "(old 5)\n")), Err(refusal(6, 1)));
    assert_eq!(tried(with_line(7, "(start)\n")), Err(refusal(7, 7)));
    assert_eq!(tried(with_line(12, "(done 40)\n")), Err(refusal(8, 12)));
    assert_eq!(tried(with_line(12, "(done 20)\n")), Err(refusal(9, 12)));
    let lacks = step(11, " 1", " 2", "", " 0");
    assert_eq!(tried(with_line(9, &lacks)), Err(refusal(11, 12)));
    let reads = |variable| step(10, " 1", " 2", variable, " 0");
    assert_eq!(tried(with_line(9, &reads(" 1"))), Err(refusal(12, 12)));
    assert_eq!(tried(with_line(9, &reads(" 7"))), Err(refusal(23, 9)));
}
