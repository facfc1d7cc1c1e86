//! Random sheets by way of the shelf: the answer for two editions is that of
//! the sheet with their routes, and a route that isn't stored refuses its sheet.

use crate::{for_each_sheet, judged};
use reference::judge::{judge, WORK};
use reference::random::records::Records;
use reference::refusal::Refusal;
use reference::sheet::Sheet;
use reference::shelf::Shelf;

fn shelf_of(facts: &Sheet) -> Result<Shelf, Refusal> {
    let mut shelf = Shelf::empty();
    for (number, route) in [2, 3].into_iter().zip([&facts.old, &facts.new]) {
        shelf.put(number, &Records::of(route).by_value())?;
    }
    Ok(shelf)
}

#[test]
fn two_editions_and_their_sheet() {
    let (mut stored, mut refused) = (0, 0);
    for_each_sheet("shelf", &mut |facts, _| {
        let Ok(shelf) = shelf_of(facts) else {
            assert!(judged(facts).is_err());
            refused += 1;
            return;
        };
        let mut works = [[5; WORK + 1]; 2];
        let answer = shelf.judge(2, 3, &facts.done, &mut works[0]);
        assert_eq!(answer, judge(facts, &mut works[1]));
        assert!(works[0] == works[1]);
        stored += 1;
    });
    println!("{stored} stored, {refused} refused");
    assert!(stored > 1_000 && refused > 20);
}
