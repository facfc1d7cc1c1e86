//! Orders tried on random sheets.

use reference::fit::try_sheet;
use reference::random::{bytes, dice::mix, dice::Dice, orders::order};
use reference::record::mask;
use reference::sheet::read;

const SHEETS: u64 = 20_000;

/// Both answer the order alike.
#[track_caller]
pub fn same(sheet: &[u8], order: &[u8]) -> u32 {
    let answer = match try_sheet(sheet, order) {
        Ok(marking) => (0, 0, mask(marking)),
        Err(refusal) => (refusal.number, refusal.second as u64, 0),
    };
    let text = String::from_utf8_lossy(sheet);
    assert_eq!(
        twin::try_order(sheet, order),
        answer,
        "{order:?} of sheet\n{text}"
    );
    answer.0
}

#[test]
fn on_random_orders() {
    let mut met = [0; 24];
    for number in 0..SHEETS {
        let mut dice = Dice::new(mix(number));
        let sheet = bytes(&mut dice);
        let tried = match read(&sheet) {
            Ok(facts) => order(&facts, &mut dice),
            Err(_) => vec![1, 2, 3],
        };
        met[same(&sheet, &tried) as usize] += 1;
    }
    for number in (0..=12).chain(16..=18).chain([23]) {
        assert!(met[number] > 0, "{number} is never met");
    }
}
