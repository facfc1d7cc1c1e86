//! 01's example A, with its start lines (02, A.5).

use reference::judge::WORK;

const SHEET: &str = include_str!("../../../examples/letters/A.sheet");
const LISTING: &str = include_str!("../../../examples/letters/A.listing");

#[test]
fn example_a() {
    let (mut work, mut out) = ([1; WORK + 1], [7; LISTING.len() + 1]);
    let printed = host::print(SHEET.as_bytes(), &mut work, &mut out);
    assert_eq!((printed.number, printed.second), (0, 0));
    assert_eq!(printed.written, LISTING.len() as u64);
    assert_eq!(out[..], [LISTING.as_bytes(), &[7]].concat());
    assert_eq!(work[..], [vec![0; WORK], vec![1]].concat());
    let tried = host::try_order(SHEET.as_bytes(), &[2, 1, 3]);
    assert_eq!((tried.number, tried.second, tried.marking), (0, 0, 8));
}
