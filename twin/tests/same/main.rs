//! The twin gives what the second program gives.

mod branches;
mod convert;
mod letters;
mod marks;
mod orders;
mod random;
mod reads;
mod starts;

use reference::judge::WORK;
use reference::lookup::comparisons;
use reference::print::{listing_of, print};
use reference::sheet::read;
use twin::print as twin_print;

/// The seed of a sheet; printed when the test fails on it.
struct Seed(u64);

impl Drop for Seed {
    fn drop(&mut self) {
        if std::thread::panicking() {
            eprintln!("seed {}", self.0);
        }
    }
}

/// Both print the sheet into slices of any contents: the same answer, and the
/// same contents afterwards.
#[track_caller]
fn same(sheet: &[u8], work_len: usize, out_len: usize) {
    let (mut work, mut out) = (vec![7; work_len], vec![9; out_len]);
    let (mut twin_work, mut twin_out) = (work.clone(), out.clone());
    let answer = match print(sheet, &mut work, &mut out) {
        Ok(written) => (0, 0, written as u64),
        Err(refusal) => (refusal.number, refusal.second as u64, 0),
    };
    let text = String::from_utf8_lossy(sheet);
    let twin_answer = twin_print(sheet, &mut twin_work, &mut twin_out);
    assert_eq!(twin_answer, answer, "of sheet\n{text}");
    assert_eq!(twin_out, out, "of sheet\n{text}");
    assert_eq!(twin_work, work, "of sheet\n{text}");
    let compared = read(sheet).and_then(|facts| comparisons(&facts));
    let compared = compared
        .map(|(run, matched)| [run, matched])
        .map_err(|refusal| (refusal.number, refusal.second as u64));
    assert_eq!(twin::compared(sheet), compared, "of sheet\n{text}");
}

/// The same with room and with none, with a work slice that is too short, and
/// at the edge where the out slice is just long enough.
#[track_caller]
fn same_in_all_slices(sheet: &[u8]) {
    let needed = listing_of(sheet).len();
    same(sheet, WORK, 16_384);
    same(sheet, WORK + 5, needed);
    same(sheet, WORK, needed - 1);
    same(sheet, WORK, 0);
    same(sheet, WORK - 1, 16_384);
}
