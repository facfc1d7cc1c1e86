//! Sheets between 01's layout and the present one, right and wrong, both ways.

use crate::Seed;
use reference::convert::{down, up, Way};
use reference::random::convert::sheets;
use reference::random::dice::{mix, Dice};
use reference::version::Version;

const SHEETS: u64 = 10_000;
const ROOM: usize = 21_000;

type Twin = fn(&[u8], &mut [u8]) -> (u32, u64, u64);

/// Both give the same answer, and the same out slice, which had any contents; gives the
/// number.
#[track_caller]
fn same(way: Way, twin: Twin, sheet: &[u8], room: usize) -> u32 {
    let (mut out, mut twin_out) = (vec![9; room], vec![9; room]);
    let answer = match way(sheet, &mut out) {
        Ok(written) => (0, 0, written as u64),
        Err(refusal) => (refusal.number, refusal.second as u64, 0),
    };
    let text = String::from_utf8_lossy(sheet);
    assert_eq!(twin(sheet, &mut twin_out), answer, "of sheet\n{text}");
    assert_eq!(twin_out, out, "of sheet\n{text}");
    answer.0
}

#[test]
fn between_layouts() {
    let mut written = [0, 0];
    for number in 0..SHEETS {
        let _seed = Seed(number);
        let mut dice = Dice::new(mix(number));
        let version = [Version::OF_01, Version::PRESENT][dice.below(2)];
        let sheet = sheets::bytes(&version, &mut dice);
        let ways: [(Way, Twin); 2] = [(up, twin::up), (down, twin::down)];
        for ((way, twin), count) in ways.into_iter().zip(&mut written) {
            if same(way, twin, &sheet, ROOM) == 0 {
                *count += 1;
                let needed = way(&sheet, &mut [0; ROOM]).unwrap_or(0);
                for room in [needed, needed - 1, 0] {
                    same(way, twin, &sheet, room);
                }
            }
        }
    }
    println!("written up and down: {written:?}");
    assert!(written.iter().all(|&count| count > 1_000));
}
