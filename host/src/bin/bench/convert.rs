//! Up and down, engine and twin.

use crate::{cases, row, stack, timing};
use host::Printed;
use std::hint::black_box;

/// No sheet is longer.
const OUT: usize = 20_500;

type Engine = fn(&[u8], &mut [u8]) -> Printed;
type Twin = fn(&[u8], &mut [u8]) -> (u32, u64, u64);

/// The rows of each sheet down to 01's layout and back.
pub fn print_rows() {
    for (name, sheet) in cases::between_layouts() {
        let of_01 = way_row(&format!("down: {name}"), &sheet, host::down, twin::down);
        let back = way_row(&format!("up: {name}"), &of_01, host::up, twin::up);
        assert!(back == sheet, "{name}");
    }
}

/// A row, after a look that both write alike; gives what they write.
fn way_row(name: &str, sheet: &[u8], engine: Engine, twin: Twin) -> Vec<u8> {
    let (mut out, mut twin_out) = (vec![9; OUT], vec![9; OUT]);
    let answer = engine(sheet, &mut out);
    let answer = (answer.number, answer.second, answer.written);
    assert_eq!(answer, twin(sheet, &mut twin_out), "{name}");
    assert!(answer.0 == 0 && out == twin_out, "{name}");
    let written = out[..answer.2 as usize].to_vec();
    let stack = stack::depth(|| {
        black_box(engine(sheet, &mut vec![0; OUT]));
    });
    let times = timing::both(
        || {
            black_box(engine(black_box(sheet), &mut out));
        },
        || {
            black_box(twin(black_box(sheet), &mut twin_out));
        },
    );
    row(name, sheet.len(), times, stack);
    written
}
