//! Random sheets, some of them damaged, and long ones.

use crate::{same, same_in_all_slices, Seed};
use reference::judge::WORK;
use reference::random::damage::damage;
use reference::random::{bytes, dice::mix, dice::Dice};

const SHEETS: u64 = 20_000;

#[test]
fn on_random_sheets() {
    for number in 0..SHEETS {
        let _seed = Seed(number);
        let mut dice = Dice::new(mix(number));
        let sheet = bytes(&mut dice);
        same(&sheet, WORK, 16_384);
        if number % 10 == 0 {
            same_in_all_slices(&sheet);
        }
    }
}

#[test]
fn on_sheets_that_are_cut_short() {
    for number in 0..20 {
        let _seed = Seed(number);
        let sheet = bytes(&mut Dice::new(mix(number)));
        for len in 0..sheet.len() {
            same(&sheet[..len], WORK, 64);
        }
    }
}

/// Steps side by side, each with its own places; as many done.
fn wide(steps: u32, done: u32) -> String {
    let mut route = String::new();
    for step in 0..steps {
        let (from, to, variable) = (2 * step % 64, (2 * step + 1) % 64, step % 32);
        route += &format!(
            "(step {} (in {from}) (out {to}) (read) (write {variable}))\n",
            step + 1
        );
    }
    let even: String = (0..32).map(|place| format!(" {}", 2 * place)).collect();
    let route = format!("(start{even})\n{route}");
    let mut sheet = format!("(old 64)\n{route}(new 64)\n{route}(job)\n");
    for name in 1..=done {
        sheet += &format!("(done {name})\n");
    }
    sheet
}

#[test]
fn at_the_limits() {
    for (steps, done) in [
        (32, 32),
        (63, 32),
        (64, 33),
        (65, 33),
        (32, 64),
        (32, 65),
        (70, 70),
    ] {
        let sheet = wide(steps, done).into_bytes();
        same_in_all_slices(&sheet);
        for number in 0..100 {
            let _seed = Seed(number);
            same(&damage(&sheet, &mut Dice::new(number)), WORK, 16_384);
        }
    }
}

/// One step that loops on its place, done 64 times: the longest rows.
#[test]
fn on_a_job_with_long_rows() {
    let route = "(start 0)\n(step 4294967295 (in 0) (out 1) (read) (write))\n(step 7 (in 1) (out 1) (read 0) (write 0 31))\n";
    for done in [1, 15, 16, 17, 63] {
        let sheet = format!(
            "(old 2)\n{route}(new 2)\n{route}(job)\n(done 4294967295)\n{}",
            "(done 7)\n".repeat(done)
        );
        same_in_all_slices(sheet.as_bytes());
    }
}
