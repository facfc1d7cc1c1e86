//! Work and out slices at, under and over their lengths, with random contents
//! and guard bytes on both sides.

use crate::compare::compare_print;
use crate::guarded::random_bytes;
use crate::seed::for_each_case;
use crate::tally::Tally;
use reference::judge::WORK;
use reference::print::listing_of;
use reference::random;

#[test]
fn lengths_of_work_and_out() {
    let mut tally = Tally::default();
    let mut searched = [0; 3];
    for_each_case("slices", 2_000, &mut |dice| {
        let bytes = random::bytes(dice);
        let needed = listing_of(&bytes).len();
        let over = needed + dice.from_to(1, 300);
        let wide = WORK + dice.from_to(9, 9_000);
        for work_length in [dice.below(WORK), WORK - 1, WORK, WORK + 1, 8_200, wide] {
            let work = random_bytes(work_length, dice);
            for out_length in [0, dice.below(needed), needed - 1, needed, over] {
                let out = random_bytes(out_length, dice);
                let (answer, _) = compare_print(&bytes, &work, &out, dice);
                tally.add(answer.number);
            }
        }
        searched[outcome(&bytes)] += 1;
    });
    println!("lengths of slices: without a search, found, not found {searched:?}");
    assert!(searched.iter().all(|&count| count > 50));
    tally.finish("prints with lengths of slices", "done", 1_000, &[0, 14, 15]);
}

/// 0 without a search; after one 1 for an order found and 2 for none.
fn outcome(bytes: &[u8]) -> usize {
    let mut work = vec![1; WORK];
    let mut out = vec![7; listing_of(bytes).len()];
    host::print(bytes, &mut work, &mut out);
    match work[0] {
        0 if out.starts_with(b"(refused ") => 2,
        0 => 1,
        _ => 0,
    }
}
