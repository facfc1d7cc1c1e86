//! Try on random orders: number, second number and marking.

use crate::compare::compare_try;
use crate::large;
use crate::seed::for_each_case;
use crate::some_order::{any_order, some_order, spoil};
use crate::tally::Tally;
use reference::job::Job;
use reference::judge::{judge, WORK};
use reference::random::{self, dice::Dice};
use reference::sheet::{self, Sheet};

/// An order for this sheet; half of them are spoiled or have little to do with it.
fn order_for(job: &Option<Job>, dice: &mut Dice) -> Vec<u8> {
    let order = match job {
        Some(job) => some_order(job, dice),
        None => vec![1, 2, 3],
    };
    match dice.below(12) {
        0..=5 => order,
        6..=8 => spoil(order, dice),
        9 => {
            let once = spoil(order, dice);
            spoil(once, dice)
        }
        _ => any_order(&order, dice),
    }
}

/// Whether judge gives this order.
fn is_judges(facts: &Sheet, order: &[u8]) -> bool {
    judge(facts, &mut [0; WORK]).is_ok_and(|moved| {
        let given = moved.order.iter().map(|&occurrence| occurrence as u8);
        given.eq(order.iter().copied())
    })
}

#[test]
fn random_orders() {
    let mut tally = Tally::default();
    let mut others = 0;
    for_each_case("orders", 30_000, &mut |dice| {
        let bytes = match dice.below(5) {
            0 => sheet::text(&large::sheet(dice)).into_bytes(),
            _ => random::bytes(dice),
        };
        let facts = sheet::read(&bytes);
        let job = facts.as_ref().ok().and_then(|facts| Job::of(facts).ok());
        for _ in 0..4 {
            let order = order_for(&job, dice);
            let answer = compare_try(&bytes, &order, dice);
            tally.add(answer.number);
            let fit = facts.as_ref().ok().filter(|_| answer.number == 0);
            others += usize::from(fit.is_some_and(|facts| !is_judges(facts, &order)));
        }
    });
    println!("orders: {others} accepted that judge doesn't give");
    assert!(others > 1_000);
    let numbers: Vec<u32> = (0..=12).chain(16..=18).chain([23]).collect();
    tally.finish("orders", "accepted", 20, &numbers);
}
