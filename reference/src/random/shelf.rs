//! Random scripts of shelves. A loft draws a route again and again, puts the
//! editions on its shelf and judges jobs of one against another; numbers, routes
//! and shelves handed in are wrong at times.

use super::dice::Dice;
use super::plan::Plan;
use super::records::{add_past_len, any, spoil_done, spoil_record, Records};
use super::script::{self, ENDING, MOST_BYTES, PAST_A_LIMIT};
use super::{jobs, mistype, names, redraw, run_at_random, spoil, starts};
use crate::record::RouteByValue;
use crate::script::writing;
use crate::sheet::{Route, Sheet};
use crate::shelf::{Edition, Shelf, MOST_EDITIONS};

/// A random script. Most begin by handing in the empty shelf.
pub fn script(dice: &mut Dice) -> String {
    let mut loft = Loft::new(dice);
    let mut text = String::new();
    if dice.chance(90) {
        text += &loft.hand_in(Shelf::empty());
    }
    for _ in 0..dice.from_to(16, 32) {
        let turn = loft.turn(dice);
        if text.len() + turn.len() + ENDING > MOST_BYTES {
            break;
        }
        text += &turn;
    }
    script::ended(text, &PAST_A_LIMIT, dice)
}

/// A plan that is redrawn, or a job whose two routes are drawn in turn.
enum Drawing {
    Plan(Plan),
    Job(Sheet),
}

impl Drawing {
    fn new(dice: &mut Dice) -> Drawing {
        if dice.chance(65) {
            Drawing::Plan(super::plan_and_length(dice).0)
        } else {
            Drawing::Job(jobs::job(dice))
        }
    }

    fn next(&mut self, dice: &mut Dice) -> Route {
        match self {
            Drawing::Plan(plan) => {
                for _ in 0..any(&[0, 1, 1, 1, 2], dice) {
                    redraw::redraw(plan, dice);
                }
                plan.draw(dice)
            }
            Drawing::Job(job) => {
                std::mem::swap(&mut job.old, &mut job.new);
                job.new.clone()
            }
        }
    }
}

/// The shelf in hand, and what is drawn.
struct Loft {
    shelf: Shelf,
    drawing: Drawing,
}

impl Loft {
    fn new(dice: &mut Dice) -> Loft {
        Loft {
            shelf: Shelf::empty(),
            drawing: Drawing::new(dice),
        }
    }

    /// Some operations of a kind, in a row.
    fn turn(&mut self, dice: &mut Dice) -> String {
        let bad = self.shelf.stored().is_err();
        let few = self.stored().len() < 2;
        match dice.below(20) {
            0..=1 => self.fresh_shelf(dice),
            2 => script::operation(dice),
            3 => self.puts(MOST_EDITIONS + 2, dice),
            4..=10 if bad => self.fresh_shelf(dice),
            4..=17 if few => self.puts(4, dice),
            4..=8 => self.puts(2, dice),
            _ => self.judges(dice),
        }
    }

    /// The editions that `len` says are stored, on a bad shelf too.
    fn stored(&self) -> &[Edition] {
        let len = self.shelf.len.min(MOST_EDITIONS as u64);
        &self.shelf.editions[..len as usize]
    }

    fn hand_in(&mut self, shelf: Shelf) -> String {
        self.shelf = shelf;
        writing::hand_in(&self.shelf)
    }

    fn fresh_shelf(&mut self, dice: &mut Dice) -> String {
        self.drawing = Drawing::new(dice);
        let shelf = match dice.below(10) {
            0..=2 => Shelf::empty(),
            3..=5 => self.some_shelf(dice),
            _ => {
                let mut shelf = self.some_shelf(dice);
                make_bad(&mut shelf, dice);
                shelf
            }
        };
        self.hand_in(shelf)
    }

    /// A shelf with rising numbers, of which few routes are wrong; at times with
    /// entries past `len`.
    fn some_shelf(&mut self, dice: &mut Dice) -> Shelf {
        let count = any(&[1, 2, 2, 3, 4, 7, 8, 8], dice);
        let mut shelf = Shelf::empty();
        let mut last = any(&[0, 0, 0, 9, 300, 65_535 - count as u32], dice);
        for edition in &mut shelf.editions[..count] {
            last += if last > 60_000 { 1 } else { rise(dice) };
            edition.number = last;
            edition.route = self.route(31, dice);
        }
        let past = any(&[0, 0, 0, 1, count.min(3)], dice);
        shelf.len = (count - past) as u64;
        shelf
    }

    /// A route, wrong so many times in a hundred; at times with records past `len`.
    fn route(&mut self, percent: usize, dice: &mut Dice) -> RouteByValue {
        let mut route = self.drawing.next(dice);
        while route.places > 64 || route.steps.len() > 64 {
            self.drawing = Drawing::new(dice);
            route = self.drawing.next(dice);
        }
        let mut records = if dice.chance(percent) {
            wrong(route, dice)
        } else {
            Records::of(&route)
        };
        if dice.chance(12) {
            add_past_len(&mut records, dice);
        }
        records.by_value()
    }

    /// So many, or down to half of them.
    fn puts(&mut self, most: usize, dice: &mut Dice) -> String {
        (0..dice.from_to(most / 2, most))
            .map(|_| self.put(dice))
            .collect()
    }

    fn put(&mut self, dice: &mut Dice) -> String {
        let last = self.stored().last().map_or(0, |edition| edition.number);
        let number = if dice.chance(80) {
            last.saturating_add(rise(dice))
        } else {
            other_number(last, dice)
        };
        let route = self.route(30, dice);
        let _ = self.shelf.put(number, &route);
        writing::put(number, &route)
    }

    fn judges(&mut self, dice: &mut Dice) -> String {
        (0..dice.from_to(1, 5)).map(|_| self.judge(dice)).collect()
    }

    fn judge(&self, dice: &mut Dice) -> String {
        let [edition, target] = self.pair(dice);
        let done = self.done(edition, dice);
        writing::judge_editions([edition, target], &done, script::work(dice))
    }

    /// An edition and a target: most often stored, and the target later.
    fn pair(&self, dice: &mut Dice) -> [u32; 2] {
        let numbers: Vec<u32> = self.stored().iter().map(|e| e.number).collect();
        let missing = self.missing(dice);
        if numbers.len() < 2 {
            return [numbers.first().copied().unwrap_or(missing), missing];
        }
        let later = dice.from_to(1, numbers.len() - 1);
        let edition = numbers[dice.below(later)];
        let target = numbers[later];
        match dice.below(30) {
            0 => [target, edition],
            1 => [edition, edition],
            2 => [edition, missing],
            3 => [missing, target],
            4 => [missing, missing],
            _ => [edition, target],
        }
    }

    /// A number that is seldom stored: near one that is, or past `len`.
    fn missing(&self, dice: &mut Dice) -> u32 {
        let some = any(&self.shelf.editions, dice).number;
        let wrapped = some.wrapping_add(65_536);
        let near = [some.wrapping_sub(1), some.wrapping_add(1)];
        any(&[0, wrapped, near[0], near[1], 65_535, 65_536, some], dice)
    }

    /// A done list that the edition mostly runs.
    fn done(&self, number: u32, dice: &mut Dice) -> Vec<u64> {
        let edition = self.stored().iter().find(|e| e.number == number);
        let route = edition.map(|edition| edition.route.route());
        let Some(route) = route.filter(jobs::opens) else {
            return (0..dice.below(4)).map(|_| names::any_name(dice)).collect();
        };
        let most = any(&[6, 9, 9, 14, 18, 64], dice);
        let length = if dice.chance(60) {
            most
        } else {
            dice.below(most)
        };
        let mut done = run_at_random(&route, length, dice);
        match dice.below(25) {
            0..=3 => spoil(&mut done, dice),
            4 => spoil_done(&mut done, dice),
            _ => {}
        }
        done
    }
}

/// By how much a number rises.
fn rise(dice: &mut Dice) -> u32 {
    let most = any(&[1, 1, 9, 3_000], dice);
    dice.from_to(1, most) as u32
}

/// A number that put refuses, or at its limits.
fn other_number(last: u32, dice: &mut Dice) -> u32 {
    let wrapped = last.saturating_add(65_537);
    let below = last.saturating_sub(1);
    any(
        &[last, last, below, 0, 1, 65_535, 65_536, wrapped, u32::MAX],
        dice,
    )
}

/// The route with a place in no step, with no start or another one, going round,
/// mistyped, or with one or two things spoiled.
fn wrong(mut route: Route, dice: &mut Dice) -> Records {
    let kind = dice.below(18);
    if matches!(kind, 15..=17) || dice.chance(20) {
        mistype::route(&mut route, &[], dice);
    }
    match kind {
        0..=1 => route.places = 64.min(route.places + 1),
        2 => route.start.clear(),
        3 => starts::take_away(&mut route),
        4 => starts::change(&mut route, dice),
        5 => jobs::close(&mut route),
        _ => {}
    }
    let mut records = Records::of(&route);
    match kind {
        6..=9 => (0..dice.from_to(1, 2)).for_each(|_| records.spoil(dice)),
        10..=14 => spoil_record(&mut records, dice),
        _ => {}
    }
    records
}

/// Mostly over 8 editions, or numbers that don't rise within 1 to 65,535.
fn make_bad(shelf: &mut Shelf, dice: &mut Dice) {
    let last = shelf.len.max(1) as usize - 1;
    let at = dice.below(last + 1);
    let numbers = shelf.editions.each_mut().map(|edition| &mut edition.number);
    match dice.below(12) {
        0..=1 => shelf.len = any(&[9, 9, 10, 16, 256, 1 << 32, u64::MAX], dice),
        2 => shelf.len += 1 << 32,
        3 => shelf.len += 1,
        4 => *numbers[0] = 0,
        5 => *numbers[last] = 65_536,
        6 => *numbers[last] += 65_536,
        7 => *numbers[at] = any(&[0, 65_535, 65_536, u32::MAX], dice),
        8..=9 if at > 0 => *numbers[at] = *numbers[at - 1],
        _ if at > 0 => *numbers[at] = *numbers[at - 1] - 1,
        _ => shelf.len = MOST_EDITIONS as u64 + 1,
    }
}
