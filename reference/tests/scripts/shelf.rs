//! The shelf, worked by hand: what put stores and hands back, each of its rows
//! and judge's, and the order of the rows.

use crate::common::{counted, facts_a, padded, records, slice, text};
use crate::common::{Facts, Numbers, Records, BY_VALUE};
use crate::direct::Step;
use reference::script::answer;

/// The second numbers of 21: a shelf that is full, and one that is bad.
const FULL: [u64; 2] = [21, 0];
const BAD: [u64; 2] = [21, 1];

#[derive(Clone)]
struct Edition {
    number: u64,
    len: u64,
    route: Records,
}

/// The editions given; the entries past them are blank.
#[derive(Clone)]
struct Shelf {
    len: u64,
    editions: Vec<Edition>,
}

impl Edition {
    fn of(number: u64, route: Records) -> Edition {
        let len = route.list.len() as u64;
        Edition { number, len, route }
    }

    /// The number and the route by value.
    fn given(&self) -> String {
        format!("{} {}", self.number, self.route.with_len(self.len))
    }

    fn shown(&self) -> Numbers {
        let records = padded(&self.route.list.concat(), BY_VALUE);
        let head = vec![self.number, self.route.places, self.route.start, self.len];
        [head, slice(&records)].concat()
    }
}

impl Shelf {
    fn of(editions: Vec<Edition>) -> Shelf {
        let len = editions.len() as u64;
        Shelf { len, editions }
    }

    /// A shelf of right routes with these numbers.
    fn numbered(numbers: &[u64]) -> Shelf {
        Shelf::of(numbers.iter().map(|&number| right(number)).collect())
    }

    /// What stands on the shelf and one edition more.
    fn with(&self, edition: Edition) -> Shelf {
        Shelf::of([self.editions.clone(), vec![edition]].concat())
    }

    /// The arguments that hand it in.
    fn given(&self) -> String {
        let editions: Vec<String> = self.editions.iter().map(Edition::given).collect();
        format!("{} {} {}", self.len, editions.len(), editions.join(" "))
    }

    fn shown(&self) -> Numbers {
        let blank = [0, 0, 0, 0, 384, 384, 0].repeat(8 - self.editions.len());
        let entries: Vec<Numbers> = self.editions.iter().map(Edition::shown).collect();
        [vec![self.len], entries.concat(), blank].concat()
    }

    /// The answer to the operation when this shelf is in hand; it stays in hand
    /// unless the operation puts an edition on it.
    fn answers(&self, operation: &str) -> String {
        let lines = answer(&format!("20 {} {operation}", self.given()));
        let begin = text(&self.shown()) + "\n";
        let end = lines.strip_prefix(&begin);
        end.expect("the shelf handed in").trim_end().to_string()
    }

    #[track_caller]
    fn takes(&self, edition: &Edition) {
        let expected = [vec![0, 0], self.with(edition.clone()).shown()].concat();
        let put = format!("21 {}", edition.given());
        assert_eq!(self.answers(&put), text(&expected), "{put}");
    }

    /// Put is refused so, and hands the shelf back as it came.
    #[track_caller]
    fn refuses(&self, edition: &Edition, refusal: [u64; 2]) {
        let expected = [refusal.to_vec(), self.shown()].concat();
        let put = format!("21 {}", edition.given());
        assert_eq!(self.answers(&put), text(&expected), "{put}");
    }

    /// Judge is refused so, and leaves the work slice of 9s as it was.
    #[track_caller]
    fn refuses_job(&self, [edition, target]: [u64; 2], work: u64, refusal: [u64; 2]) {
        let judge = format!("22 {edition} {target} 1 10 {work} 9");
        let unchanged = slice(&vec![9; work as usize]);
        let expected = [padded(&refusal, 166), unchanged].concat();
        assert_eq!(self.answers(&judge), text(&expected), "{judge}");
    }
}

/// An edition with example A's old route.
fn right(number: u64) -> Edition {
    Edition::of(number, facts_a().old)
}

/// An edition with no step: 4 at line 3.
fn without_step(number: u64) -> Edition {
    Edition::of(number, records(1, &[]))
}

fn empty() -> Shelf {
    Shelf::of(vec![])
}

fn full() -> Shelf {
    Shelf::numbered(&[1, 2, 3, 4, 5, 6, 7, 8])
}

/// Over 8 editions, or numbers that don't rise within 1 to 65,535.
fn bad_shelves() -> Vec<Shelf> {
    let numbers: [&[u64]; 12] = [
        &[0],
        &[0, 1],
        &[65_536],
        &[1, 65_536],
        &[65_535, 65_536],
        &[1, (1 << 32) - 1],
        &[5, 5],
        &[1, 2, 2],
        &[5, 4],
        &[1, 3, 2],
        &[3, 1, 2],
        &[1, 2, 3, 4, 5, 6, 7, 7],
    ];
    let mut shelves: Vec<Shelf> = numbers.map(Shelf::numbered).to_vec();
    for len in [9, 10, 256, (1 << 32) + 2, 1 << 63, u64::MAX] {
        shelves.push(Shelf { len, ..full() });
    }
    // A blank entry has number 0.
    let mut longer = Shelf::numbered(&[1, 2]);
    longer.len = 3;
    shelves.push(longer);
    shelves.push(Shelf { len: 1, ..empty() });
    shelves
}

#[test]
fn a_script_begins_with_the_empty_shelf() {
    let blank = "0 0 0 0 384 384 0";
    let shown = format!("0 {}", [blank; 8].join(" "));
    assert_eq!(answer("20 0 0"), format!("{shown}\n"));
    let put = answer(&format!("21 {}", right(5).given()));
    let expected = [vec![0, 0], Shelf::numbered(&[5]).shown()].concat();
    assert_eq!(put, text(&expected) + "\n");
    let refused = [padded(&[19, 0], 166), vec![8_192, 8_192, 9]].concat();
    assert_eq!(answer("22 1 2 0 8192 9"), text(&refused) + "\n");
}

#[test]
fn an_entry_is_shown_in_runs() {
    let route = records(2, &[[10, 1, 2, 0, 0, 0]]);
    let line = answer(&format!("21 {}", Edition::of(7, route).given()));
    assert!(line.starts_with("0 0 1 7 2 1 1 384 1 10 1 1 1 2 381 0 0 0 0 0 384 384 0 "));
}

#[test]
fn eight_editions_and_a_ninth() {
    let mut shelf = empty();
    let mut script = String::new();
    let mut expected = String::new();
    for number in [1, 2, 4, 8, 16, 32, 64, 65_535] {
        let edition = Edition::of(number, facts_a().new);
        script += &format!("21 {}\n", edition.given());
        shelf = shelf.with(edition);
        expected += &(text(&[vec![0, 0], shelf.shown()].concat()) + "\n");
    }
    assert_eq!(answer(&script), expected);
    shelf.refuses(&right(65_535), [20, 0]);
    shelf.refuses(&right(65_536), [20, 0]);
    full().refuses(&right(9), FULL);
}

#[test]
fn numbers_that_put_takes() {
    for number in [1, 2, 65_534, 65_535] {
        empty().takes(&right(number));
    }
    for number in [0, 65_536, 65_537, (1 << 32) - 1] {
        empty().refuses(&right(number), [20, 0]);
    }
    let shelf = Shelf::numbered(&[3, 500]);
    for number in [0, 1, 3, 4, 499, 500, 65_536, 66_036, (1 << 32) - 1] {
        shelf.refuses(&right(number), [20, 0]);
    }
    shelf.takes(&right(501));
    shelf.takes(&right(65_535));
    let last = Shelf::numbered(&[65_535]);
    for number in [1, 65_534, 65_535, 65_536] {
        last.refuses(&right(number), [20, 0]);
    }
}

#[test]
fn put_sets_one_entry_and_leaves_the_others() {
    let mut shelf = full();
    shelf.editions[4].route.list.push([0, 0, 0, 7, 7, 0]);
    shelf.editions[6] = without_step(0);
    shelf.len = 3;
    // Its second record stands past `len`, and is stored too.
    let route = records(2, &[[10, 1, 2, 0, 0, 0], [0, 1 << 63, 0, 9, 9, 0]]);
    let edition = Edition {
        number: 60_000,
        len: 1,
        route,
    };
    let mut after = shelf.clone();
    after.editions[3] = edition.clone();
    after.len = 4;
    let expected = [vec![0, 0], after.shown()].concat();
    let put = format!("21 {}", edition.given());
    assert_eq!(shelf.answers(&put), text(&expected));
    shelf.refuses(&right(3), [20, 0]);
}

#[test]
fn the_routes_own_rows() {
    let with = |record: usize, field: usize, number: u64| {
        let mut edition = right(9);
        edition.route.list[record][field] = number;
        edition
    };
    let shelf = Shelf::numbered(&[8]);
    shelf.refuses(&with(0, 0, 0), [2, 3]);
    shelf.takes(&with(0, 0, 65_536));
    shelf.takes(&with(0, 0, (1 << 32) - 1));
    shelf.refuses(&with(2, 1, 16), [2, 5]);
    shelf.refuses(&with(1, 2, 0), [3, 4]);
    shelf.refuses(&with(1, 3, 0x1ff), [3, 4]);
    shelf.refuses(&with(2, 0, 10), [5, 5]);
    shelf.refuses(&without_step(9), [4, 3]);
    for (places, refusal) in [(0, [2, 1]), (3, [2, 5]), (5, [6, 1]), (65, [2, 1])] {
        let mut edition = right(9);
        edition.route.places = places;
        shelf.refuses(&edition, refusal);
    }
    // A ring is taken: 30 puts the token back on the first place.
    shelf.takes(&with(2, 2, 9));
    let started = |start: u64| {
        let mut edition = right(9);
        edition.route.start = start;
        edition
    };
    for start in [16, 1 | 16, 1 << 63, u64::MAX] {
        shelf.refuses(&started(start), [2, 2]);
    }
    for start in [1, 2, 8, 15] {
        shelf.takes(&started(start));
    }
    shelf.refuses(&started(0), [7, 2]);
    let mut lone = started(0);
    lone.route.places = 5;
    shelf.refuses(&lone, [6, 1]);
    lone.route.list[1][0] = 0;
    shelf.refuses(&lone, [2, 4]);
}

#[test]
fn a_65th_step() {
    let list: Vec<Step> = (1..=64).map(|name| [name, 1, 2, 0, 0, 0]).collect();
    let mut edition = Edition::of(9, records(2, &list));
    empty().takes(&edition);
    for len in [65, 66, 1 << 32, u64::MAX] {
        edition.len = len;
        empty().refuses(&edition, [4, 67]);
    }
    edition.route.list[63][1] = 0;
    empty().refuses(&edition, [3, 66]);
    edition.len = 63;
    empty().takes(&edition);
}

/// 21 with 1, then 20, then 21 with 0, then the route's rows.
#[test]
fn the_order_of_puts_rows() {
    for shelf in bad_shelves() {
        shelf.refuses(&right(65_535), BAD);
        shelf.refuses(&right(0), BAD);
        shelf.refuses(&without_step(0), BAD);
    }
    full().refuses(&without_step(8), [20, 0]);
    full().refuses(&without_step(65_536), [20, 0]);
    full().refuses(&without_step(9), FULL);
    empty().refuses(&without_step(0), [20, 0]);
    empty().refuses(&without_step(1), [4, 3]);
}

/// 14, then 21 with 1, then 19, then judge's own rows.
#[test]
fn the_order_of_judges_rows() {
    for shelf in bad_shelves() {
        shelf.refuses_job([1, 2], 8_191, [14, 0]);
        shelf.refuses_job([1, 2], 8_192, BAD);
        shelf.refuses_job([99, 98], 8_192, BAD);
    }
    let shelf = Shelf::of(vec![without_step(3), without_step(5)]);
    shelf.refuses_job([3, 5], 0, [14, 0]);
    shelf.refuses_job([5, 3], 8_191, [14, 0]);
    shelf.refuses_job([5, 3], 8_192, [19, 0]);
    shelf.refuses_job([3, 5], 8_192, [4, 3]);
}

#[test]
fn editions_that_are_not_stored_or_not_later() {
    let shelf = Shelf::numbered(&[3, 5, 300]);
    for pair in [
        [3, 3],
        [5, 3],
        [300, 5],
        [300, 300],
        [3, 4],
        [4, 5],
        [0, 3],
        [3, 0],
        [0, 0],
        [3, 301],
        [3, 65_541],
        [65_539, 300],
        [(1 << 32) - 1, (1 << 32) - 1],
    ] {
        shelf.refuses_job(pair, 8_192, [19, 0]);
    }
    // An edition past `len` isn't stored, and a bad number there doesn't count.
    let mut shorter = shelf;
    shorter.editions.push(right(0));
    shorter.len = 2;
    shorter.refuses_job([3, 300], 8_192, [19, 0]);
    shorter.refuses_job([300, 3], 8_192, [19, 0]);
    empty().refuses_job([0, 0], 8_192, [19, 0]);
}

/// What judge answers for these two routes and done names, on the end of a line.
fn judged(facts: &Facts, work: u64) -> String {
    let line = answer(&format!("5 {} {work} 9", facts.by_value()));
    line.trim_end().to_string()
}

/// Each pair of a shelf is answered as its two routes are.
#[track_caller]
fn judges_each_pair(shelf: &Shelf, done: &[u64]) {
    for (at, old) in shelf.editions.iter().enumerate() {
        for new in &shelf.editions[at + 1..] {
            let facts = Facts {
                old: old.route.clone(),
                new: new.route.clone(),
                done: done.to_vec(),
            };
            let names = [old.number, new.number];
            for work in [8_192, 8_200] {
                let judge = format!("22 {} {} {work} 9", text(&names), counted(done));
                assert_eq!(shelf.answers(&judge), judged(&facts, work), "{judge}");
            }
        }
    }
}

#[test]
fn a_job_is_judged_as_its_two_routes_say() {
    let Facts { old, new, .. } = facts_a();
    let without_10 = records(3, &[[20, 1, 2, 0, 2, 0], [30, 2, 4, 3, 4, 0]]);
    let reads_1 = records(3, &[[20, 1, 2, 0, 2, 0], [30, 2, 4, 2, 4, 0]]);
    let mut other_writes = new.clone();
    other_writes.list[1][4] = 9;
    let routes = [old, new, without_10, reads_1, other_writes];
    let numbers = [1, 2, 700, 65_534, 65_535];
    let editions = numbers.into_iter().zip(routes);
    let shelf = Shelf::of(editions.map(|(n, route)| Edition::of(n, route)).collect());
    for done in [
        &[10, 20, 30][..],
        &[10, 20],
        &[20, 10, 30],
        &[10],
        &[],
        &[40],
        &[30],
        &[0],
        &[10; 65],
    ] {
        judges_each_pair(&shelf, done);
    }
    assert!(shelf
        .answers("22 1 2 3 10 20 30 8192 9")
        .starts_with("0 0 7 0 3 2 1 3 "));
}

/// A shelf handed in may hold bad routes: judge looks at all rows again.
#[test]
fn bad_routes_that_are_stored() {
    let mut lone = right(3);
    lone.route.places = 5;
    let mut nowhere = right(6);
    nowhere.route.start = 0;
    let mut nameless = right(7);
    nameless.route.list[1][0] = 0;
    let editions = vec![right(1), lone, right(4), without_step(5), nowhere, nameless];
    let shelf = Shelf::of(editions);
    judges_each_pair(&shelf, &[10, 20]);
    shelf.refuses_job([1, 3], 8_192, [6, 6]);
    shelf.refuses_job([3, 4], 8_192, [6, 1]);
    shelf.refuses_job([1, 5], 8_192, [4, 8]);
    shelf.refuses_job([5, 6], 8_192, [4, 3]);
    shelf.refuses_job([1, 6], 8_192, [7, 7]);
    shelf.refuses_job([6, 7], 8_192, [2, 9]);
    // They don't keep put from its work.
    shelf.takes(&right(8));
    let mut long = shelf;
    long.editions[0].len = u64::MAX;
    long.refuses_job([1, 4], 8_192, [2, 6]);
}

#[test]
fn the_shelf_stays_in_hand() {
    let shelf = Shelf::numbered(&[3, 5]);
    let between = "22 3 5 1 10 8192 9 22 5 3 0 8192 9 1 1 10 1 2 0 1 0 7 0 21 4 1 1 0 0";
    let lines = shelf.answers(&format!("{between} 21 {}", right(6).given()));
    let lines: Vec<&str> = lines.lines().collect();
    let refused = [vec![20, 0], shelf.shown()].concat();
    assert_eq!(lines[4], text(&refused));
    let taken = [vec![0, 0], shelf.with(right(6)).shown()].concat();
    assert_eq!(lines[5], text(&taken));
    assert_eq!(lines.len(), 6);
}
