//! The shelf (02, A.1): up to 8 editions of a route, with rising numbers.

use crate::judge::{self, Moved, WORK};
use crate::lines;
use crate::net;
use crate::record::RouteByValue;
use crate::refusal::{refuse, refuse_if, Refusal};
use crate::sheet::{Route, Sheet};
use crate::version::Version;
use std::ops::RangeInclusive;

pub const MOST_EDITIONS: usize = 8;
pub const NUMBERS: RangeInclusive<u32> = 1..=65_535;

/// The line of an old route's head.
const HEAD: usize = 1;

#[derive(Clone, Copy, Debug, PartialEq, Eq)]
pub struct Edition {
    pub number: u32,
    pub route: RouteByValue,
}

/// Its first `len` editions are on it. One that is handed in may hold anything.
#[derive(Clone, Debug, PartialEq, Eq)]
pub struct Shelf {
    pub len: u64,
    pub editions: [Edition; MOST_EDITIONS],
}

impl Edition {
    pub fn blank() -> Edition {
        Edition {
            number: 0,
            route: RouteByValue::of(0, 0, 0, &[]),
        }
    }
}

impl Shelf {
    pub fn empty() -> Shelf {
        Shelf {
            len: 0,
            editions: [Edition::blank(); MOST_EDITIONS],
        }
    }

    /// The editions on the shelf. 21 with 1: over 8, or numbers that don't rise
    /// within 1 to 65,535.
    pub fn stored(&self) -> Result<&[Edition], Refusal> {
        refuse_if(self.len > MOST_EDITIONS as u64, 21, 1)?;
        let stored = &self.editions[..self.len as usize];
        let within = stored.iter().all(|e| NUMBERS.contains(&e.number));
        let rising = stored.windows(2).all(|e| e[0].number < e[1].number);
        refuse_if(!within || !rising, 21, 1)?;
        Ok(stored)
    }

    /// Puts an edition behind the others; a refusal leaves the shelf as it came.
    pub fn put(&mut self, number: u32, route: &RouteByValue) -> Result<(), Refusal> {
        let stored = self.stored()?;
        let at = stored.len();
        let last = stored.last().map_or(0, |edition| edition.number);
        refuse_if(!NUMBERS.contains(&number) || number <= last, 20, 0)?;
        refuse_if(at == MOST_EDITIONS, 21, 0)?;
        check_as_old(&route.route())?;
        self.editions[at] = Edition {
            number,
            route: *route,
        };
        self.len += 1;
        Ok(())
    }

    /// Judges a job of the one edition against the other, the target.
    pub fn judge(
        &self,
        edition: u32,
        target: u32,
        done: &[u64],
        work: &mut [u8],
    ) -> Result<Moved, Refusal> {
        refuse_if(work.len() < WORK, 14, 0)?;
        let stored = self.stored()?;
        let find = |number| stored.iter().find(|e| e.number == number);
        let (Some(old), Some(new)) = (find(edition), find(target)) else {
            return refuse(19, 0);
        };
        refuse_if(new.number <= old.number, 19, 0)?;
        let sheet = Sheet {
            old: old.route.route(),
            new: new.route.route(),
            done: done.to_vec(),
        };
        judge::judge(&sheet, work)
    }
}

/// Rows 4, 2, 3, 5, 6, 7 and 23 of a route, as an old route meets them.
fn check_as_old(route: &Route) -> Result<(), Refusal> {
    lines::check_route(route, HEAD, &Version::PRESENT)?;
    net::check_route(route, HEAD)
}
