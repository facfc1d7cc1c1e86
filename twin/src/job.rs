//! A job: rows 6 to 12 with 23, straight replay, and what is kept.

use crate::lookup::Lookup;
use crate::reader::Sheet;
use crate::route::{Step, MOST};
use crate::Refusal;

const MOST_KEPT: u32 = 16;

/// How a job goes on after the rows to 12.
pub enum Way {
    /// All fire in turn on the new route and end on this marking.
    Straight(u64),
    /// The kept, to be put in an order from the new route's start.
    Search(u64),
}

/// What each occurrence reads and writes, which of them cut cloth, where their names
/// stand in the old route and the new, and how many names were compared to find them
/// there.
pub struct Uses {
    pub len: usize,
    pub reads: [u32; MOST],
    pub writes: [u32; MOST],
    cloth: u64,
    old: [u8; MOST],
    new: [u8; MOST],
    compared: [usize; 2],
}

/// The place of a name that the new route lacks.
const NOWHERE: u8 = MOST as u8;

impl Uses {
    pub fn new() -> Uses {
        Uses {
            len: 0,
            reads: [0; MOST],
            writes: [0; MOST],
            cloth: 0,
            old: [0; MOST],
            new: [0; MOST],
            compared: [0; 2],
        }
    }

    /// Whether an occurrence cuts cloth, by its step in the old route.
    #[inline]
    pub fn cuts(&self, index: usize) -> bool {
        self.cloth >> index & 1 == 1
    }

    /// The new route's step of an occurrence.
    #[inline]
    pub fn step<'a>(&self, sheet: &'a Sheet, index: usize) -> Option<&'a Step> {
        sheet.new.steps.get(usize::from(self.new[index]))
    }

    /// The shared places that an occurrence takes a token from.
    #[inline]
    pub fn takes(&self, sheet: &Sheet, index: usize) -> u64 {
        self.old_step(sheet, index).ins & sheet.old.shared
    }

    /// The shared places that it puts a token on.
    #[inline]
    pub fn puts(&self, sheet: &Sheet, index: usize) -> u64 {
        self.old_step(sheet, index).puts() & sheet.old.shared
    }

    #[inline]
    fn old_step<'a>(&self, sheet: &'a Sheet, index: usize) -> &'a Step {
        &sheet.old.steps[usize::from(self.old[index])]
    }
}

/// How many names are compared on the old route and on the new, by the rows to 9.
pub fn compared(bytes: &[u8]) -> Result<[usize; 2], Refusal> {
    let mut sheet = Sheet::new();
    sheet.read(bytes)?;
    let mut uses = Uses::new();
    find(&sheet, &mut uses)?;
    Ok(uses.compared)
}

/// The rows to 12 of a sheet that reads; fills in what its occurrences use.
pub fn way(sheet: &Sheet, uses: &mut Uses) -> Result<Way, Refusal> {
    find(sheet, uses)?;
    if let Some(end) = straight(sheet, uses) {
        return Ok(Way::Straight(end));
    }
    let kept = kept(sheet, uses);
    check_kept(sheet, kept, uses)?;
    Ok(Way::Search(kept))
}

/// The rows from 6 to 9 with 23; finds the occurrences in both routes.
fn find(sheet: &Sheet, uses: &mut Uses) -> Result<(), Refusal> {
    sheet.old.open(1)?;
    sheet.new.open(sheet.new_line())?;
    run(sheet, uses)?;
    place(sheet, uses);
    Ok(())
}

/// Runs the done list on the old route, from its start: rows 8 and 9.
fn run(sheet: &Sheet, uses: &mut Uses) -> Result<(), Refusal> {
    let mut marking = sheet.old.start;
    let mut lookup = Lookup::default();
    for (index, &name) in sheet.done[..sheet.done_len].iter().enumerate() {
        let Some(place) = lookup.find(sheet.old.all(), name) else {
            return Err((8, sheet.done_line(index)));
        };
        let step = &sheet.old.steps[place];
        if !step.can_fire(marking) {
            return Err((9, sheet.done_line(index)));
        }
        marking ^= step.toggle();
        uses.old[index] = place as u8;
        uses.reads[index] = step.reads;
        uses.writes[index] = step.writes;
        uses.cloth |= u64::from(step.cloth) << index;
    }
    uses.len = sheet.done_len;
    uses.compared[0] = lookup.compared;
    Ok(())
}

/// Finds the done names in the new route.
fn place(sheet: &Sheet, uses: &mut Uses) {
    let mut lookup = Lookup::default();
    for (place, &name) in uses.new.iter_mut().zip(&sheet.done[..sheet.done_len]) {
        let found = lookup.find(sheet.new.all(), name);
        *place = found.map_or(NOWHERE, |place| place as u8);
    }
    uses.compared[1] = lookup.compared;
}

/// Where the whole done list ends on the new route, if it goes straight from its start.
fn straight(sheet: &Sheet, uses: &Uses) -> Option<u64> {
    let mut marking = sheet.new.start;
    for index in 0..uses.len {
        let step = uses.step(sheet, index)?;
        if !step.can_fire(marking) || !same_work(step, uses, index) {
            return None;
        }
        marking ^= step.toggle();
    }
    Some(marking)
}

/// The same reads and writes, and the same mark.
fn same_work(step: &Step, uses: &Uses, index: usize) -> bool {
    step.reads == uses.reads[index]
        && step.writes == uses.writes[index]
        && step.cloth == uses.cuts(index)
}

/// One sweep from the last occurrence to the first: one is kept when it cuts cloth,
/// writes a variable whose value is still wanted, or puts a token that is; then what it
/// reads is wanted, and the tokens that it takes from shared places.
pub fn kept(sheet: &Sheet, uses: &Uses) -> u64 {
    let (mut wanted, mut tokens) = (sheet.new.variables, 0);
    let mut kept = 0;
    for index in (0..uses.len).rev() {
        let puts_wanted = tokens != 0 && uses.puts(sheet, index) & tokens != 0;
        if uses.writes[index] & wanted != 0 || puts_wanted || uses.cuts(index) {
            wanted = wanted & !uses.writes[index] | uses.reads[index];
            if sheet.old.shared != 0 {
                tokens = tokens & !uses.puts(sheet, index) | uses.takes(sheet, index);
            }
            kept |= 1 << index;
        }
    }
    kept
}

/// Rows 10, 11 and 12.
fn check_kept(sheet: &Sheet, kept: u64, uses: &Uses) -> Result<(), Refusal> {
    if kept.count_ones() > MOST_KEPT {
        return Err((10, sheet.job_line()));
    }
    let mut left = kept;
    while left != 0 {
        let index = left.trailing_zeros() as usize;
        left &= left - 1;
        match uses.step(sheet, index) {
            None => return Err((11, sheet.done_line(index))),
            Some(step) if !same_work(step, uses, index) => {
                return Err((12, sheet.done_line(index)))
            }
            Some(_) => {}
        }
    }
    Ok(())
}
