//! Print: the listing of a sheet into the out slice.

use crate::job::{self, Uses};
use crate::listing::{self, LONGEST};
use crate::moved::Moved;
use crate::pen::{Counter, Writer};
use crate::reader::Sheet;
use crate::search::WORK;
use crate::Refusal;

/// Prints the listing; gives the number, the second number and the bytes
/// written. A refusal up to 13 or by 23 is itself the listing.
pub fn print(sheet: &[u8], work: &mut [u8], out: &mut [u8]) -> (u32, u64, u64) {
    let Some(work) = work.first_chunk_mut::<WORK>() else {
        return (14, 0, 0);
    };
    let answer = judge(sheet, work);
    if out.len() < LONGEST {
        let mut counter = Counter(0);
        listing::list(&answer, &mut counter);
        if out.len() < counter.0 {
            return (15, counter.0 as u64, 0);
        }
    }
    let mut writer = Writer { out, at: 0 };
    listing::list(&answer, &mut writer);
    (0, 0, writer.at as u64)
}

/// The facts of a job that moves, or what refuses it.
fn judge(bytes: &[u8], work: &mut [u8; WORK]) -> Result<Moved, Refusal> {
    let mut sheet = Sheet::new();
    sheet.read(bytes)?;
    let mut uses = Uses::new();
    let way = job::way(&sheet, &mut uses)?;
    Moved::by(&way, &sheet, &uses, work)
}
