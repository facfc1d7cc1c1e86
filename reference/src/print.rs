//! Print: the listing of a sheet, into the out slice.

use crate::judge::{self, WORK};
use crate::listing;
use crate::refusal::{refuse_if, Refusal};
use crate::sheet;

/// Prints the listing of the sheet into the out slice; gives the bytes written.
/// A refusal up to 13, or by 23, is itself the listing; 14 and 15 are print's own.
pub fn print(bytes: &[u8], work: &mut [u8], out: &mut [u8]) -> Result<usize, Refusal> {
    refuse_if(work.len() < WORK, 14, 0)?;
    let text = text(bytes, work);
    refuse_if(out.len() < text.len(), 15, text.len())?;
    out[..text.len()].copy_from_slice(text.as_bytes());
    Ok(text.len())
}

/// The listing of the sheet, with a work slice that is long enough.
fn text(bytes: &[u8], work: &mut [u8]) -> String {
    let answer = sheet::read(bytes).and_then(|facts| judge::judge(&facts, work));
    listing::listing(&answer)
}

/// The listing of the sheet, with a work slice of its own.
pub fn listing_of(bytes: &[u8]) -> String {
    text(bytes, &mut [0; WORK])
}
