//! Sheets between editions (02, A.6): from 01's layout to the present one, with the
//! implied starts written out, and back. No sheet is written anew: lines are put into
//! the text that is given, or taken out of it.

use crate::net;
use crate::refusal::{refuse_if, Refusal};
use crate::sheet::{form, read, read_by, Sheet, MARK};
use crate::version::Version;

/// A way between the editions: a sheet and the out slice, to the bytes written.
pub type Way = fn(&[u8], &mut [u8]) -> Result<usize, Refusal>;

/// From 01's layout to the present one: rows 1, 4, 2, 3 and 5, then 6 and 7 of old and
/// new, then 15.
pub fn up(bytes: &[u8], out: &mut [u8]) -> Result<usize, Refusal> {
    give(&up_text(bytes)?, out)
}

/// From the present layout to 01's: the same rows with 22 before 15.
pub fn down(bytes: &[u8], out: &mut [u8]) -> Result<usize, Refusal> {
    give(&down_text(bytes)?, out)
}

/// Down where the second line begins as a start line does, else up.
pub fn convert(bytes: &[u8], out: &mut [u8]) -> Result<usize, Refusal> {
    give(&text(bytes)?, out)
}

/// The sheet in the other layout, whichever it is given in.
pub fn text(bytes: &[u8]) -> Result<String, Refusal> {
    let mut lines = bytes.split(|&byte| byte == b'\n');
    let second = lines.nth(1).unwrap_or_default();
    if second.starts_with(b"(start") {
        down_text(bytes)
    } else {
        up_text(bytes)
    }
}

/// Row 15; then the text at the beginning of the out slice.
fn give(text: &str, out: &mut [u8]) -> Result<usize, Refusal> {
    refuse_if(out.len() < text.len(), 15, text.len())?;
    out[..text.len()].copy_from_slice(text.as_bytes());
    Ok(text.len())
}

fn up_text(bytes: &[u8]) -> Result<String, Refusal> {
    let sheet = read_by(bytes, &Version::OF_01)?;
    net::check(&sheet, &Version::OF_01)?;
    let mut starts = implied_lines(&sheet).into_iter();
    let mut text = String::new();
    for line in lines(bytes) {
        text += &line;
        if line.starts_with("(old ") || line.starts_with("(new ") {
            text.extend(starts.next());
        }
    }
    Ok(text)
}

fn down_text(bytes: &[u8]) -> Result<String, Refusal> {
    let sheet = read(bytes)?;
    net::check(&sheet, &Version::PRESENT)?;
    let mut starts = implied_lines(&sheet).into_iter();
    let mut text = String::new();
    for (index, line) in lines(bytes).iter().enumerate() {
        if line.starts_with("(start") {
            // It says no more than 01 implies.
            refuse_if(starts.next().as_ref() != Some(line), 22, index + 1)?;
        } else {
            refuse_if(!is_of_01(line), 22, index + 1)?;
            text += line;
        }
    }
    Ok(text)
}

/// The start lines, old and new, that say what 01 implies.
fn implied_lines(sheet: &Sheet) -> [String; 2] {
    [&sheet.old, &sheet.new].map(|route| {
        let places: Vec<u64> = net::implied_start(route).into_iter().collect();
        form("start", &places) + "\n"
    })
}

/// The lines of a sheet that reads, each with its LF.
fn lines(bytes: &[u8]) -> Vec<String> {
    let lines = bytes.split_inclusive(|&byte| byte == b'\n');
    lines
        .map(|line| String::from_utf8_lossy(line).into_owned())
        .collect()
}

/// Whether 01's layout has this line: a name that it can say, and no mark.
fn is_of_01(line: &str) -> bool {
    let named = line.strip_prefix("(step ").or(line.strip_prefix("(done "));
    let name = named.map(|rest| rest.split([' ', ')']).next().unwrap_or_default());
    let says = |name: &str| name.parse().is_ok_and(|name| Version::OF_01.is_name(name));
    name.is_none_or(says) && !line.contains(MARK)
}
