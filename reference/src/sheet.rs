//! The sheet: its facts, its lines, reading and writing.

use crate::layout;
use crate::lines;
use crate::refusal::{refuse_if, Refusal};
use crate::version::Version;

/// How a step form that is marked ends, inside its bracket.
pub const MARK: &str = " (cloth)";

/// A step: its name, its places, the variables read and written, and whether it is
/// marked as cloth (02, A.4).
#[derive(Clone, Debug, PartialEq, Eq)]
pub struct Step {
    pub name: u64,
    pub ins: Vec<u64>,
    pub outs: Vec<u64>,
    pub reads: Vec<u64>,
    pub writes: Vec<u64>,
    pub cloth: bool,
}

/// A route: the number N of its places, those with a token at the start (02, A.5), and
/// its steps. Read by 01's version, its start is empty.
#[derive(Clone, Debug, PartialEq, Eq)]
pub struct Route {
    pub places: u64,
    pub start: Vec<u64>,
    pub steps: Vec<Step>,
}

/// The facts of a sheet. They need not be in range: `lines` says whether they are,
/// of numbers as they were read, which u64 has room for.
#[derive(Clone, Debug, PartialEq, Eq)]
pub struct Sheet {
    pub old: Route,
    pub new: Route,
    pub done: Vec<u64>,
}

impl Route {
    /// The route's step of this name.
    pub fn step(&self, name: u64) -> Option<&Step> {
        self.steps.iter().find(|step| step.name == name)
    }
}

impl Sheet {
    /// The line of `(old N)`.
    pub fn old_line(&self) -> usize {
        1
    }

    /// The line of `(new N)`.
    pub fn new_line(&self) -> usize {
        self.new_line_by(&Version::PRESENT)
    }

    /// The line of `(job)`.
    pub fn job_line(&self) -> usize {
        self.job_line_by(&Version::PRESENT)
    }

    /// The line of `(new N)` in a sheet of this version.
    pub fn new_line_by(&self, version: &Version) -> usize {
        version.first_step_line(self.old_line()) + self.old.steps.len()
    }

    /// The line of `(job)` in a sheet of this version.
    pub fn job_line_by(&self, version: &Version) -> usize {
        version.first_step_line(self.new_line_by(version)) + self.new.steps.len()
    }

    /// The done line of an occurrence, counted from 1.
    pub fn done_line(&self, occurrence: usize) -> usize {
        self.job_line() + occurrence
    }
}

/// The entries of a list that a record holds as a bit mask, place p at bit p.
pub fn entries(mask: u64) -> Vec<u64> {
    (0..64).filter(|bit| mask >> bit & 1 == 1).collect()
}

/// Reads a sheet of the present version by rows 1, 4, 2, 3 and 5; the lent lists
/// are as long as needed.
pub fn read(bytes: &[u8]) -> Result<Sheet, Refusal> {
    read_by(bytes, &Version::PRESENT)
}

/// The same by the limits of any version.
pub fn read_by(bytes: &[u8], version: &Version) -> Result<Sheet, Refusal> {
    let sheet = layout::read(bytes, version)?;
    lines::check(&sheet, version)?;
    Ok(sheet)
}

/// Reads a sheet into lent lists for old, new and done of these lengths: row 15 too.
pub fn read_into(bytes: &[u8], room: [usize; 3]) -> Result<Sheet, Refusal> {
    let sheet = read(bytes)?;
    let needed = [
        sheet.old.steps.len(),
        sheet.new.steps.len(),
        sheet.done.len(),
    ];
    for (needed, room) in needed.into_iter().zip(room) {
        refuse_if(needed > room, 15, needed)?;
    }
    Ok(sheet)
}

/// The sheet's job part, from `(job)` to the end; a refused sheet gives the
/// empty part at its start. The call ends after row 5.
pub fn job_part(bytes: &[u8]) -> (Result<(), Refusal>, &[u8]) {
    match read(bytes) {
        Err(refusal) => (Err(refusal), &bytes[..0]),
        Ok(sheet) => {
            let part: usize = text(&sheet)
                .split_inclusive('\n')
                .take(sheet.job_line() - 1)
                .map(str::len)
                .sum();
            (Ok(()), &bytes[part..])
        }
    }
}

/// Writes a sheet into the out slice: rows 4, 2, 3, 5 and 15. Gives the bytes written.
pub fn write(sheet: &Sheet, out: &mut [u8]) -> Result<usize, Refusal> {
    lines::check(sheet, &Version::PRESENT)?;
    let text = text(sheet);
    refuse_if(out.len() < text.len(), 15, text.len())?;
    out[..text.len()].copy_from_slice(text.as_bytes());
    Ok(text.len())
}

/// The sheet of these facts, with no row looked at.
pub fn text(sheet: &Sheet) -> String {
    text_by(sheet, &Version::PRESENT)
}

/// The same with start lines only where the version has them.
pub fn text_by(sheet: &Sheet, version: &Version) -> String {
    let mut text = route_text("old", &sheet.old, version);
    text += &route_text("new", &sheet.new, version);
    text += "(job)\n";
    for name in &sheet.done {
        text += &format!("(done {name})\n");
    }
    text
}

/// A head line, its start line and the step lines.
fn route_text(word: &str, route: &Route, version: &Version) -> String {
    let mut text = format!("({word} {})\n", route.places);
    if version.start {
        text += &format!("{}\n", form("start", &route.start));
    }
    route.steps.iter().for_each(|s| text += &step_text(s));
    text
}

/// One step line.
fn step_text(step: &Step) -> String {
    format!(
        "(step {} {} {} {} {}{})\n",
        step.name,
        form("in", &step.ins),
        form("out", &step.outs),
        form("read", &step.reads),
        form("write", &step.writes),
        if step.cloth { MARK } else { "" }
    )
}

/// A form: a word and its numbers, one space before each.
pub fn form<T: ToString>(word: &str, numbers: &[T]) -> String {
    let mut text = format!("({word}");
    for number in numbers {
        text.push(' ');
        text += &number.to_string();
    }
    text.push(')');
    text
}
