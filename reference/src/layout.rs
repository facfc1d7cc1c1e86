//! Row 1, the layout: a recursive-descent reader that takes one byte at a time
//! and stops at the first byte where no sheet begins so, or at the length if
//! the sheet ends early. It has no limit on steps, done lines or entries.

use crate::refusal::Refusal;
use crate::sheet::{Route, Sheet, Step, MARK};
use crate::version::Version;

/// The bytes of a sheet, and the offset of the first one not yet taken.
struct Reader<'a> {
    bytes: &'a [u8],
    at: usize,
    version: &'a Version,
}

/// Reads the facts of a sheet that keeps the layout. The numbers may be out of range.
pub fn read(bytes: &[u8], version: &Version) -> Result<Sheet, Refusal> {
    let mut reader = Reader {
        bytes,
        at: 0,
        version,
    };
    reader.sheet()
}

impl Reader<'_> {
    fn sheet(&mut self) -> Result<Sheet, Refusal> {
        let old = self.route("(old ")?;
        let new = self.route("(new ")?;
        self.take("(job)\n")?;
        let mut done = Vec::new();
        while self.at < self.bytes.len() {
            self.take("(done ")?;
            done.push(self.number()?);
            self.take(")\n")?;
        }
        Ok(Sheet { old, new, done })
    }

    /// A head line, its start line and the step lines after it.
    fn route(&mut self, head: &str) -> Result<Route, Refusal> {
        self.take(head)?;
        let places = self.number()?;
        self.take(")\n")?;
        let start = self.start()?;
        let mut steps = Vec::new();
        // A second letter `s` tells a step from the next head.
        while self.bytes[self.at..].starts_with(b"(s") {
            steps.push(self.step()?);
        }
        Ok(Route {
            places,
            start,
            steps,
        })
    }

    /// The start line, which must be there where the version has it.
    fn start(&mut self) -> Result<Vec<u64>, Refusal> {
        let mut start = Vec::new();
        if self.version.start {
            start = self.list("(start")?;
            self.take("\n")?;
        }
        Ok(start)
    }

    fn step(&mut self) -> Result<Step, Refusal> {
        self.take("(step ")?;
        let name = self.number()?;
        let ins = self.list(" (in")?;
        let outs = self.list(" (out")?;
        let reads = self.list(" (read")?;
        let writes = self.list(" (write")?;
        let cloth = self.mark()?;
        self.take(")\n")?;
        Ok(Step {
            name,
            ins,
            outs,
            reads,
            writes,
            cloth,
        })
    }

    /// The mark, where the version has it and a space tells it from the step's end.
    fn mark(&mut self) -> Result<bool, Refusal> {
        let marked = self.version.cloth && self.peek() == Some(b' ');
        if marked {
            self.take(MARK)?;
        }
        Ok(marked)
    }

    /// A list: its word, then entries with one space before each.
    fn list(&mut self, word: &str) -> Result<Vec<u64>, Refusal> {
        self.take(word)?;
        let mut entries = Vec::new();
        while self.peek() == Some(b' ') {
            self.take(" ")?;
            entries.push(self.number()?);
        }
        self.take(")")?;
        Ok(entries)
    }

    /// One digit and up to the most, and none after a leading 0. A digit too many is
    /// not taken, so the layout breaks there: no form goes on with a digit.
    fn number(&mut self) -> Result<u64, Refusal> {
        let first = self.digit().ok_or(self.broken())?;
        let mut value = first;
        let mut digits = 1;
        while first != 0 && digits < self.version.most_digits {
            let Some(digit) = self.digit() else { break };
            value = value * 10 + digit;
            digits += 1;
        }
        Ok(value)
    }

    /// Takes a digit, if one is next.
    fn digit(&mut self) -> Option<u64> {
        let byte = self.peek().filter(u8::is_ascii_digit)?;
        self.at += 1;
        Some(u64::from(byte - b'0'))
    }

    /// Takes exactly these bytes.
    fn take(&mut self, text: &str) -> Result<(), Refusal> {
        for byte in text.bytes() {
            if self.peek() != Some(byte) {
                return Err(self.broken());
            }
            self.at += 1;
        }
        Ok(())
    }

    fn peek(&self) -> Option<u8> {
        self.bytes.get(self.at).copied()
    }

    /// The layout breaks at the byte not taken, or at the length.
    fn broken(&self) -> Refusal {
        Refusal {
            number: 1,
            second: self.at,
        }
    }
}
