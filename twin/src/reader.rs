//! Reading: one pass over the bytes for the layout (row 1) and the facts, with
//! rows 4, 2, 3 and 5 looked at line by line. A layout that breaks further
//! down goes first, so a fault of a line is put by and reading goes on.

use crate::cursor::{Broken, Cursor};
use crate::route::{Route, MOST};
use crate::rows::{Line, PLACES};
use crate::version::{Present, Version};
use crate::Refusal;

pub struct Sheet {
    pub old: Route,
    pub new: Route,
    pub done_len: usize,
    pub done: [u32; MOST],
}

struct Reader<'a> {
    cursor: Cursor<'a>,
    /// The line in hand, from 1.
    line: u64,
    fault: Option<Refusal>,
}

impl Sheet {
    pub fn new() -> Sheet {
        Sheet {
            old: Route::new(),
            new: Route::new(),
            done_len: 0,
            done: [0; MOST],
        }
    }

    /// Fills in the facts of a sheet, by the rows to 5.
    pub fn read(&mut self, bytes: &[u8]) -> Result<(), Refusal> {
        self.read_by::<Present>(bytes)
    }

    /// The same by a version.
    pub fn read_by<V: Version>(&mut self, bytes: &[u8]) -> Result<(), Refusal> {
        let mut reader = Reader {
            cursor: Cursor::new(bytes),
            line: 1,
            fault: None,
        };
        match reader.sheet::<V>(self) {
            Err(Broken) => Err((1, reader.cursor.at as u64)),
            Ok(()) => reader.fault.map_or(Ok(()), Err),
        }
    }

    pub fn new_line(&self) -> u64 {
        3 + self.old.len as u64
    }

    pub fn job_line(&self) -> u64 {
        self.new_line() + 2 + self.new.len as u64
    }

    /// The line of the done name at this index, from 0.
    pub fn done_line(&self, index: usize) -> u64 {
        self.job_line() + 1 + index as u64
    }
}

impl Reader<'_> {
    fn sheet<V: Version>(&mut self, sheet: &mut Sheet) -> Result<(), Broken> {
        self.cursor.take(b"(old ")?;
        self.route::<V>(&mut sheet.old)?;
        self.cursor.take(b"(new ")?;
        self.need_steps(&sheet.old);
        self.route::<V>(&mut sheet.new)?;
        self.cursor.take(b"(job)\n")?;
        self.need_steps(&sheet.new);
        while !self.cursor.at_end() {
            self.line += 1;
            self.done::<V>(sheet)?;
        }
        Ok(())
    }

    /// The rest of a head line, the start line if there is one, and the step lines.
    fn route<V: Version>(&mut self, route: &mut Route) -> Result<(), Broken> {
        route.places = self.cursor.number::<V>()?;
        if V::START {
            self.cursor.take(b")\n(start")?;
        } else {
            self.cursor.take(b")\n")?;
        }
        if !PLACES.contains(&route.places) {
            self.put_by(2);
        }
        self.line += 1;
        if V::START {
            self.start::<V>(route)?;
            self.line += 1;
        }
        while self.cursor.sees(b"(s") {
            let line = self.step::<V>()?;
            if self.fault.is_none() {
                self.add::<V>(route, &line);
            }
            self.line += 1;
        }
        Ok(())
    }

    /// The places of a start line, and rows 2 and 3 on them.
    fn start<V: Version>(&mut self, route: &mut Route) -> Result<(), Broken> {
        let list = self.cursor.list::<V>()?;
        self.cursor.take(b")\n")?;
        if list.above > route.places {
            self.put_by(2);
        } else if list.falls {
            self.put_by(3);
        }
        route.start = list.mask;
        Ok(())
    }

    #[inline(always)]
    fn step<V: Version>(&mut self) -> Result<Line, Broken> {
        let cursor = &mut self.cursor;
        cursor.take(b"(step ")?;
        let name = cursor.number::<V>()?;
        cursor.take(b" (in")?;
        let ins = cursor.list::<V>()?;
        cursor.take(b") (out")?;
        let outs = cursor.list::<V>()?;
        cursor.take(b") (read")?;
        let reads = cursor.list::<V>()?;
        cursor.take(b") (write")?;
        let writes = cursor.list::<V>()?;
        let cloth = self.step_end::<V>()?;
        let lists = [ins, outs, reads, writes];
        Ok(Line { name, lists, cloth })
    }

    /// The end of a step line; whether it has the mark.
    #[inline(always)]
    fn step_end<V: Version>(&mut self) -> Result<bool, Broken> {
        let marked = V::CLOTH && self.cursor.sees(b") ");
        if marked {
            self.cursor.take(b") (cloth))\n")?;
        } else {
            self.cursor.take(b"))\n")?;
        }
        Ok(marked)
    }

    /// Rows 4, 2, 3 and 5 of a step line; else the route gets the step.
    #[inline(always)]
    fn add<V: Version>(&mut self, route: &mut Route, line: &Line) {
        if route.len == MOST {
            return self.put_by(4);
        }
        match line.step::<V>(route.places) {
            Err(number) => self.put_by(number),
            Ok(step) => {
                if !route.add(step) {
                    self.put_by(5);
                }
            }
        }
    }

    fn done<V: Version>(&mut self, sheet: &mut Sheet) -> Result<(), Broken> {
        self.cursor.take(b"(done ")?;
        let name = self.cursor.number::<V>()?;
        self.cursor.take(b")\n")?;
        if sheet.done_len == MOST {
            self.put_by(4);
        } else if !V::is_name(name) {
            self.put_by(2);
        } else {
            sheet.done[sheet.done_len] = name as u32;
            sheet.done_len += 1;
        }
        Ok(())
    }

    /// Row 4 at the head after a route with no step.
    fn need_steps(&mut self, route: &Route) {
        if route.len == 0 {
            self.put_by(4);
        }
    }

    /// Keeps the first fault.
    #[cold]
    fn put_by(&mut self, number: u32) {
        self.fault.get_or_insert((number, self.line));
    }
}
