//! The engine's C functions, and thin safe wrappers over them.

extern "C" {
    fn reroute_try(
        sheet: *const u8,
        sheet_len: usize,
        order: *const u8,
        order_len: usize,
        second: *mut u64,
        marking: *mut u64,
    ) -> u32;

    fn reroute_print(
        sheet: *const u8,
        sheet_len: usize,
        work: *mut u8,
        work_len: usize,
        out: *mut u8,
        out_len: usize,
        second: *mut u64,
        written: *mut u64,
    ) -> u32;

    fn reroute_up(
        sheet: *const u8,
        sheet_len: usize,
        out: *mut u8,
        out_len: usize,
        second: *mut u64,
        written: *mut u64,
    ) -> u32;

    fn reroute_down(
        sheet: *const u8,
        sheet_len: usize,
        out: *mut u8,
        out_len: usize,
        second: *mut u64,
        written: *mut u64,
    ) -> u32;
}

/// What an out number holds before a call. No answer that the tests expect has
/// this value, so one that a call forgets to set shows.
const UNSET: u64 = 0xa5a5_5a5a_c3c3_3c3c;

/// What print, up and down answer: 01's number (0 on success), the second number and the
/// bytes written.
#[derive(Clone, Copy, Debug, PartialEq, Eq)]
pub struct Printed {
    pub number: u32,
    pub second: u64,
    pub written: u64,
}

/// What try answers: 01's number (0 on success), the second number and the
/// marking, place p at bit p.
#[derive(Clone, Copy, Debug, PartialEq, Eq)]
pub struct Tried {
    pub number: u32,
    pub second: u64,
    pub marking: u64,
}

/// Prints the listing of the sheet into the out slice.
pub fn print(sheet: &[u8], work: &mut [u8], out: &mut [u8]) -> Printed {
    let (mut second, mut written) = (UNSET, UNSET);
    // SAFETY: each pointer comes with the length of its slice; the three slices and the
    // two numbers don't overlap, and they outlive the call.
    let number = unsafe {
        reroute_print(
            sheet.as_ptr(),
            sheet.len(),
            work.as_mut_ptr(),
            work.len(),
            out.as_mut_ptr(),
            out.len(),
            &mut second,
            &mut written,
        )
    };
    Printed {
        number,
        second,
        written,
    }
}

/// A C function from a sheet to an out slice.
type Way = unsafe extern "C" fn(*const u8, usize, *mut u8, usize, *mut u64, *mut u64) -> u32;

/// Takes a sheet of 01's layout up to the present one.
pub fn up(sheet: &[u8], out: &mut [u8]) -> Printed {
    go(reroute_up, sheet, out)
}

/// Takes a sheet of the present layout down to 01's.
pub fn down(sheet: &[u8], out: &mut [u8]) -> Printed {
    go(reroute_down, sheet, out)
}

fn go(way: Way, sheet: &[u8], out: &mut [u8]) -> Printed {
    let (mut second, mut written) = (UNSET, UNSET);
    // SAFETY: each pointer comes with the length of its slice; the two slices and the two
    // numbers don't overlap, and they outlive the call.
    let number = unsafe {
        way(
            sheet.as_ptr(),
            sheet.len(),
            out.as_mut_ptr(),
            out.len(),
            &mut second,
            &mut written,
        )
    };
    Printed {
        number,
        second,
        written,
    }
}

/// Tries an order, occurrence numbers as bytes, on the job of the sheet.
pub fn try_order(sheet: &[u8], order: &[u8]) -> Tried {
    let (mut second, mut marking) = (UNSET, UNSET);
    // SAFETY: each pointer comes with the length of its slice; the slices are only read,
    // and the numbers outlive the call.
    let number = unsafe {
        reroute_try(
            sheet.as_ptr(),
            sheet.len(),
            order.as_ptr(),
            order.len(),
            &mut second,
            &mut marking,
        )
    };
    Tried {
        number,
        second,
        marking,
    }
}
