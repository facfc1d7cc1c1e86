//! How deep a call goes into the stack: a thread's stack is painted below the
//! caller, and after the call the lowest byte is looked for that has changed.

use std::hint::black_box;
use std::thread;

/// So much is painted; a call that goes deeper shows as this much.
const SPAN: usize = 512 * 1024;
/// The part next to the caller is left to the painting function itself.
const GAP: usize = 512;
const PAINT: u8 = 0xa7;

/// The bytes of stack that the call uses, on a thread of its own.
pub fn depth(call: impl FnOnce() + Send) -> usize {
    thread::scope(|scope| {
        let thread = thread::Builder::new().stack_size(2 * SPAN);
        let handle = thread.spawn_scoped(scope, || painted(call));
        handle.map_or(0, |handle| handle.join().unwrap_or(0))
    })
}

#[inline(never)]
fn painted(call: impl FnOnce()) -> usize {
    let marker = black_box(0u8);
    let top = &raw const marker as usize - GAP;
    paint(top);
    call();
    let used = top - lowest_changed(top);
    black_box(marker);
    if used == 0 {
        0
    } else {
        used + GAP
    }
}

/// Fills the bytes below the top. The thread's stack has room for them, and no
/// frame in use reaches so far down.
#[inline(never)]
fn paint(top: usize) {
    for at in top - SPAN..top {
        unsafe { (at as *mut u8).write_volatile(PAINT) }
    }
}

/// The lowest address whose byte is not the paint, or the top.
#[inline(never)]
fn lowest_changed(top: usize) -> usize {
    let changed = |&at: &usize| unsafe { (at as *const u8).read_volatile() } != PAINT;
    (top - SPAN..top).find(changed).unwrap_or(top)
}
