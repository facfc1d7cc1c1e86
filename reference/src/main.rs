//! Reads a sheet on standard input and writes the listing.

use std::io::{self, Read, Write};

/// The program takes this many bytes and reads no further.
const MOST_BYTES: u64 = 65_536;

fn main() -> io::Result<()> {
    let mut bytes = Vec::new();
    io::stdin().take(MOST_BYTES).read_to_end(&mut bytes)?;
    io::stdout().write_all(reference::print::listing_of(&bytes).as_bytes())
}
