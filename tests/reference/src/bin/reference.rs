//! Reads a run file from standard input and writes its listing.

use reference::listing;
use reference::runfile::MOST_BYTES;
use std::io::{self, Read, Write};

fn main() -> io::Result<()> {
    // One byte more than a file may have is enough to judge its length.
    let mut file = Vec::new();
    io::stdin()
        .lock()
        .take(MOST_BYTES as u64 + 1)
        .read_to_end(&mut file)?;
    io::stdout().lock().write_all(&listing(&file))
}
