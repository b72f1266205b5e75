//! The program of document 01, "The truck's capture file", over standard input and
//! output.

#![forbid(unsafe_code)]

use std::io;

/// `stream` reads and writes large parts at a time, so no other buffers are put between.
fn main() -> io::Result<()> {
    reference::replay::stream(&mut io::stdin().lock(), &mut io::stdout().lock())
}
