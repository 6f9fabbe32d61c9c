//! Reads a matrix file on standard input and prints what the engine's program `lister` must print.

use reference::listing::lister;
use std::io::{self, Read, Write};

fn main() -> io::Result<()> {
    let mut file = Vec::new();
    io::stdin().lock().read_to_end(&mut file)?;
    io::stdout().lock().write_all(lister(&file).as_bytes())
}
