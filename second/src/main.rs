//! The program `shelf`: text from standard input, the answer to standard output.

use std::io::{self, Read, Write};

/// Reads standard input to its end and writes what the program prints for it.
fn main() -> io::Result<()> {
    let mut input = Vec::new();
    io::stdin().read_to_end(&mut input)?;
    let mut output = io::stdout();
    output.write_all(&second::shelf_text(&input))?;
    output.flush()
}
