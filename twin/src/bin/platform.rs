//! Serves the bytes on standard input at the platform and prints the answers.

use std::error::Error;
use std::io::{self, Read, Write};

fn main() -> Result<(), Box<dyn Error>> {
    let mut input = Vec::new();
    io::stdin().read_to_end(&mut input)?;
    io::stdout().write_all(&twin::Platform::PAGE.play(&input)?)?;
    Ok(())
}
