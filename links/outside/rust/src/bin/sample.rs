//! Writes document 01's log to its standard output: cargo run --bin sample >LOG

#[path = "../written.rs"]
mod written;

use std::error::Error;
use std::io::{self, Write};

fn main() -> Result<(), Box<dyn Error>> {
    io::stdout().write_all(written::sample(&mut [0; 64])?)?;
    Ok(())
}
