//! Writes the listing of the log on its standard input: cargo run <LOG

mod records;

use std::io::{self, Read};
use track::UpdateResult;

fn print_row(name: &str, numbers: [f32; 7]) {
    print!("{name}");
    for number in numbers {
        print!(" {:08X}", number.to_bits());
    }
    println!();
}

fn main() -> io::Result<()> {
    let mut log = Vec::new();
    io::stdin().read_to_end(&mut log)?;
    let (replayer, stop) = records::replay(&log, |number, tag, given| match given {
        Ok(UpdateResult::Accepted(value)) => println!("{number} {tag} A {:08X}", value.to_bits()),
        Ok(UpdateResult::Rejected(value)) => println!("{number} {tag} R {:08X}", value.to_bits()),
        Ok(_) => println!("{number} {tag} D"),
        Err(refusal) => println!("{number} {tag} {}", refusal.number()),
    });
    if let Some(stop) = stop {
        println!("stop {} {}", replayer.number, stop.number());
    }
    if replayer.number > 1 {
        print_row("x", replayer.filter.x);
        print_row("p", replayer.filter.p);
    }
    Ok(())
}
