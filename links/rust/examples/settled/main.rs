//! Runs the worked example and says how it went: exits with 1 if a case comes out otherwise than the
//! papers say.

mod cases;

use cases::Wrong;

fn main() {
    match cases::cases() {
        Ok(()) => println!(
            "K1 to K4, K6, K9 to K12, the editions, the times, the logs and the summaries are as the papers say"
        ),
        Err(Wrong(case)) => {
            eprintln!("otherwise than the papers say: {case}");
            std::process::exit(1);
        }
    }
}
