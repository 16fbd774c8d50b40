//! Stored calls for the program `trial`.
//!
//!     trial input     the stored calls
//!     trial output    what they must give
//!     trial run       the output for stored calls on standard input

use model::{cases, stored};

fn main() {
    let text = match std::env::args().nth(1).as_deref() {
        Some("input") => cases::input(),
        Some("output") => stored::run(&cases::input()),
        Some("run") => {
            let input = std::io::read_to_string(std::io::stdin()).expect("readable input");
            stored::run(&input)
        }
        _ => {
            eprintln!("usage: trial input | output | run");
            std::process::exit(2);
        }
    };
    print!("{text}");
}
