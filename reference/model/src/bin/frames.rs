//! The small program, and stored lines for it.
//!
//!     frames run       standard input to standard output
//!     frames input     the stored lines
//!     frames output    what they must give

use model::{cases, program};

fn main() {
    let text = match std::env::args().nth(1).as_deref() {
        Some("run") => {
            let mut input = Vec::new();
            let mut stdin = std::io::stdin();
            std::io::Read::read_to_end(&mut stdin, &mut input).expect("readable input");
            program::run(&input)
        }
        Some("input") => cases::frames(),
        Some("output") => program::run(cases::frames().as_bytes()),
        _ => {
            eprintln!("usage: frames run | input | output");
            std::process::exit(2);
        }
    };
    print!("{text}");
}
