//! The program that prints every occupancy page of an image, and images stored for it.
//!
//!     occupancy run           standard input to standard output
//!     occupancy names         the names of the stored images
//!     occupancy image NAME    a stored image, or `largest`
//!     occupancy text NAME     what must be printed for it

use model::occupancy::{image, run, NAMES};
use std::io::{Read, Write};

fn main() {
    let arguments: Vec<String> = std::env::args().skip(1).collect();
    let words: Vec<&str> = arguments.iter().map(String::as_str).collect();
    let bytes = match words[..] {
        ["run"] => {
            let mut input = Vec::new();
            std::io::stdin()
                .read_to_end(&mut input)
                .expect("readable input");
            Some(run(&input).into_bytes())
        }
        ["names"] => Some((NAMES.join("\n") + "\n").into_bytes()),
        ["image", name] => image(name),
        ["text", name] => image(name).map(|image| run(&image).into_bytes()),
        _ => None,
    };
    let Some(bytes) = bytes else {
        eprintln!("usage: occupancy run | names | image NAME | text NAME");
        std::process::exit(2);
    };
    std::io::stdout().write_all(&bytes).expect("written");
}
