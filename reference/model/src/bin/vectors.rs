//! Replays calls of another model from a text file: `vectors FILE`.

use model::catalogue::Model;

fn main() {
    let path = std::env::args().nth(1).expect("usage: vectors FILE");
    let lines = std::fs::read_to_string(path).expect("a readable file");
    let replayed = model::vectors::replay(&Model, &lines);
    for difference in &replayed.differences {
        println!("{difference}");
    }
    println!("{}", replayed.summary());
    if !replayed.differences.is_empty() {
        std::process::exit(1);
    }
}
