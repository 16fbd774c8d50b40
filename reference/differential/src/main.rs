//! Compares an implementation with the model.
//!
//!     differential CALLS SEED [fast | quick | capi]
//!     differential vectors FILE [fast | quick | capi]
//!
//! The first plays random histories until so many calls are compared, and once the shortest and
//! the longest image of either form; rows of asks and occupancy pages are compared beside them. The second replays
//! the calls of another model. `capi` is there with the feature of that name, and then is what is
//! compared.

use differential::{Fast, Follower, Quick};
use model::catalogue::Catalogue;

#[cfg(feature = "capi")]
const DEFAULT: &str = "capi";
#[cfg(not(feature = "capi"))]
const DEFAULT: &str = "fast";

fn implementation(name: &str) -> Option<&'static dyn Catalogue> {
    match name {
        "fast" => Some(&Fast),
        "quick" => Some(&Quick),
        #[cfg(feature = "capi")]
        "capi" => Some(&differential::Capi),
        _ => None,
    }
}

fn main() {
    let arguments: Vec<String> = std::env::args().skip(1).collect();
    let word = |at: usize| arguments.get(at).map(String::as_str);
    let number = |at: usize| word(at).and_then(|word| word.parse::<u64>().ok());
    let name = word(2).unwrap_or(DEFAULT);
    let Some(catalogue) = implementation(name) else {
        return usage();
    };
    match (word(0), number(0), number(1)) {
        (Some("vectors"), _, _) => vectors(catalogue, name, word(1).unwrap_or_default()),
        (_, Some(calls), Some(seed)) => histories(catalogue, name, calls, seed),
        _ => usage(),
    }
}

fn usage() {
    eprintln!("usage: differential CALLS SEED [fast | quick | capi]");
    eprintln!("       differential vectors FILE [fast | quick | capi]");
    std::process::exit(2);
}

fn histories(catalogue: &dyn Catalogue, name: &str, calls: u64, seed: u64) {
    let mut follower = Follower::new(catalogue);
    follower.ends();
    let ends = follower.compared;
    follower.histories(calls, seed);
    let all = follower.compared;
    println!("{name}: {all} calls compared with the model, none differs");
    println!("({ends} of them on the shortest and the longest image)");
    let (tails, moves) = (follower.tails_compared, follower.moves_compared);
    println!("({tails} of them tails, {moves} moves between the forms)");
    let stale = follower.stale_compared;
    println!("({stale} of them pages refused with 14)");
    for (n, calls) in [
        (follower.rows_compared, "rows of asks"),
        (follower.occupancy_compared, "occupancy pages"),
    ] {
        if n > 0 {
            println!("{name}: {n} {calls} compared beside them, none differs");
        }
    }
}

fn vectors(catalogue: &dyn Catalogue, name: &str, path: &str) {
    let lines = std::fs::read_to_string(path).expect("a readable file");
    let replayed = model::vectors::replay(catalogue, &lines);
    for difference in &replayed.differences {
        println!("{difference}");
    }
    println!("{name}: {}", replayed.summary());
    if !replayed.differences.is_empty() {
        std::process::exit(1);
    }
}
