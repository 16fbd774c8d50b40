//! Two ways of the same, measured by turns.

use crate::measure::median;
use std::fmt::Debug;

/// The median times of two ways. In a round both have the same inputs and must find the same; they
/// take turns at starting, and a first round is not counted.
pub fn in_turns<I, T: PartialEq + Debug>(
    rounds: usize,
    mut inputs: impl FnMut() -> I,
    take: impl Fn(usize, &I) -> (T, f64),
) -> [f64; 2] {
    let mut samples = [Vec::new(), Vec::new()];
    for round in 0..=rounds {
        let inputs = inputs();
        let starts = round % 2;
        let [first, second] = [starts, 1 - starts].map(|way| {
            let (found, ns) = take(way, &inputs);
            if round > 0 {
                samples[way].push(ns);
            }
            found
        });
        assert_eq!(first, second, "both find the same");
    }
    samples.map(|samples| median(samples).expect("a round"))
}
