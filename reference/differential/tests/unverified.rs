use differential::{Fast, Follower, Quick};
use model::cases;
use model::catalogue::Catalogue;
use model::stored::{self, Images, Line};

fn histories(catalogue: &dyn Catalogue) {
    let mut follower = Follower::new(catalogue);
    follower.histories(100_000, 7);
    assert!(follower.compared >= 100_000);
}

fn stored_calls(catalogue: &dyn Catalogue) {
    // A row and an occupancy page change nothing, and unverified Rust has neither.
    let is_left_out = |text: &str| {
        let line = Line::parse(text.trim_end());
        matches!(line, Some(Line::Row { .. } | Line::Occupancy { .. }))
    };
    let input: String = cases::input()
        .split_inclusive('\n')
        .filter(|text| !is_left_out(text))
        .collect();
    let mut images = Images::default();
    let line = |text| images.answer(catalogue, Line::parse(text).unwrap());
    let output: String = input.lines().map(line).collect();
    assert_eq!(output, stored::run(&input));
}

#[test]
fn histories_of_fast() {
    histories(&Fast);
}

#[test]
fn histories_of_quick() {
    histories(&Quick);
}

#[test]
fn stored_calls_of_fast() {
    stored_calls(&Fast);
}

#[test]
fn stored_calls_of_quick() {
    stored_calls(&Quick);
}
