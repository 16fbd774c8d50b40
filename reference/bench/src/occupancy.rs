//! All occupancy pages of an image against a listing of its members, through the C functions.

use crate::inputs::{filled, Setting};
use crate::lines::Lines;
use crate::measure::{timed, wall_time, Effort};
use crate::turns::in_turns;
use breadcrumb::{packed, OCCUPANCY_BYTES};
use model::random::Random;
use model::tail::Tail;
use std::hint::black_box;

/// Medians in ns a front bucket: its line of an occupancy page, and its members listed.
pub struct Times {
    pub line: f64,
    pub listed: f64,
}

/// Writes every occupancy page.
fn lines(image: &[u8], fronts: u64) {
    let mut out = [0; OCCUPANCY_BYTES];
    for page in 0..fronts.div_ceil(24) {
        assert!(packed::occupancy(image, page, &mut out) == 0, "accepted");
        black_box(&out);
    }
}

/// Lists every member, 1,024 entries a page.
fn listed(image: &[u8], fronts: u64, changes: u64) {
    let mut out = [0; 1024];
    let mut next = 0;
    while next < fronts {
        let answer = packed::page(image, next, changes, &mut out);
        assert!(answer >> 56 == 0, "accepted");
        next = answer >> 32;
        black_box(&out);
    }
}

/// Each way has an image of its own, warmed by a check.
pub fn run(setting: Setting, effort: Effort) -> Times {
    let mut random = Random::new(setting.b * 1000 + setting.load);
    let any = std::iter::repeat_with(|| random.bits());
    let (image, _) = filled(setting, any, setting.members());
    let images = [Lines::of(&image, None), Lines::of(&image, None)];
    let fronts = setting.shape().fronts();
    let changes = Tail::changes_in(&image).expect("an image");
    let ways: [&dyn Fn(&[u8]); 2] = [&|image| lines(image, fronts), &|image| {
        listed(image, fronts, changes)
    }];
    let [line, listed] = in_turns(
        effort.whole,
        || (),
        |way, ()| {
            let image: &[u8] = &images[way];
            black_box(packed::check(image));
            timed(wall_time, || ways[way](image))
        },
    );
    Times {
        line: line / fronts as f64,
        listed: listed / fronts as f64,
    }
}
