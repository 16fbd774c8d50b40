//! The branches that the change count of a walk brings.

use super::tails::{good_tail, Performed};
use super::{is_wrong, Names};
use crate::shape::{Shape, TAIL};
use crate::stored::{Images, Line};
use crate::tail::Tail;

/// "N before M": both numbers are due, and N is given.
pub const WALKS: &[&str] = &[
    "page: 1 before 14",
    "page: 11 before 14",
    "page: 14",
    "page: 14 before 3",
    "page: 14 before 6",
    "page: 14 before 7",
    "page: 14 alone",
    "page: 14 alone, from F",
    "page: 14, one less",
    "page: 14, one more",
    "page: 14, brings 0",
    "page: 14, brings 2^64 - 1",
    "page: 14, brings a count with the same low half",
    "page: 14, brings a count with the same high half",
    "page: 14, change count 0",
    "page: 14, the top change count",
    "page: 14, wrong total",
    "page: accepted, change count 0",
    "page: accepted, change count above 0",
    "page: accepted, change count above 32 bits",
];

/// What the change count that a page brings does to it.
pub(super) fn of(names: &mut Names, images: &Images, line: Line, number: u64) {
    let Line::Page { x, start, .. } = line else {
        return;
    };
    let done = &Performed {
        images,
        line,
        number,
    };
    let (image, brought) = (done.image(x), images.changes);
    match (number, good_tail(image)) {
        (1, _) => {
            let told = image.len() >= TAIL && Tail::numbers_in(image)[1] != brought;
            names.add_if(told, "page: 1 before 14");
        }
        (14, Some(tail)) => refused(names, done, x, start, tail),
        (0, Some(tail)) => {
            names.add(match tail.changes {
                0 => "page: accepted, change count 0",
                _ => "page: accepted, change count above 0",
            });
            let high = "page: accepted, change count above 32 bits";
            names.add_if(tail.changes >> 32 > 0, high);
        }
        _ => {}
    }
}

/// A page of an image with this good tail, refused with 14.
fn refused(names: &mut Names, done: &Performed, x: usize, start: u64, tail: Tail) {
    let (image, brought, told) = (done.image(x), done.images.changes, tail.changes);
    let shape = Shape::of_length(image.len()).expect("a good length");
    names.add("page: 14");
    let right = Tail {
        changes: brought,
        ..tail
    };
    if done.answer_with(x, |image| right.write(image)) >> 56 == 0 {
        names.add("page: 14 alone");
        names.add_if(start == shape.fronts(), "page: 14 alone, from F");
    } else {
        done.before(names, "page", x, |image| right.write(image));
    }
    names.add_if(brought.checked_add(1) == Some(told), "page: 14, one less");
    names.add_if(told.checked_add(1) == Some(brought), "page: 14, one more");
    names.add_if(brought == 0, "page: 14, brings 0");
    names.add_if(brought == u64::MAX, "page: 14, brings 2^64 - 1");
    for (alike, half) in [
        (brought as u32 == told as u32, "low"),
        (brought >> 32 == told >> 32, "high"),
    ] {
        let same = format!("page: 14, brings a count with the same {half} half");
        names.add_if(alike, &same);
    }
    names.add_if(told == 0, "page: 14, change count 0");
    names.add_if(told == u64::MAX, "page: 14, the top change count");
    names.add_if(is_wrong(image), "page: 14, wrong total");
}
