//! The branches that tails and moves bring.

use super::Names;
use crate::calls::members_at;
use crate::catalogue::Model;
use crate::prepare::members_in;
use crate::shape::{Shape, TAIL};
use crate::stored::{Images, Line};
use crate::tail::Tail;

/// "N before M": both numbers are due, and N is given.
pub const TAILS: &[&str] = &[
    "bad tail: layout 0",
    "bad tail: layout above 1",
    "bad tail: byte 17",
    "bad tail: a byte within the rest",
    "bad tail: byte 63",
    "bad tail: total one above the slots",
    "bad tail: total far above the slots",
    "bad tail: several faults",
    "fresh: accepted, bad tail before",
    "insert: 11",
    "insert: 11 before 3",
    "insert: 11 before 4",
    "insert: 11 before 12",
    "insert: 11 before 13",
    "insert: 13",
    "insert: 13 before 3",
    "insert: 13 before 4",
    "insert: 13 before 12",
    "insert: 3 before 12",
    "insert: 4 before 12",
    "insert: 12, front alone",
    "insert: 12, a backyard bucket too",
    "insert: accepted, up to the slots",
    "insert: accepted, up to the top change count",
    "insert: accepted, wrong total",
    "delete: 11",
    "delete: 11 before 3",
    "delete: 11 before 5",
    "delete: 11 before 12",
    "delete: 11 before 13",
    "delete: 13",
    "delete: 13 before 3",
    "delete: 13 before 5",
    "delete: 13 before 12",
    "delete: 3 before 12",
    "delete: 5 before 12",
    "delete: 12, front alone",
    "delete: 12, a backyard bucket too",
    "delete: accepted, down to total 0",
    "delete: accepted, up to the top change count",
    "delete: accepted, wrong total",
    "ask: 11",
    "ask: 11 before 3",
    "ask: accepted, wrong total",
    "ask: accepted, the top change count",
    "count: 11",
    "count: 11 before 3",
    "count: accepted, wrong total",
    "count: accepted, the top change count",
    "page: 11",
    "page: 11 before 3",
    "page: 11 before 6",
    "page: 11 before 7",
    "page: accepted, wrong total",
    "page: accepted, the top change count",
    "check: 11",
    "check: 11 before 3",
    "check: 11 before 8",
    "check: 11 before 12",
    "check: 8 before 12",
    "check: 12, total below the members",
    "check: 12, total above the members",
    "check: accepted, the top change count",
    "merge: 2 before 11",
    "merge: 11, first",
    "merge: 11, both",
    "merge: 11, second",
    "merge: 11 of the second before the first's 3",
    "merge: 11 of the second before the first's 8",
    "merge: 11 of the second before the first's 12",
    "merge: 11 before 4",
    "merge: 8 of the first before its 12",
    "merge: 12, first",
    "merge: 12 of the first before the second's 3",
    "merge: 12 of the first before the second's 8",
    "merge: 12, both",
    "merge: 8 of the second before its 12",
    "merge: 12, second",
    "merge: 12 before 4",
    "merge: 4, the top change count",
    "merge: accepted, the top change count",
    "merge: accepted, bad tail of the target before",
    "tail: 1",
    "tail: 1, short output",
    "tail: 11",
    "tail: 11 before 7",
    "tail: 7, no output",
    "tail: 7, one entry",
    "tail: accepted, two entries",
    "tail: accepted, a longer output",
    "tail: accepted, unsound image",
    "tail: accepted, wrong total",
    "tail: accepted, total 0",
    "tail: accepted, total at the slots",
    "tail: accepted, the top change count",
    "attach: 1, source",
    "attach: 1, source of the new form",
    "attach: 1, target",
    "attach: 1, target of the old form",
    "attach: 1 before 3",
    "attach: 1 before 8",
    "attach: 2, longer target",
    "attach: 2, shorter target",
    "attach: 2 before 3",
    "attach: 2 before 8",
    "attach: 3",
    "attach: 8",
    "attach: accepted, empty",
    "attach: accepted, front alone",
    "attach: accepted, overflow",
    "attach: accepted, bad tail of the target before",
    "detach: 1, source",
    "detach: 1, source of the old form",
    "detach: 1, target",
    "detach: 1, target of the new form",
    "detach: 1 before 3",
    "detach: 1 before 8",
    "detach: 1 before 11",
    "detach: 1 before 12",
    "detach: 2, longer target",
    "detach: 2, shorter target",
    "detach: 2 before 3",
    "detach: 2 before 8",
    "detach: 2 before 11",
    "detach: 2 before 12",
    "detach: 11",
    "detach: 11 before 3",
    "detach: 11 before 8",
    "detach: 11 before 12",
    "detach: 3",
    "detach: 8",
    "detach: 8 before 12",
    "detach: 12",
    "detach: accepted, empty",
    "detach: accepted, front alone",
    "detach: accepted, overflow",
    "detach: accepted, the top change count",
];

/// A line, the images that it is performed on, and the number that it gives.
pub(super) struct Performed<'a> {
    pub(super) images: &'a Images,
    pub(super) line: Line,
    pub(super) number: u64,
}

impl<'a> Performed<'a> {
    pub(super) fn image(&self, x: usize) -> &'a [u8] {
        &self.images.image[x]
    }

    /// The packed answer where image x is as `change` leaves it.
    pub(super) fn answer_with(&self, x: usize, change: impl Fn(&mut Vec<u8>)) -> u64 {
        let mut images = self.images.clone();
        change(&mut images.image[x]);
        images.perform(&Model, self.line)
    }

    /// Names the number that this one comes before: that of the changed image, if any.
    pub(super) fn before(
        &self,
        names: &mut Names,
        call: &str,
        x: usize,
        change: impl Fn(&mut Vec<u8>),
    ) {
        let (number, next) = (self.number, self.answer_with(x, change) >> 56);
        names.add_if(next > 0, &format!("{call}: {number} before {next}"));
    }
}

/// Makes the tail of an image good: total and change count stay as far as they can.
pub fn mend(image: &mut [u8]) {
    let Some(shape) = Shape::of_length(image.len()) else {
        return;
    };
    let [total, changes] = Tail::numbers_in(image);
    let total = total.min(shape.slots());
    Tail { total, changes }.write(image);
}

/// Makes the total of an image the right one, where its buckets are sound.
fn set_total(image: &mut [u8]) {
    if let (Some(tail), Some(total)) = (good_tail(image), members_of(image)) {
        Tail { total, ..tail }.write(image);
    }
}

pub(super) fn good_tail(image: &[u8]) -> Option<Tail> {
    Tail::of_image(image, Shape::of_length(image.len())?)
}

fn is_bad(image: &[u8]) -> bool {
    Shape::of_length(image.len()).is_some() && good_tail(image).is_none()
}

/// Whether all buckets are sound and the total of a good tail is another than their members.
pub fn is_wrong(image: &[u8]) -> bool {
    match (good_tail(image), members_of(image)) {
        (Some(tail), Some(members)) => tail.total != members,
        _ => false,
    }
}

/// Whether the change count is at the top.
fn is_spent(image: &[u8]) -> bool {
    good_tail(image).is_some_and(|tail| tail.changes == u64::MAX)
}

fn members_of(image: &[u8]) -> Option<u64> {
    members_in(image, Shape::of_length(image.len())?)
}

/// Why a tail is bad.
fn bad_tail(names: &mut Names, image: &[u8]) {
    let shape = Shape::of_length(image.len()).expect("a good length");
    let tail = &image[shape.old_length()..];
    let mut faults = Vec::new();
    match tail[16] {
        0 => faults.push("layout 0"),
        1 => {}
        _ => faults.push("layout above 1"),
    }
    for at in (17..TAIL).filter(|&at| tail[at] != 0) {
        faults.push(match at {
            17 => "byte 17",
            63 => "byte 63",
            _ => "a byte within the rest",
        });
    }
    match Tail::numbers_in(image)[0].saturating_sub(shape.slots()) {
        0 => {}
        1 => faults.push("total one above the slots"),
        _ => faults.push("total far above the slots"),
    }
    let why = match faults[..] {
        [alone] => alone,
        _ => "several faults",
    };
    names.add(&format!("bad tail: {why}"));
}

/// What a line that gives this number does with tails, and the moves.
pub(super) fn of(names: &mut Names, images: &Images, line: Line, number: u64) {
    let done = &Performed {
        images,
        line,
        number,
    };
    match line {
        Line::Fresh { x } => {
            let bad = is_bad(done.image(x));
            names.add_if(bad, "fresh: accepted, bad tail before");
        }
        Line::Insert { x, .. } => change(names, "insert", done, x),
        Line::Delete { x, .. } => change(names, "delete", done, x),
        Line::Ask { x, .. } => read(names, "ask", done, x),
        Line::Count { x, .. } => read(names, "count", done, x),
        Line::Page { x, .. } => read(names, "page", done, x),
        Line::Check { x } => check(names, done, x),
        Line::Merge { x, y, z } => merge(names, done, [x, y, z]),
        Line::Tail { x, length } => tail(names, done, x, length),
        Line::Attach { x, y } => attach(names, done, x, y),
        Line::Detach { x, y } => detach(names, done, x, y),
        _ => {}
    }
}

/// A call refused with 11 for image x.
fn refused_11(names: &mut Names, call: &str, done: &Performed, x: usize) {
    names.add(&format!("{call}: 11"));
    done.before(names, call, x, |image| mend(image));
}

/// An insert or a delete.
fn change(names: &mut Names, call: &str, done: &Performed, x: usize) {
    let image = done.image(x);
    let (Some(shape), Some(tail)) = (Shape::of_length(image.len()), good_tail(image)) else {
        // Refused with 1 or 11.
        if is_bad(image) {
            refused_11(names, call, done, x);
        }
        return;
    };
    let (bound, last, up_or_down) = match call {
        "insert" => (shape.slots(), shape.slots() - 1, "up to the slots"),
        _ => (0, 1, "down to total 0"),
    };
    match done.number {
        13 => {
            names.add(&format!("{call}: 13"));
            let low = Tail { changes: 0, ..tail };
            done.before(names, call, x, |image| low.write(image));
        }
        12 => {
            let within = Tail { total: 1, ..tail };
            names.add(&match done.answer_with(x, |image| within.write(image)) {
                0 => format!("{call}: 12, front alone"),
                _ => format!("{call}: 12, a backyard bucket too"),
            });
        }
        0 => {
            let accepted = format!("{call}: accepted");
            names.add_if(tail.total == last, &format!("{accepted}, {up_or_down}"));
            let top = format!("{accepted}, up to the top change count");
            names.add_if(tail.changes == u64::MAX - 1, &top);
            names.add_if(is_wrong(image), &format!("{accepted}, wrong total"));
        }
        number => names.add_if(tail.total == bound, &format!("{call}: {number} before 12")),
    }
}

/// A call that looks at the tail for 11 alone.
fn read(names: &mut Names, call: &str, done: &Performed, x: usize) {
    match done.number {
        11 => refused_11(names, call, done, x),
        0 => {
            let image = done.image(x);
            names.add_if(is_wrong(image), &format!("{call}: accepted, wrong total"));
            let top = format!("{call}: accepted, the top change count");
            names.add_if(is_spent(image), &top);
        }
        _ => {}
    }
}

fn check(names: &mut Names, done: &Performed, x: usize) {
    let image = done.image(x);
    match done.number {
        11 => {
            bad_tail(names, image);
            refused_11(names, "check", done, x);
        }
        8 => names.add_if(is_wrong(image), "check: 8 before 12"),
        12 => {
            let total = good_tail(image).map(|tail| tail.total);
            names.add(match total < members_of(image) {
                true => "check: 12, total below the members",
                false => "check: 12, total above the members",
            });
        }
        0 => names.add_if(is_spent(image), "check: accepted, the top change count"),
        _ => {}
    }
}

fn merge(names: &mut Names, done: &Performed, [x, y, z]: [usize; 3]) {
    let (first, second) = (done.image(x), done.image(y));
    let checked = |x| done.images.clone().perform(&Model, Line::Check { x }) >> 56;
    match done.number {
        2 => names.add_if(is_bad(first) || is_bad(second), "merge: 2 before 11"),
        11 => {
            which(names, "merge: 11", [is_bad(first), is_bad(second)]);
            if let (false, next @ (3 | 8 | 12)) = (is_bad(first), checked(x)) {
                let refusal = "merge: 11 of the second before the first's";
                names.add(&format!("{refusal} {next}"));
            }
            full_next(names, done, x, y);
        }
        12 => {
            which(names, "merge: 12", [is_wrong(first), is_wrong(second)]);
            if let (true, next @ (3 | 8)) = (is_wrong(first), checked(y)) {
                let refusal = "merge: 12 of the first before the second's";
                names.add(&format!("{refusal} {next}"));
            }
            full_next(names, done, x, y);
        }
        8 if checked(x) == 8 => {
            names.add_if(is_wrong(first), "merge: 8 of the first before its 12");
        }
        8 => names.add_if(is_wrong(second), "merge: 8 of the second before its 12"),
        4 => names.add_if(is_spent(first), "merge: 4, the top change count"),
        0 => {
            names.add_if(is_spent(first), "merge: accepted, the top change count");
            let bad = "merge: accepted, bad tail of the target before";
            names.add_if(is_bad(done.image(z)), bad);
        }
        _ => {}
    }
}

/// Which of its sources a merge is refused for.
fn which(names: &mut Names, refusal: &str, sources: [bool; 2]) {
    names.add(&match sources {
        [true, true] => format!("{refusal}, both"),
        [true, false] => format!("{refusal}, first"),
        [false, _] => format!("{refusal}, second"),
    });
}

/// Whether a merge refused for a tail would be full otherwise.
fn full_next(names: &mut Names, done: &Performed, x: usize, y: usize) {
    let mut images = done.images.clone();
    for x in [x, y] {
        mend(&mut images.image[x]);
        set_total(&mut images.image[x]);
    }
    let full = images.perform(&Model, done.line) >> 56 == 4;
    names.add_if(full, &format!("merge: {} before 4", done.number));
}

fn tail(names: &mut Names, done: &Performed, x: usize, length: usize) {
    let image = done.image(x);
    match done.number {
        1 => {
            names.add("tail: 1");
            names.add_if(length < 2, "tail: 1, short output");
        }
        11 => {
            bad_tail(names, image);
            refused_11(names, "tail", done, x);
        }
        7 => names.add(match length {
            0 => "tail: 7, no output",
            _ => "tail: 7, one entry",
        }),
        _ => tail_told(names, image, length),
    }
}

/// The tail of this image is told.
fn tail_told(names: &mut Names, image: &[u8], length: usize) {
    let shape = Shape::of_length(image.len()).expect("a good length");
    let total = good_tail(image).expect("a good tail").total;
    names.add(match length {
        2 => "tail: accepted, two entries",
        _ => "tail: accepted, a longer output",
    });
    let unsound = members_of(image).is_none();
    names.add_if(unsound, "tail: accepted, unsound image");
    names.add_if(is_wrong(image), "tail: accepted, wrong total");
    names.add_if(total == 0, "tail: accepted, total 0");
    let at_the_slots = total == shape.slots();
    names.add_if(at_the_slots, "tail: accepted, total at the slots");
    names.add_if(is_spent(image), "tail: accepted, the top change count");
}

/// A form: its name, the shape of an image of so many bytes, and back.
struct Form {
    name: &'static str,
    shape: fn(usize) -> Option<Shape>,
    length: fn(Shape) -> usize,
}

const OLD: Form = Form {
    name: "old",
    shape: Shape::of_old_length,
    length: Shape::old_length,
};
const NEW: Form = Form {
    name: "new",
    shape: Shape::of_length,
    length: Shape::length,
};

fn attach(names: &mut Names, done: &Performed, x: usize, y: usize) {
    match done.number {
        1 | 2 => refused_lengths(names, "attach", done, [(x, &OLD), (y, &NEW)]),
        0 => {
            moved(names, "attach", done.image(x), &OLD);
            let bad = "attach: accepted, bad tail of the target before";
            names.add_if(is_bad(done.image(y)), bad);
        }
        number => names.add(&format!("attach: {number}")),
    }
}

fn detach(names: &mut Names, done: &Performed, x: usize, y: usize) {
    let source = done.image(x);
    match done.number {
        1 | 2 => refused_lengths(names, "detach", done, [(x, &NEW), (y, &OLD)]),
        11 => refused_11(names, "detach", done, x),
        0 => {
            moved(names, "detach", source, &NEW);
            names.add_if(is_spent(source), "detach: accepted, the top change count");
        }
        number => {
            names.add(&format!("detach: {number}"));
            let early = number == 8 && is_wrong(source);
            names.add_if(early, "detach: 8 before 12");
        }
    }
}

/// A move refused with 1 or 2; source and target with the forms they must have.
fn refused_lengths(names: &mut Names, call: &str, done: &Performed, sides: [(usize, &Form); 2]) {
    let [(x, from), (y, to)] = sides;
    let (source, target) = (done.image(x).len(), done.image(y).len());
    let shapes = ((from.shape)(source), (to.shape)(target));
    for (side, length, right, other) in [("source", source, from, to), ("target", target, to, from)]
    {
        let refusal = format!("{call}: 1, {side}");
        names.add_if((right.shape)(length).is_none(), &refusal);
        let other_form = format!("{refusal} of the {} form", other.name);
        names.add_if((other.shape)(length).is_some(), &other_form);
    }
    if let (Some(source), Some(target)) = shapes {
        names.add(&match target.b > source.b {
            true => format!("{call}: 2, longer target"),
            false => format!("{call}: 2, shorter target"),
        });
    }
    if let Some(shape) = shapes.0 {
        let fitting = (to.length)(shape);
        done.before(names, call, y, |image| *image = vec![0; fitting]);
    }
}

/// An accepted move of an image of this form.
fn moved(names: &mut Names, call: &str, image: &[u8], form: &Form) {
    let shape = (form.shape)(image.len()).expect("a good length");
    let at = |table| members_at(image, shape, table).expect("a sound bucket");
    let in_front: u64 = (0..shape.fronts()).map(at).sum();
    let behind: u64 = (shape.fronts()..shape.buckets()).map(at).sum();
    names.add(&match (in_front, behind) {
        (0, _) => format!("{call}: accepted, empty"),
        (_, 0) => format!("{call}: accepted, front alone"),
        _ => format!("{call}: accepted, overflow"),
    });
}
