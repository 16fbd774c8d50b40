//! The branches of front buckets whose two backyard buckets coincide, b0 = b1.

use super::{behind, early, Names};
use crate::calls::{self, carries_choice_0, members, read_backyard, read_front, Bag, Place};
use crate::catalogue::Model;
use crate::fingerprint::Fingerprint;
use crate::map::split;
use crate::shape::Shape;
use crate::stored::{Images, Line};
use std::ops::Range;

/// "Choice 0": the call is refused with 3 for a bucket that a choice 0 crumb where b0 = b1 alone
/// makes unsound. It may be met for its own front bucket or for another that shares the bucket. Where
/// there is room in front, or it is not read, the call is accepted beside it.
pub const COINCIDING: &[&str] = &[
    "b0 = b1: ask, front, 28 there",
    "b0 = b1: ask, below the largest",
    "b0 = b1: ask, second with 2 reads",
    "b0 = b1: ask, second with 2 reads, several copies",
    "b0 = b1: ask, none with 2 reads",
    "b0 = b1: ask, none with 2 reads, another front bucket's equal there",
    "b0 = b1: count, 1 read of 28",
    "b0 = b1: count, 2 reads",
    "b0 = b1: count, 2 reads, copies in front and behind",
    "b0 = b1: count, 2 reads, none",
    "b0 = b1: insert, second",
    "b0 = b1: insert, second, up to 22",
    "b0 = b1: insert, 4",
    "b0 = b1: insert, 4, others there",
    "b0 = b1: delete, behind",
    "b0 = b1: delete, 5 behind",
    "b0 = b1: delete, refill from second",
    "b0 = b1: delete, refill, none",
    "b0 = b1: page, overflow listed",
    "b0 = b1: check, accepted",
    "b0 = b1: check, accepted, another front bucket's choice 0 there",
    "b0 = b1: check, 8",
    "b0 = b1: merge, accepted",
    "b0 = b1: merge, 4",
    "b0 = b1: attach, accepted",
    "b0 = b1: detach, accepted",
    "choice 0: insert, own front bucket",
    "choice 0: insert, another front bucket",
    "choice 0: delete, own front bucket",
    "choice 0: delete, another front bucket",
    "choice 0: ask, own front bucket",
    "choice 0: ask, another front bucket",
    "choice 0: ask, another front bucket, its b1",
    "choice 0: count, own front bucket",
    "choice 0: count, another front bucket",
    "choice 0: page, own front bucket",
    "choice 0: page, another front bucket",
    "choice 0: check",
    "choice 0: check before 8",
    "choice 0: merge, first",
    "choice 0: merge, second",
    "choice 0: attach",
    "choice 0: detach",
    "choice 0: insert, room in front",
    "choice 0: delete, room in front",
    "choice 0: ask, not read",
    "choice 0: count, not read",
    "choice 0: page, not read",
];

/// For which front bucket's sake, f's, a call is refused with 3 and this table number, where the
/// bucket has a choice 0 crumb alone.
pub(super) fn sake(image: &[u8], shape: Shape, f: u64, table: u64) -> Option<&'static str> {
    let own = shape.table_number(shape.first_home(f).bucket) == table && shape.coincides(f);
    carries_choice_0(image, shape, table).then_some(match own {
        true => "own front bucket",
        false => "another front bucket",
    })
}

/// The first of some front buckets whose members cannot be read, and the table number of the bucket
/// that is unsound.
pub(super) fn unread(image: &[u8], shape: Shape, mut fronts: Range<u64>) -> Option<(u64, u64)> {
    fronts.find_map(|f| {
        let why = members(image, shape, f).err()?;
        Some((f, why.table.expect("a table number")))
    })
}

/// What a line that gives this number does where b0 = b1.
pub(super) fn of(names: &mut Names, images: &Images, line: Line, number: u64) {
    let image = |x: usize| -> &[u8] { &images.image[x] };
    match line {
        Line::Insert { x, hash } => on_hash(names, "insert", image(x), hash, number),
        Line::Delete { x, hash } => on_hash(names, "delete", image(x), hash, number),
        Line::Ask { x, hash } => on_hash(names, "ask", image(x), hash, number),
        Line::Count { x, hash } => on_hash(names, "count", image(x), hash, number),
        Line::Page { x, start, .. } => page(names, images, line, (x, start), number),
        Line::Check { x } => check(names, image(x), number),
        Line::Merge { x, y, .. } => merge(names, [image(x), image(y)], number),
        Line::Attach { x, .. } => moved(names, "attach", image(x), number),
        Line::Detach { x, .. } => moved(names, "detach", image(x), number),
        _ => {}
    }
}

/// A call on one fingerprint.
fn on_hash(names: &mut Names, call: &str, image: &[u8], hash: u64, number: u64) {
    let Some(shape) = Shape::of_length(image.len()).filter(|_| [0, 3, 4, 5].contains(&number))
    else {
        return;
    };
    let g = Fingerprint::of_hash(hash, shape);
    let Ok(front) = read_front(image, g.front) else {
        return;
    };
    let homes = [shape.first_home(g.front), shape.second_home(g.front)];
    let tables = homes.map(|home| shape.table_number(home.bucket));
    let unsound = tables.into_iter().find(|&table| {
        let j = table - shape.fronts();
        read_backyard(image, shape, j).is_err()
    });
    match (number, unsound) {
        (3, Some(table)) => {
            let Some(whose) = sake(image, shape, g.front, table) else {
                return;
            };
            names.add(&format!("choice 0: {call}, {whose}"));
            let its_b1 = call == "ask" && table == tables[1] && table != tables[0];
            names.add_if(its_b1, "choice 0: ask, another front bucket, its b1");
        }
        (0, Some(table)) if carries_choice_0(image, shape, table) => names.add(&match call {
            "insert" | "delete" => format!("choice 0: {call}, room in front"),
            _ => format!("choice 0: {call}, not read"),
        }),
        (_, None) if shape.coincides(g.front) && front.len() == 28 => {
            let there = Coinciding::new(image, shape, g, front);
            match call {
                "insert" => there.insert(names, number),
                "delete" => there.delete(names, number),
                "ask" => there.ask(names, image, hash),
                _ => there.count(names, image, hash),
            }
        }
        _ => {}
    }
}

/// A fingerprint whose front bucket holds 28 and has b0 = b1, all sound.
struct Coinciding {
    g: Fingerprint,
    front: Bag,
    behind: super::Behind,
}

impl Coinciding {
    fn new(image: &[u8], shape: Shape, g: Fingerprint, front: Bag) -> Coinciding {
        let behind = behind(image, shape, g.front);
        Coinciding { g, front, behind }
    }

    fn insert(&self, names: &mut Names, number: u64) {
        let own = self.behind.second.len();
        match number {
            4 => {
                names.add("b0 = b1: insert, 4");
                names.add_if(own < 22, "b0 = b1: insert, 4, others there");
            }
            _ => {
                names.add("b0 = b1: insert, second");
                names.add_if(self.behind.n1 == 21, "b0 = b1: insert, second, up to 22");
            }
        }
    }

    fn delete(&self, names: &mut Names, number: u64) {
        let in_front = self.front.contains(&self.g);
        match (number, in_front) {
            (5, _) if self.g > self.front[27] => names.add("b0 = b1: delete, 5 behind"),
            (0, false) => names.add("b0 = b1: delete, behind"),
            (0, true) if self.behind.some() => names.add("b0 = b1: delete, refill from second"),
            (0, true) => names.add("b0 = b1: delete, refill, none"),
            _ => {}
        }
    }

    fn ask(&self, names: &mut Names, image: &[u8], hash: u64) {
        let asked = calls::ask(image, hash).expect("sound buckets");
        names.add(match (asked.reads, asked.place) {
            (1, Place::Front(_)) => "b0 = b1: ask, front, 28 there",
            (1, Place::None) => "b0 = b1: ask, below the largest",
            (2, Place::Second(_)) => "b0 = b1: ask, second with 2 reads",
            (2, Place::None) => "b0 = b1: ask, none with 2 reads",
            _ => "b0 = b1: ask, otherwise",
        });
        let behind = self.g > self.front[27];
        let several = "b0 = b1: ask, second with 2 reads, several copies";
        names.add_if(behind && asked.copies > 1, several);
        let equal = behind && asked.copies == 0 && self.behind.equal_of_another(self.g);
        let name = "b0 = b1: ask, none with 2 reads, another front bucket's equal there";
        names.add_if(equal, name);
    }

    fn count(&self, names: &mut Names, image: &[u8], hash: u64) {
        let counted = calls::count(image, hash).expect("sound buckets");
        match counted.reads {
            1 => return names.add("b0 = b1: count, 1 read of 28"),
            2 => names.add("b0 = b1: count, 2 reads"),
            _ => names.add("b0 = b1: count, otherwise"),
        }
        let both = self.front.contains(&self.g) && self.behind.holds(self.g);
        names.add_if(both, "b0 = b1: count, 2 reads, copies in front and behind");
        names.add_if(counted.copies == 0, "b0 = b1: count, 2 reads, none");
    }
}

fn page(names: &mut Names, images: &Images, line: Line, (x, start): (usize, u64), number: u64) {
    let image = &images.image[x];
    let Some(shape) = Shape::of_length(image.len()).filter(|_| [0, 3].contains(&number)) else {
        return;
    };
    if number == 3 {
        let (f, table) = unread(image, shape, start..shape.fronts()).expect("an unsound bucket");
        if let Some(whose) = sake(image, shape, f, table) {
            names.add(&format!("choice 0: page, {whose}"));
        }
        return;
    }
    let next = images.clone().perform(&Model, line) >> 32;
    for f in (start..next).filter(|&f| shape.coincides(f)) {
        let listed = members(image, shape, f).expect("sound buckets").len();
        names.add_if(listed > 28, "b0 = b1: page, overflow listed");
        let table = shape.table_number(shape.first_home(f).bucket);
        let not_read = carries_choice_0(image, shape, table);
        names.add_if(not_read, "choice 0: page, not read");
    }
}

/// Whether some front bucket with b0 = b1 has members behind it.
fn overflows(image: &[u8], shape: Shape) -> bool {
    let coinciding = shape.coinciding().into_iter();
    coinciding
        .map(|f| behind(image, shape, f))
        .any(|behind| behind.some())
}

/// Whether the first unsound bucket, by table number, has a choice 0 crumb alone.
fn first_carries(image: &[u8], shape: Shape) -> bool {
    let mut tables = 0..shape.buckets();
    let unsound = tables.find(|&table| calls::members_at(image, shape, table).is_none());
    unsound.is_some_and(|table| carries_choice_0(image, shape, table))
}

fn check(names: &mut Names, image: &[u8], number: u64) {
    let Some(shape) = Shape::of_length(image.len()) else {
        return;
    };
    match number {
        3 if first_carries(image, shape) => {
            names.add("choice 0: check");
            names.add_if(!early(image, shape).is_empty(), "choice 0: check before 8");
        }
        8 => {
            let choice_1 = |f: u64| !behind(image, shape, f).second.is_empty();
            let room = |f: u64| read_front(image, f).is_ok_and(|front| front.len() < 28);
            let coinciding = shape.coinciding();
            let is_early = coinciding.iter().any(|&f| choice_1(f) && room(f));
            names.add_if(is_early, "b0 = b1: check, 8");
        }
        0 if overflows(image, shape) => {
            names.add("b0 = b1: check, accepted");
            let first = |&f: &u64| {
                let bucket = read_backyard(image, shape, shape.first_home(f).bucket);
                let mut crumbs = bucket.expect("a sound bucket").into_iter();
                crumbs.any(|x| split(x.crumb).0 == 0)
            };
            let other = "b0 = b1: check, accepted, another front bucket's choice 0 there";
            names.add_if(shape.coinciding().iter().any(first), other);
        }
        _ => {}
    }
}

fn merge(names: &mut Names, sources: [&[u8]; 2], number: u64) {
    let Some(shape) = Shape::of_length(sources[0].len()) else {
        return;
    };
    if ![0, 3, 4].contains(&number) {
        return;
    }
    let overflow = sources.iter().any(|image| overflows(image, shape));
    match number {
        3 => {
            let whole = calls::checked_buckets(sources[0], shape).is_ok();
            let (which, image) = match whole {
                true => ("second", sources[1]),
                false => ("first", sources[0]),
            };
            let name = format!("choice 0: merge, {which}");
            names.add_if(first_carries(image, shape), &name);
        }
        4 => names.add_if(overflow, "b0 = b1: merge, 4"),
        _ => names.add_if(overflow, "b0 = b1: merge, accepted"),
    }
}

/// A move of an image of either form.
fn moved(names: &mut Names, call: &str, image: &[u8], number: u64) {
    let length = image.len();
    let Some(shape) = Shape::of_length(length).or(Shape::of_old_length(length)) else {
        return;
    };
    match number {
        3 => names.add_if(first_carries(image, shape), &format!("choice 0: {call}")),
        0 => {
            let name = format!("b0 = b1: {call}, accepted");
            names.add_if(overflows(image, shape), &name);
        }
        _ => {}
    }
}
