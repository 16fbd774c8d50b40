//! The branches of the machine that a call takes, by name.
//!
//! The stored calls must take every one of `ALL`, of `TAILS`, of `WALKS` and of `COINCIDING`, the
//! random rows and occupancy pages every one of `ROWS` and of `OCCUPANCY`; the stored ones too, but
//! for those of `BEYOND_THREE`. The random histories must take every one of `TAILS`, of `WALKS` and of
//! `COINCIDING`.

mod coinciding;
mod tails;
mod walks;
pub use coinciding::COINCIDING;
pub use tails::TAILS;
pub use walks::WALKS;

use crate::bucket::{Bytes, Member};
use crate::calls::{self, bag, member, members, read_backyard, read_front, Asked, Bag, Place};
use crate::calls::{LINES, OCCUPANCY_BYTES};
use crate::fingerprint::Fingerprint;
use crate::map::split;
use crate::shape::{Shape, BACKYARD_SLOTS, BUCKET, FRONT_SLOTS};
use crate::stored::{row_hashes, Images, Line};
use coinciding::{sake, unread};
use std::collections::HashSet;
use std::ops::Range;
use tails::{is_wrong, mend};

pub const ALL: &[&str] = &[
    "fresh: 1",
    "fresh: accepted",
    "insert: 1",
    "insert: 3 in front",
    "insert: 3 in b0",
    "insert: 3 in b1",
    "insert: 4",
    "insert: room",
    "insert: room, 28th member",
    "insert: room, members behind",
    "insert: room, unsound behind",
    "insert: first",
    "insert: first, b1 holds 22",
    "insert: second",
    "insert: second, b0 holds 22",
    "insert: tie",
    "insert: the new one overflows",
    "insert: equal to the largest",
    "insert: the largest overflows",
    "delete: 1",
    "delete: 3 in front",
    "delete: 5, room in front",
    "delete: 5, room in front, copy behind",
    "delete: 5, below the largest",
    "delete: 5, below the largest, copy behind",
    "delete: 5, none behind",
    "delete: 5, another front bucket's equal behind",
    "delete: front, no refill",
    "delete: front, no refill, members behind",
    "delete: front, no refill, unsound behind",
    "delete: refill, 3 in b0",
    "delete: refill, 3 in b1",
    "delete: refill, none",
    "delete: refill, from first alone",
    "delete: refill, from first, second larger",
    "delete: refill, from second alone",
    "delete: refill, from second, first larger",
    "delete: refill, both, n0 > n1",
    "delete: refill, both, tie",
    "delete: refill, both, n0 < n1",
    "delete: refill, copies of g behind",
    "delete: refill, smaller than the front's largest",
    "delete: refill, another front bucket's equal beside",
    "delete: behind, 3 in b0",
    "delete: behind, 3 in b1",
    "delete: behind, from first alone",
    "delete: behind, from second alone",
    "delete: behind, both, n0 > n1",
    "delete: behind, both, tie",
    "delete: behind, both, n0 < n1",
    "delete: behind, another front bucket's equal beside",
    "ask: 1",
    "ask: 3 in front",
    "ask: 3 in b0",
    "ask: 3 in b1",
    "ask: front",
    "ask: front, one copy",
    "ask: front, several copies",
    "ask: front, a copy in every slot",
    "ask: front, several copies, then its tag in another mini-bucket",
    "ask: front, several copies, then another tag",
    "ask: front, several copies, then no member",
    "ask: front, several copies, then no slot",
    "ask: front, equal to the largest of 28",
    "ask: front, equal to the largest of 28, copies behind",
    "ask: none, room in front",
    "ask: none, room in front, copies behind",
    "ask: none, below the largest",
    "ask: none, below the largest, copies behind",
    "ask: first",
    "ask: first, one copy",
    "ask: first, several copies",
    "ask: first, a copy in every slot",
    "ask: first, several copies after another crumb",
    "ask: first, several copies, then another crumb",
    "ask: first, several copies, then its tag in another mini-bucket",
    "ask: first, several copies, then another tag",
    "ask: first, several copies, then no member",
    "ask: first, several copies, then no slot",
    "ask: first, copies in second",
    "ask: first, b1 unsound",
    "ask: second",
    "ask: second, one copy",
    "ask: second, several copies",
    "ask: second, a copy in every slot",
    "ask: second, several copies after another crumb",
    "ask: second, several copies, then another crumb",
    "ask: second, several copies, then its tag in another mini-bucket",
    "ask: second, several copies, then another tag",
    "ask: second, several copies, then no member",
    "ask: second, several copies, then no slot",
    "ask: none behind",
    "ask: none behind, another front bucket's equal there",
    "ask: slot above 0",
    "ask: several copies of tag 0, then no member",
    "count: 1",
    "count: 3 in front",
    "count: 3 in b0",
    "count: 3 in b1",
    "count: room in front",
    "count: below the largest",
    "count: equal to the largest",
    "count: equal to the largest, copies behind",
    "count: above the largest",
    "count: copies in first and second",
    "page: 1",
    "page: 6",
    "page: 6, unsound image",
    "page: from F",
    "page: 7",
    "page: 7, later bucket unsound",
    "page: 3 in front",
    "page: 3 in b0",
    "page: 3 in b1",
    "page: 3, the bucket would not fit",
    "page: 3, after a full output",
    "page: up to F",
    "page: stops",
    "page: none written, next s + 1",
    "page: empty buckets after a full output",
    "page: overflow listed",
    "page: overflow in first and second",
    "page: members behind left out",
    "page: room left over",
    "check: 1",
    "check: 3 in front",
    "check: 3 in the backyard",
    "check: 3 before 8",
    "check: 8, room in front",
    "check: 8, below the largest",
    "check: 8, several",
    "check: accepted",
    "check: accepted, overflow",
    "check: accepted, crumb 0",
    "check: accepted, crumb 1",
    "check: accepted, crumb 2",
    "check: accepted, crumb 3",
    "check: accepted, crumb 4",
    "check: accepted, crumb 5",
    "check: accepted, crumb 6",
    "check: accepted, crumb 7",
    "check: accepted, crumb 8",
    "check: accepted, crumb 9",
    "check: accepted, crumb 10",
    "check: accepted, crumb 11",
    "check: accepted, crumb 12",
    "check: accepted, crumb 13",
    "check: accepted, crumb 14",
    "check: accepted, crumb 15",
    "check: accepted, overflow equal to the largest",
    "merge: 1, first",
    "merge: 1, second",
    "merge: 1, target",
    "merge: 2, second",
    "merge: 2, target",
    "merge: 3, first",
    "merge: 8, first",
    "merge: 8, first, second unsound",
    "merge: 3, second",
    "merge: 8, second",
    "merge: 4",
    "merge: 4, second empty",
    "merge: accepted",
    "merge: accepted, one source twice",
    "merge: accepted, target unsound before",
    "merge: front of neither",
    "merge: front of first alone",
    "merge: front of second alone",
    "merge: front of first alone, overflow",
    "merge: front of second alone, overflow",
    "merge: fronts of both, room",
    "merge: fronts of both, overflow",
    "unsound: front, zero word",
    "unsound: front, too few ones",
    "unsound: front, too many ones",
    "unsound: front, descending",
    "unsound: front, unused byte",
    "unsound: backyard, zero word",
    "unsound: backyard, too few ones",
    "unsound: backyard, too many ones",
    "unsound: backyard, 23 to 28 members",
    "unsound: backyard, tags descending",
    "unsound: backyard, crumbs descending",
    "unsound: backyard, unused tag",
    "unsound: backyard, unused half",
    "unsound: backyard, byte 63",
    "unsound: backyard, choice 0 invalid",
    "unsound: backyard, choice 0 where b0 = b1",
    "unsound: backyard, choice 1 invalid, e at least 8",
    "unsound: backyard, choice 1 invalid, past B",
];

pub const ROWS: &[&str] = &[
    "row: 1",
    "row: 1, empty",
    "row: 10",
    "row: 10, an ask alone is refused",
    "row: 10, an ask alone before the descent is refused",
    "row: 10 before 11",
    "row: 11",
    "row: 11, empty",
    "row: 11 before 3",
    "row: 3 in front",
    "row: 3 in b0",
    "row: 3 in b1",
    "row: 3, the first ask",
    "row: 3, in the first group",
    "row: 3, after other groups",
    "row: 3, after others in its group",
    "row: 3, more behind it",
    "row: accepted, empty",
    "row: accepted, hundreds",
    "row: accepted, an unsound bucket not read",
    "row: accepted, wrong total",
    "row: a group of one",
    "row: a group of many",
    "row: a group of many, equal reads",
    "row: the greatest reads first in the group",
    "row: the greatest reads within the group",
    "row: the greatest reads last in the group",
    "row: 1, 2 and 3 reads in one group",
    "row: none, front, first and second in one row",
    "row: one fingerprint twice",
    "row: several copies in front",
    "row: several copies in first",
    "row: several copies in second",
    "row: second, b0 = b1",
    "row: none, b0 = b1",
    "row: 1 and 2 reads in one group, b0 = b1",
    "row: groups of 2 reads, b0 = b1, and of 3",
    "row: 3, choice 0, own front bucket",
    "row: 3, choice 0, another front bucket",
    "row: groups with one backyard bucket",
];

/// What a row of three asks never does.
pub const BEYOND_THREE: &[&str] = &[
    "row: 1, empty",
    "row: 11, empty",
    "row: accepted, empty",
    "row: accepted, hundreds",
    "row: none, front, first and second in one row",
];

pub const OCCUPANCY: &[&str] = &[
    "occupancy: 1",
    "occupancy: 1, short output",
    "occupancy: 11",
    "occupancy: 11 before 6",
    "occupancy: 11 before 3",
    "occupancy: 11 before 7",
    "occupancy: 6",
    "occupancy: 6, the first past the last",
    "occupancy: 6, 24 p above 64 bits",
    "occupancy: 6, 24 p wraps to a front bucket",
    "occupancy: 6, short output",
    "occupancy: 6, unsound image",
    "occupancy: 3 in front",
    "occupancy: 3 in b0",
    "occupancy: 3 in b1",
    "occupancy: 3, choice 0, own front bucket",
    "occupancy: 3, choice 0, another front bucket",
    "occupancy: 3, the first line",
    "occupancy: 3, after other lines",
    "occupancy: 3 behind, a later front bucket unsound",
    "occupancy: 3, short output",
    "occupancy: 7, no output",
    "occupancy: 7, some output",
    "occupancy: 7, a byte short",
    "occupancy: accepted, 1,008 bytes",
    "occupancy: accepted, a longer output",
    "occupancy: accepted, another page unsound",
    "occupancy: accepted, wrong total",
    "occupancy: the first page of several",
    "occupancy: a later page",
    "occupancy: the last page, 24 lines",
    "occupancy: the last page, blank lines",
    "occupancy: number of one digit",
    "occupancy: number of two digits",
    "occupancy: number of three digits",
    "occupancy: 0 in front",
    "occupancy: 1 to 9 in front",
    "occupancy: 10 to 26 in front",
    "occupancy: 27 in front",
    "occupancy: room in front, members behind",
    "occupancy: room in front, unsound behind",
    "occupancy: 28 in front, none behind",
    "occupancy: 28 in front, first alone",
    "occupancy: 28 in front, second alone",
    "occupancy: 28 in front, first and second",
    "occupancy: 28 in front, b0 = b1",
    "occupancy: 28 in front, others behind",
    "occupancy: 1 to 9 behind",
    "occupancy: 10 to 43 behind",
    "occupancy: 44 behind",
];

/// The names of one call, gathered.
#[derive(Default)]
struct Names {
    names: Vec<String>,
}

impl Names {
    fn add(&mut self, name: &str) {
        self.names.push(name.to_string());
    }

    fn add_if(&mut self, condition: bool, name: &str) {
        if condition {
            self.add(name);
        }
    }
}

/// What stands behind a front bucket, as far as it is sound.
struct Behind {
    same: bool,
    bucket0: Option<Vec<Member>>,
    bucket1: Option<Vec<Member>>,
    first: Bag,
    second: Bag,
    n0: usize,
    n1: usize,
}

fn behind(image: &[u8], shape: Shape, f: u64) -> Behind {
    let (home0, home1) = (shape.first_home(f), shape.second_home(f));
    let bucket0 = read_backyard(image, shape, home0.bucket).ok();
    let bucket1 = read_backyard(image, shape, home1.bucket).ok();
    let bag_of = |bucket: &Option<Vec<Member>>, home| match bucket {
        Some(members) => bag(members, f, home),
        None => Vec::new(),
    };
    Behind {
        same: shape.coincides(f),
        first: bag_of(&bucket0, home0),
        second: bag_of(&bucket1, home1),
        n0: bucket0.as_ref().map_or(0, Vec::len),
        n1: bucket1.as_ref().map_or(0, Vec::len),
        bucket0,
        bucket1,
    }
}

impl Behind {
    fn unsound(&self) -> bool {
        self.bucket0.is_none() || self.bucket1.is_none()
    }

    fn some(&self) -> bool {
        !self.first.is_empty() || !self.second.is_empty()
    }

    fn holds(&self, g: Fingerprint) -> bool {
        self.first.contains(&g) || self.second.contains(&g)
    }

    fn order(&self) -> &'static str {
        match self.n0.cmp(&self.n1) {
            std::cmp::Ordering::Less => "n0 < n1",
            std::cmp::Ordering::Equal => "tie",
            std::cmp::Ordering::Greater => "n0 > n1",
        }
    }

    /// Whether (m, r) of g stands there for some other front bucket.
    fn equal_of_another(&self, g: Fingerprint) -> bool {
        let copies = |bucket: &Option<Vec<Member>>| match bucket {
            Some(members) => {
                let equal = |x: &&Member| (x.mini, x.tag) == (g.mini, g.tag);
                members.iter().filter(equal).count()
            }
            None => 0,
        };
        let own = |bag: &Bag| bag.iter().filter(|&&x| x == g).count();
        let there = if self.same {
            copies(&self.bucket0)
        } else {
            copies(&self.bucket0) + copies(&self.bucket1)
        };
        there > own(&self.first) + own(&self.second)
    }
}

fn insert(names: &mut Names, image: &[u8], hash: u64) {
    let Some(shape) = Shape::of_length(image.len()) else {
        return names.add("insert: 1");
    };
    let g = Fingerprint::of_hash(hash, shape);
    let Ok(front) = read_front(image, g.front) else {
        return names.add("insert: 3 in front");
    };
    let behind = behind(image, shape, g.front);
    if front.len() < 28 {
        names.add("insert: room");
        names.add_if(front.len() == 27, "insert: room, 28th member");
        names.add_if(behind.some(), "insert: room, members behind");
        names.add_if(behind.unsound(), "insert: room, unsound behind");
        return;
    }
    if behind.bucket0.is_none() {
        return names.add("insert: 3 in b0");
    }
    if behind.bucket1.is_none() {
        return names.add("insert: 3 in b1");
    }
    let (n0, n1) = (behind.n0, behind.n1);
    if n0 == 22 && n1 == 22 {
        return names.add("insert: 4");
    }
    if n0 < n1 {
        names.add("insert: first");
        names.add_if(n1 == 22, "insert: first, b1 holds 22");
    } else if n0 == n1 {
        names.add("insert: tie");
    } else {
        names.add("insert: second");
        names.add_if(n0 == 22, "insert: second, b0 holds 22");
    }
    names.add(match g.cmp(&front[27]) {
        std::cmp::Ordering::Less => "insert: the largest overflows",
        std::cmp::Ordering::Equal => "insert: equal to the largest",
        std::cmp::Ordering::Greater => "insert: the new one overflows",
    });
}

fn delete(names: &mut Names, image: &[u8], hash: u64) {
    let Some(shape) = Shape::of_length(image.len()) else {
        return names.add("delete: 1");
    };
    let g = Fingerprint::of_hash(hash, shape);
    let Ok(front) = read_front(image, g.front) else {
        return names.add("delete: 3 in front");
    };
    let behind = behind(image, shape, g.front);
    let in_front = front.contains(&g);
    if !in_front && (front.len() < 28 || g < front[27]) {
        let why = if front.len() < 28 {
            "delete: 5, room in front"
        } else {
            "delete: 5, below the largest"
        };
        names.add(why);
        names.add_if(behind.holds(g), &format!("{why}, copy behind"));
        return;
    }
    if front.len() < 28 {
        names.add("delete: front, no refill");
        names.add_if(behind.some(), "delete: front, no refill, members behind");
        names.add_if(behind.unsound(), "delete: front, no refill, unsound behind");
        return;
    }
    let way = if in_front {
        "delete: refill"
    } else {
        "delete: behind"
    };
    if behind.bucket0.is_none() {
        return names.add(&format!("{way}, 3 in b0"));
    }
    if behind.bucket1.is_none() {
        return names.add(&format!("{way}, 3 in b1"));
    }
    let wanted = if in_front {
        let Some(&smallest) = behind.first.iter().chain(&behind.second).min() else {
            return names.add("delete: refill, none");
        };
        names.add_if(behind.holds(g), "delete: refill, copies of g behind");
        names.add_if(
            smallest < front[27],
            "delete: refill, smaller than the front's largest",
        );
        smallest
    } else {
        g
    };
    let larger = |bag: &Bag| in_front && !bag.is_empty();
    match (
        behind.first.contains(&wanted),
        behind.second.contains(&wanted),
    ) {
        (false, false) => {
            names.add("delete: 5, none behind");
            names.add_if(
                behind.equal_of_another(g),
                "delete: 5, another front bucket's equal behind",
            );
            return;
        }
        (true, false) if larger(&behind.second) => {
            names.add(&format!("{way}, from first, second larger"))
        }
        (true, false) => names.add(&format!("{way}, from first alone")),
        (false, true) if larger(&behind.first) => {
            names.add(&format!("{way}, from second, first larger"))
        }
        (false, true) => names.add(&format!("{way}, from second alone")),
        (true, true) => names.add(&format!("{way}, both, {}", behind.order())),
    }
    names.add_if(
        behind.equal_of_another(wanted),
        &format!("{way}, another front bucket's equal beside"),
    );
}

fn ask(names: &mut Names, image: &[u8], hash: u64) {
    let Some(shape) = Shape::of_length(image.len()) else {
        return names.add("ask: 1");
    };
    let g = Fingerprint::of_hash(hash, shape);
    let Ok(front) = read_front(image, g.front) else {
        return names.add("ask: 3 in front");
    };
    let behind = behind(image, shape, g.front);
    if front.contains(&g) {
        let front: Vec<Member> = front.iter().map(|&g| member(g, 0)).collect();
        ask_found(names, "front", &front, FRONT_SLOTS, member(g, 0));
        if front.len() == 28 && front[27] == member(g, 0) {
            names.add("ask: front, equal to the largest of 28");
            let more = "ask: front, equal to the largest of 28, copies behind";
            names.add_if(behind.holds(g), more);
        }
        return;
    }
    if front.len() < 28 || g < front[27] {
        let why = if front.len() < 28 {
            "ask: none, room in front"
        } else {
            "ask: none, below the largest"
        };
        names.add(why);
        return names.add_if(behind.holds(g), &format!("{why}, copies behind"));
    }
    ask_behind(names, &behind, shape, g);
}

/// An ask that reads behind the front bucket.
fn ask_behind(names: &mut Names, behind: &Behind, shape: Shape, g: Fingerprint) {
    let Some(bucket0) = &behind.bucket0 else {
        return names.add("ask: 3 in b0");
    };
    if behind.first.contains(&g) {
        let x = member(g, shape.first_home(g.front).crumb);
        ask_found(names, "first", bucket0, BACKYARD_SLOTS, x);
        names.add_if(behind.bucket1.is_none(), "ask: first, b1 unsound");
        let more = behind.second.contains(&g);
        return names.add_if(more, "ask: first, copies in second");
    }
    let Some(bucket1) = &behind.bucket1 else {
        return names.add("ask: 3 in b1");
    };
    if behind.second.contains(&g) {
        let x = member(g, shape.second_home(g.front).crumb);
        return ask_found(names, "second", bucket1, BACKYARD_SLOTS, x);
    }
    names.add("ask: none behind");
    names.add_if(
        behind.equal_of_another(g),
        "ask: none behind, another front bucket's equal there",
    );
}

/// An ask that ended at this place: the copies of x among the members of a bucket with so many
/// slots, and what stands before and after them.
fn ask_found(names: &mut Names, place: &str, members: &[Member], slots: usize, x: Member) {
    let slot = members.iter().position(|&y| y == x).expect("found there");
    let copies = members.iter().filter(|&&y| y == x).count();
    names.add(&format!("ask: {place}"));
    names.add_if(slot > 0, "ask: slot above 0");
    if copies == 1 {
        return names.add(&format!("ask: {place}, one copy"));
    }
    let several = format!("ask: {place}, several copies");
    names.add(&several);
    names.add_if(
        copies == slots,
        &format!("ask: {place}, a copy in every slot"),
    );
    let same_key = |y: &Member| (y.mini, y.tag) == (x.mini, x.tag);
    names.add_if(
        slot > 0 && same_key(&members[slot - 1]),
        &format!("{several} after another crumb"),
    );
    let then = match members.get(slot + copies) {
        None if members.len() == slots => "no slot",
        None => "no member",
        Some(y) if same_key(y) => "another crumb",
        Some(y) if y.mini == x.mini => "another tag",
        Some(y) if y.tag == x.tag => "its tag in another mini-bucket",
        Some(_) => return,
    };
    names.add(&format!("{several}, then {then}"));
    names.add_if(
        x.tag == 0 && then == "no member",
        "ask: several copies of tag 0, then no member",
    );
}

/// Which bucket of f has this table number.
fn unsound_of(shape: Shape, f: u64, table: u64) -> &'static str {
    let first = shape.table_number(shape.first_home(f).bucket);
    match table {
        table if table == f => "front",
        table if table == first => "b0",
        _ => "b1",
    }
}

/// The same image with a good tail.
fn mended(image: &[u8]) -> Vec<u8> {
    let mut image = image.to_vec();
    mend(&mut image);
    image
}

fn row(names: &mut Names, image: &[u8], hashes: &[u64]) {
    let Some(shape) = Shape::of_length(image.len()) else {
        names.add("row: 1");
        return names.add_if(hashes.is_empty(), "row: 1, empty");
    };
    let front = |hash: &u64| Fingerprint::of_hash(*hash, shape).front;
    let fronts: Vec<u64> = hashes.iter().map(front).collect();
    let good = mended(image);
    let asks: Vec<_> = hashes.iter().map(|&hash| calls::ask(&good, hash)).collect();
    let refused = asks.iter().position(Result::is_err);
    if let Some(at) = (1..fronts.len()).find(|&at| fronts[at] < fronts[at - 1]) {
        names.add("row: 10");
        names.add_if(good != image, "row: 10 before 11");
        names.add_if(refused.is_some(), "row: 10, an ask alone is refused");
        return names.add_if(
            refused.is_some_and(|first| first < at),
            "row: 10, an ask alone before the descent is refused",
        );
    }
    if good != image {
        names.add("row: 11");
        names.add_if(hashes.is_empty(), "row: 11, empty");
        return names.add_if(refused.is_some(), "row: 11 before 3");
    }
    if let Some(at) = refused {
        let f = fronts[at];
        let table = asks[at].unwrap_err().table.expect("a table number");
        let which = unsound_of(shape, f, table);
        names.add(&format!("row: 3 in {which}"));
        if let Some(whose) = sake(image, shape, f, table) {
            names.add(&format!("row: 3, choice 0, {whose}"));
        }
        names.add_if(at == 0, "row: 3, the first ask");
        names.add(match fronts[0] == f {
            true => "row: 3, in the first group",
            false => "row: 3, after other groups",
        });
        names.add_if(
            at > 0 && fronts[at - 1] == f,
            "row: 3, after others in its group",
        );
        return names.add_if(at + 1 < hashes.len(), "row: 3, more behind it");
    }
    let asked: Vec<Asked> = asks.into_iter().flatten().collect();
    names.add_if(hashes.is_empty(), "row: accepted, empty");
    names.add_if(hashes.len() >= 200, "row: accepted, hundreds");
    names.add_if(is_wrong(image), "row: accepted, wrong total");
    let unsound = |&f: &u64| read_front(image, f).is_err() || behind(image, shape, f).unsound();
    names.add_if(
        fronts.iter().any(unsound),
        "row: accepted, an unsound bucket not read",
    );
    let place = |asked: &Asked| std::mem::discriminant(&asked.place);
    let places: HashSet<_> = asked.iter().map(place).collect();
    names.add_if(
        places.len() == 4,
        "row: none, front, first and second in one row",
    );
    let mut from = 0;
    let mut groups: Vec<(u64, u64)> = Vec::new();
    for same in fronts.chunk_by(|x, y| x == y) {
        let to = from + same.len();
        let greatest = group(names, shape, &hashes[from..to], &asked[from..to]);
        groups.push((same[0], greatest));
        from = to;
    }
    let once = |&(f, reads): &(u64, u64)| shape.coincides(f) && reads == 2;
    names.add_if(
        groups.iter().any(once) && groups.iter().any(|&(_, reads)| reads == 3),
        "row: groups of 2 reads, b0 = b1, and of 3",
    );
    let read = groups.iter().filter(|(_, reads)| *reads > 1);
    let homes: Vec<u64> = read.map(|&(f, _)| shape.first_home(f).bucket).collect();
    names.add_if(
        homes.windows(2).any(|pair| pair[0] == pair[1]),
        "row: groups with one backyard bucket",
    );
}

/// One group of a row: its greatest reads.
fn group(names: &mut Names, shape: Shape, hashes: &[u64], asked: &[Asked]) -> u64 {
    let fingerprint = |hash: &u64| Fingerprint::of_hash(*hash, shape);
    let reads: Vec<u64> = asked.iter().map(|asked| asked.reads).collect();
    let greatest = reads.iter().copied().max().expect("a group has an ask");
    if reads.len() == 1 {
        names.add("row: a group of one");
    } else {
        names.add("row: a group of many");
        let (first, last) = (reads[0], reads[reads.len() - 1]);
        let all_equal = reads.iter().all(|&reads| reads == greatest);
        names.add(match greatest {
            _ if all_equal => "row: a group of many, equal reads",
            greatest if greatest == first => "row: the greatest reads first in the group",
            greatest if greatest == last => "row: the greatest reads last in the group",
            _ => "row: the greatest reads within the group",
        });
    }
    names.add_if(
        (1..=3).all(|n| reads.contains(&n)),
        "row: 1, 2 and 3 reads in one group",
    );
    let distinct: HashSet<u64> = hashes
        .iter()
        .map(|hash| fingerprint(hash).number())
        .collect();
    names.add_if(distinct.len() < hashes.len(), "row: one fingerprint twice");
    for asked in asked.iter().filter(|asked| asked.copies > 1) {
        names.add(match asked.place {
            Place::Front(_) => "row: several copies in front",
            Place::First(_) => "row: several copies in first",
            _ => "row: several copies in second",
        });
    }
    if shape.coincides(fingerprint(&hashes[0]).front) {
        for asked in asked.iter().filter(|asked| asked.reads > 1) {
            names.add(match asked.place {
                Place::None => "row: none, b0 = b1",
                _ => "row: second, b0 = b1",
            });
        }
        let mixed = reads.contains(&1) && greatest == 2;
        names.add_if(mixed, "row: 1 and 2 reads in one group, b0 = b1");
    }
    greatest
}

fn count(names: &mut Names, image: &[u8], hash: u64) {
    let Some(shape) = Shape::of_length(image.len()) else {
        return names.add("count: 1");
    };
    let g = Fingerprint::of_hash(hash, shape);
    let Ok(front) = read_front(image, g.front) else {
        return names.add("count: 3 in front");
    };
    if front.len() < 28 {
        return names.add("count: room in front");
    }
    if g < front[27] {
        return names.add("count: below the largest");
    }
    let behind = behind(image, shape, g.front);
    if behind.bucket0.is_none() {
        return names.add("count: 3 in b0");
    }
    if behind.bucket1.is_none() {
        return names.add("count: 3 in b1");
    }
    if g == front[27] {
        names.add("count: equal to the largest");
        names.add_if(
            behind.holds(g),
            "count: equal to the largest, copies behind",
        );
    } else {
        names.add("count: above the largest");
    }
    let both = behind.first.contains(&g) && behind.second.contains(&g);
    names.add_if(both, "count: copies in first and second");
}

fn page(names: &mut Names, image: &[u8], start: u64, length: usize) {
    let Some(shape) = Shape::of_length(image.len()) else {
        return names.add("page: 1");
    };
    let fronts = shape.fronts();
    if start > fronts {
        names.add("page: 6");
        let unsound = (0..fronts).any(|f| read_front(image, f).is_err());
        return names.add_if(unsound, "page: 6, unsound image");
    }
    if start == fronts {
        return names.add("page: from F");
    }
    let mut written = 0;
    for f in start..fronts {
        let Ok(front) = read_front(image, f) else {
            names.add_if(
                written == length && f > start,
                "page: 3, after a full output",
            );
            return names.add("page: 3 in front");
        };
        let behind = behind(image, shape, f);
        if front.len() == 28 && behind.unsound() {
            names.add_if(written + 28 > length, "page: 3, the bucket would not fit");
            return names.add(if behind.bucket0.is_none() {
                "page: 3 in b0"
            } else {
                "page: 3 in b1"
            });
        }
        let all = members(image, shape, f).expect("sound buckets").len();
        if written + all > length {
            if f == start {
                let later = (f + 1..fronts).any(|f| read_front(image, f).is_err());
                names.add("page: 7");
                return names.add_if(later, "page: 7, later bucket unsound");
            }
            names.add("page: stops");
            return names.add_if(
                written == 0 && f == start + 1,
                "page: none written, next s + 1",
            );
        }
        names.add_if(all > 28, "page: overflow listed");
        let both = !behind.first.is_empty() && !behind.second.is_empty();
        names.add_if(all > 28 && both, "page: overflow in first and second");
        names.add_if(
            front.len() < 28 && behind.some(),
            "page: members behind left out",
        );
        names.add_if(
            all == 0 && written == length && length > 0,
            "page: empty buckets after a full output",
        );
        written += all;
    }
    names.add("page: up to F");
    names.add_if(written < length, "page: room left over");
}

fn occupancy(names: &mut Names, image: &[u8], page: u64, length: usize) {
    let short = length < OCCUPANCY_BYTES;
    let Some(shape) = Shape::of_length(image.len()) else {
        names.add("occupancy: 1");
        return names.add_if(short, "occupancy: 1, short output");
    };
    let good = mended(image);
    if good != image {
        names.add("occupancy: 11");
        if let Err(next) = calls::occupancy(&good, page, &mut vec![0; length]) {
            names.add(&format!("occupancy: 11 before {}", next.number));
        }
        return;
    }
    let fronts = shape.fronts();
    let pages = fronts.div_ceil(LINES);
    if page >= pages {
        names.add_if(short, "occupancy: 6, short output");
        return past_the_last(names, image, shape, page);
    }
    let start = LINES * page;
    let end = fronts.min(start + LINES);
    if let Some((f, table)) = unread(image, shape, start..end) {
        let which = unsound_of(shape, f, table);
        names.add(&format!("occupancy: 3 in {which}"));
        if let Some(whose) = sake(image, shape, f, table) {
            names.add(&format!("occupancy: 3, choice 0, {whose}"));
        }
        names.add(match f == start {
            true => "occupancy: 3, the first line",
            false => "occupancy: 3, after other lines",
        });
        names.add_if(
            table >= fronts && (f + 1..end).any(|f| read_front(image, f).is_err()),
            "occupancy: 3 behind, a later front bucket unsound",
        );
        return names.add_if(short, "occupancy: 3, short output");
    }
    names.add(match length {
        0 => "occupancy: 7, no output",
        1007 => "occupancy: 7, a byte short",
        1008 => "occupancy: accepted, 1,008 bytes",
        _ if short => "occupancy: 7, some output",
        _ => "occupancy: accepted, a longer output",
    });
    if !short {
        occupancy_lines(names, image, shape, start..end);
    }
}

/// An occupancy page past the last.
fn past_the_last(names: &mut Names, image: &[u8], shape: Shape, page: u64) {
    let fronts = shape.fronts();
    names.add("occupancy: 6");
    names.add_if(
        page == fronts.div_ceil(LINES),
        "occupancy: 6, the first past the last",
    );
    if page.checked_mul(LINES).is_none() {
        names.add("occupancy: 6, 24 p above 64 bits");
        names.add_if(
            page.wrapping_mul(LINES) < fronts,
            "occupancy: 6, 24 p wraps to a front bucket",
        );
    }
    let unsound = (0..fronts).any(|f| read_front(image, f).is_err());
    names.add_if(unsound, "occupancy: 6, unsound image");
}

/// An accepted occupancy page of these front buckets.
fn occupancy_lines(names: &mut Names, image: &[u8], shape: Shape, page: Range<u64>) {
    let fronts = shape.fronts();
    let mut others = (0..fronts).filter(|f| !page.contains(f));
    names.add_if(
        others.any(|f| read_front(image, f).is_err()),
        "occupancy: accepted, another page unsound",
    );
    names.add_if(is_wrong(image), "occupancy: accepted, wrong total");
    names.add_if(
        page.start == 0 && page.end < fronts,
        "occupancy: the first page of several",
    );
    names.add_if(page.start > 0, "occupancy: a later page");
    if page.end == fronts {
        names.add(match page.end - page.start {
            LINES => "occupancy: the last page, 24 lines",
            _ => "occupancy: the last page, blank lines",
        });
    }
    for f in page {
        names.add(match f {
            0..10 => "occupancy: number of one digit",
            10..100 => "occupancy: number of two digits",
            _ => "occupancy: number of three digits",
        });
        let front = read_front(image, f).expect("a sound bucket").len();
        occupancy_line(names, front, &behind(image, shape, f));
    }
}

/// One line, by the members in front and what is behind them.
fn occupancy_line(names: &mut Names, front: usize, behind: &Behind) {
    if front < 28 {
        names.add(match front {
            0 => "occupancy: 0 in front",
            1..=9 => "occupancy: 1 to 9 in front",
            10..=26 => "occupancy: 10 to 26 in front",
            _ => "occupancy: 27 in front",
        });
        names.add_if(behind.some(), "occupancy: room in front, members behind");
        return names.add_if(behind.unsound(), "occupancy: room in front, unsound behind");
    }
    let (first, second) = (behind.first.len(), behind.second.len());
    names.add(match (first, second) {
        (0, 0) => "occupancy: 28 in front, none behind",
        (_, 0) => "occupancy: 28 in front, first alone",
        (0, _) => "occupancy: 28 in front, second alone",
        _ => "occupancy: 28 in front, first and second",
    });
    match first + second {
        0 => {}
        1..=9 => names.add("occupancy: 1 to 9 behind"),
        44 => names.add("occupancy: 44 behind"),
        _ => names.add("occupancy: 10 to 43 behind"),
    }
    names.add_if(
        behind.same && behind.some(),
        "occupancy: 28 in front, b0 = b1",
    );
    names.add_if(
        behind.n0 > first && behind.n1 > second && !behind.same,
        "occupancy: 28 in front, others behind",
    );
}

/// The first unsound bucket by table number, or the backyard buckets with members before
/// their turn.
enum Fault {
    Unsound(u64),
    Early(Vec<u64>),
}

fn early(image: &[u8], shape: Shape) -> Vec<(u64, &'static str)> {
    let mut found = Vec::new();
    for j in 0..shape.backyards() {
        for x in read_backyard(image, shape, j).unwrap_or_default() {
            let f = shape.front_of(j, x.crumb).expect("a valid crumb");
            let Ok(front) = read_front(image, f) else {
                continue;
            };
            let g = (x.mini, x.tag);
            if front.len() < 28 {
                found.push((j, "check: 8, room in front"));
            } else if g < (front[27].mini, front[27].tag) {
                found.push((j, "check: 8, below the largest"));
            }
        }
    }
    found
}

fn fault(image: &[u8], shape: Shape) -> Option<Fault> {
    let bad_front = |&f: &u64| read_front(image, f).is_err();
    let bad_backyard = |&j: &u64| read_backyard(image, shape, j).is_err();
    if let Some(f) = (0..shape.fronts()).find(bad_front) {
        return Some(Fault::Unsound(f));
    }
    if let Some(j) = (0..shape.backyards()).find(bad_backyard) {
        return Some(Fault::Unsound(shape.table_number(j)));
    }
    let mut buckets: Vec<u64> = early(image, shape).iter().map(|&(j, _)| j).collect();
    buckets.dedup();
    (!buckets.is_empty()).then_some(Fault::Early(buckets))
}

fn check(names: &mut Names, image: &[u8]) {
    let Some(shape) = Shape::of_length(image.len()) else {
        return names.add("check: 1");
    };
    let early = early(image, shape);
    match fault(image, shape) {
        Some(Fault::Unsound(table)) => {
            names.add(if table < shape.fronts() {
                "check: 3 in front"
            } else {
                "check: 3 in the backyard"
            });
            names.add_if(!early.is_empty(), "check: 3 before 8");
            unsound(names, image, shape, table);
        }
        Some(Fault::Early(buckets)) => {
            let lowest = early.iter().filter(|(j, _)| *j == buckets[0]);
            for (_, why) in lowest {
                names.add(why);
            }
            names.add_if(buckets.len() > 1, "check: 8, several");
        }
        None => {
            names.add("check: accepted");
            for j in 0..shape.backyards() {
                for x in read_backyard(image, shape, j).expect("a sound bucket") {
                    let f = shape.front_of(j, x.crumb).expect("a valid crumb");
                    let front = read_front(image, f).expect("a sound bucket");
                    names.add("check: accepted, overflow");
                    names.add(&format!("check: accepted, crumb {}", x.crumb));
                    names.add_if(
                        (front[27].mini, front[27].tag) == (x.mini, x.tag),
                        "check: accepted, overflow equal to the largest",
                    );
                }
            }
        }
    }
}

/// Why a bucket is unsound.
fn unsound(names: &mut Names, image: &[u8], shape: Shape, table: u64) {
    let at = table as usize * BUCKET;
    let bytes: Bytes = image[at..at + BUCKET].try_into().expect("64 bytes");
    let word = u64::from_le_bytes(bytes[..8].try_into().expect("eight bytes"));
    let front = table < shape.fronts();
    let kind = if front { "front" } else { "backyard" };
    let mut add = |why: &str| names.add(&format!("unsound: {kind}, {why}"));
    if word == 0 {
        return add("zero word");
    }
    if word.count_ones() != 36 {
        return add(if word.count_ones() < 36 {
            "too few ones"
        } else {
            "too many ones"
        });
    }
    let mut ones = 0;
    let mut minis = Vec::new();
    for bit in 0..64 {
        if word >> bit & 1 == 1 {
            ones += 1;
        } else if ones < 36 {
            minis.push(ones);
        }
    }
    let n = minis.len();
    if !front && n > 22 {
        return add("23 to 28 members");
    }
    let tag = |slot: usize| bytes[8 + 2 * slot] as u64 + 256 * bytes[9 + 2 * slot] as u64;
    let crumb = |slot: usize| bytes[52 + slot / 2] as u64 >> (4 * (slot % 2)) & 15;
    for slot in 1..n {
        let (before, here) = ((minis[slot - 1], tag(slot - 1)), (minis[slot], tag(slot)));
        if here < before {
            return add(if front {
                "descending"
            } else {
                "tags descending"
            });
        }
        if !front && here == before && crumb(slot) < crumb(slot - 1) {
            return add("crumbs descending");
        }
    }
    if front {
        return add("unused byte");
    }
    if (n..22).any(|slot| tag(slot) != 0) {
        return add("unused tag");
    }
    if (n..22).any(|slot| crumb(slot) != 0) {
        return add("unused half");
    }
    if bytes[63] != 0 {
        return add("byte 63");
    }
    let j = table - shape.fronts();
    for slot in 0..n {
        if shape.front_of(j, crumb(slot)).is_none() {
            return add(if shape.way_back(j, crumb(slot)).is_some() {
                "choice 0 where b0 = b1"
            } else if split(crumb(slot)).0 == 0 {
                "choice 0 invalid"
            } else if j / (shape.b / 8 + 1) >= 8 {
                "choice 1 invalid, e at least 8"
            } else {
                "choice 1 invalid, past B"
            });
        }
    }
}

fn merge(names: &mut Names, sources: [&[u8]; 2], target: &[u8], twice: bool, accepted: bool) {
    let [first, second] = sources;
    let wrong = |image: &[u8]| Shape::of_length(image.len()).is_none();
    if wrong(first) || wrong(second) || wrong(target) {
        names.add_if(wrong(first), "merge: 1, first");
        names.add_if(wrong(second), "merge: 1, second");
        names.add_if(wrong(target), "merge: 1, target");
        return;
    }
    if first.len() != second.len() || first.len() != target.len() {
        names.add_if(first.len() != second.len(), "merge: 2, second");
        names.add_if(first.len() != target.len(), "merge: 2, target");
        return;
    }
    let shape = Shape::of_length(first.len()).expect("a good length");
    let second_fault = fault(second, shape);
    match fault(first, shape) {
        Some(Fault::Unsound(_)) => return names.add("merge: 3, first"),
        Some(Fault::Early(_)) => {
            names.add("merge: 8, first");
            let unsound = matches!(second_fault, Some(Fault::Unsound(_)));
            return names.add_if(unsound, "merge: 8, first, second unsound");
        }
        None => {}
    }
    match second_fault {
        Some(Fault::Unsound(_)) => return names.add("merge: 3, second"),
        Some(Fault::Early(_)) => return names.add("merge: 8, second"),
        None => {}
    }
    let both = |f| {
        let of = |image| members(image, shape, f).expect("sound buckets").len();
        (of(first), of(second))
    };
    if !accepted {
        names.add("merge: 4");
        let empty = (0..shape.fronts()).all(|f| both(f).1 == 0);
        return names.add_if(empty, "merge: 4, second empty");
    }
    names.add("merge: accepted");
    names.add_if(twice, "merge: accepted, one source twice");
    names.add_if(
        matches!(fault(target, shape), Some(Fault::Unsound(_))),
        "merge: accepted, target unsound before",
    );
    for f in 0..shape.fronts() {
        names.add(match both(f) {
            (0, 0) => "merge: front of neither",
            (1..=28, 0) => "merge: front of first alone",
            (0, 1..=28) => "merge: front of second alone",
            (_, 0) => "merge: front of first alone, overflow",
            (0, _) => "merge: front of second alone, overflow",
            (n, m) if n + m <= 28 => "merge: fronts of both, room",
            _ => "merge: fronts of both, overflow",
        });
    }
}

/// The branches that a row takes on an image.
pub fn of_row(image: &[u8], hashes: &[u64]) -> Vec<String> {
    let mut names = Names::default();
    row(&mut names, image, hashes);
    names.names
}

/// The branches that an occupancy page takes on an image.
pub fn of_occupancy(image: &[u8], page: u64, length: usize) -> Vec<String> {
    let mut names = Names::default();
    occupancy(&mut names, image, page, length);
    names.names
}

/// The branches that a line takes on these images. `number` is the one it gives, 0 where accepted.
pub fn of(images: &Images, line: Line, number: u64) -> Vec<String> {
    let mut names = Names::default();
    tails::of(&mut names, images, line, number);
    walks::of(&mut names, images, line, number);
    coinciding::of(&mut names, images, line, number);
    let is_row_or_page = matches!(line, Line::Row { .. } | Line::Occupancy { .. });
    if number < 11 || is_row_or_page {
        on_buckets(&mut names, images, line, number == 0);
    }
    names.names
}

/// The branches of a line that tails and walks have no part in, but for rows and occupancy pages.
fn on_buckets(names: &mut Names, images: &Images, line: Line, accepted: bool) {
    let image = |x: usize| -> &[u8] { &images.image[x] };
    match line {
        Line::Fresh { x } => names.add(match Shape::of_length(image(x).len()) {
            Some(_) => "fresh: accepted",
            None => "fresh: 1",
        }),
        Line::Insert { x, hash } => insert(names, image(x), hash),
        Line::Delete { x, hash } => delete(names, image(x), hash),
        Line::Ask { x, hash } => ask(names, image(x), hash),
        Line::Count { x, hash } => count(names, image(x), hash),
        Line::Page { x, start, length } => page(names, image(x), start, length),
        Line::Check { x } => check(names, image(x)),
        Line::Merge { x, y, z } => {
            let sources = [image(x), image(y)];
            merge(names, sources, image(z), x == y, accepted)
        }
        Line::Row { x, hash, step } => row(names, image(x), &row_hashes(hash, step)),
        Line::Occupancy { x, page, length } => occupancy(names, image(x), page, length),
        _ => {}
    }
}
