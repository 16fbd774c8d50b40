//! Stored calls on front buckets whose two backyard buckets coincide, b0 = b1, with B = 1, 3 and 9:
//! filled, asked, emptied and merged, then with a choice 0 crumb there.

use super::{ask_row, g, member, occupancy};
use crate::bucket::Member;
use crate::prepare::Player;
use crate::shape::Shape;

/// The tag of all members but those that are inserted until a front bucket is full.
const TAG: u64 = 400;

/// A front bucket with b0 = b1, and others that share its backyard bucket: one with choice 0 there,
/// and one with choice 1 where there is such a one.
struct Place {
    shape: Shape,
    f: u64,
    sharing: Vec<u64>,
}

impl Place {
    fn bucket(&self) -> u64 {
        self.shape.first_home(self.f).bucket
    }

    /// The crumb of f that is unsound here, and the one that its members carry.
    fn crumbs(&self) -> (u64, u64) {
        let (first, second) = (
            self.shape.first_home(self.f),
            self.shape.second_home(self.f),
        );
        (first.crumb, second.crumb)
    }

    /// The crumb of one that shares the bucket.
    fn crumb_of(&self, sharing: u64) -> u64 {
        let homes = [
            self.shape.first_home(sharing),
            self.shape.second_home(sharing),
        ];
        let here = homes.iter().find(|home| home.bucket == self.bucket());
        here.expect("a home here").crumb
    }

    fn fronts(&self) -> Vec<u64> {
        [&[self.f], &self.sharing[..]].concat()
    }

    /// What is behind f, all with choice 1: copies of its largest in front, two of mini-bucket 28,
    /// one of 30. Those that share the bucket have one of 28 and one of 29 each.
    fn behind(&self) -> Vec<Member> {
        let (_, crumb) = self.crumbs();
        let own = [27, 28, 28, 30].map(|mini| member(mini, TAG, crumb));
        let of = |&f: &u64| [28, 29].map(|mini| member(mini, TAG, self.crumb_of(f)));
        own.into_iter()
            .chain(self.sharing.iter().flat_map(of))
            .collect()
    }
}

/// 28 front members, one in each of mini-buckets 0 to 27.
fn front() -> Vec<Member> {
    (0..28).map(|mini| member(mini, TAG, 0)).collect()
}

pub(super) fn coinciding(p: &mut Player) {
    for (b, f, sharing) in [(1, 0, vec![3]), (3, 9, vec![13, 17]), (9, 51, vec![48, 11])] {
        let shape = Shape { b };
        let place = &Place { shape, f, sharing };
        filled(p, place);
        stocked(p, place);
        asked(p, place);
        deleted(p, place);
        merged(p, place);
        choice_0(p, place);
        not_read(p, place);
        moved(p, place);
    }
    same_digit(p);
    every_one(p);
}

/// Front bucket f alone, by inserts: it takes 50. Then emptied.
fn filled(p: &mut Player, place: &Place) {
    let value = |n: u64| g(place.f, 7, 10 * (19 * n % 51));
    p.fresh(0, place.shape.b);
    for n in 0..51 {
        p.insert(0, value(n));
        if [26, 27, 28, 49, 50].contains(&n) {
            p.look(0, value(n));
            p.look(0, g(place.f, 7, 511));
            p.check(0);
        }
    }
    p.page(0, place.f, 49);
    p.page(0, place.f, 50);
    occupancy(p, place.f / 24, 1008);
    // One that shares the bucket finds it full.
    for mini in 0..29 {
        p.insert(0, g(place.sharing[0], mini, TAG));
    }
    p.insert(0, value(50));
    for n in 0..51 {
        p.delete(0, value(n));
    }
    p.check(0);
}

/// Image 1: f and those that share its backyard bucket are full, with some behind each. Image 0 is a
/// copy.
fn stocked(p: &mut Player, place: &Place) {
    p.fresh(1, place.shape.b);
    for f in place.fronts() {
        p.put_front(1, f, front());
    }
    p.put_backyard(1, place.bucket(), place.behind());
    p.copy(1, 0);
    p.check(0);
}

/// Asks, counts and rows: in front, behind and absent.
fn asked(p: &mut Player, place: &Place) {
    for mini in [0, 27, 28, 29, 30, 35] {
        p.look(0, g(place.f, mini, TAG));
    }
    p.look(0, g(place.f, 5, TAG - 1));
    for &f in &place.sharing {
        p.look(0, g(f, 28, TAG));
        p.look(0, g(f, 30, TAG));
    }
    rows(p, place);
    for length in [28, 31, 32, 99] {
        p.page(0, place.f, length);
    }
    occupancy(p, place.f / 24, 1008);
}

/// Rows of three: of f alone, then of f and the front buckets before and after it.
fn rows(p: &mut Player, place: &Place) {
    for (mini, minis) in [
        (26, 1),  // front, front, second
        (27, 1),  // front, second, none
        (28, 0),  // second, three times
        (30, -1), // second, none, second
        (31, 1),  // none, three times
        (0, 15),  // front, front, second
        (35, -8), // none, front, front
    ] {
        ask_row(p, 2 * place.f, mini, TAG, 0, minis);
    }
    for f in place.fronts() {
        // f twice and the next; the one before, f, the next; far apart.
        for (half, halves) in [
            (2 * f, 1),
            ((2 * f).saturating_sub(2), 2),
            (0, 2 * f as i64),
        ] {
            ask_row(p, half, 28, TAG, halves, 0);
            ask_row(p, half, 27, TAG, halves, 1);
        }
    }
}

/// Deletes behind f and in front, refilled from behind as long as there are any, and inserts again.
fn deleted(p: &mut Player, place: &Place) {
    let of = |mini| g(place.f, mini, TAG);
    for mini in [33, 29, 28, 30, 3, 27, 27, 4, 5, 28] {
        p.delete(0, of(mini));
        p.look(0, of(mini));
    }
    p.check(0);
    for mini in [3, 27, 27, 30, 30, 29] {
        p.insert(0, of(mini));
    }
    p.page(0, place.f, 99);
    p.check(0);
}

/// Merges with the stocked image, which may run full, and the calls go on.
fn merged(p: &mut Player, place: &Place) {
    p.copy(1, 0);
    p.new_image(2, place.shape.length());
    for (x, y) in [(0, 1), (0, 0)] {
        p.merge(x, y, 2);
        p.check(2);
    }
    p.fresh(0, place.shape.b);
    p.insert(0, g(place.f, 5, 1));
    for (x, y) in [(0, 1), (1, 0)] {
        p.merge(x, y, 2);
        p.look(2, g(place.f, 28, TAG));
        p.page(2, place.f, 99);
        p.check(2);
    }
    p.delete(2, g(place.f, 5, 1));
    p.insert(2, g(place.f, 28, TAG));
}

/// Buckets with a choice 0 crumb of f, each sound otherwise: one of its members has it, beside copies
/// with choice 1; all have it; one that is there alone has it.
fn carrying(place: &Place) -> Vec<Vec<Member>> {
    let (unsound, own) = place.crumbs();
    let one = |x: Member| match (x.mini, x.crumb) {
        (30, crumb) if crumb == own => member(30, TAG, unsound),
        _ => x,
    };
    let all = |x: Member| match x.crumb {
        crumb if crumb == own => member(x.mini, x.tag, unsound),
        _ => x,
    };
    let behind = place.behind();
    let mut copy = behind.clone();
    copy[1].crumb = unsound;
    vec![
        copy,
        behind.iter().copied().map(one).collect(),
        behind.into_iter().map(all).collect(),
        vec![member(35, 65535, unsound)],
    ]
}

/// Every call that reads such a bucket, for f and for those that share it.
fn choice_0(p: &mut Player, place: &Place) {
    p.new_image(2, place.shape.length());
    for members in carrying(place).into_iter().rev() {
        p.copy(1, 0);
        p.put_backyard(0, place.bucket(), members);
        p.check(0);
        for f in place.fronts() {
            p.look(0, g(f, 28, TAG));
            p.insert(0, g(f, 28, TAG));
        }
    }
    // The one with copies of choice 1 is there now.
    for f in place.fronts() {
        refused(p, f);
    }
    for (x, y) in [(0, 1), (1, 0), (0, 0)] {
        p.merge(x, y, 2);
    }
    // Before 8: a member of one that shares it is early in its other bucket.
    let early = place.sharing[0];
    let home = place.shape.second_home(early);
    p.put_front(0, early, vec![]);
    p.put_backyard(0, home.bucket, vec![member(28, TAG, home.crumb)]);
    p.check(0);
}

/// Calls on f in image 0: some read the front bucket alone, the others what is behind it.
fn refused(p: &mut Player, f: u64) {
    for mini in [0, 27, 31] {
        p.look(0, g(f, mini, TAG));
    }
    for mini in [0, 31] {
        p.insert(0, g(f, mini, TAG));
        p.delete(0, g(f, mini, TAG));
    }
    p.look(0, g(f, 3, TAG - 1));
    p.delete(0, g(f, 3, TAG - 1));
    p.page(0, f, 99);
    occupancy(p, f / 24, 1008);
    for (mini, minis) in [(26, 1), (0, 1), (31, 0)] {
        ask_row(p, 2 * f, mini, TAG, 0, minis);
    }
    ask_row(p, (2 * f).saturating_sub(2), 28, TAG, 2, 0);
}

/// A front bucket with room does not read the bucket: inserts, deletes, looks and pages go on.
fn not_read(p: &mut Player, place: &Place) {
    p.copy(1, 0);
    p.put_backyard(0, place.bucket(), carrying(place).remove(0));
    for f in place.fronts() {
        p.put_front(0, f, front()[..26].to_vec());
    }
    for f in place.fronts() {
        p.look(0, g(f, 28, TAG));
        p.page(0, f, 99);
        p.delete(0, g(f, 3, TAG));
        for mini in [27, 28, 29, 30] {
            p.insert(0, g(f, mini, TAG));
        }
        p.look(0, g(f, 28, TAG));
    }
    occupancy(p, place.f / 24, 1008);
    p.check(0);
    p.tail(0, 2);
}

/// The stocked image to the old form and back; then old images with a choice 0 crumb, which no move
/// takes, and new ones with it.
fn moved(p: &mut Player, place: &Place) {
    let (old, new) = (place.shape.old_length(), place.shape.length());
    p.new_image(2, old);
    p.new_image(0, new);
    p.detach(1, 2);
    p.attach(2, 0);
    p.check(0);
    for members in carrying(place) {
        p.put_backyard(2, place.bucket(), members.clone());
        p.attach(2, 0);
        p.copy(1, 0);
        p.put_backyard(0, place.bucket(), members);
        p.detach(0, 2);
    }
    p.put_backyard(2, place.bucket(), place.behind());
    p.attach(2, 0);
    p.tail(0, 2);
}

/// The digit that is unsound for 9 in backyard bucket 1, with B = 3: in bucket 0 it is that of 1, in
/// bucket 2 that of 17, and both are sound.
fn same_digit(p: &mut Player) {
    p.fresh(0, 3);
    for (j, f) in [(0, 1), (2, 17)] {
        p.put_front(0, f, front());
        p.put_backyard(0, j, vec![member(28, TAG, 1), member(28, TAG, 2)]);
        p.look(0, g(f, 28, TAG));
        p.look(0, g(f, 29, TAG));
        p.delete(0, g(f, 28, TAG));
        p.put_backyard(0, j, vec![member(28, TAG, 1)]);
        p.check(0);
    }
}

/// Every front bucket with b0 = b1, alone, with choice 1 and with choice 0.
fn every_one(p: &mut Player) {
    for b in [1, 3, 9] {
        let shape = Shape { b };
        p.fresh(0, b);
        for f in shape.coinciding() {
            let home = shape.first_home(f);
            p.put_front(0, f, front());
            for crumb in [shape.second_home(f).crumb, home.crumb] {
                p.put_backyard(0, home.bucket, vec![member(28, TAG, crumb)]);
                p.look(0, g(f, 28, TAG));
                p.look(0, g(f, 29, TAG));
                p.check(0);
            }
            p.put_backyard(0, home.bucket, vec![]);
        }
    }
}
