//! Stored calls on walks: the number 14 beside the others, change counts of every size, and what may
//! come between the pages of a walk.

use super::tails::{stocked, NEW, OLD, SLOTS};
use super::{ask_row, full_front, g, occupancy, overflow};
use crate::prepare::Player;
use crate::stored::Line;

/// The front buckets of an image with B = 3.
const FRONTS: u64 = 24;
/// The change count of a stocked image.
const STOCKED: u64 = 50;
/// An output that a walk of image 0 takes three pages with: 13 is on the first, 14 on the second, 20
/// on the third, also with one member more.
const THIRD: usize = 34;

pub(super) fn walks(p: &mut Player) {
    stocked(p, 1);
    p.put_front(1, 20, full_front());
    order(p);
    counts(p);
    undisturbed(p);
    refused_changes(p);
    unsound(p);
    disturbed(p);
    at_the_top(p);
    by_turns(p);
    each_in_its_time(p);
    started_anew(p);
    kept_as_target(p);
}

/// A copy of image 1 as image 0.
fn again(p: &mut Player) {
    p.copy(1, 0);
}

/// A walk of image 0 from its first front bucket on; what comes between follows each page. A refusal
/// ends it.
fn walk(p: &mut Player, between: impl Fn(&mut Player)) {
    walk_by(p, THIRD, between);
}

/// The same, in pages of so many entries.
fn walk_by(p: &mut Player, length: usize, between: impl Fn(&mut Player)) {
    let changes = p.changes(0);
    let mut next = 0;
    while next < FRONTS {
        let answer = p.page_with(0, next, changes, length);
        if answer >> 56 != 0 {
            return;
        }
        next = answer >> 32;
        between(p);
    }
}

/// Pages of image 0, each by its start and length, with each of these counts.
fn pages_with(p: &mut Player, counts: &[u64], pages: &[(u64, usize)]) {
    for &changes in counts {
        for &(start, length) in pages {
            p.page_with(0, start, changes, length);
        }
    }
}

/// 1, 11, 14, then 6, 3 and 7: each with the right count, and with others.
fn order(p: &mut Player) {
    let counts = [STOCKED, STOCKED - 1, STOCKED + 1, 0, u64::MAX];
    again(p);
    // Accepted three times, then 7, then 6.
    let pages = [
        (0, 33),
        (13, 72),
        (24, 0),
        (13, 32),
        (25, 72),
        (u64::MAX, 0),
    ];
    pages_with(p, &counts, &pages);
    // 3, where 13 is read.
    for table in [24 + 5, 24 + 1, 13] {
        p.put(0, table, [0; 64]);
        pages_with(p, &counts, &[(13, 72), (13, 0), (25, 0)]);
    }
    refused_before(p);
    // A wrong total does not matter to the count.
    for total in [0, SLOTS] {
        again(p);
        p.put_total(0, total);
        pages_with(p, &counts, &[(0, THIRD)]);
    }
}

/// Bad tails, and wrong lengths, an old image's among them: refused before the count is looked at.
fn refused_before(p: &mut Player) {
    let counts = [STOCKED, STOCKED + 1];
    let pages = [(13, 72), (13, 32), (24, 0), (25, 0)];
    for (at, value) in [(16, 0), (16, 2), (63, 1)] {
        again(p);
        p.put_tail_byte(0, at, value);
        pages_with(p, &counts, &pages);
    }
    again(p);
    p.put_total(0, SLOTS + 1);
    pages_with(p, &counts, &pages);
    for length in [0, 64, OLD, NEW - 1, NEW + 1] {
        p.new_image(0, length);
        pages_with(p, &[0, STOCKED], &pages);
    }
}

/// Counts at both ends and at the ends of a half, each beside its neighbours, and every byte of a
/// count alone.
fn counts(p: &mut Player) {
    let half = 1 << 32;
    for told in [
        0,
        1,
        half - 1,
        half,
        half + 1,
        1 << 63,
        u64::MAX - 1,
        u64::MAX,
    ] {
        again(p);
        p.put_changes(0, told);
        let (less, more) = (told.wrapping_sub(1), told.wrapping_add(1));
        for brought in [told, less, more, 0, u64::MAX, told ^ half, told ^ 1 << 63] {
            p.page_with(0, 0, brought, THIRD);
        }
    }
    for byte in 0..8 {
        let other = STOCKED ^ 1 << (8 * byte);
        for (told, brought) in [(STOCKED, other), (other, STOCKED), (other, other)] {
            again(p);
            p.put_changes(0, told);
            p.page_with(0, 13, brought, 72);
        }
    }
}

/// Calls that change nothing between the pages of a walk.
fn undisturbed(p: &mut Player) {
    again(p);
    p.new_image(2, NEW);
    let changes = p.changes(0);
    walk(p, |_| {});
    walk(p, |p| {
        p.look(0, g(13, 5, 1000));
        p.look(0, g(14, 5, 105));
    });
    walk(p, |p| {
        ask_row(p, 26, 5, 100, 1, 0);
        occupancy(p, 0, 1008);
        occupancy(p, 1, 1008);
        p.tail(0, 2);
        p.check(0);
    });
    // Other pages, accepted and refused, and those that bring another count.
    walk(p, |p| {
        p.page_with(0, 13, changes, 72);
        p.page_with(0, 13, changes, 32);
        p.page_with(0, 25, changes, 0);
        p.page_with(0, 13, changes - 1, 72);
        p.page_with(0, 0, changes + 1, THIRD);
    });
    // The image as a source.
    walk(p, |p| {
        p.merge(0, 1, 2);
        p.merge(1, 0, 2);
    });
    p.new_image(2, OLD);
    walk(p, |p| {
        p.detach(0, 2);
    });
}

/// Inserts and deletes that are refused between the pages of a walk.
fn refused_changes(p: &mut Player) {
    again(p);
    walk(p, |p| {
        p.delete(0, g(14, 5, 105));
        p.delete(0, g(13, 5, 2000));
        p.delete(0, g(3, 5, 100));
    });
    // A total at its bound.
    p.put_total(0, SLOTS);
    walk(p, |p| {
        p.insert(0, g(14, 5, 50));
    });
    p.put_total(0, 0);
    walk(p, |p| {
        p.delete(0, g(14, 5, 100));
    });
    // No room behind 13.
    again(p);
    p.put_backyard(0, 1, overflow(22, 5));
    p.put_backyard(0, 5, overflow(22, 9));
    walk_by(p, 72, |p| {
        p.insert(0, g(13, 5, 50));
        p.insert(0, g(13, 5, 2000));
    });
}

/// With front bucket 5 unsound, pages from 6 on: inserts and deletes that read it are refused, and
/// do not disturb them.
fn unsound(p: &mut Player) {
    again(p);
    p.put(0, 5, [0; 64]);
    p.tail(0, 2);
    let changes = p.changes(0);
    for start in [6, 14, 20, 0] {
        p.page_with(0, start, changes, THIRD);
        p.insert(0, g(5, 5, 100));
        p.delete(0, g(5, 5, 100));
    }
}

/// One change after the first page, in a front bucket that is listed, in the next and in one to
/// come: 14 at the second. Then a walk that begins with the new count.
fn disturbed(p: &mut Player) {
    for f in [0, 13, 14, 20, 23] {
        again(p);
        walk(p, |p| {
            p.insert(0, g(f, 5, 50));
        });
        walk(p, |_| {});
        walk(p, |p| {
            p.delete(0, g(f, 5, 50));
        });
        walk(p, |_| {});
    }
    // A change undone: all but the count is as before.
    again(p);
    let before = p.changes(0);
    walk(p, |p| {
        p.insert(0, g(14, 5, 50));
        p.delete(0, g(14, 5, 50));
    });
    walk(p, |p| {
        p.delete(0, g(13, 5, 100));
        p.insert(0, g(13, 5, 100));
    });
    for changes in before..before + 6 {
        p.page_with(0, 0, changes, THIRD);
    }
    // Refused again and again, from anywhere, until it begins anew.
    for start in [0, 14, 24, 25] {
        p.page_with(0, start, before, THIRD);
    }
    walk(p, |_| {});
}

/// A walk that begins one below the top, an insert, and a walk at the top, which no change disturbs.
fn at_the_top(p: &mut Player) {
    again(p);
    p.put_changes(0, u64::MAX - 1);
    walk(p, |p| {
        p.insert(0, g(14, 5, 50));
    });
    walk(p, |p| {
        p.insert(0, g(14, 5, 50));
        p.delete(0, g(14, 5, 50));
        p.page_with(0, 0, 0, THIRD);
        p.page_with(0, 0, u64::MAX - 1, THIRD);
    });
}

/// Two walks of one image by turns, with one count, then with a change between their beginnings;
/// then walks of two images.
fn by_turns(p: &mut Player) {
    again(p);
    let first = p.changes(0);
    // The one with longer pages goes from 0 to 20.
    let longer = 45;
    for (start, length) in [
        (0, THIRD),
        (0, longer),
        (14, THIRD),
        (20, longer),
        (20, THIRD),
    ] {
        p.page_with(0, start, first, length);
    }
    p.page_with(0, 0, first, THIRD);
    p.insert(0, g(14, 5, 50));
    let second = p.changes(0);
    for start in [0, 14, 20] {
        p.page_with(0, start, second, THIRD);
        p.page_with(0, start, first, THIRD);
    }
    for start in [0, 14, 20] {
        p.page(0, start, THIRD);
        p.page(1, start, THIRD);
    }
    // A change of the one image does not disturb the walk of the other.
    let other = p.changes(1);
    for start in [0, 14, 20] {
        p.page_with(1, start, other, THIRD);
        p.insert(0, g(start, 5, 60));
    }
}

/// Pages that bring different counts, each right in its time: all are accepted, and make no walk.
fn each_in_its_time(p: &mut Player) {
    again(p);
    p.page(0, 0, THIRD);
    p.insert(0, g(3, 5, 100));
    p.page(0, 14, THIRD);
    p.delete(0, g(20, 5, 100));
    p.page(0, 20, THIRD);
    p.page(0, 0, THIRD);
}

/// Calls that start the count of image 0 anew after a page: its old count is refused, until as many
/// changes were made again. The pages then make no walk.
fn started_anew(p: &mut Player) {
    let change = |p: &mut Player| {
        for tag in 0..2 {
            p.insert(0, g(22, 5, tag));
        }
    };
    for anew in [fresh, merged, full, moved] {
        p.fresh(0, 3);
        change(p);
        p.page_with(0, 0, 2, 0);
        anew(p);
        for changes in [2, 0] {
            p.page_with(0, 22, changes, 72);
        }
        change(p);
        p.page_with(0, 22, 2, 72);
    }
    // A move to the old form leaves no image.
    p.new_image(0, OLD);
    p.detach(1, 0);
    p.page_with(0, 0, 0, THIRD);
}

fn fresh(p: &mut Player) {
    p.play(Line::Fresh { x: 0 });
}

/// Image 0 as the target of a merge.
fn merged(p: &mut Player) {
    p.fresh(2, 3);
    p.merge(1, 2, 0);
}

/// The same, and the merge is full: image 0 is left fresh.
fn full(p: &mut Player) {
    p.copy(1, 2);
    p.put_backyard(2, 1, overflow(22, 5));
    p.merge(2, 2, 0);
}

/// Image 0 as the target of a move.
fn moved(p: &mut Player) {
    p.new_image(2, OLD);
    p.detach(1, 2);
    p.attach(2, 0);
}

/// Merges and moves into image 0 that are refused between the pages of a walk.
fn kept_as_target(p: &mut Player) {
    again(p);
    p.fresh(2, 2);
    walk(p, |p| {
        p.merge(1, 2, 0);
        p.merge(2, 2, 0);
        p.attach(2, 0);
        p.attach(1, 0);
        p.detach(1, 0);
    });
    p.copy(1, 2);
    p.put_total(2, 0);
    walk(p, |p| {
        p.merge(1, 2, 0);
    });
    p.new_image(2, OLD);
    walk(p, |p| {
        p.attach(2, 0);
    });
}
