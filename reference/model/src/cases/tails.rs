//! Stored calls on good and bad tails, right and wrong totals, change counts up to the top, and the
//! moves between the forms.

use super::{ask_row, full_front, g, member, occupancy, overflow};
use crate::prepare::Player;
use crate::shape::Shape;
use crate::stored::Line;

/// The slots of an image with B = 3.
pub(super) const SLOTS: u64 = 892;
/// Images with B = 3 of either form.
pub(super) const OLD: usize = 2176;
pub(super) const NEW: usize = 2240;

/// A whole image: front bucket 13 is full with five behind it, 14 has nine.
pub(super) fn stocked(p: &mut Player, x: usize) {
    p.fresh(x, 3);
    p.put_front(x, 13, full_front());
    p.put_front(x, 14, full_front()[..9].to_vec());
    p.put_backyard(x, 1, overflow(3, 5));
    p.put_backyard(x, 5, overflow(2, 9));
    p.put_changes(x, 50);
}

pub(super) fn tails(p: &mut Player) {
    stocked(p, 1);
    p.new_image(2, NEW);
    bad_tails(p);
    before_others(p);
    changes(p);
    spent(p);
    totals(p);
    bounds(p);
    every_slot(p);
    merges(p);
    full_merges(p);
    moves(p);
}

/// Calls that change nothing, on image 0.
fn reads(p: &mut Player) {
    p.look(0, g(13, 5, 1000));
    p.page(0, 13, 72);
    ask_row(p, 26, 5, 100, 1, 0);
    occupancy(p, 0, 1008);
    p.check(0);
    p.tail(0, 2);
}

/// A copy of image 1, with this total and change count.
fn copy_with(p: &mut Player, total: u64, changes: u64) {
    p.copy(1, 0);
    p.put_total(0, total);
    p.put_changes(0, changes);
}

/// Every call on image 0 with a bad tail of each kind; image 1 is whole.
fn bad_tails(p: &mut Player) {
    let bytes = [
        (16, 0),
        (16, 2),
        (16, 255),
        (17, 1),
        (24, 1),
        (62, 255),
        (63, 128),
    ];
    for (at, value) in bytes {
        p.copy(1, 0);
        p.put_tail_byte(0, at, value);
        refused_with_11(p);
    }
    // Two faults.
    p.put_tail_byte(0, 16, 0);
    p.check(0);
    for total in [SLOTS + 1, 1 << 32, 1 << 63, u64::MAX] {
        copy_with(p, total, 50);
        refused_with_11(p);
    }
    // Single bytes of the total, then of every eight of the rest.
    for shift in [16, 24, 40, 48, 56] {
        p.put_total(0, 1 << shift);
        p.check(0);
    }
    p.put_total(0, 42);
    for at in [18, 23, 31, 32, 39, 40, 47, 48, 55, 56] {
        p.put_tail_byte(0, at, 16);
        p.check(0);
        p.put_tail_byte(0, at, 0);
    }
    p.check(0);
    // Zero bytes, then a fresh image all the same.
    p.new_image(0, NEW);
    refused_with_11(p);
    p.play(Line::Fresh { x: 0 });
    p.tail(0, 2);
}

fn refused_with_11(p: &mut Player) {
    p.insert(0, g(14, 5, 50));
    p.delete(0, g(13, 5, 100));
    reads(p);
    p.merge(0, 1, 2);
    p.merge(1, 0, 2);
}

/// A bad tail where another number is due too.
fn before_others(p: &mut Player) {
    copy_with(p, 42, u64::MAX);
    p.put_tail_byte(0, 16, 2);
    p.insert(0, g(14, 5, 50));
    p.delete(0, g(14, 5, 100));
    p.put_changes(0, 50);
    p.delete(0, g(14, 5, 105));
    p.page(0, 25, 72);
    p.page(0, 13, 32);
    occupancy(p, 1, 1008);
    occupancy(p, 0, 1007);
    for length in [0, 1, 2, 4] {
        p.tail(0, length);
    }
    // Front buckets that descend: 10 comes first.
    ask_row(p, 28, 5, 100, -2, 0);
    for total in [0, SLOTS] {
        p.put_total(0, total);
        p.insert(0, g(14, 5, 50));
        p.delete(0, g(14, 5, 100));
        p.check(0);
    }
    p.put_backyard(0, 1, overflow(22, 5));
    p.put_backyard(0, 5, overflow(22, 9));
    p.insert(0, g(13, 5, 50));
    p.put_front(0, 13, full_front()[..27].to_vec());
    p.check(0);
    p.put_byte(0, 13, 0, 0);
    p.insert(0, g(13, 5, 50));
    p.delete(0, g(13, 5, 100));
    reads(p);
}

/// The last change counts, and every call at the top.
fn changes(p: &mut Player) {
    for changes in [u64::MAX - 2, u64::MAX - 1, u64::MAX] {
        copy_with(p, 42, changes);
        p.insert(0, g(14, 5, 50));
        p.delete(0, g(13, 5, 100));
        p.insert(0, g(13, 5, 100));
        reads(p);
    }
    copy_with(p, 42, u64::MAX);
    p.merge(0, 1, 2);
    p.tail(2, 2);
    p.merge(0, 0, 2);
    // The carry of the change count, and of the total.
    copy_with(p, 255, (1 << 56) - 1);
    p.insert(0, g(14, 5, 50));
    p.delete(0, g(14, 5, 50));
    p.tail(0, 2);
    p.play(Line::Fresh { x: 0 });
}

/// The top change count where another number is due too.
fn spent(p: &mut Player) {
    copy_with(p, SLOTS, u64::MAX);
    p.insert(0, g(14, 5, 50));
    p.delete(0, g(14, 5, 105));
    p.put_total(0, 0);
    p.delete(0, g(14, 5, 100));
    p.put_backyard(0, 1, overflow(22, 5));
    p.put_backyard(0, 5, overflow(22, 9));
    p.insert(0, g(13, 5, 50));
    for table in [24 + 1, 13] {
        p.put_byte(0, table, 63, 1);
        p.put_byte(0, table, 0, 0);
        p.insert(0, g(13, 5, 50));
        p.delete(0, g(13, 5, 100));
        p.delete(0, g(13, 5, 2000));
    }
}

/// Wrong totals: what changes an image goes on from them, what reads it does not mind.
fn totals(p: &mut Player) {
    for total in [0, 1, 41, 42, 43, SLOTS - 1, SLOTS] {
        copy_with(p, total, 50);
        reads(p);
        p.insert(0, g(14, 5, 50));
        p.insert(0, g(13, 5, 50));
        p.insert(0, g(13, 5, 2000));
        copy_with(p, total, 50);
        p.delete(0, g(14, 5, 100));
        p.delete(0, g(13, 5, 100));
        p.delete(0, g(13, 5, 1002));
        p.delete(0, g(14, 5, 105));
        p.tail(0, 4);
    }
}

/// A total at its bound where another number is due too.
fn bounds(p: &mut Player) {
    copy_with(p, 0, 50);
    // A delete that takes the last member of the total, then one that would go below.
    p.insert(0, g(14, 5, 50));
    p.delete(0, g(14, 5, 50));
    p.delete(0, g(13, 5, 1000));
    p.delete(0, g(13, 5, 1001));
    p.delete(0, g(13, 5, 2000));
    p.put_backyard(0, 1, overflow(22, 5));
    p.put_backyard(0, 5, overflow(22, 9));
    p.put_total(0, SLOTS);
    p.insert(0, g(13, 5, 50));
    p.insert(0, g(12, 5, 50));
    for table in [24 + 5, 24 + 1, 13] {
        p.put_byte(0, table, 63, 1);
        p.put_byte(0, table, 0, 0);
        p.put_total(0, SLOTS);
        p.insert(0, g(13, 5, 50));
        p.put_total(0, 0);
        p.delete(0, g(13, 5, 100));
        p.delete(0, g(13, 5, 2000));
    }
    // An early member: 8 with the right total and a wrong one.
    p.copy(1, 0);
    p.put_front(0, 13, full_front()[..27].to_vec());
    for total in [41, 0, SLOTS] {
        p.put_total(0, total);
        p.check(0);
    }
}

/// B = 1 with a member in every slot, all alike: the total is that of the slots. With B = 1 each
/// backyard bucket j takes Second(j).
fn every_slot(p: &mut Player) {
    p.fresh(0, 1);
    for f in 0..8 {
        p.put_front(0, f, vec![member(0, 0, 0); 28]);
        p.put_backyard(0, f, vec![member(0, 0, 8); 22]);
    }
    p.check(0);
    p.tail(0, 2);
    for f in [0, 3] {
        p.insert(0, g(f, 0, 0));
        p.delete(0, g(f, 0, 0));
        p.insert(0, g(f, 7, 7));
        p.insert(0, g(f, 7, 7));
        p.look(0, g(f, 7, 7));
        p.page(0, f, 50);
    }
    p.check(0);
    p.fresh(1, 1);
    p.new_image(2, 1088);
    p.merge(0, 1, 2);
    p.merge(1, 0, 2);
    p.tail(2, 2);
    p.insert(1, g(3, 7, 7));
    p.merge(0, 1, 2);
    p.tail(2, 2);
    p.new_image(1, 1024);
    p.detach(0, 1);
    p.attach(1, 2);
    p.tail(2, 2);
}

/// What is wrong with an image.
enum Fault {
    BadTail,
    Unsound,
    Early,
    WrongTotal,
}

use Fault::{BadTail, Early, Unsound, WrongTotal};

/// Brings these faults of a stocked image about, or takes them away again.
fn faults(p: &mut Player, x: usize, faults: &[Fault], there: bool) {
    for fault in faults {
        match fault {
            BadTail => p.put_tail_byte(x, 16, !there as u8),
            Unsound => p.put_byte(x, 20, 0, if there { 0 } else { 255 }),
            Early => p.put_backyard(x, 6, vec![member(5, 1, 9); there as usize]),
            WrongTotal if there => p.put_total(x, 50),
            WrongTotal => {}
        }
    }
    if !there && p.images.image[x].len() == NEW {
        p.put_total(x, 42);
    }
}

/// The order of the numbers in two sources.
fn merges(p: &mut Player) {
    stocked(p, 0);
    p.copy(0, 1);
    p.new_image(2, NEW);
    let cases: &[(&[Fault], &[Fault])] = &[
        (&[BadTail], &[]),
        (&[BadTail, Unsound], &[]),
        (&[BadTail], &[BadTail]),
        (&[], &[BadTail]),
        (&[], &[BadTail, Unsound]),
        (&[Unsound], &[BadTail]),
        (&[Early], &[BadTail]),
        (&[WrongTotal], &[BadTail]),
        (&[Unsound, WrongTotal], &[]),
        (&[Early, WrongTotal], &[]),
        (&[Early], &[Unsound]),
        (&[Early], &[WrongTotal]),
        (&[WrongTotal], &[]),
        (&[WrongTotal], &[Unsound]),
        (&[WrongTotal], &[Early]),
        (&[WrongTotal], &[WrongTotal]),
        (&[], &[Unsound, WrongTotal]),
        (&[], &[Early]),
        (&[], &[Early, WrongTotal]),
        (&[], &[WrongTotal]),
        (&[], &[]),
    ];
    for (first, second) in cases {
        faults(p, 0, first, true);
        faults(p, 1, second, true);
        p.merge(0, 1, 2);
        faults(p, 0, first, false);
        faults(p, 1, second, false);
    }
    p.tail(2, 2);
    p.check(2);
    p.merge(2, 0, 1);
    p.tail(1, 2);
    // 2 comes before either tail, 1 before 2.
    p.put_tail_byte(0, 16, 0);
    for length in [1664, 1663] {
        p.new_image(2, length);
        for (x, y, z) in [(0, 1, 2), (1, 0, 2), (1, 2, 0), (2, 1, 0)] {
            p.merge(x, y, z);
        }
    }
}

/// Merges that are full, or would be: the target keeps its bytes, or is fresh with a fresh tail.
fn full_merges(p: &mut Player) {
    stocked(p, 0);
    p.put_backyard(0, 1, overflow(22, 5));
    p.put_backyard(0, 5, overflow(22, 9));
    p.copy(0, 1);
    p.copy(0, 2);
    p.put_tail_byte(1, 63, 1);
    p.merge(0, 1, 2);
    p.merge(1, 0, 2);
    p.put_tail_byte(1, 63, 0);
    p.put_total(1, 80);
    p.merge(0, 1, 2);
    p.merge(1, 0, 2);
    p.put_total(1, 81);
    p.put_changes(0, u64::MAX);
    p.merge(0, 1, 2);
    p.tail(2, 2);
    p.check(2);
    p.copy(0, 2);
    p.merge(1, 1, 2);
    p.tail(2, 2);
}

/// Both moves, of whole images and of others, into targets of right and wrong lengths.
fn moves(p: &mut Player) {
    for n in [0, 1, 28, 29, 40] {
        p.fresh(0, 3);
        for tag in 0..n {
            p.insert(0, g(13, 5, tag));
        }
        there_and_back(p);
    }
    stocked(p, 0);
    there_and_back(p);
    moves_to_new(p);
    moves_to_old(p);
    wrong_sources(p);
}

/// Image 0 moves to the old form, that to the new one, and so on; calls go on with the last.
fn there_and_back(p: &mut Player) {
    target(p, 1, OLD);
    p.detach(0, 1);
    target(p, 2, NEW);
    p.attach(1, 2);
    p.tail(2, 2);
    p.check(2);
    target(p, 0, OLD);
    p.detach(2, 0);
    target(p, 2, NEW);
    p.attach(0, 2);
    p.insert(2, g(13, 5, 2000));
    p.delete(2, g(13, 5, 2000));
    p.detach(2, 1);
}

/// A target that holds something before the call.
fn target(p: &mut Player, x: usize, length: usize) {
    p.new_image(x, length);
    for at in [1000, 2168, 2192] {
        if at + 8 <= length {
            let word = 0x0706050403020100;
            p.play(Line::Poke { x, at, word });
        }
    }
}

/// Moves of old image 1 into image 2.
fn moves_to_new(p: &mut Player) {
    let cases: [&[Fault]; 4] = [&[], &[Unsound], &[Early], &[Early, Unsound]];
    for case in cases {
        faults(p, 1, case, true);
        for length in [NEW, 2816, 1664, OLD, 0, 2239, 2241] {
            target(p, 2, length);
            p.attach(1, 2);
        }
        faults(p, 1, case, false);
    }
}

/// Moves of image 0 into old image 2.
fn moves_to_old(p: &mut Player) {
    stocked(p, 0);
    let cases: [&[Fault]; 10] = [
        &[],
        &[BadTail],
        &[Unsound],
        &[Early],
        &[WrongTotal],
        &[BadTail, Unsound],
        &[BadTail, Early],
        &[BadTail, WrongTotal],
        &[Unsound, WrongTotal],
        &[Early, WrongTotal],
    ];
    for case in cases {
        faults(p, 0, case, true);
        target(p, 2, OLD);
        p.detach(0, 2);
        for length in [2752, 1600, NEW, 0, 2175] {
            p.new_image(2, length);
            p.detach(0, 2);
        }
        faults(p, 0, case, false);
    }
    target(p, 2, OLD);
    for changes in [u64::MAX, 0] {
        p.put_changes(0, changes);
        p.detach(0, 2);
    }
    for total in [0, SLOTS, SLOTS + 1] {
        p.put_total(0, total);
        p.detach(0, 2);
    }
}

/// Sources that have the other form, or none.
fn wrong_sources(p: &mut Player) {
    stocked(p, 0);
    for length in [OLD, NEW, 0] {
        target(p, 2, length);
        p.attach(0, 2);
        p.detach(1, 2);
    }
    for wrong in [0, 64, 448, 512, 2175, 2177, 2239, 2241] {
        p.new_image(1, wrong);
        for length in [OLD, NEW] {
            p.new_image(2, length);
            p.attach(1, 2);
            p.detach(1, 2);
        }
        // Neither has a length of its form.
        p.attach(1, 0);
        p.detach(1, 0);
    }
    // The shortest, and one that is longer.
    for b in [1, 2] {
        p.fresh(0, b);
        p.new_image(1, Shape { b }.old_length());
        p.detach(0, 1);
        p.play(Line::Fresh { x: 0 });
        p.attach(1, 0);
    }
}
