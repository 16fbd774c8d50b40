//! The calls that are stored for the program `trial`: document 01's cases one by one, then
//! short random histories, then rows of three asks, then occupancy pages, then asks where copies
//! stand, then tails and moves, then walks, then the sixteen crumbs, then front buckets whose two
//! backyard buckets coincide. Always the same lines.

mod coinciding;
mod tails;
mod walks;

use crate::bucket::{encode_backyard, encode_front, Member};
use crate::fingerprint::Fingerprint;
use crate::histories::{self, KINDS};
use crate::prepare::{hash_of, Player};
use crate::random::Random;
use crate::shape::Shape;
use crate::stored::{Images, Line, Step};
use std::collections::BTreeSet;

/// No image that is stored is longer; B is at most 21.
pub const LONGEST_IMAGE: usize = 12864;
/// No output of a page that is stored has more entries, of an occupancy page more bytes, of a tail
/// more entries.
pub const LONGEST_OUTPUT: usize = 512;
pub const LONGEST_OCCUPANCY: usize = 1040;
pub const LONGEST_TAIL: usize = 4;

fn g(front: u64, mini: u64, tag: u64) -> Fingerprint {
    Fingerprint { front, mini, tag }
}

fn member(mini: u64, tag: u64, crumb: u64) -> Member {
    Member { mini, tag, crumb }
}

/// 28 front members, tags 100, 110, .. 370 in mini-bucket 5.
fn full_front() -> Vec<Member> {
    (0..28).map(|i| member(5, 100 + 10 * i, 0)).collect()
}

/// So many backyard members with one crumb, tags from 1,000 up in mini-bucket 5.
fn overflow(how_many: u64, crumb: u64) -> Vec<Member> {
    let one = |i| member(5, 1000 + i, crumb);
    (0..how_many).map(one).collect()
}

fn both(mut some: Vec<Member>, more: Vec<Member>) -> Vec<Member> {
    some.extend(more);
    some
}

/// An image of zero bytes, but for the layout of its tail.
fn zeros(p: &mut Player, x: usize, b: u64) {
    p.new_image(x, Shape { b }.length());
    p.put_tail_byte(x, 16, 1);
}

/// The examples in the table of numbers.
fn numbers(p: &mut Player) {
    p.new_image(0, 1087);
    p.play(Line::Fresh { x: 0 });
    zeros(p, 0, 1);
    zeros(p, 1, 2);
    zeros(p, 2, 1);
    p.merge(0, 1, 2);
    p.merge(0, 2, 1);
    for hash in [0, u64::MAX, 0x8000000040000007] {
        p.play(Line::Ask { x: 0, hash });
        p.play(Line::Count { x: 0, hash });
        p.play(Line::Insert { x: 0, hash });
        p.play(Line::Delete { x: 0, hash });
    }
    p.check(0);
    p.page(0, 0, 4);
    p.page(0, 8, 4);
    p.page(0, 9, 4);
    p.play(Line::Fresh { x: 0 });
    for hash in [0, u64::MAX, 0x123456789ABCDEF0] {
        p.play(Line::Delete { x: 0, hash });
    }
    p.page(0, 9, 0);
    p.page(0, 8, 0);
    p.insert(0, g(2, 3, 4));
    p.page(0, 2, 0);
    p.page(0, 1, 0);
    p.page(0, 0, 1);
    // Backyard bucket 0 of a fresh image with B = 1 gets one member, crumb 1.
    p.play(Line::Fresh { x: 0 });
    p.put_backyard(0, 0, vec![member(0, 0, 1)]);
    p.check(0);
    zeros(p, 1, 1);
    zeros(p, 2, 1);
    p.merge(0, 1, 2);
}

/// Wrong lengths for every call.
fn lengths(p: &mut Player) {
    p.fresh(0, 1);
    p.fresh(2, 1);
    // 448, 1,024 and 11,968 are 64 short of a good length, the last two old images.
    for length in [
        0, 1, 448, 511, 512, 513, 640, 1024, 1087, 1089, 1663, 1665, 11968, 12031,
    ] {
        p.new_image(1, length);
        p.play(Line::Fresh { x: 1 });
        p.check(1);
        for hash in [0, u64::MAX] {
            p.play(Line::Insert { x: 1, hash });
            p.play(Line::Delete { x: 1, hash });
            p.play(Line::Ask { x: 1, hash });
            p.play(Line::Count { x: 1, hash });
        }
        p.page(1, 0, 3);
        p.page(1, 99, 3);
        p.tail(1, 2);
        for (x, y, z) in [(0, 0, 1), (0, 1, 2), (1, 0, 2), (1, 1, 2)] {
            p.merge(x, y, z);
        }
    }
    // 1 before 2: the target's length is wrong, the sources differ.
    zeros(p, 1, 2);
    p.new_image(2, 1663);
    p.merge(0, 1, 2);
    p.merge(1, 0, 2);
    // 2 before 3: the differing source is unsound.
    zeros(p, 2, 2);
    p.merge(0, 1, 2);
    p.merge(1, 2, 0);
    p.merge(1, 0, 2);
}

/// The numbers of front and backyard buckets at both ends, and copies up to full.
fn capacity(p: &mut Player) {
    p.fresh(0, 3);
    for n in 1..=73 {
        p.insert(0, g(13, 7, 777));
        if [27, 28, 29, 30, 71, 72, 73].contains(&n) {
            p.look(0, g(13, 7, 777));
            p.look(0, g(13, 7, 776));
            p.look(0, g(13, 7, 778));
            p.check(0);
            for length in [n - 1, n, n + 1] {
                p.page(0, 13, length);
            }
        }
    }
    p.insert(0, g(13, 0, 0));
    p.insert(0, g(13, 35, 65535));
    for _ in 0..73 {
        p.delete(0, g(13, 7, 777));
    }
    p.check(0);
    // b0 = b1 = 1.
    for n in 1..=51 {
        p.insert(0, g(9, n % 36, n));
        if n > 27 && n % 4 == 0 || n > 48 {
            p.look(0, g(9, n % 36, n));
            p.check(0);
        }
    }
    p.page(0, 9, 49);
    p.page(0, 9, 50);
    for n in (1..=51).rev() {
        p.delete(0, g(9, n % 36, n));
    }
    for hash in [0, u64::MAX, 0x8000000040000007] {
        p.play(Line::Insert { x: 0, hash });
        p.play(Line::Ask { x: 0, hash });
    }
    p.page(0, 0, 10);
}

/// The marked places of larger images, each filled until it is full.
fn larger(p: &mut Player) {
    for (b, f) in [(8, 63), (20, 159), (20, 100), (2, 15), (1, 0), (1, 7)] {
        p.fresh(0, b);
        let shape = Shape { b };
        // The two backyard buckets start uneven.
        let home = match shape.coincides(f) {
            true => shape.second_home(f),
            false => shape.first_home(f),
        };
        p.put_front(0, f, full_front());
        p.put_backyard(0, home.bucket, overflow(20, home.crumb));
        p.check(0);
        for n in 0..27 {
            if p.insert(0, g(f, 5, 90 + 12 * n)) >> 56 == 4 {
                break;
            }
        }
        p.check(0);
        p.page(0, f, 71);
        p.page(0, f, 72);
        p.page(0, f, 73);
        p.look(0, g(f, 5, 1000));
        p.look(0, g(f, 5, 2000));
        p.look(0, g(f, 5, 90));
    }
}

/// Every rule of an insert into a full front bucket.
fn inserts(p: &mut Player) {
    let f = 13;
    p.fresh(1, 3);
    p.put_front(1, f, full_front());
    for (n0, n1) in [(0, 0), (3, 4), (4, 3), (5, 22), (22, 5), (21, 21), (22, 22)] {
        p.put_backyard(1, 1, overflow(n0, 5));
        p.put_backyard(1, 5, overflow(n1, 9));
        for new in [50, 250, 370, 371, 65535] {
            p.copy(1, 0);
            p.insert(0, g(f, 5, new));
        }
        p.check(0);
    }
    // Other members of the same backyard buckets count too.
    p.put_backyard(0, 1, overflow(6, 4));
    p.put_backyard(0, 5, overflow(5, 9));
    p.insert(0, g(f, 5, 380));
    p.insert(0, g(f, 5, 390));
    // A front bucket below 28 takes the new one, whatever stands behind.
    p.put_front(0, f, full_front()[..27].to_vec());
    p.insert(0, g(f, 30, 1));
    p.insert(0, g(f, 30, 2));
    // An unsound bucket behind matters only where it is read; b0 is read first.
    p.put_front(0, f, full_front()[..26].to_vec());
    p.put_byte(0, 24 + 5, 63, 1);
    p.insert(0, g(f, 1, 1));
    p.insert(0, g(f, 1, 2));
    p.insert(0, g(f, 1, 3));
    p.put_byte(0, 24 + 1, 63, 1);
    p.insert(0, g(f, 1, 3));
    p.put_byte(0, f, 63, 0xFF);
    p.put_byte(0, f, 0, 0xFF);
    p.insert(0, g(f, 1, 3));
}

/// Every rule of a delete from a full front bucket.
fn deletes(p: &mut Player) {
    let f = 13;
    let value = |tag, crumb| member(5, tag, crumb);
    // n0 and n1 are brought about by members of other front buckets (12 in b0, 9 .. in b1).
    let others = |n, crumb| overflow(n, crumb);
    p.fresh(2, 3);
    p.put_front(2, f, full_front());
    let b0_cases = [vec![], vec![400], vec![400, 410], vec![410]];
    for tags0 in &b0_cases {
        for tags1 in &b0_cases {
            for (n0, n1) in [(4, 4), (5, 3), (3, 5)] {
                if n0 != n1 && (tags0.is_empty() || tags1.is_empty()) {
                    continue;
                }
                let bag0: Vec<Member> = tags0.iter().map(|&t| value(t, 5)).collect();
                let bag1: Vec<Member> = tags1.iter().map(|&t| value(t, 9)).collect();
                p.copy(2, 0);
                let (more0, more1) = (n0 - bag0.len() as u64, n1 - bag1.len() as u64);
                p.put_backyard(0, 1, both(bag0, others(more0, 4)));
                p.put_backyard(0, 5, both(bag1, others(more1, 8)));
                p.copy(0, 1);
                p.delete(0, g(f, 5, 200));
                p.delete(1, g(f, 5, 400));
                p.delete(1, g(f, 5, 400));
                p.delete(1, g(f, 5, 405));
                p.delete(1, g(f, 5, 1000));
                p.delete(1, g(f, 5, 205));
            }
        }
    }
    // b0 = b1.
    p.fresh(0, 3);
    p.put_front(0, 9, full_front());
    p.put_backyard(0, 1, vec![value(400, 9), value(400, 9), value(410, 9)]);
    p.check(0);
    for tag in [400, 370, 410, 410, 100] {
        p.look(0, g(9, 5, tag));
        p.delete(0, g(9, 5, tag));
    }
    // Copies in front and behind: the front copy goes, a copy behind refills.
    p.fresh(0, 3);
    p.put_front(0, f, vec![member(5, 400, 0); 28]);
    p.put_backyard(0, 1, vec![value(400, 2), value(400, 5), value(400, 7)]);
    p.put_backyard(0, 5, vec![value(400, 9)]);
    for _ in 0..4 {
        p.look(0, g(f, 5, 400));
        p.delete(0, g(f, 5, 400));
    }
    // Another front bucket's equal is not taken.
    p.fresh(0, 3);
    p.put_front(0, f, full_front());
    p.put_backyard(0, 1, vec![value(400, 2), value(400, 5), value(400, 6)]);
    p.delete(0, g(f, 5, 400));
    p.delete(0, g(f, 5, 400));
    p.look(0, g(f, 5, 400));
    // Before its turn: a refill smaller than the front's largest, copies out of reach.
    p.put_backyard(0, 1, vec![value(50, 5), value(205, 5), value(400, 5)]);
    p.check(0);
    p.look(0, g(f, 5, 205));
    p.delete(0, g(f, 5, 205));
    p.delete(0, g(f, 5, 300));
    p.delete(0, g(f, 5, 300));
    p.delete(0, g(f, 5, 310));
    p.put_front(0, f, full_front()[..20].to_vec());
    p.put_backyard(0, 1, vec![value(400, 5)]);
    p.look(0, g(f, 5, 400));
    p.delete(0, g(f, 5, 400));
    p.delete(0, g(f, 5, 110));
    p.page(0, f, 20);
    // Unsound behind.
    for (table, front) in [(24 + 1, 28), (24 + 5, 28), (24 + 1, 20), (13, 28)] {
        p.fresh(0, 3);
        p.put_front(0, f, full_front()[..front].to_vec());
        p.put_byte(0, table, 63, 1);
        p.delete(0, g(f, 5, 150));
        p.delete(0, g(f, 5, 155));
        p.delete(0, g(f, 5, 1000));
    }
}

/// The five endings of an ask, and count beside it.
fn asks(p: &mut Player) {
    let f = 13;
    p.fresh(0, 3);
    p.put_front(0, f, full_front());
    p.put_backyard(
        0,
        1,
        vec![member(5, 400, 4), member(5, 400, 5), member(5, 400, 5)],
    );
    p.put_backyard(
        0,
        5,
        vec![member(5, 370, 9), member(5, 400, 9), member(6, 0, 9)],
    );
    p.check(0);
    for tag in [99, 100, 105, 230, 370, 371, 400, 401] {
        p.look(0, g(f, 5, tag));
    }
    p.look(0, g(f, 6, 0));
    p.look(0, g(f, 4, 230));
    p.look(0, g(f, 0, 0));
    p.look(0, g(f, 35, 65535));
    p.look(0, g(12, 5, 400));
    for table in [24 + 5, 24 + 1, 13] {
        p.put_byte(0, table, 8, 0xEE);
        p.put_byte(0, table, 63, 0x80);
        for tag in [100, 105, 370, 400, 401] {
            p.look(0, g(f, 5, tag));
        }
    }
}

fn pages(p: &mut Player) {
    p.fresh(0, 3);
    for (f, n) in [(0, 2), (3, 28), (4, 1), (22, 3)] {
        p.put_front(0, f, full_front()[..n].to_vec());
    }
    p.put_front(0, 13, full_front());
    p.put_front(0, 14, full_front());
    // Front, First and Second are listed together in order.
    p.put_backyard(
        0,
        1,
        both(overflow(3, 5), vec![member(4, 0, 5), member(6, 9, 6)]),
    );
    p.put_backyard(0, 5, vec![member(5, 1001, 9), member(7, 0, 9)]);
    p.put_backyard(0, 6, vec![member(5, 1001, 9)]);
    for start in [0, 1, 3, 4, 5, 12, 13, 14, 15, 22, 23, 24, 25] {
        for length in [0, 1, 2, 28, 31, 34, 64, 200] {
            p.page(0, start, length);
        }
    }
    p.page(0, u64::MAX, 5);
    p.page(0, 1 << 32, 5);
    p.copy(0, 1);
    // An unsound b1 of front bucket 13, then also front bucket 14: 29 comes first.
    p.put_byte(0, 29, 63, 4);
    for table in [0, 14, 25, 5, 3] {
        if table > 0 {
            p.put_byte(0, table, 7, 0xF0);
        }
        for (start, length) in [(0, 30), (0, 31), (0, 2), (5, 10), (5, 0), (13, 5), (13, 99)] {
            p.page(0, start, length);
        }
        for (start, length) in [(14, 99), (3, 2), (3, 28), (4, 1), (24, 0), (25, 0)] {
            p.page(0, start, length);
        }
    }
}

/// Every way in which a bucket is unsound, seen by a check and by an ask.
fn unsound_buckets(p: &mut Player) {
    let f = 13;
    p.fresh(1, 3);
    p.put_front(1, f, full_front());
    p.put_front(1, 14, full_front()[..9].to_vec());
    let equals = vec![member(5, 400, 4), member(5, 400, 5), member(5, 401, 5)];
    p.put_front(1, 12, full_front());
    p.put_backyard(1, 1, equals);
    p.check(1);
    let edits: &[(u64, usize, u8)] = &[
        (14, 8, 0xFF),  // tags descend
        (14, 26, 1),    // the first unused tag
        (14, 63, 1),    // the last unused tag
        (14, 4, 0x3F),  // too many ones
        (14, 4, 0x0F),  // too few ones
        (14, 7, 0x80),  // a one too high
        (13, 0, 0xFF),  // more ones in a full bucket
        (25, 8, 0xFF),  // tags descend
        (25, 52, 0x45), // crumbs descend
        (25, 52, 0x5C), // another choice, past B or not
        (25, 52, 0x5F), // choice 1, past B
        (25, 14, 1),    // the first unused tag
        (25, 51, 1),    // the last unused tag
        (25, 53, 0x15), // the half beside the last crumb
        (25, 53, 0x50), // a crumb that is 0
        (25, 54, 1),    // a low half
        (25, 62, 0x10), // the last half
        (25, 63, 1),    // byte 63
        (25, 63, 0x80), // byte 63
        (25, 4, 0xFF),  // too many ones
        (25, 4, 0x00),  // too few ones
        (33, 63, 1),    // the last byte before the tail
        (32, 8, 1),     // an idle bucket
    ];
    for &(table, at, value) in edits {
        p.copy(1, 0);
        p.put_byte(0, table, at, value);
        p.check(0);
        p.look(0, g(f, 5, 400));
        p.look(0, g(14, 5, 100));
    }
    for table in [0, 12, 13, 23, 24, 25, 33] {
        p.copy(1, 0);
        p.put(0, table, [0; 64]);
        p.check(0);
        p.look(0, g(f, 5, 400));
    }
    // A sound bucket of 22, then its word with 23 and 28 members, all else as it was.
    let mut many: Vec<Member> = (0..28).map(|i: u64| member(5 + i % 3, 400, 5)).collect();
    many.sort();
    for n in [22, 23, 28] {
        p.copy(1, 0);
        let mut bytes = encode_backyard(&many[..22]);
        bytes[..8].copy_from_slice(&encode_front(&many[..n])[..8]);
        p.put(0, 25, bytes);
        p.check(0);
        p.look(0, g(f, 5, 400));
        p.look(0, g(f, 6, 400));
        p.insert(0, g(f, 6, 400));
    }
    // Valid and invalid crumbs in every backyard bucket.
    for b in [1, 2, 3, 8] {
        p.fresh(0, b);
        for j in 0..b + 7 {
            for crumb in [0, 3, 7, 8, 10, 15] {
                p.put_backyard(0, j, vec![member(35, 65535, crumb)]);
                p.check(0);
            }
            p.put_backyard(0, j, vec![]);
        }
    }
}

/// Members before their turn, and the order of check's numbers.
fn early(p: &mut Player) {
    p.fresh(0, 3);
    p.put_front(0, 13, full_front());
    for (tag, n) in [(370, 28), (369, 28), (65535, 27), (371, 28)] {
        p.put_front(0, 13, full_front()[..n].to_vec());
        p.put_backyard(0, 1, vec![]);
        p.put_backyard(0, 5, vec![member(5, tag, 9)]);
        p.check(0);
        p.put_backyard(0, 5, vec![]);
        p.put_backyard(0, 1, vec![member(5, tag, 5)]);
        p.check(0);
        p.look(0, g(13, 5, tag));
        p.page(0, 13, 60);
    }
    // The lowest of several, then an unsound bucket before all.
    p.put_front(0, 13, full_front()[..27].to_vec());
    p.put_backyard(0, 5, vec![member(5, 1, 9)]);
    p.put_backyard(0, 6, vec![member(5, 1, 9)]);
    p.check(0);
    p.put_backyard(0, 1, vec![]);
    p.check(0);
    p.put_byte(0, 33, 63, 1);
    p.check(0);
}

fn merges(p: &mut Player) {
    // Neither, one, the other, both; room and overflow.
    p.fresh(0, 3);
    p.fresh(1, 3);
    p.new_image(2, 2240);
    let some = |n| full_front()[..n].to_vec();
    for (f, n, m) in [
        (0, 3, 0),
        (1, 0, 3),
        (2, 14, 14),
        (3, 20, 20),
        (10, 28, 0),
        (11, 0, 28),
    ] {
        p.put_front(0, f, some(n));
        p.put_front(1, f, some(m));
    }
    p.put_front(0, 13, some(28));
    p.put_backyard(0, 1, overflow(4, 5));
    p.put_backyard(0, 5, overflow(9, 9));
    p.put_front(1, 14, some(28));
    p.put_backyard(1, 1, overflow(7, 6));
    // b0 = b1.
    p.put_front(0, 9, some(28));
    p.put_backyard(0, 1, both(overflow(4, 5), overflow(3, 9)));
    p.check(0);
    p.check(1);
    for (x, y) in [(0, 1), (1, 0), (0, 0), (1, 1)] {
        p.merge(x, y, 2);
        p.check(2);
        p.page(2, 0, 300);
        p.look(2, g(13, 5, 1003));
        p.look(2, g(9, 5, 1002));
    }
    // Go on with the merged image.
    for tag in [1000, 1001, 100, 105] {
        p.delete(2, g(13, 5, tag));
        p.insert(2, g(13, 5, tag));
        p.delete(2, g(9, 5, tag));
    }
    // Full: 72 members of one front bucket twice.
    for (b, f) in [(3, 13), (1, 0)] {
        p.fresh(0, b);
        p.fresh(1, b);
        p.fresh(2, b);
        for n in 0..72 {
            p.insert(0, g(f, 5, n));
        }
        p.merge(0, 0, 2);
        p.merge(0, 1, 2);
        p.merge(1, 0, 2);
        p.insert(1, g(f, 0, 0));
        p.merge(0, 1, 2);
        p.insert(2, g(f, 0, 0));
        p.merge(1, 1, 0);
    }
    full_with_fresh(p);
    // The first's 3, the first's 8, the second's 3, the second's 8.
    p.fresh(0, 3);
    p.fresh(1, 3);
    p.fresh(2, 3);
    p.put_backyard(0, 5, vec![member(5, 1, 9)]);
    p.merge(0, 1, 2);
    p.merge(1, 0, 2);
    p.put_byte(1, 20, 0, 0);
    p.merge(0, 1, 2);
    p.merge(1, 0, 2);
    p.put_byte(0, 31, 63, 1);
    p.merge(0, 1, 2);
    p.fresh(0, 3);
    p.merge(0, 1, 2);
    p.merge(1, 0, 2);
    // The target may hold anything.
    p.merge(0, 0, 1);
}

/// Front bucket 8 has all its overflow in b1 = 0, front bucket 9 has it in b0 = b1 = 1. Merged
/// in order, that of 8 spreads over backyard buckets 0 and 1, and that of 9 finds no room.
fn full_with_fresh(p: &mut Player) {
    p.fresh(0, 3);
    p.fresh(1, 3);
    p.fresh(2, 3);
    p.put_front(0, 8, full_front());
    p.put_front(0, 9, full_front());
    p.put_backyard(0, 0, overflow(22, 9));
    p.put_backyard(0, 1, overflow(22, 9));
    p.check(0);
    p.insert(2, g(1, 2, 3));
    p.merge(0, 1, 2);
    p.insert(2, g(1, 2, 3));
    p.merge(1, 0, 2);
}

/// The example of the small program.
fn program(p: &mut Player) {
    p.fresh(0, 3);
    let k = 0x8000000040000007;
    p.play(Line::Insert { x: 0, hash: k });
    p.play(Line::Insert { x: 0, hash: k });
    p.play(Line::Ask { x: 0, hash: 0 });
    p.play(Line::Count { x: 0, hash: k });
    p.play(Line::Delete { x: 0, hash: k });
    p.page(0, 0, 72);
}

/// Three asks in a row. The first is for `mini` and in the half of a front bucket that `half`
/// numbers (front bucket f has 2f and 2f + 1); the next two each so many further on.
fn ask_row(p: &mut Player, half: u64, mini: u64, tag: u64, halves: i64, minis: i64) {
    let parts = 2 * p.shape(0).fronts();
    // A hash has 16 bits for the half and 16 for the mini-bucket: the middle of each.
    let middle = |n: u64, parts: u64| (2 * n + 1) * 65536 / (2 * parts);
    let further = |n: i64, parts: u64| (n * 65536 / parts as i64) as u16;
    let hash = (middle(half, parts) << 48) + (middle(mini, 36) << 16) + tag;
    let step = Step {
        mini: further(minis, 36),
        front: further(halves, parts),
    };
    p.play(Line::Row { x: 0, hash, step });
}

/// Rows of three asks, all with tag 400. Front buckets 9, 13 and 14 are full with mini-buckets 0
/// to 27; behind them mini-bucket 28 is in First, 29 in Second, and of 13 also 30 and 31. Behind 9
/// both are in Second. Front bucket 12 has room.
fn rows(p: &mut Player) {
    let tag = 400;
    let members = |minis: std::ops::Range<u64>| minis.map(|mini| member(mini, tag, 0)).collect();
    p.fresh(1, 3);
    p.put_front(1, 12, members(0..5));
    for f in [9, 13, 14] {
        p.put_front(1, f, members(0..28));
    }
    // b0 of all four and b1 of 9 is 1; b1 of 13 is 5, b1 of 14 is 6.
    let first = [(28, 9), (29, 9), (28, 5), (30, 5), (28, 6)];
    let first = first.map(|(mini, crumb)| member(mini, tag, crumb));
    p.put_backyard(1, 1, first.to_vec());
    p.put_backyard(1, 5, vec![member(29, tag, 9), member(31, tag, 9)]);
    p.put_backyard(1, 6, vec![member(29, tag, 9)]);
    p.check(1);
    p.copy(1, 0);
    // One group: front bucket 13, by mini-bucket and how far apart.
    for (mini, minis) in [
        (0, 1),   // front, front, front
        (27, 0),  // the largest of 28 three times
        (26, 1),  // front, front, first
        (27, 1),  // front, first, second
        (29, -1), // second, first, front
        (28, 1),  // first, second, first
        (28, 0),  // first, three times
        (29, 2),  // second, second, none
        (33, 1),  // none, three times
        (0, 17),  // front, front, none
        (35, -8), // none, front, front
    ] {
        ask_row(p, 26, mini, tag, 0, minis);
    }
    ask_row(p, 26, 3, 401, 0, 7);
    ask_row(p, 26, 27, 399, 0, 0);
    // b0 = b1.
    ask_row(p, 18, 27, tag, 0, 1);
    ask_row(p, 18, 30, tag, 0, -2);
    // Groups of two and one, one and two, one each.
    for (half, halves) in [(26, 1), (27, 1), (24, 2), (22, 2), (18, 8), (0, 1), (1, 23)] {
        for (mini, minis) in [(27, 1), (30, -1), (28, 0), (4, 0)] {
            ask_row(p, half, mini, tag, halves, minis);
        }
    }
    // Front buckets that descend, two rows past the last hash; then one back past hash 0, which
    // ascends.
    for (half, halves) in [(28, -2), (27, -1), (26, -1), (46, 2), (46, 1), (0, -1)] {
        ask_row(p, half, 28, tag, halves, 0);
    }
    refused_rows(p);
}

/// Rows on the same image with an unsound bucket, and on wrong lengths.
fn refused_rows(p: &mut Player) {
    for table in [24 + 5, 24 + 1, 14, 13] {
        p.copy(1, 0);
        p.put_byte(0, table, 0, 0);
        for (half, halves, mini, minis) in [
            (26, 0, 27, 1),  // front, first, second of 13
            (26, 0, 25, 1),  // front three times
            (24, 2, 28, 0),  // 12, 13, 14
            (27, 1, 28, 0),  // 13, 14, 14
            (27, -1, 29, 0), // 13, 13, 12
            (30, -2, 29, 0), // 15, 14, 13
        ] {
            ask_row(p, half, mini, 400, halves, minis);
        }
    }
    for length in [0, 1024, 2239] {
        p.new_image(0, length);
        for (hash, front) in [(0, 0), (u64::MAX, 1)] {
            let step = Step { mini: 1, front };
            p.play(Line::Row { x: 0, hash, step });
        }
    }
}

/// An occupancy page of image 0.
fn occupancy(p: &mut Player, page: u64, length: usize) -> u64 {
    p.play(Line::Occupancy { x: 0, page, length })
}

/// Front buckets with any number of members in front and behind. 0 to 6 share b0 = 0 and have b1
/// from 0 to 6; 8 to 15 share b0 = 1.
fn occupancy_pages(p: &mut Player) {
    let some = |n: usize| full_front()[..n].to_vec();
    p.fresh(1, 3);
    for (f, n) in [(0, 28), (1, 1), (2, 9), (3, 10), (4, 27), (6, 26), (23, 28)] {
        p.put_front(1, f, some(n));
    }
    for f in [9, 11, 12, 13, 15] {
        p.put_front(1, f, some(28));
    }
    // Behind 4 there are members that its line does not count. 11 has First alone, 12 Second
    // alone, 13 both, 15 none; 9 has b0 = b1.
    p.put_backyard(1, 0, overflow(3, 4));
    let (nine, others) = (overflow(2, 9), both(overflow(4, 3), overflow(9, 5)));
    p.put_backyard(1, 1, both(nine, others));
    p.put_backyard(1, 4, both(overflow(2, 8), overflow(6, 9)));
    p.put_backyard(1, 5, both(overflow(1, 8), overflow(5, 9)));
    p.copy(1, 0);
    for length in [1008, 0, 1, 500, 1007, 1009, LONGEST_OCCUPANCY] {
        occupancy(p, 0, length);
        occupancy(p, 1, length);
    }
    far_pages(p);
    refused_occupancy(p);
    // 44 behind 13, and one less.
    p.copy(1, 0);
    p.put_backyard(0, 1, overflow(22, 5));
    p.put_backyard(0, 5, overflow(22, 9));
    occupancy(p, 0, 1008);
    p.put_backyard(0, 1, overflow(21, 5));
    occupancy(p, 0, 1008);
    last_occupancy(p);
}

/// Pages past the last. 24 times some of them wraps to a front bucket, in 64 bits or in 32.
fn far_pages(p: &mut Player) {
    for page in [2, 1 << 29, 178956971, u32::MAX as u64, 1 << 32] {
        occupancy(p, page, 1008);
    }
    // 24 × page mod 2^64 is 0, 24, 2^63, 8, 16 and 0.
    for page in [
        1 << 61,
        (1 << 61) + 1,
        1 << 60,
        768614336404564651,
        1537228672809129302,
        7 << 61,
    ] {
        occupancy(p, page, 1008);
        occupancy(p, page, 1007);
    }
    occupancy(p, u64::MAX - 1, 1008);
    occupancy(p, u64::MAX, 1008);
}

/// Unsound buckets, of which the first in reading order is told, and wrong lengths.
fn refused_occupancy(p: &mut Player) {
    // In reading order from behind: 23, 14, b1 of 13 and of 12, b0 of both and of 9, 0.
    for table in [23, 14, 24 + 5, 24 + 4, 24 + 1, 0] {
        p.put_byte(0, table, 0, 0);
        for (page, length) in [(0, 1008), (0, 1007), (0, 0), (1, 1008), (u64::MAX, 1008)] {
            occupancy(p, page, length);
        }
    }
    // Behind 4 and 6, which have room: not read.
    p.copy(1, 0);
    p.put_front(0, 0, vec![]);
    for table in [24, 24 + 6, 24 + 9] {
        p.put_byte(0, table, 0, 0);
        occupancy(p, 0, 1008);
    }
    p.put_front(0, 4, full_front());
    occupancy(p, 0, 1008);
    for length in [0, 1024, 2239, 2241] {
        p.new_image(0, length);
        for (page, length) in [(0, 1008), (0, 1007), (u64::MAX, 0)] {
            occupancy(p, page, length);
        }
    }
}

/// The pages of other images up to the one past the last, then with an unsound bucket on the last
/// and on the first.
fn last_occupancy(p: &mut Player) {
    for b in [1, 2, 4, 6, 20, 21] {
        p.fresh(0, b);
        let fronts = p.shape(0).fronts();
        for n in 0..28 {
            p.insert(0, g(fronts - 1 - n % 3, 7 * n % 36, n));
        }
        p.put_front(0, fronts / 2, full_front());
        let pages = fronts.div_ceil(24);
        let all = |p: &mut Player| {
            for page in 0..=pages {
                occupancy(p, page, 1008);
            }
        };
        all(p);
        for unsound in [fronts - 1, 0] {
            p.put_byte(0, unsound, 0, 0);
            all(p);
        }
    }
}

/// So many copies of each mini-bucket and tag with its crumb.
fn repeated(members: &[(usize, u64, u64, u64)]) -> Vec<Member> {
    let copies = |&(n, mini, tag, crumb): &_| vec![member(mini, tag, crumb); n];
    members.iter().flat_map(copies).collect()
}

/// Asks where copies stand, alone and in rows. In b0 = 1 the crumbs 4, 5 and 6 are those of front
/// buckets 12, 13 and 14; in b1 = 5 the crumbs 8, 9 and 10 are those of 5, 13 and 21.
fn copies(p: &mut Player) {
    p.fresh(0, 3);
    for f in [5, 12, 14, 21] {
        p.put_front(0, f, full_front());
    }
    let front = [
        (3, 4, 400, 0), // then its tag in the next mini-bucket
        (4, 5, 400, 0), // then another tag
        (2, 5, 500, 0),
        (1, 6, 0, 0),
        (18, 7, 700, 0), // up to slot 27, and more in First
    ];
    let first = [
        (2, 7, 700, 5),
        (1, 8, 100, 4),
        (3, 8, 100, 5), // between other crumbs, and more in Second
        (1, 8, 100, 6),
        (2, 8, 101, 5), // then another tag
        (1, 8, 102, 5),
        (2, 9, 300, 5), // then its tag in the next mini-bucket
        (1, 10, 300, 5),
        (9, 20, 1, 5), // up to slot 21
    ];
    let second = [
        (2, 8, 100, 9),
        (1, 11, 100, 8),
        (3, 11, 100, 9), // between other crumbs
        (1, 11, 100, 10),
        (2, 11, 101, 9), // then another tag
        (1, 11, 102, 9),
        (2, 12, 300, 9), // then its tag in the next mini-bucket
        (1, 13, 300, 9),
        (2, 35, 0, 9), // the last members of 15
    ];
    p.put_front(0, 13, repeated(&front));
    p.put_backyard(0, 1, repeated(&first));
    p.put_backyard(0, 5, repeated(&second));
    p.check(0);
    let all = front.iter().chain(&first).chain(&second);
    let keys: BTreeSet<(u64, u64)> = all.map(|&(_, mini, tag, _)| (mini, tag)).collect();
    for (mini, tag) in keys {
        p.look(0, g(13, mini, tag));
    }
    // Those of the front buckets beside it, and one that is nowhere.
    for (f, mini) in [(12, 8), (14, 8), (5, 11), (21, 11), (13, 14)] {
        p.look(0, g(f, mini, 100));
    }
    // Rows: front twice, none; first, second, none; first of three front buckets.
    ask_row(p, 26, 4, 400, 0, 1);
    ask_row(p, 26, 8, 100, 0, 3);
    ask_row(p, 24, 8, 100, 2, 0);
    copies_at_ends(p);
}

/// Buckets of nothing but copies, full and with room; a tag of 0 is what unused slots hold.
fn copies_at_ends(p: &mut Player) {
    for tag in [0, 65535] {
        for n in [28, 27, 2] {
            p.fresh(0, 3);
            p.put_front(0, 13, repeated(&[(n, 35, tag, 0)]));
            p.look(0, g(13, 35, tag));
            p.delete(0, g(13, 35, tag));
        }
        for n in [22, 21, 2] {
            p.fresh(0, 3);
            p.put_front(0, 13, full_front());
            p.put_front(0, 8, full_front());
            // All of b0 = 1 is 8's, with crumb 0, then 13's; then all of b1 = 5 is 13's.
            for (j, f, crumb) in [(1, 8, 0), (1, 13, 5), (5, 13, 9)] {
                p.put_backyard(0, 1, vec![]);
                p.put_backyard(0, j, repeated(&[(n, 35, tag, crumb)]));
                p.look(0, g(f, 35, tag));
                p.delete(0, g(f, 35, tag));
            }
        }
    }
}

/// Each of the sixteen crumbs, in a backyard bucket where all are valid: its front bucket alone is
/// full, then none is.
fn crumbs(p: &mut Player) {
    let shape = Shape { b: 16 };
    p.fresh(0, shape.b);
    for crumb in 0..16 {
        let f = shape.front_of(9, crumb).expect("a valid crumb");
        p.put_backyard(0, 9, overflow(1, crumb));
        p.put_front(0, f, full_front());
        p.check(0);
        p.put_front(0, f, vec![]);
        p.check(0);
    }
}

/// The stored input.
pub fn input() -> String {
    let mut text = String::new();
    let mut observer = |line: Line, _: u64, _: &Images| text += &line.text();
    let p = &mut Player::new(20261115, &mut observer);
    numbers(p);
    lengths(p);
    program(p);
    capacity(p);
    larger(p);
    inserts(p);
    deletes(p);
    asks(p);
    pages(p);
    unsound_buckets(p);
    early(p);
    merges(p);
    for (b, calls) in [(1, 40), (2, 30), (3, 40), (8, 30), (20, 20)] {
        for kind in KINDS {
            histories::play(p, kind, b, calls);
        }
    }
    rows(p);
    occupancy_pages(p);
    copies(p);
    tails::tails(p);
    walks::walks(p);
    crumbs(p);
    coinciding::coinciding(p);
    text
}

/// Stored lines for the small program: document 01's example, malformed lines, every operation
/// with every answer it can have there, and a last line without its newline.
pub fn frames() -> String {
    let mut random = Random::new(3);
    let mut line = |operation: u64, g: Fingerprint| {
        let hash = hash_of(g, Shape { b: 3 }, &mut random);
        format!("{operation:02X}{hash:016X}\n")
    };
    let list = "050000000000000000\n";
    // Two front buckets that share backyard bucket 1, filled until both are full.
    let mut filled = String::new();
    for (f, from, to) in [(13, 0, 50), (9, 0, 50), (13, 50, 80)] {
        for n in from..to {
            filled += &line(1, g(f, 7 * n % 36, n % 5 * 300));
            filled += &line(3, g(f, 7 * n % 36, n % 3 * 300));
            filled += &line(4, g(f, 7 * n % 36, 0));
        }
    }
    let mut emptied = String::new();
    for n in 0..90 {
        for f in [13, 9] {
            emptied += &line(2, g(f, 7 * n % 36, n % 5 * 300));
            emptied += &line(3, g(f, 7 * n % 36, n % 2 * 300));
        }
    }
    // Front bucket 9, which has b0 = b1, until it is full: asks of the newest, which is behind from the
    // 29th on, and of one above it.
    let mut coinciding = String::new();
    for n in 0..51 {
        coinciding += &line(1, g(9, 20, 3 * n));
        if [26, 27, 28, 29, 49, 50].contains(&n) {
            coinciding += &line(3, g(9, 20, 3 * n));
            coinciding += &line(3, g(9, 20, 3 * n + 1));
            coinciding += &line(4, g(9, 20, 3 * n));
        }
    }
    for n in [0, 49, 40, 1] {
        coinciding += &line(2, g(9, 20, 3 * n));
        coinciding += &line(3, g(9, 20, 3 * n));
    }
    let example = "\
018000000040000007
018000000040000007
030000000000000000
048000000040000007
028000000040000007
050000000000000000
";
    let malformed = "\
\n01\n01800000004000000\n0180000000400000070\n01800000004000000a\n018000000040000007\r
000000000000000000\n060000000000000000\nFF8000000040000007\n050000000000000001
+18000000040000007\n 18000000040000007\n01800000004000000G\n01 000000040000007
0180000000400000:7\n01800000004000000@\n01800000004000000/\n01800000004000000`\n\n
";
    let last = "04FFFFFFFFFFFFFFFF\n01FFFFFFFFFFFFFFFF\n04FFFFFFFFFFFFFFFF";
    [
        example,
        malformed,
        list,
        &filled,
        list,
        &emptied,
        list,
        &coinciding,
        list,
        last,
    ]
    .concat()
}

#[cfg(test)]
mod tests {
    use super::*;
    use crate::branches;
    use crate::catalogue::Model;
    use crate::program;

    #[test]
    fn every_branch_and_every_number() {
        let input = input();
        assert!(input.len() < 460_000, "{} bytes", input.len());
        let mut images = Images::default();
        let mut met = BTreeSet::new();
        let mut numbers = BTreeSet::new();
        for line in input.lines() {
            let line = Line::parse(line).expect("a stored line");
            let before = images.clone();
            let answer = images.perform(&Model, line);
            met.extend(branches::of(&before, line, answer >> 56));
            numbers.insert(answer >> 56);
            assert!(images
                .image
                .iter()
                .all(|image| image.len() <= LONGEST_IMAGE));
            assert!(images.out.len() <= 8 * LONGEST_OUTPUT);
            match line {
                Line::Occupancy { length, .. } => assert!(length <= LONGEST_OCCUPANCY),
                Line::Tail { length, .. } => assert!(length <= LONGEST_TAIL),
                _ => {}
            }
        }
        let rows = branches::ROWS.iter();
        let rows = rows.filter(|name| !branches::BEYOND_THREE.contains(name));
        let all = branches::ALL.iter().chain(branches::TAILS);
        let all = all.chain(branches::WALKS).chain(branches::COINCIDING);
        let all = all.chain(rows).chain(branches::OCCUPANCY);
        let all: BTreeSet<String> = all.map(|name| name.to_string()).collect();
        let missing: Vec<&String> = all.difference(&met).collect();
        let unknown: Vec<&String> = met.difference(&all).collect();
        assert!(missing.is_empty(), "missing: {missing:#?}");
        assert!(unknown.is_empty(), "not named: {unknown:#?}");
        assert_eq!(numbers, (0..=8).chain(10..=14).collect());
    }

    /// The small program's asks: reads + 16 × place, with 2 reads where b0 = b1.
    #[test]
    fn every_ask_of_the_small_program() {
        let output = program::run(frames().as_bytes());
        let asks = output.lines().filter_map(|line| line.strip_prefix("0300"));
        let values: BTreeSet<u64> = asks
            .map(|value| u64::from_str_radix(value, 16).expect("16 hex digits"))
            .collect();
        let expected = [0x01, 0x02, 0x03, 0x11, 0x22, 0x32, 0x33];
        assert_eq!(values, expected.into_iter().collect());
    }
}
