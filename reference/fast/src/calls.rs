//! The calls, over any way with buckets.

use crate::bits;
use crate::bucket::{self, Bucket, Keys, Read, BACKYARD_SLOTS, FRONT_SLOTS};
use crate::map::{Fingerprint, Homes, Shape};
use crate::tail::Tail;

/// A refusal with no table number.
const fn refused(number: u64) -> u64 {
    number << 56
}

#[cold]
fn unsound(table: u32) -> u64 {
    refused(3) + table as u64
}

/// The bucket with this table number.
#[inline(always)]
unsafe fn at(image: &[u8], table: u32) -> *const u8 {
    debug_assert!(64 * (table as usize + 1) <= image.len());
    image.as_ptr().add(64 * table as usize)
}

#[inline(always)]
unsafe fn at_mut(image: &mut [u8], table: u32) -> *mut u8 {
    debug_assert!(64 * (table as usize + 1) <= image.len());
    image.as_mut_ptr().add(64 * table as usize)
}

/// Where the tail of an image of the new form begins.
#[inline(always)]
unsafe fn tail_at(image: &[u8]) -> *const u8 {
    debug_assert!(Shape::of_length(image.len()).is_some());
    image.as_ptr().add(image.len() - 64)
}

#[inline(always)]
unsafe fn tail_at_mut(image: &mut [u8]) -> *mut u8 {
    debug_assert!(Shape::of_length(image.len()).is_some());
    image.as_mut_ptr().add(image.len() - 64)
}

/// The shape of an image and its tail, or the refusal with 1 or 11.
#[inline(always)]
fn open(image: &[u8]) -> Result<(Shape, Tail), u64> {
    let Some(shape) = Shape::of_length(image.len()) else {
        return Err(refused(1));
    };
    match unsafe { Tail::read(tail_at(image), shape.slots()) } {
        Some(tail) => Ok((shape, tail)),
        None => Err(refused(11)),
    }
}

/// The same for an insert or a delete, or the refusal with 1, 11 or 13.
#[inline(always)]
fn open_to_change(image: &[u8]) -> Result<(Shape, Tail), u64> {
    match open(image) {
        Ok((_, tail)) if tail.changes == u64::MAX => Err(refused(13)),
        opened => opened,
    }
}

/// The last test of an insert: whether the slots allow one more. The tail then has it.
#[inline(always)]
unsafe fn count_in(image: &mut [u8], shape: Shape, tail: Tail) -> bool {
    if tail.total == shape.slots() {
        return false;
    }
    tail.with_one_more().change(tail_at_mut(image));
    true
}

/// The last test of a delete: whether there is one to take. The tail is then without it.
#[inline(always)]
unsafe fn count_out(image: &mut [u8], tail: Tail) -> bool {
    if tail.total == 0 {
        return false;
    }
    tail.with_one_less().change(tail_at_mut(image));
    true
}

/// Both backyard buckets of a front bucket, read whole, with the members below f's key in each.
struct Behind {
    homes: Homes,
    table0: u32,
    table1: u32,
    key0: u32,
    key1: u32,
    read0: Read,
    read1: Read,
}

/// The reads of a front bucket and of all that is behind it.
#[inline(always)]
fn reads_with_behind(homes: Homes) -> u64 {
    3 - homes.coincide() as u64
}

/// Reads b0, then b1; the refusal of the first unsound one. Where b0 = b1 the one read serves both: no
/// member there has crumb0, so nothing is found as key0, from whatever slot on.
#[inline(always)]
unsafe fn read_behind<B: Bucket>(
    image: &[u8],
    shape: Shape,
    f: u32,
    key: u32,
) -> Result<Behind, u64> {
    let homes = shape.homes(f);
    let (table0, table1) = (shape.fronts() + homes.b0, shape.fronts() + homes.b1);
    let (key0, key1) = (key << 4 | homes.crumb0, key << 4 | homes.crumb1);
    let read0 = match homes.coincide() {
        true => None,
        false => match B::read_backyard(at(image, table0), shape.valid(homes.b0), key0) {
            None => return Err(unsound(table0)),
            read => read,
        },
    };
    let valid1 = shape.valid_at(homes.b1, homes.crumb0, homes.b0 / 8);
    let Some(read1) = B::read_backyard(at(image, table1), valid1, key1) else {
        return Err(unsound(table1));
    };
    let read0 = read0.unwrap_or(read1);
    Ok(Behind {
        homes,
        table0,
        table1,
        key0,
        key1,
        read0,
        read1,
    })
}

#[inline(never)]
pub fn fresh(image: &mut [u8]) -> u64 {
    let Some(shape) = Shape::of_length(image.len()) else {
        return refused(1);
    };
    unsafe {
        for table in 0..shape.fronts() + shape.backyards() {
            bucket::clear(at_mut(image, table));
        }
        let tail = Tail {
            total: 0,
            changes: 0,
        };
        tail.write(tail_at_mut(image));
    }
    0
}

#[inline(always)]
pub fn insert<B: Bucket>(image: &mut [u8], hash: u64) -> u64 {
    let (shape, tail) = match open_to_change(image) {
        Ok(opened) => opened,
        Err(refusal) => return refusal,
    };
    let g = shape.fingerprint(hash);
    unsafe {
        let front = at_mut(image, g.front);
        let Some(read) = B::read_front(front, g.key) else {
            return unsound(g.front);
        };
        if read.word >> 63 == 1 {
            return insert_full::<B>(image, shape, tail, g, read);
        }
        if !count_in(image, shape, tail) {
            return refused(12);
        }
        B::insert_front(front, read.word, read.below, g.key);
        0
    }
}

/// An insert where the front bucket holds 28.
#[inline(always)]
unsafe fn insert_full<B: Bucket>(
    image: &mut [u8],
    shape: Shape,
    tail: Tail,
    g: Fingerprint,
    read: Read,
) -> u64 {
    // The one that goes behind: the largest of the 28 and the new one.
    let front = at_mut(image, g.front);
    let overflow = if read.below == FRONT_SLOTS {
        g.key
    } else {
        bucket::largest(front, read.word)
    };
    let behind = match read_behind::<B>(image, shape, g.front, overflow) {
        Ok(behind) => behind,
        Err(refusal) => return refusal,
    };
    let (n0, n1) = (
        bucket::members(behind.read0.word),
        bucket::members(behind.read1.word),
    );
    if n0 == BACKYARD_SLOTS && n1 == BACKYARD_SLOTS {
        return refused(4);
    }
    if !count_in(image, shape, tail) {
        return refused(12);
    }
    if read.below < FRONT_SLOTS {
        B::push_front(front, read.word, read.below, g.key);
    }
    if n0 < n1 {
        let b = at_mut(image, behind.table0);
        B::insert_backyard(b, behind.read0.word, behind.read0.below, behind.key0);
        1 + behind.homes.b0 as u64
    } else {
        let b = at_mut(image, behind.table1);
        B::insert_backyard(b, behind.read1.word, behind.read1.below, behind.key1);
        1 + behind.homes.b1 as u64
    }
}

#[inline(always)]
pub fn delete<B: Bucket>(image: &mut [u8], hash: u64) -> u64 {
    let (shape, tail) = match open_to_change(image) {
        Ok(opened) => opened,
        Err(refusal) => return refusal,
    };
    let g = shape.fingerprint(hash);
    unsafe {
        let front = at_mut(image, g.front);
        let Some(read) = B::read_front(front, g.key) else {
            return unsound(g.front);
        };
        if bucket::found_front(front, read, g.key) {
            if read.word >> 63 == 1 {
                return delete_refilled::<B>(image, shape, tail, g, read);
            }
            if !count_out(image, tail) {
                return refused(12);
            }
            B::remove_front(front, read.word, read.below, g.key);
            return 0;
        }
        if read.below < FRONT_SLOTS {
            return refused(5);
        }
        delete_behind::<B>(image, shape, tail, g)
    }
}

/// A delete from a front bucket that holds 28.
#[inline(always)]
unsafe fn delete_refilled<B: Bucket>(
    image: &mut [u8],
    shape: Shape,
    tail: Tail,
    g: Fingerprint,
    read: Read,
) -> u64 {
    let behind = match read_behind::<B>(image, shape, g.front, 0) {
        Ok(behind) => behind,
        Err(refusal) => return refusal,
    };
    if !count_out(image, tail) {
        return refused(12);
    }
    let (b0, b1) = (at(image, behind.table0), at(image, behind.table1));
    let (word0, word1) = (behind.read0.word, behind.read1.word);
    let first = bucket::first_with_crumb(b0, word0, behind.homes.crumb0);
    let second = bucket::first_with_crumb(b1, word1, behind.homes.crumb1);
    let key_of = |b: *const u8, word: u64, slot: u32| {
        bucket::mini_of(word, slot) << 16 | bucket::tag(b, slot)
    };
    let from_first = match (first, second) {
        (None, None) => {
            B::remove_front(at_mut(image, g.front), read.word, read.below, g.key);
            return 0;
        }
        (Some(_), None) => true,
        (None, Some(_)) => false,
        (Some(s), Some(t)) => {
            let (x, y) = (key_of(b0, word0, s), key_of(b1, word1, t));
            let more = bucket::members(word0) > bucket::members(word1);
            x < y || (x == y && more)
        }
    };
    let (table, word, slot, crumb, j) = if from_first {
        let slot = first.unwrap_unchecked();
        (
            behind.table0,
            word0,
            slot,
            behind.homes.crumb0,
            behind.homes.b0,
        )
    } else {
        let slot = second.unwrap_unchecked();
        (
            behind.table1,
            word1,
            slot,
            behind.homes.crumb1,
            behind.homes.b1,
        )
    };
    let refill = key_of(at(image, table), word, slot);
    B::remove_backyard(at_mut(image, table), word, slot, refill << 4 | crumb);
    let front = at_mut(image, g.front);
    B::remove_front(front, read.word, read.below, g.key);
    let rest = bucket::word(front);
    let place = B::rank_front(front, rest, refill);
    B::insert_front(front, rest, place, refill);
    1 + j as u64
}

/// A delete of a key above all 28 of its front bucket.
#[inline(always)]
unsafe fn delete_behind<B: Bucket>(
    image: &mut [u8],
    shape: Shape,
    tail: Tail,
    g: Fingerprint,
) -> u64 {
    let behind = match read_behind::<B>(image, shape, g.front, g.key) {
        Ok(behind) => behind,
        Err(refusal) => return refusal,
    };
    let (word0, word1) = (behind.read0.word, behind.read1.word);
    let first = bucket::found_backyard(at(image, behind.table0), behind.read0, behind.key0);
    let second = bucket::found_backyard(at(image, behind.table1), behind.read1, behind.key1);
    if !first && !second {
        return refused(5);
    }
    if !count_out(image, tail) {
        return refused(12);
    }
    if first && (!second || bucket::members(word0) > bucket::members(word1)) {
        let b = at_mut(image, behind.table0);
        B::remove_backyard(b, word0, behind.read0.below, behind.key0);
        1 + behind.homes.b0 as u64
    } else {
        let b = at_mut(image, behind.table1);
        B::remove_backyard(b, word1, behind.read1.below, behind.key1);
        1 + behind.homes.b1 as u64
    }
}

/// The answer of an ask that ended where a bucket holds so many copies of its key.
#[inline(always)]
fn asked(reads: u64, place: u64, slot: u32, copies: u32) -> u64 {
    reads + 16 * place + 256 * slot as u64 + ((copies as u64) << 16)
}

/// The answer of an ask that found none.
#[inline(always)]
fn none(reads: u64) -> u64 {
    asked(reads, 0, 0, 0)
}

#[inline(always)]
pub fn ask<B: Bucket>(image: &[u8], hash: u64) -> u64 {
    let (shape, _) = match open(image) {
        Ok(opened) => opened,
        Err(refusal) => return refusal,
    };
    let g = shape.fingerprint(hash);
    unsafe {
        let front = at(image, g.front);
        let Some(read) = B::read_front(front, g.key) else {
            return unsound(g.front);
        };
        if bucket::found_front(front, read, g.key) {
            let copies = bucket::run_front(front, read, g.key);
            return asked(1, 1, read.below, copies);
        }
        if read.below < FRONT_SLOTS {
            return none(1);
        }
        let homes = shape.homes(g.front);
        if !homes.coincide() {
            let table = shape.fronts() + homes.b0;
            let key = g.key << 4 | homes.crumb0;
            let b = at(image, table);
            let Some(read) = B::read_backyard(b, shape.valid(homes.b0), key) else {
                return unsound(table);
            };
            if bucket::found_backyard(b, read, key) {
                let copies = bucket::run_backyard(b, read, key);
                return asked(2, 2, read.below, copies);
            }
        }
        let table = shape.fronts() + homes.b1;
        let key = g.key << 4 | homes.crumb1;
        let b = at(image, table);
        let valid = shape.valid_at(homes.b1, homes.crumb0, homes.b0 / 8);
        let Some(read) = B::read_backyard(b, valid, key) else {
            return unsound(table);
        };
        if bucket::found_backyard(b, read, key) {
            let copies = bucket::run_backyard(b, read, key);
            return asked(reads_with_behind(homes), 3, read.below, copies);
        }
        none(reads_with_behind(homes))
    }
}

#[inline(always)]
pub fn count<B: Bucket>(image: &[u8], hash: u64) -> u64 {
    let (shape, _) = match open(image) {
        Ok(opened) => opened,
        Err(refusal) => return refusal,
    };
    let g = shape.fingerprint(hash);
    unsafe {
        let front = at(image, g.front);
        let Some(read) = B::read_front(front, g.key) else {
            return unsound(g.front);
        };
        let copies = bucket::copies_front(front, read, g.key);
        if read.below + copies < FRONT_SLOTS {
            return copies as u64 + (1 << 32);
        }
        let behind = match read_behind::<B>(image, shape, g.front, g.key) {
            Ok(behind) => behind,
            Err(refusal) => return refusal,
        };
        let (b0, b1) = (at(image, behind.table0), at(image, behind.table1));
        let first = bucket::copies_backyard(b0, behind.read0, behind.key0);
        let second = bucket::copies_backyard(b1, behind.read1, behind.key1);
        (copies + first + second) as u64 + (reads_with_behind(behind.homes) << 32)
    }
}

/// Gathers the members of front bucket f of an image whose buckets are sound, ascending; those
/// behind only where the front bucket holds 28. How many.
#[inline(always)]
unsafe fn gather<B: Bucket>(image: &[u8], shape: Shape, f: u32, keys: &mut Keys) -> usize {
    let front = at(image, f);
    let word = bucket::word(front);
    let n = bucket::keys_front(front, word, keys);
    if word >> 63 == 0 {
        return n;
    }
    let homes = shape.homes(f);
    let b0 = at(image, shape.fronts() + homes.b0);
    let b1 = at(image, shape.fronts() + homes.b1);
    let first = B::keys_with_crumb(b0, bucket::word(b0), homes.crumb0, keys, n);
    let end = B::keys_with_crumb(b1, bucket::word(b1), homes.crumb1, keys, first);
    // Short and nearly in order: insertion sort.
    for i in n..end {
        let key = *keys.get_unchecked(i);
        let mut to = i;
        while to > 0 && *keys.get_unchecked(to - 1) > key {
            *keys.get_unchecked_mut(to) = *keys.get_unchecked(to - 1);
            to -= 1;
        }
        *keys.get_unchecked_mut(to) = key;
    }
    end
}

#[inline(always)]
pub fn page<B: Bucket>(image: &[u8], start: u64, changes: u64, out: &mut [u64]) -> u64 {
    let (shape, tail) = match open(image) {
        Ok(opened) => opened,
        Err(refusal) => return refusal,
    };
    if changes != tail.changes {
        return refused(14);
    }
    let fronts = shape.fronts();
    if start > fronts as u64 {
        return refused(6);
    }
    let start = start as u32;
    unsafe {
        // One pass reads and counts.
        let (mut next, mut total) = (start, 0);
        let mut known = u32::MAX; // the last b0 found sound
        while next < fronts {
            let front = at(image, next);
            let Some(read) = B::read_front(front, 0) else {
                return unsound(next);
            };
            let mut here = bucket::members(read.word);
            if here == FRONT_SLOTS {
                let homes = shape.homes(next);
                let (table0, table1) = (fronts + homes.b0, fronts + homes.b1);
                let (b0, b1) = (at(image, table0), at(image, table1));
                if known != homes.b0 {
                    if B::read_backyard(b0, shape.valid(homes.b0), 0).is_none() {
                        return unsound(table0);
                    }
                    known = homes.b0;
                }
                let valid = shape.valid_at(homes.b1, homes.crumb0, homes.b0 / 8);
                if B::read_backyard(b1, valid, 0).is_none() {
                    return unsound(table1);
                }
                here += bucket::count_crumb(b0, bucket::word(b0), homes.crumb0);
                here += bucket::count_crumb(b1, bucket::word(b1), homes.crumb1);
            }
            if total + here as usize > out.len() {
                break;
            }
            total += here as usize;
            next += 1;
        }
        if next == start && start < fronts {
            return refused(7);
        }
        // A second pass writes.
        let mut keys = [0; 72];
        let mut to = 0;
        for f in start..next {
            let n = gather::<B>(image, shape, f, &mut keys);
            let base = f as u64 * (36 << 16);
            for i in 0..n {
                *out.get_unchecked_mut(to + i) = base + *keys.get_unchecked(i) as u64;
            }
            to += n;
        }
        total as u64 + ((next as u64) << 32)
    }
}

#[inline(always)]
pub fn check<B: Bucket>(image: &[u8]) -> u64 {
    match open(image) {
        Ok((shape, tail)) => check_total::<B>(image, shape, tail.total),
        Err(refusal) => refusal,
    }
}

/// 0 where the buckets are as they must be and have so many members, or the refusal with 3, 8 or 12.
#[inline(always)]
fn check_total<B: Bucket>(image: &[u8], shape: Shape, total: u64) -> u64 {
    match check_buckets::<B>(image, shape) {
        Ok(members) if members == total => 0,
        Ok(_) => refused(12),
        Err(refusal) => refusal,
    }
}

/// How many members there are, or the refusal with 3 or 8. The image may be of either form.
#[inline(never)]
fn check_buckets<B: Bucket>(image: &[u8], shape: Shape) -> Result<u64, u64> {
    let fronts = shape.fronts();
    let mut members = 0;
    unsafe {
        for f in 0..fronts {
            let Some(read) = B::read_front(at(image, f), 0) else {
                return Err(unsound(f));
            };
            members += bucket::members(read.word) as u64;
        }
        let mut early = 0;
        let (mut e, mut t) = (0, 0);
        for j in 0..shape.backyards() {
            let b = at(image, fronts + j);
            let valid = shape.valid_at(j, e, t);
            let Some(read) = B::read_backyard(b, valid, 0) else {
                return Err(unsound(fronts + j));
            };
            members += bucket::members(read.word) as u64;
            if early == 0 && !in_turn(image, shape, j, e, t, read.word) {
                early = refused(8) + (fronts + j) as u64;
            }
            t += 1;
            if t == shape.k {
                (e, t) = (e + 1, 0);
            }
        }
        if early == 0 {
            Ok(members)
        } else {
            Err(early)
        }
    }
}

/// Whether the front bucket of each member of backyard bucket j holds 28, none larger than it.
#[inline(always)]
unsafe fn in_turn(image: &[u8], shape: Shape, j: u32, e: u32, t: u32, word: u64) -> bool {
    let b = at(image, shape.fronts() + j);
    let mut zeros = !word;
    for slot in 0..bucket::members(word) {
        let mini = bits::lowest_one(zeros) - slot;
        zeros &= zeros - 1;
        let f = shape.front_of(j, e, t, bucket::crumb(b, slot));
        let front = at(image, f);
        let full = bucket::word(front);
        let key = mini << 16 | bucket::tag(b, slot);
        if full >> 63 == 0 || bucket::largest(front, full) > key {
            return false;
        }
    }
    true
}

#[inline(always)]
pub fn merge<B: Bucket>(first: &[u8], second: &[u8], target: &mut [u8]) -> u64 {
    let Some(shape) = Shape::of_length(first.len()) else {
        return refused(1);
    };
    if Shape::of_length(second.len()).is_none() || Shape::of_length(target.len()).is_none() {
        return refused(1);
    }
    if first.len() != second.len() || first.len() != target.len() {
        return refused(2);
    }
    let totals = match (open(first), open(second)) {
        (Ok((_, first)), Ok((_, second))) => [first.total, second.total],
        _ => return refused(11),
    };
    for (source, total) in [first, second].into_iter().zip(totals) {
        let refusal = check_total::<B>(source, shape, total);
        if refusal != 0 {
            return refusal;
        }
    }
    unsafe {
        for j in 0..shape.backyards() {
            bucket::clear(at_mut(target, shape.fronts() + j));
        }
        for f in 0..shape.fronts() {
            if !merge_front::<B>(first, second, target, shape, f) {
                fresh(target);
                return refused(4);
            }
        }
        let tail = Tail {
            total: totals[0] + totals[1],
            changes: 0,
        };
        tail.write(tail_at_mut(target));
    }
    0
}

/// Merges one front bucket and its overflow into the target; whether there was room.
#[inline(always)]
unsafe fn merge_front<B: Bucket>(
    first: &[u8],
    second: &[u8],
    target: &mut [u8],
    shape: Shape,
    f: u32,
) -> bool {
    let (mut keys0, mut keys1) = ([0; 72], [0; 72]);
    let front = at_mut(target, f);
    let words = (bucket::word(at(first, f)), bucket::word(at(second, f)));
    // Where just one has members, its 64 bytes serve.
    if words.0 == bucket::EMPTY || words.1 == bucket::EMPTY {
        let (source, word) = if words.1 == bucket::EMPTY {
            (first, words.0)
        } else {
            (second, words.1)
        };
        std::ptr::copy_nonoverlapping(at(source, f), front, 64);
        if word >> 63 == 0 {
            return true;
        }
        let n = gather::<B>(source, shape, f, &mut keys0);
        return overflow::<B>(target, shape, f, keys0.get_unchecked(28..n).iter());
    }
    let n = gather::<B>(first, shape, f, &mut keys0);
    let m = gather::<B>(second, shape, f, &mut keys1);
    if n > 28 && !overflow::<B>(target, shape, f, keys0.get_unchecked(28..n).iter()) {
        return false;
    }
    // Each of the second's either pushes the first's largest out or goes behind itself, and then
    // so do all after it.
    let (mut kept, mut taken) = (n.min(28), 0);
    let top = kept;
    while taken < m {
        let new = *keys1.get_unchecked(taken);
        if kept + taken == 28 {
            if kept == 0 || *keys0.get_unchecked(kept - 1) <= new {
                break;
            }
            kept -= 1;
        }
        taken += 1;
    }
    let mut keys = [0; 28];
    B::merge_keys((&keys0, kept), (&keys1, taken), &mut keys);
    bucket::write_front(front, keys.get_unchecked(..kept + taken));
    overflow::<B>(
        target,
        shape,
        f,
        keys0.get_unchecked(kept..top).iter().rev(),
    ) && overflow::<B>(target, shape, f, keys1.get_unchecked(taken..m).iter())
}

/// Puts overflow of f into the target's backyard buckets, in this order; whether there was room.
#[inline(always)]
unsafe fn overflow<'a, B: Bucket>(
    target: &mut [u8],
    shape: Shape,
    f: u32,
    keys: impl Iterator<Item = &'a u32>,
) -> bool {
    let homes = shape.homes(f);
    let b0 = at_mut(target, shape.fronts() + homes.b0);
    let b1 = at_mut(target, shape.fronts() + homes.b1);
    for key in keys {
        let (word0, word1) = (bucket::word(b0), bucket::word(b1));
        let (n0, n1) = (bucket::members(word0), bucket::members(word1));
        let (b, word, crumb) = if n0 < n1 {
            (b0, word0, homes.crumb0)
        } else if n1 < BACKYARD_SLOTS {
            (b1, word1, homes.crumb1)
        } else {
            return false;
        };
        let key = key << 4 | crumb;
        let slot = B::rank_backyard(b, word, key);
        B::insert_backyard(b, word, slot, key);
    }
    true
}

#[inline(never)]
pub fn tail(image: &[u8], out: &mut [u64]) -> u64 {
    let (_, tail) = match open(image) {
        Ok(opened) => opened,
        Err(refusal) => return refusal,
    };
    let [total, changes, ..] = out else {
        return refused(7);
    };
    (*total, *changes) = (tail.total, tail.changes);
    0
}

/// The shape that both images of a move have, or the refusal with 1 or 2.
#[inline(always)]
fn one_shape(old: usize, new: usize) -> Result<Shape, u64> {
    match (Shape::of_body(old), Shape::of_length(new)) {
        (Some(old), Some(new)) if old.b == new.b => Ok(old),
        (Some(_), Some(_)) => Err(refused(2)),
        _ => Err(refused(1)),
    }
}

/// The move to the new form.
#[inline(always)]
pub fn attach<B: Bucket>(old: &[u8], target: &mut [u8]) -> u64 {
    let checked =
        one_shape(old.len(), target.len()).and_then(|shape| check_buckets::<B>(old, shape));
    let total = match checked {
        Ok(members) => members,
        Err(refusal) => return refusal,
    };
    unsafe {
        std::ptr::copy_nonoverlapping(old.as_ptr(), target.as_mut_ptr(), old.len());
        Tail { total, changes: 0 }.write(tail_at_mut(target));
    }
    0
}

/// The move to the old form.
#[inline(always)]
pub fn detach<B: Bucket>(image: &[u8], target: &mut [u8]) -> u64 {
    if let Err(refusal) = one_shape(target.len(), image.len()) {
        return refusal;
    }
    let refusal = check::<B>(image);
    if refusal == 0 {
        unsafe {
            std::ptr::copy_nonoverlapping(image.as_ptr(), target.as_mut_ptr(), target.len());
        }
    }
    refusal
}
