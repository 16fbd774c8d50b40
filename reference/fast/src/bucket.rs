//! One bucket of 64 bytes: read whole, searched, edited.
//!
//! A front member is a key, mini-bucket × 2^16 + tag; a backyard member is key × 16 + crumb.
//! Every function takes a pointer to the 64 bytes of a bucket. Those that say so rely on a
//! sound bucket.
#![allow(clippy::missing_safety_doc)]

use crate::bits::{low, lowest_one, select, with_zero, without_zero};

/// The word of an empty bucket.
pub const EMPTY: u64 = (1 << 36) - 1;
pub const FRONT_SLOTS: u32 = 28;
pub const BACKYARD_SLOTS: u32 = 22;
/// Room for all keys of a front bucket: its own, and those of both backyard buckets.
pub type Keys = [u32; 72];
/// Every crumb is valid.
pub const ALL_CRUMBS: u32 = 0xFFFF;

#[inline(always)]
pub unsafe fn word(b: *const u8) -> u64 {
    u64::from_le((b as *const u64).read_unaligned())
}

#[inline(always)]
unsafe fn put_word(b: *mut u8, word: u64) {
    (b as *mut u64).write_unaligned(word.to_le());
}

#[inline(always)]
pub unsafe fn tag(b: *const u8, slot: u32) -> u32 {
    u16::from_le((b.add(8 + 2 * slot as usize) as *const u16).read_unaligned()) as u32
}

#[inline(always)]
pub unsafe fn put_tag(b: *mut u8, slot: u32, tag: u32) {
    (b.add(8 + 2 * slot as usize) as *mut u16).write_unaligned((tag as u16).to_le());
}

/// Crumbs of slots 0 to 15, and of slots 16 to 21 with byte 63 on top.
#[inline(always)]
pub unsafe fn crumbs(b: *const u8) -> (u64, u32) {
    let low = u64::from_le((b.add(52) as *const u64).read_unaligned());
    let high = u32::from_le((b.add(60) as *const u32).read_unaligned());
    (low, high)
}

#[inline(always)]
pub unsafe fn crumb(b: *const u8, slot: u32) -> u32 {
    (*b.add(52 + slot as usize / 2) >> (4 * (slot % 2)) & 15) as u32
}

#[inline(always)]
unsafe fn put_crumbs(b: *mut u8, crumbs: u128) {
    (b.add(52) as *mut u64).write_unaligned((crumbs as u64).to_le());
    (b.add(60) as *mut u32).write_unaligned(((crumbs >> 64) as u32).to_le());
}

/// The members of a sound bucket.
#[inline(always)]
pub fn members(word: u64) -> u32 {
    28 - word.leading_zeros()
}

/// A bucket read whole and found sound: its word, and how many members are below a key.
#[derive(Clone, Copy)]
pub struct Read {
    pub word: u64,
    pub below: u32,
}

/// Repeats a step for slots 0 to 21, or 0 to 27, written out: a loop costs up to a third more.
macro_rules! backyard_slots {
    ($step:ident) => {
        $step!(0 1 2 3 4 5 6 7 8 9 10 11 12 13 14 15 16 17 18 19 20 21)
    };
}
macro_rules! front_slots {
    ($step:ident) => {
        backyard_slots!($step);
        $step!(22 23 24 25 26 27)
    };
}

/// Reads a front bucket whole, and counts the members below `key`; nothing where it is unsound.
///
/// With 36 ones the word has 28 zeros, so the slots past the members read as mini-bucket 36.
/// That the members ascend and the rest is 0 is then one statement: the keys of all slots
/// ascend, and the last is at most (36, 0).
#[inline(always)]
#[allow(unused_assignments)]
pub unsafe fn read_front(b: *const u8, key: u32) -> Option<Read> {
    let word = word(b);
    if word.count_ones() != 36 {
        return None;
    }
    let mut zeros = !word;
    let (mut last, mut below) = (0, 0);
    macro_rules! step {
        ($($slot:literal)*) => {$(
            let mini = lowest_one(zeros) - $slot;
            zeros &= zeros - 1;
            let here = mini << 16 | tag(b, $slot);
            if here < last {
                return None;
            }
            last = here;
            below += (here < key) as u32;
        )*};
    }
    front_slots!(step);
    (last <= 36 << 16).then_some(Read { word, below })
}

/// Reads a backyard bucket whole, and counts the members below `key`. Bit c of `valid` tells
/// whether crumb c is valid here.
#[inline(always)]
#[allow(unused_assignments)]
pub unsafe fn read_backyard(b: *const u8, valid: u32, key: u32) -> Option<Read> {
    let word = word(b);
    if word.count_ones() != 36 || word.leading_zeros() < 6 {
        return None;
    }
    let (crumbs0, crumbs1) = crumbs(b);
    if crumbs1 >> 24 != 0 {
        return None;
    }
    let mut zeros = !word;
    let (mut last, mut below) = (0, 0);
    macro_rules! step {
        ($($slot:literal)*) => {$(
            let mini = lowest_one(zeros) - $slot;
            zeros &= zeros - 1;
            let crumb = if $slot < 16 {
                (crumbs0 >> (4 * ($slot % 16))) as u32 & 15
            } else {
                crumbs1 >> (4 * ($slot % 16)) & 15
            };
            let here = mini << 20 | tag(b, $slot) << 4 | crumb;
            if here < last {
                return None;
            }
            last = here;
            below += (here < key) as u32;
        )*};
    }
    backyard_slots!(step);
    (last <= 36 << 20 && crumbs_valid(b, word, valid)).then_some(Read { word, below })
}

/// Whether the crumbs of all members are among the valid ones.
#[inline(always)]
pub unsafe fn crumbs_valid(b: *const u8, word: u64, valid: u32) -> bool {
    if valid != ALL_CRUMBS {
        for slot in 0..members(word) {
            if valid >> crumb(b, slot) & 1 == 0 {
                return false;
            }
        }
    }
    true
}

/// Whether slot `slot` is a member of mini-bucket `mini`, where the members of lower
/// mini-buckets are all before it.
#[inline(always)]
fn is_in(word: u64, mini: u32, slot: u32) -> bool {
    word >> (mini + slot) & 1 == 0
}

/// Whether a slot of a sound front bucket holds the key, where the members below it are all before
/// that slot. The tag is tested first: whether the mini-bucket goes on is hard to foresee.
#[inline(always)]
unsafe fn holds_front(b: *const u8, word: u64, key: u32, slot: u32) -> bool {
    slot < FRONT_SLOTS && tag(b, slot) == key & 0xFFFF && is_in(word, key >> 16, slot)
}

#[inline(always)]
unsafe fn holds_backyard(b: *const u8, word: u64, key: u32, slot: u32) -> bool {
    slot < BACKYARD_SLOTS
        && tag(b, slot) << 4 | crumb(b, slot) == key & 0xFFFFF
        && is_in(word, key >> 20, slot)
}

/// The copies of a key in a sound front bucket, which stand from slot `below` on.
#[inline(always)]
pub unsafe fn copies_front(b: *const u8, read: Read, key: u32) -> u32 {
    let mut slot = read.below;
    while holds_front(b, read.word, key, slot) {
        slot += 1;
    }
    slot - read.below
}

/// Whether slot `below` of a sound front bucket holds the key.
#[inline(always)]
pub unsafe fn found_front(b: *const u8, read: Read, key: u32) -> bool {
    holds_front(b, read.word, key, read.below)
}

/// The copies of a key that slot `below` of a sound front bucket holds. The tag is tested before the
/// slot: past the last slot it is read from the next bucket, and every front bucket has one.
#[inline(always)]
pub unsafe fn run_front(b: *const u8, read: Read, key: u32) -> u32 {
    let mut slot = read.below + 1;
    while tag(b, slot) == key & 0xFFFF && slot < FRONT_SLOTS && is_in(read.word, key >> 16, slot) {
        slot += 1;
    }
    slot - read.below
}

/// The copies of a key in a sound backyard bucket, which stand from slot `below` on.
#[inline(always)]
pub unsafe fn copies_backyard(b: *const u8, read: Read, key: u32) -> u32 {
    let mut slot = read.below;
    while holds_backyard(b, read.word, key, slot) {
        slot += 1;
    }
    slot - read.below
}

/// Whether slot `below` of a sound backyard bucket holds the key.
#[inline(always)]
pub unsafe fn found_backyard(b: *const u8, read: Read, key: u32) -> bool {
    holds_backyard(b, read.word, key, read.below)
}

/// The copies of a key that slot `below` of a sound backyard bucket holds. The tag is tested before
/// the slot: past the last slot there are crumbs.
#[inline(always)]
pub unsafe fn run_backyard(b: *const u8, read: Read, key: u32) -> u32 {
    let mut slot = read.below + 1;
    while tag(b, slot) == key >> 4 & 0xFFFF && holds_backyard(b, read.word, key, slot) {
        slot += 1;
    }
    slot - read.below
}

/// The mini-bucket of a member by its slot.
#[inline(always)]
pub fn mini_of(word: u64, slot: u32) -> u32 {
    select(!word, slot) - slot
}

/// The key of the last member of a sound front bucket that holds 28.
#[inline(always)]
pub unsafe fn largest(b: *const u8, word: u64) -> u32 {
    (36 - word.leading_ones()) << 16 | tag(b, 27)
}

/// The slot where a mini-bucket starts.
#[inline(always)]
fn start_of(word: u64, mini: u32) -> u32 {
    if mini == 0 {
        0
    } else {
        select(word, mini - 1) + 1 - mini
    }
}

/// The lowest slot of a sound backyard bucket with this crumb.
#[inline(always)]
pub unsafe fn first_with_crumb(b: *const u8, word: u64, crumb: u32) -> Option<u32> {
    const ONES: u64 = 0x1111111111111111;
    let (crumbs0, crumbs1) = crumbs(b);
    let pattern = crumb as u64 * ONES;
    // The lowest zero of four bits shows as the lowest marked one.
    let marks = |x: u64| x.wrapping_sub(ONES) & !x & (ONES << 3);
    let (low, high) = (
        marks(crumbs0 ^ pattern),
        marks(crumbs1 as u64 ^ pattern & 0xFFFFFF),
    );
    let slot = if low != 0 {
        lowest_one(low) / 4
    } else if high != 0 {
        16 + lowest_one(high) / 4
    } else {
        return None;
    };
    (slot < members(word)).then_some(slot)
}

/// How many members of a sound backyard bucket have this crumb.
#[inline(always)]
pub unsafe fn count_crumb(b: *const u8, word: u64, crumb: u32) -> u32 {
    const ONES: u64 = 0x1111111111111111;
    let (crumbs0, crumbs1) = crumbs(b);
    let pattern = crumb as u64 * ONES;
    // One mark for each four bits that are not 0.
    let marks = |x: u64| {
        let x = x | x >> 2;
        (x | x >> 1) & ONES
    };
    let other = marks(crumbs0 ^ pattern).count_ones()
        + marks((crumbs1 as u64 ^ pattern) & 0xFFFFFF).count_ones();
    // Unused slots hold crumb 0.
    let unused = if crumb == 0 { 22 - members(word) } else { 0 };
    22 - other - unused
}

/// What a call does with a bucket. The provided methods are those of `fast`; another way may have
/// others that give the same.
pub trait Bucket {
    /// Reads a front bucket whole, and counts the members below `key`; nothing where it is unsound.
    #[inline(always)]
    unsafe fn read_front(b: *const u8, key: u32) -> Option<Read> {
        read_front(b, key)
    }

    /// Reads a backyard bucket whole, and counts the members below `key`. Bit c of `valid` tells
    /// whether crumb c is valid here.
    #[inline(always)]
    unsafe fn read_backyard(b: *const u8, valid: u32, key: u32) -> Option<Read> {
        read_backyard(b, valid, key)
    }

    /// How many members of a sound front bucket are below a key, without reading it whole.
    #[inline(always)]
    unsafe fn rank_front(b: *const u8, word: u64, key: u32) -> u32 {
        let (mini, wanted) = (key >> 16, key & 0xFFFF);
        let mut slot = start_of(word, mini);
        while slot < FRONT_SLOTS && is_in(word, mini, slot) && tag(b, slot) < wanted {
            slot += 1;
        }
        slot
    }

    /// The same for a sound backyard bucket.
    #[inline(always)]
    unsafe fn rank_backyard(b: *const u8, word: u64, key: u32) -> u32 {
        let mini = key >> 20;
        let mut slot = start_of(word, mini);
        while slot < BACKYARD_SLOTS
            && is_in(word, mini, slot)
            && tag(b, slot) << 4 | crumb(b, slot) < key & 0xFFFFF
        {
            slot += 1;
        }
        slot
    }

    /// The keys, without their crumb, of the members of a sound backyard bucket with this crumb,
    /// written from `at` on; where they end.
    #[inline(always)]
    unsafe fn keys_with_crumb(
        b: *const u8,
        word: u64,
        wanted: u32,
        keys: &mut [u32],
        mut at: usize,
    ) -> usize {
        let mut zeros = !word;
        for slot in 0..members(word) {
            let mini = lowest_one(zeros) - slot;
            zeros &= zeros - 1;
            if crumb(b, slot) == wanted {
                *keys.get_unchecked_mut(at) = mini << 16 | tag(b, slot);
                at += 1;
            }
        }
        at
    }

    /// Merges so many keys of two lists that ascend, at most 28 of both, into the start of `keys`.
    #[inline(always)]
    unsafe fn merge_keys(
        (first, kept): (&Keys, usize),
        (second, taken): (&Keys, usize),
        keys: &mut [u32; 28],
    ) {
        let (mut i, mut j) = (0, 0);
        for to in 0..kept + taken {
            let from_first =
                j == taken || (i < kept && *first.get_unchecked(i) <= *second.get_unchecked(j));
            let key = if from_first {
                i += 1;
                *first.get_unchecked(i - 1)
            } else {
                j += 1;
                *second.get_unchecked(j - 1)
            };
            *keys.get_unchecked_mut(to) = key;
        }
    }

    /// Moves `how_many` tags from `slot` on one slot up, in a bucket with so many slots. Those past
    /// them hold 0, or there is one, which need not stay.
    #[inline(always)]
    unsafe fn move_up(b: *mut u8, _slots: u32, slot: u32, how_many: u32) {
        let from = b.add(8 + 2 * slot as usize);
        std::ptr::copy(from, from.add(2), 2 * how_many as usize);
    }

    /// Moves `how_many` tags from `slot` + 1 on one slot down. Those past them hold 0.
    #[inline(always)]
    unsafe fn move_down(b: *mut u8, _slots: u32, slot: u32, how_many: u32) {
        let to = b.add(8 + 2 * slot as usize);
        std::ptr::copy(to.add(2), to, 2 * how_many as usize);
    }

    /// Puts a key into slot `slot` of a sound front bucket with room. The word is stored last: tags
    /// that are moved together are read from its end on.
    #[inline(always)]
    unsafe fn insert_front(b: *mut u8, word: u64, slot: u32, key: u32) {
        Self::move_up(b, FRONT_SLOTS, slot, members(word) - slot);
        put_tag(b, slot, key);
        put_word(b, with_zero(word, slot + (key >> 16)));
    }

    /// Takes the last of 28 out of a sound front bucket and puts a key, not above it, into `slot`.
    #[inline(always)]
    unsafe fn push_front(b: *mut u8, word: u64, slot: u32, key: u32) {
        let rest = without_zero(word, 63 - word.leading_ones());
        Self::move_up(b, FRONT_SLOTS, slot, 27 - slot);
        put_tag(b, slot, key);
        put_word(b, with_zero(rest, slot + (key >> 16)));
    }

    /// Takes a key out of its slot of a sound front bucket.
    #[inline(always)]
    unsafe fn remove_front(b: *mut u8, word: u64, slot: u32, key: u32) {
        Self::move_down(b, FRONT_SLOTS, slot, members(word) - slot - 1);
        put_tag(b, members(word) - 1, 0);
        put_word(b, without_zero(word, slot + (key >> 16)));
    }

    /// Puts a key into slot `slot` of a sound backyard bucket with room.
    #[inline(always)]
    unsafe fn insert_backyard(b: *mut u8, word: u64, slot: u32, key: u32) {
        Self::move_up(b, BACKYARD_SLOTS, slot, members(word) - slot);
        put_tag(b, slot, key >> 4);
        put_word(b, with_zero(word, slot + (key >> 20)));
        let (crumbs0, crumbs1) = crumbs(b);
        let all = (crumbs1 as u128) << 64 | crumbs0 as u128;
        let kept = all & ((1 << (4 * slot)) - 1);
        let crumb = (key as u128 & 15) << (4 * slot);
        put_crumbs(b, kept | crumb | (all ^ kept) << 4);
    }

    /// Takes a key out of its slot of a sound backyard bucket.
    #[inline(always)]
    unsafe fn remove_backyard(b: *mut u8, word: u64, slot: u32, key: u32) {
        Self::move_down(b, BACKYARD_SLOTS, slot, members(word) - slot - 1);
        put_tag(b, members(word) - 1, 0);
        put_word(b, without_zero(word, slot + (key >> 20)));
        let (crumbs0, crumbs1) = crumbs(b);
        let all = (crumbs1 as u128) << 64 | crumbs0 as u128;
        let kept = all & ((1 << (4 * slot)) - 1);
        put_crumbs(b, kept | (all >> (4 * slot + 4)) << (4 * slot));
    }
}

/// The way of `fast`.
pub struct Plain;

impl Bucket for Plain {}

/// An empty bucket.
#[inline(always)]
pub unsafe fn clear(b: *mut u8) {
    std::ptr::write_bytes(b, 0, 64);
    put_word(b, EMPTY);
}

/// The keys of a sound front bucket; how many.
#[inline(always)]
pub unsafe fn keys_front(b: *const u8, word: u64, keys: &mut [u32]) -> usize {
    let n = members(word);
    let mut zeros = !word;
    for slot in 0..n {
        let mini = lowest_one(zeros) - slot;
        zeros &= zeros - 1;
        *keys.get_unchecked_mut(slot as usize) = mini << 16 | tag(b, slot);
    }
    n as usize
}

/// A front bucket with these keys, at most 28 and ascending.
#[inline(always)]
pub unsafe fn write_front(b: *mut u8, keys: &[u32]) {
    std::ptr::write_bytes(b, 0, 64);
    let mut zeros = 0;
    for (slot, key) in keys.iter().enumerate() {
        zeros |= 1 << ((key >> 16) + slot as u32);
        put_tag(b, slot as u32, *key);
    }
    let bits = 36 + keys.len() as u32;
    let all = if bits == 64 { u64::MAX } else { low(bits) };
    put_word(b, all & !zeros);
}
