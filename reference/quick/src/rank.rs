//! How many members of a sound bucket are below a key: select finds its mini-bucket, and four tags
//! from there on are compared at once.

use crate::lanes::{all, four, not_below, TOPS};
use fast::bits::select;
use fast::bucket::{crumb, tag};

/// The first of four slots from `slot` on whose tag is not below `wanted`; 4 past it where there is
/// none. Past the slots of a bucket other bytes are read, and past every bucket there are some.
#[inline(always)]
unsafe fn first_not_below(b: *const u8, slot: u32, wanted: u32) -> u32 {
    let marks = not_below(four(b, slot), all(wanted)) & TOPS;
    slot + marks.trailing_zeros() / 16
}

/// The slots of a mini-bucket: the first, and the one past the last. With a one below the word every
/// mini-bucket, the first too, begins past a one.
#[inline(always)]
fn slots_of(word: u64, mini: u32) -> (u32, u32) {
    let start = select(word << 1 | 1, mini) - mini;
    (start, start + (word >> (start + mini)).trailing_zeros())
}

/// The first of these slots whose tag is not below `wanted`. A mini-bucket seldom has more than four.
#[inline(always)]
unsafe fn rank(b: *const u8, start: u32, end: u32, wanted: u32) -> u32 {
    let mut slot = first_not_below(b, start, wanted);
    if end > start + 4 && slot == start + 4 {
        while slot < end && tag(b, slot) < wanted {
            slot += 1;
        }
    }
    slot.min(end)
}

#[inline(always)]
pub unsafe fn rank_front(b: *const u8, word: u64, key: u32) -> u32 {
    let (start, end) = slots_of(word, key >> 16);
    rank(b, start, end, key & 0xFFFF)
}

/// Members with the same tag are in the order of their crumbs.
#[inline(always)]
pub unsafe fn rank_backyard(b: *const u8, word: u64, key: u32) -> u32 {
    let (start, end) = slots_of(word, key >> 20);
    let mut slot = rank(b, start, end, key >> 4 & 0xFFFF);
    while slot < end && tag(b, slot) == key >> 4 & 0xFFFF && crumb(b, slot) < key & 15 {
        slot += 1;
    }
    slot
}
