//! Tags moved by a slot, all of a bucket at once by masks: no branch depends on the slot.

use crate::lanes::{below, pairs};
use fast::bucket::put_tag;

/// The tags below `slot` stay, the others are those that begin at byte `from`.
#[inline(always)]
unsafe fn blend<const PAIRS: usize>(b: *mut u8, slot: u32, from: *const u8) {
    let (here, moved) = (pairs::<PAIRS>(b.add(8)), pairs::<PAIRS>(from));
    let keep = below::<PAIRS>(slot);
    let mut blended = [0; PAIRS];
    for pair in 0..PAIRS {
        blended[pair] = here[pair] & keep[pair] | moved[pair] & !keep[pair];
    }
    (b.add(8) as *mut [u32; PAIRS]).write_unaligned(blended);
}

/// The same in a bucket with so many slots.
#[inline(always)]
unsafe fn move_from(b: *mut u8, slots: u32, slot: u32, from: *const u8) {
    match slots {
        28 => blend::<14>(b, slot, from),
        _ => blend::<11>(b, slot, from),
    }
}

/// Tags from `slot` on go one slot up, and the last falls off.
#[inline(always)]
pub unsafe fn move_up(b: *mut u8, slots: u32, slot: u32) {
    move_from(b, slots, slot, b.add(6));
}

/// Tags past `slot` go one slot down, and the last slot holds 0: what was moved there is from past
/// the tags.
#[inline(always)]
pub unsafe fn move_down(b: *mut u8, slots: u32, slot: u32) {
    move_from(b, slots, slot, b.add(10));
    put_tag(b, slots - 1, 0);
}
