//! A quick test of a bucket: what passes it is sound.

use crate::borders::borders;
use crate::lanes::{below, four, not_below, pairs, spread, TOPS};
use fast::bucket::{crumbs, members, tag};

/// The zeros among a word's places 0 to 62, where the last place has one more.
const ZEROS: u32 = 27;

/// The word has as many zeros as there are slots, tags fall at the end of a mini-bucket alone, and
/// the last slot is in use or 0. No slot ends the loop, so that four are compared at once.
#[inline(always)]
pub unsafe fn passes_front(b: *const u8, word: u64) -> bool {
    let bits = borders(word);
    let top = (word >> 63) as u32;
    if bits >> (ZEROS + top) != 1 {
        return false;
    }
    let mut right = TOPS;
    for slot in [0, 4, 8, 12, 16, 20, 23] {
        let rises = not_below(four(b, slot + 1), four(b, slot));
        right &= rises | spread((bits >> slot) as u32);
    }
    right == TOPS && (top == 1 || tag(b, 27) == 0)
}

/// The same for a backyard bucket, where the tags of a mini-bucket rise, and all past the members
/// is 0. Equal tags, whose crumbs tell the order, are left to the exact read.
#[inline(always)]
pub unsafe fn passes_backyard(b: *const u8, word: u64) -> bool {
    let bits = borders(word);
    if bits >> ZEROS != 1 || word >> 58 != 0 {
        return false;
    }
    let n = members(word);
    let barred = !(bits as u32 | u32::MAX << n);
    let mut wrong = 0;
    for slot in [0, 4, 8, 12, 16, 17] {
        let stays = not_below(four(b, slot), four(b, slot + 1));
        wrong |= stays & spread(barred >> slot);
    }
    let (tags, used) = (pairs::<11>(b.add(8)), below::<11>(n));
    let mut rest = 0;
    for pair in 0..11 {
        rest |= tags[pair] & !used[pair];
    }
    let (crumbs0, crumbs1) = crumbs(b);
    let crumbs = (crumbs1 as u128) << 64 | crumbs0 as u128;
    wrong & TOPS == 0 && rest == 0 && crumbs >> (4 * n) == 0
}
