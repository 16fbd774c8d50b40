//! Members of a backyard bucket by their crumb, and two lists of keys merged.

use fast::bits::{low, lowest_one};
use fast::bucket::{crumbs, members, mini_of, tag, Keys};

/// One for each four bits.
const ONES: u64 = 0x1111111111111111;

/// A mark for each four bits that are 0.
#[inline(always)]
fn zeros(x: u64) -> u64 {
    let x = x | x >> 2;
    !(x | x >> 1) & ONES
}

/// Crumbs are compared 16 at a time; only those found take a step.
#[inline(always)]
pub unsafe fn keys_with_crumb(
    b: *const u8,
    word: u64,
    wanted: u32,
    keys: &mut [u32],
    mut at: usize,
) -> usize {
    let n = members(word);
    let (crumbs0, crumbs1) = crumbs(b);
    let pattern = wanted as u64 * ONES;
    let used = |n: u32| if n < 16 { low(4 * n) } else { u64::MAX };
    let halves = [
        (0, zeros(crumbs0 ^ pattern) & used(n)),
        (
            16,
            zeros(crumbs1 as u64 ^ pattern) & used(n.saturating_sub(16)),
        ),
    ];
    for (first, mut marks) in halves {
        while marks != 0 {
            let slot = first + lowest_one(marks) / 4;
            marks &= marks - 1;
            *keys.get_unchecked_mut(at) = mini_of(word, slot) << 16 | tag(b, slot);
            at += 1;
        }
    }
    at
}

/// The lower of two keys by selects: which one it is cannot be foreseen.
#[inline(always)]
pub unsafe fn merge_keys(
    (first, kept): (&Keys, usize),
    (second, taken): (&Keys, usize),
    keys: &mut [u32; 28],
) {
    let (mut i, mut j) = (0, 0);
    for key in keys.get_unchecked_mut(..kept + taken) {
        let (x, y) = (*first.get_unchecked(i), *second.get_unchecked(j));
        let x = if i < kept { x } else { u32::MAX };
        let y = if j < taken { y } else { u32::MAX };
        let from_first = x <= y;
        *key = if from_first { x } else { y };
        i += from_first as usize;
        j += !from_first as usize;
    }
}
