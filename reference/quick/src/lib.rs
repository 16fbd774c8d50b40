//! The calls of `fast` with the library's ideas for a bucket: a quick test in the place of the read
//! slot by slot, a rank by lanes of a word, tags moved by masks, crumbs by halves of a word, keys
//! merged by selects.
//!
//! What passes the quick test is sound, and hardly a sound bucket fails it; where one does, the read
//! of `fast` decides. All the rest is that of `fast`.

mod borders;
mod edits;
mod lanes;
mod lists;
mod rank;
mod test;

use fast::bucket::{self, Bucket, Keys, Read};

/// This way with buckets.
pub struct Words;

impl Bucket for Words {
    #[inline(always)]
    unsafe fn read_front(b: *const u8, key: u32) -> Option<Read> {
        let word = bucket::word(b);
        if !test::passes_front(b, word) {
            return exact_front(b, key);
        }
        let below = rank::rank_front(b, word, key);
        Some(Read { word, below })
    }

    #[inline(always)]
    unsafe fn read_backyard(b: *const u8, valid: u32, key: u32) -> Option<Read> {
        let word = bucket::word(b);
        if !test::passes_backyard(b, word) || !bucket::crumbs_valid(b, word, valid) {
            return exact_backyard(b, valid, key);
        }
        let below = rank::rank_backyard(b, word, key);
        Some(Read { word, below })
    }

    #[inline(always)]
    unsafe fn rank_front(b: *const u8, word: u64, key: u32) -> u32 {
        rank::rank_front(b, word, key)
    }

    #[inline(always)]
    unsafe fn rank_backyard(b: *const u8, word: u64, key: u32) -> u32 {
        rank::rank_backyard(b, word, key)
    }

    #[inline(always)]
    unsafe fn keys_with_crumb(
        b: *const u8,
        word: u64,
        wanted: u32,
        keys: &mut [u32],
        at: usize,
    ) -> usize {
        lists::keys_with_crumb(b, word, wanted, keys, at)
    }

    #[inline(always)]
    unsafe fn merge_keys(first: (&Keys, usize), second: (&Keys, usize), keys: &mut [u32; 28]) {
        lists::merge_keys(first, second, keys)
    }

    #[inline(always)]
    unsafe fn move_up(b: *mut u8, slots: u32, slot: u32, _: u32) {
        edits::move_up(b, slots, slot)
    }

    #[inline(always)]
    unsafe fn move_down(b: *mut u8, slots: u32, slot: u32, _: u32) {
        edits::move_down(b, slots, slot)
    }
}

#[cold]
#[inline(never)]
unsafe fn exact_front(b: *const u8, key: u32) -> Option<Read> {
    bucket::read_front(b, key)
}

#[cold]
#[inline(never)]
unsafe fn exact_backyard(b: *const u8, valid: u32, key: u32) -> Option<Read> {
    bucket::read_backyard(b, valid, key)
}

fast::calls!(Words);

#[cfg(test)]
mod tests {
    use super::*;

    fn random(state: &mut u64, below: u64) -> u64 {
        *state = state.wrapping_mul(6364136223846793005).wrapping_add(1);
        (*state >> 33) % below
    }

    /// Keys of a few tags, so that equal ones occur, ascending.
    fn keys(state: &mut u64, most: u64, crumbs: u64) -> Vec<u32> {
        let n = random(state, most + 1);
        let tag = |state: &mut u64| random(state, 6) * 0x3333;
        let key = |state: &mut u64| (random(state, 36) << 16 | tag(state)) * crumbs;
        let keys = (0..n).map(|_| key(state) + random(state, crumbs));
        let mut keys: Vec<u32> = keys.map(|key| key as u32).collect();
        keys.sort_unstable();
        keys
    }

    /// A bucket with some bytes behind it, as every front bucket has.
    fn bucket_of(keys: &[u32], crumbs: bool) -> [u8; 80] {
        let mut bytes = [0; 80];
        let b = bytes.as_mut_ptr();
        unsafe {
            bucket::clear(b);
            for (slot, &key) in (0..).zip(keys) {
                match crumbs {
                    true => Words::insert_backyard(b, bucket::word(b), slot, key),
                    false => Words::insert_front(b, bucket::word(b), slot, key),
                }
            }
        }
        bytes
    }

    /// Sound buckets and ones with a bit or two changed are read as `fast` reads them.
    #[test]
    fn reads_as_fast() {
        let mut state = 1;
        let mut sound = 0;
        for round in 0..200_000 {
            let crumbs = round % 2 == 1;
            let (most, each) = if crumbs { (22, 16) } else { (28, 1) };
            let mut bytes = bucket_of(&keys(&mut state, most, each), crumbs);
            for _ in 0..random(&mut state, 3) {
                bytes[random(&mut state, 64) as usize] ^= 1 << random(&mut state, 8);
            }
            let key = (random(&mut state, 36) << 16 | random(&mut state, 6) * 0x3333) * each;
            let (b, key) = (bytes.as_ptr(), (key + random(&mut state, each)) as u32);
            let valid = [0xFFFF, 0xFF7F][random(&mut state, 2) as usize];
            let [ours, theirs] = unsafe {
                match crumbs {
                    true => [Words::read_backyard, bucket::read_backyard].map(|r| r(b, valid, key)),
                    false => [Words::read_front, bucket::read_front].map(|r| r(b, key)),
                }
            };
            let told = |read: Option<Read>| read.map(|read| (read.word, read.below));
            assert_eq!(told(ours), told(theirs), "round {round}");
            sound += ours.is_some() as u32;
        }
        assert!((50_000..150_000).contains(&sound), "{sound}");
    }
}
