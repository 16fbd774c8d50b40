//! Words of unary counts: select, and a zero put in or taken out.

use std::num::NonZeroU64;

/// The lowest `n` bits, n below 64.
#[inline(always)]
pub fn low(n: u32) -> u64 {
    (1 << n) - 1
}

/// The place of the lowest one of a word that is not 0.
#[inline(always)]
pub fn lowest_one(x: u64) -> u32 {
    debug_assert!(x != 0);
    // The words here have more ones left than are asked for.
    unsafe { NonZeroU64::new_unchecked(x) }.trailing_zeros()
}

/// The word with a zero put in at bit `at`; its top bit was 0.
#[inline(always)]
pub fn with_zero(word: u64, at: u32) -> u64 {
    let kept = word & low(at);
    kept | ((word ^ kept) << 1)
}

/// The word with the zero at bit `at` taken out.
#[inline(always)]
pub fn without_zero(word: u64, at: u32) -> u64 {
    let kept = word & low(at);
    kept | ((word ^ kept) >> 1)
}

/// The place of the one bit of each rank 0 to 7 in every byte value, 8 where none.
static SELECT: [u8; 2048] = select_table();

const fn select_table() -> [u8; 2048] {
    let mut table = [8; 2048];
    let mut byte = 0;
    while byte < 256 {
        let (mut bit, mut rank) = (0, 0);
        while bit < 8 {
            if byte >> bit & 1 == 1 {
                table[8 * byte + rank] = bit as u8;
                rank += 1;
            }
            bit += 1;
        }
        byte += 1;
    }
    table
}

/// The place of the one of a rank, counted from 0; the word has more ones than that.
#[inline(always)]
pub fn select(word: u64, rank: u32) -> u32 {
    const ONES: u64 = 0x0101010101010101;
    const TOPS: u64 = 0x8080808080808080;
    // Byte i of `sums`: the ones in bytes 0 to i.
    let pairs = word - (word >> 1 & 0x5555555555555555);
    let fours = (pairs & 0x3333333333333333) + (pairs >> 2 & 0x3333333333333333);
    let sums = ((fours + (fours >> 4)) & 0x0F0F0F0F0F0F0F0F).wrapping_mul(ONES);
    // The top bit of each byte whose sum is above the rank; the lowest is the byte wanted.
    let above = ((sums | TOPS) - (rank as u64 + 1) * ONES) & TOPS;
    let shift = lowest_one(above) - 7;
    let before = (sums << 8) >> shift & 0xFF;
    let byte = word >> shift & 0xFF;
    let entry = 8 * byte + rank as u64 - before;
    shift + unsafe { *SELECT.get_unchecked(entry as usize) } as u32
}

#[cfg(test)]
mod tests {
    use super::*;

    #[test]
    fn selects() {
        let mut state = 1u64;
        for _ in 0..2000 {
            state = state.wrapping_mul(6364136223846793005).wrapping_add(1);
            let word = state ^ state >> 29;
            let ones = (0..64).filter(|&bit| word >> bit & 1 == 1);
            for (rank, bit) in ones.enumerate() {
                assert_eq!(select(word, rank as u32), bit);
            }
        }
        assert_eq!(select(u64::MAX, 63), 63);
    }

    #[test]
    fn zeros() {
        assert_eq!(with_zero(0b1011, 2), 0b10011);
        assert_eq!(without_zero(0b10011, 2), 0b1011);
        assert_eq!(with_zero(low(36), 0), (1 << 37) - 2);
        assert_eq!(with_zero(low(36), 35), (1 << 36) + (1 << 35) - 1);
    }
}
