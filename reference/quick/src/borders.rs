//! The zeros of a word and which of them stand right below a one, as bits of one number.

/// By eight bits: how many zeros the seven lowest have, and 8 times a number with a bit for each of
/// these zeros, the lowest first, 1 where the bit above it is one.
static PIECES: [u16; 256] = pieces();

const fn pieces() -> [u16; 256] {
    let mut table = [0; 256];
    let mut v = 0;
    while v < 256 {
        let (mut bit, mut zeros, mut ends) = (0, 0, 0);
        while bit < 7 {
            if v >> bit & 1 == 0 {
                ends |= (v >> (bit + 1) & 1) << zeros;
                zeros += 1;
            }
            bit += 1;
        }
        table[v] = (zeros + 8 * ends) as u16;
        v += 1;
    }
    table
}

/// A leading one, then a bit for each zero of the word's places 0 to 62, the lowest zero's the
/// lowest: 1 where the next bit is one. Seven places a step, from the top.
#[inline(always)]
pub fn borders(word: u64) -> u64 {
    let mut bits = 1;
    let mut at = 63;
    while at > 0 {
        at -= 7;
        let here = unsafe { *PIECES.get_unchecked((word >> at & 0xFF) as usize) } as u64;
        bits = (bits << (here & 7)) + (here >> 3);
    }
    bits
}

#[cfg(test)]
mod tests {
    use super::*;

    #[test]
    fn bit_by_bit() {
        let mut state = 1u64;
        for _ in 0..2000 {
            state = state.wrapping_mul(6364136223846793005).wrapping_add(1);
            let word = state ^ state >> 29;
            let zeros = (0..63).filter(|&at| word >> at & 1 == 0);
            let bits = zeros.enumerate().map(|(n, at)| (word >> (at + 1) & 1) << n);
            let n = (!word << 1).count_ones();
            assert_eq!(borders(word), bits.sum::<u64>() + (1 << n));
        }
    }
}
