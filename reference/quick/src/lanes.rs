//! Words of four tags, a lane each.

/// The top bit of each lane.
pub const TOPS: u64 = 0x8000800080008000;
const ONES: u64 = 0x0001000100010001;

/// The tags of four slots from `slot` on.
#[inline(always)]
pub unsafe fn four(b: *const u8, slot: u32) -> u64 {
    u64::from_le((b.add(8 + 2 * slot as usize) as *const u64).read_unaligned())
}

/// A tag in each lane.
#[inline(always)]
pub fn all(tag: u32) -> u64 {
    tag as u64 * ONES
}

/// The top bit of each lane tells whether x is not below y there; the other bits tell nothing.
#[inline(always)]
pub fn not_below(x: u64, y: u64) -> u64 {
    // Without the top bits no lane borrows from the next.
    let difference = (x | TOPS) - (y & !TOPS);
    y ^ ((y ^ x) | (y ^ difference))
}

/// Four bits as the top bits of the lanes; the other bits tell nothing.
#[inline(always)]
pub fn spread(bits: u32) -> u64 {
    (bits as u64 & 15) * (1 << 15 | 1 << 30 | 1 << 45 | 1 << 60)
}

/// Ones in as many lanes as a window of it starts before the middle, then zeros.
static KEEP: [u16; 56] = keep();

const fn keep() -> [u16; 56] {
    let mut table = [0; 56];
    let mut at = 0;
    while at < 28 {
        table[at] = u16::MAX;
        at += 1;
    }
    table
}

/// Ones in the lanes of the slots below `slot`, zeros in the others, two slots to a number.
#[inline(always)]
pub unsafe fn below<const PAIRS: usize>(slot: u32) -> [u32; PAIRS] {
    let from = KEEP.as_ptr().add(28 - slot as usize);
    (from as *const [u32; PAIRS]).read_unaligned()
}

/// The lanes that begin at a byte, two to a number.
#[inline(always)]
pub unsafe fn pairs<const PAIRS: usize>(from: *const u8) -> [u32; PAIRS] {
    (from as *const [u32; PAIRS]).read_unaligned()
}

#[cfg(test)]
mod tests {
    use super::*;

    #[test]
    fn compares() {
        let tags = [0, 1, 0x7FFF, 0x8000, 0x8001, 0xFFFF];
        for x in tags {
            for y in tags {
                for lane in 0..4 {
                    let others = !(0xFFFF << (16 * lane));
                    let [x4, y4] = [x, y].map(|tag| (tag as u64) << (16 * lane));
                    let above = not_below(x4 | others, y4) >> (16 * lane + 15) & 1;
                    let below = not_below(x4, y4 | others) >> (16 * lane + 15) & 1;
                    assert_eq!((above, below), ((x >= y) as u64, (x >= y) as u64));
                }
            }
        }
    }

    #[test]
    fn spreads() {
        for bits in 0..16 {
            let lanes = (0..4).map(|lane| (bits as u64 >> lane & 1) << (16 * lane + 15));
            assert_eq!(spread(bits) & TOPS, lanes.sum());
        }
    }
}
