//! Fingerprints: what the catalogue keeps of a hash.

use crate::shape::{Shape, MINIS, TAGS};

/// A fingerprint. The derived order is the order by its number.
#[derive(Clone, Copy, PartialEq, Eq, PartialOrd, Ord, Debug)]
pub struct Fingerprint {
    pub front: u64,
    pub mini: u64,
    pub tag: u64,
}

impl Fingerprint {
    /// The fingerprint of a hash in an image of this shape.
    pub fn of_hash(hash: u64, shape: Shape) -> Fingerprint {
        Fingerprint {
            front: (hash / 4294967296) * shape.fronts() / 4294967296,
            mini: (hash / 65536 % 65536) * MINIS / 65536,
            tag: hash % 65536,
        }
    }

    /// Document 01's g.
    pub fn number(self) -> u64 {
        (MINIS * self.front + self.mini) * TAGS + self.tag
    }
}

#[cfg(test)]
mod tests {
    use super::*;

    #[test]
    fn examples() {
        let of = |hash| {
            let g = Fingerprint::of_hash(hash, Shape { b: 3 });
            (g.front, g.mini, g.tag)
        };
        assert_eq!(of(0), (0, 0, 0));
        assert_eq!(of(u64::MAX), (23, 35, 65535));
        assert_eq!(of(0x8000000040000007), (12, 9, 7));
        let g = Fingerprint::of_hash(0x8000000040000007, Shape { b: 3 });
        assert_eq!(g.number(), 28_901_383);
    }
}
