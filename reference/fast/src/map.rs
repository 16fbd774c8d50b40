//! Lengths, slots, fingerprints, and the two backyard buckets of a front bucket.

use crate::bucket::ALL_CRUMBS;

/// The largest B.
const MOST: usize = 65536;

/// The shape of an image: document 01's B and K.
#[derive(Clone, Copy)]
pub struct Shape {
    pub b: u32,
    pub k: u32,
}

/// What a call needs to know of a hash.
#[derive(Clone, Copy)]
pub struct Fingerprint {
    pub front: u32,
    pub key: u32,
}

/// The two backyard buckets of a front bucket, the crumbs used there, and the crumbs that are
/// valid there.
#[derive(Clone, Copy)]
pub struct Homes {
    pub b0: u32,
    pub b1: u32,
    pub crumb0: u32,
    pub crumb1: u32,
}

impl Homes {
    /// Whether both are one backyard bucket. Its crumb is then that of the second, never that of the
    /// first.
    #[inline(always)]
    pub fn coincide(self) -> bool {
        self.b0 == self.b1
    }
}

/// The choice 0 crumb, as a bit, whose front bucket has b0 = b1 = j; none where there is no such
/// front bucket. j = e × K + t is below B. With b0 = j, b1 is j / 8 + d0 × K, so d0 is e and j / 8
/// is t.
#[inline(always)]
fn barred(j: u32, e: u32, t: u32) -> u32 {
    ((t == j / 8) as u32) << e
}

impl Shape {
    /// The shape of an image of the new form.
    #[inline(always)]
    pub fn of_length(length: usize) -> Option<Shape> {
        Shape::of_body(length.wrapping_sub(64))
    }

    /// The shape of an old image, and of a new one without its tail.
    #[inline(always)]
    pub fn of_body(length: usize) -> Option<Shape> {
        let b = length.wrapping_sub(448) / 576;
        if b == 0 || b > MOST || b * 576 + 448 != length {
            return None;
        }
        Some(Shape {
            b: b as u32,
            k: b as u32 / 8 + 1,
        })
    }

    #[inline(always)]
    pub fn fronts(self) -> u32 {
        8 * self.b
    }

    #[inline(always)]
    pub fn backyards(self) -> u32 {
        self.b + 7
    }

    /// The slots of all buckets.
    #[inline(always)]
    pub fn slots(self) -> u64 {
        246 * self.b as u64 + 154
    }

    #[inline(always)]
    pub fn fingerprint(self, hash: u64) -> Fingerprint {
        Fingerprint {
            front: (((hash >> 32) * self.fronts() as u64) >> 32) as u32,
            key: ((hash >> 16 & 0xFFFF) * 36) as u32 & 0xFFFF0000 | hash as u32 & 0xFFFF,
        }
    }

    #[inline(always)]
    pub fn homes(self, f: u32) -> Homes {
        let (b0, d0) = (f / 8, f % 8);
        Homes {
            b0,
            b1: b0 / 8 + d0 * self.k,
            crumb0: d0,
            crumb1: 8 + b0 % 8,
        }
    }

    /// The crumbs that are valid in backyard bucket j = e × K + t, a bit each.
    #[inline(always)]
    pub fn valid_at(self, j: u32, e: u32, t: u32) -> u32 {
        let choice0 = if j < self.b {
            0xFF & !barred(j, e, t)
        } else {
            0
        };
        let digits = if e < 8 { (self.b - 8 * t).min(8) } else { 0 };
        choice0 | ((1 << digits) - 1) << 8
    }

    #[inline(always)]
    pub fn valid(self, j: u32) -> u32 {
        // Where t is not the last, every digit is below B.
        let (e, t) = (j / self.k, j % self.k);
        if j < self.b && t + 1 < self.k && barred(j, e, t) == 0 {
            ALL_CRUMBS
        } else {
            self.valid_at(j, e, t)
        }
    }

    /// The front bucket that a valid crumb in backyard bucket j = e × K + t stands for.
    #[inline(always)]
    pub fn front_of(self, j: u32, e: u32, t: u32, crumb: u32) -> u32 {
        if crumb < 8 {
            8 * j + crumb
        } else {
            64 * t + 8 * (crumb - 8) + e
        }
    }
}

#[cfg(test)]
mod tests {
    use super::*;

    /// The crumbs of a bucket that some front bucket uses there: both of each, but where b0 = b1 the
    /// second alone.
    #[test]
    fn valid_crumbs_are_those_in_use() {
        for b in (1..=130).chain([511, 512, 513, 4096]) {
            let shape = Shape::of_body(576 * b + 448).expect("a good length");
            let mut in_use = vec![0; shape.backyards() as usize];
            for f in 0..shape.fronts() {
                let homes = shape.homes(f);
                in_use[homes.b1 as usize] |= 1 << homes.crumb1;
                if !homes.coincide() {
                    in_use[homes.b0 as usize] |= 1 << homes.crumb0;
                }
            }
            for (j, &in_use) in (0..).zip(&in_use) {
                assert_eq!(shape.valid(j), in_use);
                assert_eq!(shape.valid_at(j, j / shape.k, j % shape.k), in_use);
            }
        }
    }
}
