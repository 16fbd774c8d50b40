//! Algorithm 1: the two backyard buckets of a front bucket, and the way back.
//!
//! The two may be one bucket, b0 = b1. The members of such a front bucket all carry choice 1 there.

use crate::shape::Shape;

/// A place for the overflow of one front bucket: a backyard bucket and the crumb used there.
#[derive(Clone, Copy, PartialEq, Eq, Debug)]
pub struct Home {
    pub bucket: u64,
    pub crumb: u64,
}

/// Choice and digit of a crumb, by its sixteen values.
pub fn split(crumb: u64) -> (u64, u64) {
    match crumb {
        0 => (0, 0),
        1 => (0, 1),
        2 => (0, 2),
        3 => (0, 3),
        4 => (0, 4),
        5 => (0, 5),
        6 => (0, 6),
        7 => (0, 7),
        8 => (1, 0),
        9 => (1, 1),
        10 => (1, 2),
        11 => (1, 3),
        12 => (1, 4),
        13 => (1, 5),
        14 => (1, 6),
        15 => (1, 7),
        _ => panic!("a crumb of four bits"),
    }
}

impl Shape {
    /// Document 01's K.
    fn stride(self) -> u64 {
        self.b / 8 + 1
    }

    /// The home of First(f): bucket b0, choice 0, digit d0. Nobody lives there where b0 = b1.
    pub fn first_home(self, f: u64) -> Home {
        Home {
            bucket: f / 8,
            crumb: f % 8,
        }
    }

    /// The home of Second(f): bucket b1, choice 1, digit d1.
    pub fn second_home(self, f: u64) -> Home {
        let b0 = f / 8;
        let (d0, d1) = (f % 8, b0 % 8);
        Home {
            bucket: b0 / 8 + d0 * self.stride(),
            crumb: 8 + d1,
        }
    }

    /// Whether the two backyard buckets of front bucket f are one: b0 = b1.
    pub fn coincides(self, f: u64) -> bool {
        self.first_home(f).bucket == self.second_home(f).bucket
    }

    /// The front buckets with b0 = b1, ascending.
    pub fn coinciding(self) -> Vec<u64> {
        (0..self.fronts()).filter(|&f| self.coincides(f)).collect()
    }

    /// The front bucket that a crumb in backyard bucket j stands for, if the crumb is valid: "a
    /// choice 0 crumb whose front bucket has b0 = b1 is unsound".
    pub fn front_of(self, j: u64, crumb: u64) -> Option<u64> {
        let f = self.way_back(j, crumb)?;
        let (choice, _) = split(crumb);
        (choice == 1 || !self.coincides(f)).then_some(f)
    }

    /// Document 01's way back, which knows nothing of b0 = b1.
    pub fn way_back(self, j: u64, crumb: u64) -> Option<u64> {
        let (choice, d) = split(crumb);
        if choice == 0 {
            (j < self.b).then_some(8 * j + d)
        } else {
            let e = j / self.stride();
            let t = j % self.stride();
            (e < 8 && 8 * t + d < self.b).then_some(64 * t + 8 * d + e)
        }
    }
}

#[cfg(test)]
mod tests {
    use super::*;

    fn homes(b: u64, f: u64) -> (u64, u64, u64, u64) {
        let (first, second) = (Shape { b }.first_home(f), Shape { b }.second_home(f));
        let (first_digit, second_digit) = (split(first.crumb).1, split(second.crumb).1);
        (first.bucket, second.bucket, first_digit, second_digit)
    }

    #[test]
    fn examples() {
        assert_eq!(homes(3, 13), (1, 5, 5, 1));
        assert_eq!(homes(8, 63), (7, 14, 7, 7));
        assert_eq!(homes(20, 159), (19, 23, 7, 3));
        assert_eq!(homes(20, 100), (12, 13, 4, 4));
        assert_eq!(homes(3, 9), (1, 1, 1, 1));
        assert_eq!(Shape { b: 20 }.front_of(13, 12), Some(100));
        assert_eq!(Shape { b: 20 }.front_of(13, 3), Some(107));
        assert_eq!(Shape { b: 3 }.front_of(8, 8), None);
    }

    /// A crumb is 8 × choice + digit.
    #[test]
    fn sixteen_crumbs() {
        for crumb in 0..16 {
            let (choice, digit) = split(crumb);
            assert!(choice < 2 && digit < 8);
            assert_eq!(8 * choice + digit, crumb);
        }
    }

    /// Every B up to 130, and some larger ones.
    fn shapes() -> impl Iterator<Item = Shape> {
        let larger = [200, 511, 512, 513, 4096, 65535, 65536];
        (1..=130).chain(larger).map(|b| Shape { b })
    }

    /// How many crumbs in all backyard buckets have a way back.
    fn valid(shape: Shape, back: fn(Shape, u64, u64) -> Option<u64>) -> usize {
        let crumbs = |j| (0..16).filter(move |&crumb| back(shape, j, crumb).is_some());
        (0..shape.backyards()).flat_map(crumbs).count()
    }

    /// Forth and back gives the same front bucket, but for choice 0 where b0 = b1, and every valid
    /// crumb comes from one.
    #[test]
    fn inverse() {
        for shape in shapes() {
            let fronts = shape.fronts() as usize;
            for f in 0..shape.fronts() {
                let (first, second) = (shape.first_home(f), shape.second_home(f));
                let back = |home: Home| shape.front_of(home.bucket, home.crumb);
                assert!(first.bucket < shape.backyards() && second.bucket < shape.backyards());
                assert_eq!(back(first), (!shape.coincides(f)).then_some(f));
                assert_eq!(back(second), Some(f));
                assert_eq!(shape.way_back(first.bucket, first.crumb), Some(f));
            }
            let coinciding = shape.coinciding().len();
            assert_eq!(valid(shape, Shape::way_back), 2 * fronts);
            assert_eq!(valid(shape, Shape::front_of), 2 * fronts - coinciding);
        }
    }

    #[test]
    fn coinciding_examples() {
        let coinciding = |b| Shape { b }.coinciding();
        assert_eq!(coinciding(1), [0]);
        assert_eq!(coinciding(2), [0, 9]);
        assert_eq!(coinciding(3), [0, 9, 18]);
        assert_eq!(coinciding(7), [0, 9, 18, 27, 36, 45, 54]);
        assert_eq!(coinciding(8), [0, 17, 34, 51]);
        assert_eq!(coinciding(9), [0, 17, 34, 51]);
        assert_eq!(coinciding(20), [0, 25, 50, 83, 108, 141]);
        // With K = 7 there are two for each digit.
        assert_eq!(
            coinciding(48),
            [0, 57, 65, 122, 130, 187, 195, 252, 260, 317, 325, 382]
        );
        let shape = Shape { b: 3 };
        let valid = |j, crumb| shape.front_of(j, crumb);
        assert_eq!([valid(1, 1), valid(1, 9)], [None, Some(9)]);
        // The same digit elsewhere, another digit there.
        assert_eq!([valid(0, 1), valid(2, 1)], [Some(1), Some(17)]);
        assert_eq!([valid(1, 0), valid(1, 2)], [Some(8), Some(10)]);
    }

    /// With b0 = 8q + r, b0 = b1 is 7q + r = d0 × K. So each digit below 7 has one, or two where K
    /// is a multiple of 7, as far as b0 < B; and a backyard bucket has one at most.
    #[test]
    fn coinciding_by_their_rule() {
        for shape in shapes() {
            let mut found = Vec::new();
            for d in 0..8 {
                let sum = d * shape.stride();
                for q in (sum / 7).saturating_sub(1)..=sum / 7 {
                    let (r, b0) = (sum - 7 * q, 8 * q + sum - 7 * q);
                    if r < 8 && b0 < shape.b {
                        found.push(8 * b0 + d);
                    }
                }
            }
            let coinciding = shape.coinciding();
            assert_eq!(found, coinciding);
            assert_eq!(coinciding[0], 0);
            assert!(coinciding.iter().all(|f| f % 8 < 7));
            assert!(coinciding.windows(2).all(|pair| pair[0] / 8 < pair[1] / 8));
        }
    }

    /// Backyard buckets that serve no front bucket.
    #[test]
    fn idle_buckets() {
        let idle = |b| -> Vec<u64> {
            let shape = Shape { b };
            (0..shape.backyards())
                .filter(|&j| (0..16).all(|crumb| shape.front_of(j, crumb).is_none()))
                .collect()
        };
        assert_eq!(idle(3), [8, 9]);
        assert_eq!(idle(8), [9, 11, 13]);
    }
}
