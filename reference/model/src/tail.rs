//! The tail of an image: its last 64 bytes.

use crate::shape::{Shape, TAIL};

/// The layout of every tail.
const LAYOUT: u8 = 1;

/// What a good tail tells.
#[derive(Clone, Copy, PartialEq, Eq, Debug)]
pub struct Tail {
    /// The members, as far as the tail knows.
    pub total: u64,
    /// The change count: inserts and deletes accepted since the image was started.
    pub changes: u64,
}

impl Tail {
    /// The tail of a fresh image.
    pub const FRESH: Tail = Tail {
        total: 0,
        changes: 0,
    };

    /// The tail of an image of this shape, or nothing where it is bad: an unknown layout, a rest
    /// byte that is not 0, or a total above the slots.
    pub fn of_image(image: &[u8], shape: Shape) -> Option<Tail> {
        let bytes = &image[shape.old_length()..];
        let [total, changes] = Tail::numbers_in(image);
        let tail = Tail { total, changes };
        // Layout and rest are right exactly when the tail gives these bytes again.
        (tail.bytes() == *bytes && tail.total <= shape.slots()).then_some(tail)
    }

    /// Total and change count in the last 64 bytes, a good tail or a bad one.
    pub fn numbers_in(image: &[u8]) -> [u64; 2] {
        let bytes = &image[image.len() - TAIL..];
        [0, 8].map(|at| u64::from_le_bytes(bytes[at..at + 8].try_into().unwrap()))
    }

    /// The change count of an image, its tail good or bad; nothing where no image has its length.
    pub fn changes_in(image: &[u8]) -> Option<u64> {
        Shape::of_length(image.len())?;
        let [_, changes] = Tail::numbers_in(image);
        Some(changes)
    }

    /// The total (bytes 0 to 7), the change count (8 to 15), the layout (16), then 0.
    pub fn bytes(self) -> [u8; TAIL] {
        let mut bytes = [0; TAIL];
        bytes[..8].copy_from_slice(&self.total.to_le_bytes());
        bytes[8..16].copy_from_slice(&self.changes.to_le_bytes());
        bytes[16] = LAYOUT;
        bytes
    }

    /// Becomes the tail of an image.
    pub fn write(self, image: &mut [u8]) {
        let from = image.len() - TAIL;
        image[from..].copy_from_slice(&self.bytes());
    }
}

#[cfg(test)]
mod tests {
    use super::*;

    const SHAPE: Shape = Shape { b: 3 };

    fn with(tail: Tail) -> Vec<u8> {
        let mut image = vec![0; SHAPE.length()];
        tail.write(&mut image);
        image
    }

    #[test]
    fn bytes_of_a_tail() {
        let image = with(Tail {
            total: 0x0102,
            changes: 0x0304,
        });
        let mut bytes = [0; 64];
        (bytes[0], bytes[1], bytes[8], bytes[9]) = (2, 1, 4, 3);
        bytes[16] = 1;
        assert_eq!(image[2176..], bytes);
        assert_eq!(image[..2176], [0; 2176]);
    }

    #[test]
    fn good_and_bad_totals() {
        for (total, good) in [(0, true), (891, true), (892, true), (893, false)] {
            for changes in [0, 1, u64::MAX] {
                let tail = Tail { total, changes };
                let read = Tail::of_image(&with(tail), SHAPE);
                assert_eq!(read, good.then_some(tail));
            }
        }
        for total in [1 << 32, 1 << 63, u64::MAX] {
            let tail = Tail { total, changes: 0 };
            assert_eq!(Tail::of_image(&with(tail), SHAPE), None);
        }
    }

    #[test]
    fn change_counts_of_any_tail() {
        let mut image = with(Tail {
            total: 5,
            changes: 0x0304,
        });
        assert_eq!(Tail::changes_in(&image), Some(0x0304));
        image[SHAPE.old_length() + 16] = 2;
        assert_eq!(Tail::changes_in(&image), Some(0x0304));
        for length in [0, 63, 2176, 2239] {
            assert_eq!(Tail::changes_in(&image[..length]), None);
        }
    }

    #[test]
    fn layout_and_rest() {
        for at in 16..TAIL {
            for value in 0..=255 {
                let mut image = with(Tail::FRESH);
                image[SHAPE.old_length() + at] = value;
                let good = value == (at == 16) as u8;
                assert_eq!(Tail::of_image(&image, SHAPE).is_some(), good);
            }
        }
    }
}
