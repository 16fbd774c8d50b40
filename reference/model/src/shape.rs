//! The lengths of an image and the numbers of its buckets.
//!
//! An image has its buckets, then its tail. An old image, document 01's, is the buckets alone.

/// Bytes of a bucket.
pub const BUCKET: usize = 64;
/// Bytes of a tail.
pub const TAIL: usize = 64;
/// Slots of a front bucket.
pub const FRONT_SLOTS: usize = 28;
/// Slots of a backyard bucket.
pub const BACKYARD_SLOTS: usize = 22;
/// Mini-buckets of a bucket.
pub const MINIS: u64 = 36;
/// Values of a tag.
pub const TAGS: u64 = 65536;

/// The shape of an image: document 01's B.
#[derive(Clone, Copy, PartialEq, Eq, Debug)]
pub struct Shape {
    pub b: u64,
}

impl Shape {
    /// The shape of an image of so many bytes: 576 × B + 512 with B from 1 to 65,536.
    pub fn of_length(length: usize) -> Option<Shape> {
        Shape::of_old_length(length.checked_sub(TAIL)?)
    }

    /// The shape of an old image of so many bytes: 576 × B + 448 with B from 1 to 65,536.
    pub fn of_old_length(length: usize) -> Option<Shape> {
        let b = length.checked_sub(448)? as u64 / 576;
        let shape = Shape { b };
        ((1..=65536).contains(&b) && shape.old_length() == length).then_some(shape)
    }

    /// Bytes of the image.
    pub fn length(self) -> usize {
        self.old_length() + TAIL
    }

    /// Bytes of its buckets: those of the old image.
    pub fn old_length(self) -> usize {
        576 * self.b as usize + 448
    }

    /// Front buckets: document 01's F.
    pub fn fronts(self) -> u64 {
        8 * self.b
    }

    /// Backyard buckets.
    pub fn backyards(self) -> u64 {
        self.b + 7
    }

    /// Front and backyard buckets together.
    pub fn buckets(self) -> u64 {
        self.fronts() + self.backyards()
    }

    /// The table number of a backyard bucket; that of a front bucket is its own number.
    pub fn table_number(self, backyard: u64) -> u64 {
        self.fronts() + backyard
    }

    /// The slots of all buckets, front and backyard together.
    pub fn slots(self) -> u64 {
        self.fronts() * FRONT_SLOTS as u64 + self.backyards() * BACKYARD_SLOTS as u64
    }
}

#[cfg(test)]
mod tests {
    use super::*;

    #[test]
    fn old_lengths() {
        let of = Shape::of_old_length;
        assert_eq!(of(1024), Some(Shape { b: 1 }));
        assert_eq!(of(65536), Some(Shape { b: 113 }));
        assert_eq!(of(37_749_184), Some(Shape { b: 65536 }));
        for wrong in [
            0, 1, 447, 448, 449, 575, 576, 1023, 1025, 1599, 1601, 37_749_760,
        ] {
            assert_eq!(of(wrong), None, "{wrong}");
        }
        assert_eq!((0..100_000).filter(|&n| of(n).is_some()).count(), 172);
    }

    #[test]
    fn lengths() {
        assert_eq!(Shape::of_length(1088), Some(Shape { b: 1 }));
        assert_eq!(Shape::of_length(2240), Some(Shape { b: 3 }));
        assert_eq!(Shape::of_length(65024), Some(Shape { b: 112 }));
        assert_eq!(Shape::of_length(37_749_248), Some(Shape { b: 65536 }));
        for wrong in [0, 63, 64, 512, 1024, 1087, 1089, 37_749_184, 37_749_824] {
            assert_eq!(Shape::of_length(wrong), None, "{wrong}");
        }
        for length in 0..100_000 {
            let forms = [Shape::of_length(length), Shape::of_old_length(length)];
            assert!(forms.contains(&None), "{length} is of both forms");
        }
    }

    #[test]
    fn buckets_fill_the_image() {
        for b in [1, 2, 3, 8, 20, 113, 65536] {
            let shape = Shape { b };
            assert_eq!(shape.buckets() as usize * BUCKET, shape.old_length());
            assert_eq!(shape.length(), 576 * b as usize + 512);
            assert_eq!(shape.slots(), 246 * b + 154);
        }
    }
}
