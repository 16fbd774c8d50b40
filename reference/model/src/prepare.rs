//! Helpers that bring calls and images about.

use crate::bucket::{self, Bytes, Member};
use crate::calls;
use crate::catalogue::Model;
use crate::fingerprint::Fingerprint;
use crate::random::Random;
use crate::shape::{Shape, BUCKET, MINIS};
use crate::stored::{Images, Line};
use crate::tail::Tail;

/// The smallest number whose product with `factor`, divided by `whole`, rounds down to `n`.
fn lowest(n: u64, factor: u64, whole: u64) -> u64 {
    (n * whole).div_ceil(factor)
}

/// A hash with a given fingerprint, one of the many.
pub fn hash_of(g: Fingerprint, shape: Shape, random: &mut Random) -> u64 {
    let mut between = |low: u64, high: u64| low + random.below(high - low);
    let whole = 1 << 32;
    let fronts = shape.fronts();
    let high = between(
        lowest(g.front, fronts, whole),
        lowest(g.front + 1, fronts, whole),
    );
    let middle = between(
        lowest(g.mini, MINIS, 65536),
        lowest(g.mini + 1, MINIS, 65536),
    );
    (high << 32) + (middle << 16) + g.tag
}

/// The bytes of a fresh image.
pub fn fresh_image(b: u64) -> Vec<u8> {
    let mut image = vec![0; Shape { b }.length()];
    calls::fresh(&mut image).expect("the length is good");
    image
}

/// The members in all buckets of an image of either form, or nothing where one is unsound.
pub fn members_in(image: &[u8], shape: Shape) -> Option<u64> {
    let mut tables = 0..shape.buckets();
    tables.try_fold(0, |sum, table| {
        Some(sum + calls::members_at(image, shape, table)?)
    })
}

/// Plays lines on the model and shows each, performed, to an observer.
pub struct Player<'a> {
    pub images: Images,
    pub random: Random,
    observer: &'a mut dyn FnMut(Line, u64, &Images),
}

impl<'a> Player<'a> {
    pub fn new(seed: u64, observer: &'a mut dyn FnMut(Line, u64, &Images)) -> Player<'a> {
        Player {
            images: Images::default(),
            random: Random::new(seed),
            observer,
        }
    }

    /// Plays a line: the model's answer.
    pub fn play(&mut self, line: Line) -> u64 {
        let answer = self.images.perform(&Model, line);
        (self.observer)(line, answer, &self.images);
        answer
    }

    /// The shape of image x, whose length is good, of either form.
    pub fn shape(&self, x: usize) -> Shape {
        let length = self.images.image[x].len();
        let shape = Shape::of_length(length).or(Shape::of_old_length(length));
        shape.expect("a good length")
    }

    pub fn new_image(&mut self, x: usize, length: usize) {
        self.play(Line::New { x, length });
    }

    pub fn copy(&mut self, x: usize, y: usize) {
        self.play(Line::Copy { x, y });
    }

    /// A fresh image.
    pub fn fresh(&mut self, x: usize, b: u64) {
        self.new_image(x, Shape { b }.length());
        self.play(Line::Fresh { x });
    }

    /// A hash of g for image x, or any hash where the image has a wrong length.
    pub fn hash(&mut self, x: usize, g: Fingerprint) -> u64 {
        match Shape::of_length(self.images.image[x].len()) {
            Some(shape) => hash_of(g, shape, &mut self.random),
            None => self.random.bits(),
        }
    }

    pub fn insert(&mut self, x: usize, g: Fingerprint) -> u64 {
        let hash = self.hash(x, g);
        self.play(Line::Insert { x, hash })
    }

    pub fn delete(&mut self, x: usize, g: Fingerprint) -> u64 {
        let hash = self.hash(x, g);
        self.play(Line::Delete { x, hash })
    }

    /// An ask and a count.
    pub fn look(&mut self, x: usize, g: Fingerprint) {
        let hash = self.hash(x, g);
        self.play(Line::Ask { x, hash });
        self.play(Line::Count { x, hash });
    }

    /// A page that brings the change count of its image.
    pub fn page(&mut self, x: usize, start: u64, length: usize) -> u64 {
        self.page_with(x, start, self.changes(x), length)
    }

    /// A page that brings this change count.
    pub fn page_with(&mut self, x: usize, start: u64, changes: u64, length: usize) -> u64 {
        if self.images.changes != changes {
            self.play(Line::Walk { changes });
        }
        self.play(Line::Page { x, start, length })
    }

    /// The change count of image x, its tail good or bad; the one that pages bring now where it is
    /// no image.
    pub fn changes(&self, x: usize) -> u64 {
        Tail::changes_in(&self.images.image[x]).unwrap_or(self.images.changes)
    }

    pub fn check(&mut self, x: usize) -> u64 {
        self.play(Line::Check { x })
    }

    pub fn merge(&mut self, x: usize, y: usize, z: usize) -> u64 {
        self.play(Line::Merge { x, y, z })
    }

    pub fn tail(&mut self, x: usize, length: usize) -> u64 {
        self.play(Line::Tail { x, length })
    }

    pub fn attach(&mut self, x: usize, y: usize) -> u64 {
        self.play(Line::Attach { x, y })
    }

    pub fn detach(&mut self, x: usize, y: usize) -> u64 {
        self.play(Line::Detach { x, y })
    }

    /// The bytes of a bucket by its table number.
    pub fn bucket(&self, x: usize, table: u64) -> Bytes {
        self.bytes_at(x, table as usize * BUCKET)
    }

    /// The bytes of the tail.
    pub fn tail_bytes(&self, x: usize) -> Bytes {
        self.bytes_at(x, self.shape(x).old_length())
    }

    fn bytes_at(&self, x: usize, at: usize) -> Bytes {
        self.images.image[x][at..at + 64].try_into().unwrap()
    }

    /// Overwrites a bucket. A good total follows where the members before and after are known.
    pub fn put(&mut self, x: usize, table: u64, bytes: Bytes) {
        let before = self.members_at(x, table);
        self.overwrite(x, table as usize * BUCKET, bytes);
        let after = self.members_at(x, table);
        let (Some(before), Some(after), Some(tail)) = (before, after, self.good_tail(x)) else {
            return;
        };
        let total = (tail.total + after).checked_sub(before);
        if let Some(total) = total.filter(|&total| total <= self.shape(x).slots()) {
            self.put_total(x, total);
        }
    }

    fn members_at(&self, x: usize, table: u64) -> Option<u64> {
        calls::members_at(&self.images.image[x], self.shape(x), table)
    }

    /// The tail of image x, nothing where it is bad or the image has none.
    fn good_tail(&self, x: usize) -> Option<Tail> {
        let image = &self.images.image[x];
        Tail::of_image(image, Shape::of_length(image.len())?)
    }

    /// Overwrites the tail.
    pub fn put_tail(&mut self, x: usize, bytes: Bytes) {
        self.overwrite(x, self.shape(x).old_length(), bytes);
    }

    /// Overwrites the total alone.
    pub fn put_total(&mut self, x: usize, total: u64) {
        let mut bytes = self.tail_bytes(x);
        bytes[..8].copy_from_slice(&total.to_le_bytes());
        self.put_tail(x, bytes);
    }

    /// Overwrites the change count alone.
    pub fn put_changes(&mut self, x: usize, changes: u64) {
        let mut bytes = self.tail_bytes(x);
        bytes[8..16].copy_from_slice(&changes.to_le_bytes());
        self.put_tail(x, bytes);
    }

    /// Overwrites one byte of the tail.
    pub fn put_tail_byte(&mut self, x: usize, at: usize, value: u8) {
        let mut bytes = self.tail_bytes(x);
        bytes[at] = value;
        self.put_tail(x, bytes);
    }

    /// Overwrites the bytes of a bucket or of the tail, eight at a time where they differ.
    fn overwrite(&mut self, x: usize, at: usize, bytes: Bytes) {
        let old = self.bytes_at(x, at);
        for from in (0..bytes.len()).step_by(8) {
            if old[from..from + 8] != bytes[from..from + 8] {
                self.play(Line::Poke {
                    x,
                    at: at + from,
                    word: u64::from_le_bytes(bytes[from..from + 8].try_into().unwrap()),
                });
            }
        }
    }

    /// Overwrites one byte of a bucket.
    pub fn put_byte(&mut self, x: usize, table: u64, at: usize, value: u8) {
        let mut bytes = self.bucket(x, table);
        bytes[at] = value;
        self.put(x, table, bytes);
    }

    pub fn put_front(&mut self, x: usize, f: u64, mut members: Vec<Member>) {
        members.sort();
        self.put(x, f, bucket::encode_front(&members));
    }

    pub fn put_backyard(&mut self, x: usize, j: u64, mut members: Vec<Member>) {
        members.sort();
        let table = self.shape(x).table_number(j);
        self.put(x, table, bucket::encode_backyard(&members));
    }
}

#[cfg(test)]
mod tests {
    use super::*;

    #[test]
    fn hashes_have_their_fingerprint() {
        let mut random = Random::new(1);
        for b in [1, 2, 3, 8, 20, 113, 65536] {
            let shape = Shape { b };
            for _ in 0..2000 {
                let g = Fingerprint {
                    front: random.below(shape.fronts()),
                    mini: random.below(36),
                    tag: random.below(65536),
                };
                let hash = hash_of(g, shape, &mut random);
                assert_eq!(Fingerprint::of_hash(hash, shape), g);
            }
        }
    }
}
