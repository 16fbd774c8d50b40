//! Rows of asks and occupancy pages on the images of a history. They change nothing, so they stand
//! beside its calls.

use crate::branches;
use crate::calls::{self, Bag, LINES};
use crate::catalogue::{Catalogue, Entry};
use crate::fingerprint::Fingerprint;
use crate::prepare::hash_of;
use crate::random::Random;
use crate::shape::{Shape, MINIS, TAGS};
use crate::stored::Line;
use crate::vectors::output_before;
use std::fmt;

/// How many hashes of a history are remembered.
const REMEMBERED: usize = 64;

/// A call beside a history, with what it is lent besides the image.
#[derive(Clone)]
pub enum Call {
    Row(Vec<Entry>),
    Occupancy { page: u64, out: Vec<u8> },
}

impl Call {
    /// Makes the call. Nothing where the implementation has no such call.
    pub fn perform(&mut self, catalogue: &dyn Catalogue, image: &[u8]) -> Option<u64> {
        match self {
            Call::Row(row) => catalogue.row(image, row),
            Call::Occupancy { page, out } => catalogue.occupancy(image, *page, out),
        }
    }

    /// The first entry or byte in which two of a kind differ.
    pub fn difference(&self, other: &Call) -> Option<usize> {
        match (self, other) {
            (Call::Row(ours), Call::Row(theirs)) => difference(ours, theirs),
            (Call::Occupancy { out: ours, .. }, Call::Occupancy { out: theirs, .. }) => {
                difference(ours, theirs)
            }
            _ => Some(0),
        }
    }

    /// The branches that it takes on an image.
    pub fn branches(&self, image: &[u8]) -> Vec<String> {
        match self {
            Call::Row(row) => {
                let hashes: Vec<u64> = row.iter().map(|entry| entry.hash).collect();
                branches::of_row(image, &hashes)
            }
            Call::Occupancy { page, out } => branches::of_occupancy(image, *page, out.len()),
        }
    }
}

impl fmt::Display for Call {
    fn fmt(&self, f: &mut fmt::Formatter) -> fmt::Result {
        match self {
            Call::Row(row) => write!(f, "a row of {}", row.len()),
            Call::Occupancy { page, out } => {
                write!(f, "occupancy page {page} into {} bytes", out.len())
            }
        }
    }
}

/// The first place in which two slices of one length differ.
pub fn difference<T: PartialEq>(ours: &[T], theirs: &[T]) -> Option<usize> {
    ours.iter().zip(theirs).position(|(a, b)| a != b)
}

/// Makes calls beside a history whose lines it is told.
pub struct Beside {
    random: Random,
    /// Hashes of the history's calls, so that the calls beside it keep to its few front buckets.
    hashes: Vec<u64>,
}

impl Beside {
    pub fn new(seed: u64) -> Beside {
        Beside {
            random: Random::new(seed),
            hashes: Vec::new(),
        }
    }

    /// Remembers the hash of a line.
    pub fn tell(&mut self, line: Line) {
        let (Line::Insert { hash, .. }
        | Line::Delete { hash, .. }
        | Line::Ask { hash, .. }
        | Line::Count { hash, .. }) = line
        else {
            return;
        };
        if self.hashes.len() == REMEMBERED {
            let at = self.random.below(REMEMBERED as u64) as usize;
            self.hashes.swap_remove(at);
        }
        self.hashes.push(hash);
    }

    /// Whether now is the time for a call: once in `n` times.
    pub fn is_due(&mut self, n: u64) -> bool {
        self.random.one_in(n)
    }

    /// A row for this image, all fields of its entries filled.
    pub fn row(&mut self, image: &[u8]) -> Call {
        let many = 200 + self.random.below(400);
        let lengths = [0, 1, 1, 2, 3, 5, 10, 30, 96];
        let length = match self.random.one_in(50) {
            true => many,
            false => *self.random.pick(&lengths),
        };
        let hashes = match Shape::of_length(image.len()) {
            Some(shape) => self.in_order(image, shape, length),
            None => (0..length).map(|_| self.random.bits()).collect(),
        };
        let mut row: Vec<Entry> = hashes.iter().map(|&hash| self.entry(hash)).collect();
        if length > 1 && self.random.one_in(5) {
            // Two change places: front buckets may descend.
            let mut any = || self.random.below(length) as usize;
            row.swap(any(), any());
        }
        Call::Row(row)
    }

    /// An occupancy page for this image: one with a front bucket of the history, any, the last, one
    /// past it, or one far out.
    pub fn occupancy(&mut self, image: &[u8]) -> Call {
        let shape = Shape::of_length(image.len()).unwrap_or(Shape { b: 1 });
        let pages = shape.fronts().div_ceil(LINES);
        let page = match self.random.below(10) {
            0 => self.random.below(pages),
            1 => pages - 1,
            2 => pages + self.random.below(2),
            3 => self.far_page(pages),
            _ => self.front(shape) / LINES,
        };
        let lengths = [1008, 1008, 1008, 1008, 1009, 1040, 2016, 1007, 500, 1, 0];
        let out = output_before(*self.random.pick(&lengths));
        Call::Occupancy { page, out }
    }

    /// A page far past the last. 24 times it wraps, in 64 bits or in 32, mostly to a front bucket.
    fn far_page(&mut self, pages: u64) -> u64 {
        let page = self.random.below(pages);
        let wraps = 1 + self.random.below(LINES - 1);
        let bits = *self.random.pick(&[32, 64, 64]);
        match self.random.below(4) {
            0 => u64::MAX - page,
            1 => self.random.bits(),
            _ => page + ((wraps as u128) << bits).div_ceil(LINES as u128) as u64,
        }
    }

    /// The table number of a bucket that the call may read.
    pub fn table(&mut self, call: &Call, shape: Shape) -> Option<u64> {
        let f = match call {
            Call::Row(row) => {
                let last = row.last()?;
                let entry = match self.random.one_in(2) {
                    true => last,
                    false => self.random.pick(row),
                };
                Fingerprint::of_hash(entry.hash, shape).front
            }
            Call::Occupancy { page, .. } => self.front_on(*page, shape),
        };
        Some(match self.random.below(3) {
            0 => f,
            1 => shape.table_number(shape.first_home(f).bucket),
            _ => shape.table_number(shape.second_home(f).bucket),
        })
    }

    /// A front bucket of the history, or any one on this page.
    fn front_on(&mut self, page: u64, shape: Shape) -> u64 {
        let start = page.saturating_mul(LINES);
        let any = start.saturating_add(self.random.below(LINES));
        match self.random.one_in(3) {
            true => any.min(shape.fronts() - 1),
            false => self.front(shape),
        }
    }

    fn entry(&mut self, hash: u64) -> Entry {
        let (x, y) = (self.random.bits(), self.random.bits());
        Entry {
            hash,
            reads: x as u32,
            place: (x >> 32) as u32,
            slot: y as u32,
            copies: (y >> 32) as u32,
        }
    }

    /// So many hashes whose front buckets do not descend, in few groups or in many.
    fn in_order(&mut self, image: &[u8], shape: Shape, length: u64) -> Vec<u64> {
        let groups = *self.random.pick(&[1, 2, 5, length.max(1)]);
        let group = |_| {
            let f = self.front(shape);
            (f, self.likely(image, shape, f))
        };
        let groups: Vec<(u64, Bag)> = (0..groups).map(group).collect();
        let ask = |_| {
            let (f, likely) = self.random.pick(&groups);
            self.fingerprint(*f, likely)
        };
        let mut asks: Vec<Fingerprint> = (0..length).map(ask).collect();
        asks.sort_by_key(|g| g.front);
        let hash = |&g: &Fingerprint| hash_of(g, shape, &mut self.random);
        asks.iter().map(hash).collect()
    }

    /// A likely one, one beside it, the largest there can be, or any.
    fn fingerprint(&mut self, front: u64, likely: &Bag) -> Fingerprint {
        let (mini, tag) = match self.random.below(8) {
            0..=5 if !likely.is_empty() => {
                let g = self.random.pick(likely);
                let beside = self.random.one_in(6) as u64;
                (g.mini, (g.tag + beside) % TAGS)
            }
            6 => (MINIS - 1, TAGS - 1),
            _ => (self.random.below(MINIS), self.random.below(TAGS)),
        };
        Fingerprint { front, mini, tag }
    }

    fn front(&mut self, shape: Shape) -> u64 {
        match self.random.below(8) {
            0 => self.random.below(shape.fronts()),
            1 => *self.random.pick(&shape.coinciding()),
            _ if self.hashes.is_empty() => 0,
            _ => Fingerprint::of_hash(*self.random.pick(&self.hashes), shape).front,
        }
    }

    /// The members of f, and what the history named there.
    fn likely(&self, image: &[u8], shape: Shape, f: u64) -> Bag {
        let named = self.hashes.iter();
        let named = named.map(|&hash| Fingerprint::of_hash(hash, shape));
        let mut likely = calls::members(image, shape, f).unwrap_or_default();
        likely.extend(named.filter(|g| g.front == f));
        likely
    }
}

#[cfg(test)]
mod tests {
    use super::*;
    use crate::histories::{self, KINDS};
    use crate::prepare::Player;
    use crate::shape::BUCKET;
    use crate::stored::Images;
    use std::collections::BTreeSet;

    #[test]
    fn every_branch() {
        let mut met = BTreeSet::new();
        let mut beside = Beside::new(1);
        let mut observer = |line: Line, _: u64, images: &Images| {
            beside.tell(line);
            for make in [Beside::row, Beside::occupancy] {
                if !line.is_call() || !beside.is_due(4) {
                    continue;
                }
                let image = &images.image[line.images()[0]];
                let call = make(&mut beside, image);
                met.extend(call.branches(image));
                let Some(shape) = Shape::of_length(image.len()) else {
                    continue;
                };
                // An unsound bucket, then a bad tail.
                let table = beside.table(&call, shape);
                let bucket = table.map(|table| table as usize * BUCKET);
                for at in bucket.into_iter().chain([shape.old_length()]) {
                    let mut image = image.clone();
                    image[at..at + BUCKET].fill(0);
                    met.extend(call.branches(&image));
                }
            }
        };
        let mut player = Player::new(1, &mut observer);
        for b in (1..=20).chain(1..=20) {
            for kind in KINDS {
                histories::play(&mut player, kind, b, 150);
            }
        }
        let all = branches::ROWS.iter().chain(branches::OCCUPANCY);
        let all: BTreeSet<String> = all.map(|name| name.to_string()).collect();
        let missing: Vec<&String> = all.difference(&met).collect();
        let unknown: Vec<&String> = met.difference(&all).collect();
        assert!(missing.is_empty(), "missing: {missing:#?}");
        assert!(unknown.is_empty(), "not named: {unknown:#?}");
    }
}
