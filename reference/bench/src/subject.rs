//! What is timed: the implementations of the catalogue, and a hash map as a counting multiset.

use crate::inputs::{sources, Setting};
use crate::lines::Lines;
use model::catalogue::Catalogue;
use model::shape::TAIL;
use model::tail::Tail;
use std::collections::HashMap;
use std::fs::File;
use std::hash::{BuildHasherDefault, Hasher};
use std::hint::black_box;

/// One implementation with its own buffers. Each method does a whole batch on every image, so that
/// what picks the implementation is not in the time; each gives a number that all must agree on.
/// Hashes are for the images in turn, as many for each.
pub trait Subject {
    fn name(&self) -> &'static str;
    /// Takes the members as they were at the start again.
    fn restore(&mut self);
    /// Takes all buffers as they were at the start, which another process may have written since.
    fn restore_all(&mut self);
    /// How many are there.
    fn ask(&mut self, hashes: &[u64]) -> u64;
    /// The sum of the copies.
    fn count(&mut self, hashes: &[u64]) -> u64;
    /// How many were accepted.
    fn insert(&mut self, hashes: &[u64]) -> u64;
    /// How many were accepted.
    fn delete(&mut self, hashes: &[u64]) -> u64;
    /// Lists all members in ascending order: how many.
    fn page(&mut self) -> Option<u64>;
    /// Merges two sources with about half of the members each: 0 when accepted.
    fn merge(&mut self) -> Option<u64>;
    /// 0 when accepted.
    fn check(&mut self) -> Option<u64>;
    /// 0 when accepted.
    fn fresh(&mut self) -> Option<u64>;
    /// Moves the old image that the last detach left to the new form: 0 when accepted.
    fn attach(&mut self) -> Option<u64>;
    /// Moves the members to an old image: 0 when accepted.
    fn detach(&mut self) -> Option<u64>;
    /// Asks so many times for the tail: the sum of the totals.
    fn tail(&mut self, times: u64) -> Option<u64>;
    /// Bytes that the members take at the start.
    fn bytes(&self) -> usize;
}

/// An implementation of the catalogue.
pub struct Filter<C> {
    name: &'static str,
    catalogue: C,
    /// The length of one image. Buffers but the target have one after the other.
    length: usize,
    start: Vec<u8>,
    start_halves: [Vec<u8>; 2],
    images: Lines,
    halves: [Lines; 2],
    target: Lines,
    olds: Lines,
    /// The change count of the members at the start, which a page brings.
    changes: u64,
    out: Vec<u64>,
}

impl<C: Catalogue> Filter<C> {
    /// With these images, one after the other; `halves` are the two sources of the merges, `files`
    /// hold the buffers where they are shared.
    pub fn new(
        name: &'static str,
        catalogue: C,
        setting: Setting,
        [start, first, second]: &[Vec<u8>; 3],
        files: &[File],
    ) -> Self {
        let length = setting.shape().length();
        let image = &start[..length];
        let old = |image: &[u8]| image[..length - TAIL].to_vec();
        let olds: Vec<u8> = start.chunks_exact(length).flat_map(old).collect();
        Filter {
            name,
            catalogue,
            length,
            start: start.clone(),
            start_halves: [first.clone(), second.clone()],
            images: Lines::of(start, files.first()),
            halves: [
                Lines::of(first, files.get(1)),
                Lines::of(second, files.get(2)),
            ],
            target: Lines::of(image, files.get(3)),
            olds: Lines::of(&olds, files.get(4)),
            changes: Tail::changes_in(image).expect("an image"),
            out: vec![0; setting.members()],
        }
    }

    /// The images, and the hashes for each.
    fn with<'a>(&'a self, hashes: &'a [u64]) -> impl Iterator<Item = (&'a [u8], &'a [u64])> {
        let images = self.images.chunks_exact(self.length);
        let each = hashes.len() / images.len();
        images.zip(hashes.chunks_exact(each))
    }

    /// The same for a call that changes the images.
    fn change(&mut self, hashes: &[u64], call: impl Fn(&C, &mut [u8], u64) -> u64) -> u64 {
        let images = self.images.chunks_exact_mut(self.length);
        let each = hashes.len() / images.len();
        let mut sum = 0;
        for (image, hashes) in images.zip(hashes.chunks_exact(each)) {
            for &hash in hashes {
                sum += accepted(call(&self.catalogue, image, hash));
            }
        }
        sum
    }
}

fn accepted(answer: u64) -> u64 {
    (answer >> 56 == 0) as u64
}

/// All answers in one: 0 where every one is.
fn any(answers: impl Iterator<Item = u64>) -> u64 {
    answers.fold(0, |all, answer| all | answer)
}

impl<C: Catalogue> Subject for Filter<C> {
    fn name(&self) -> &'static str {
        self.name
    }

    fn restore(&mut self) {
        self.images.copy_from_slice(&self.start);
    }

    fn restore_all(&mut self) {
        self.restore();
        for (half, start) in self.halves.iter_mut().zip(&self.start_halves) {
            half.copy_from_slice(start);
        }
    }

    fn ask(&mut self, hashes: &[u64]) -> u64 {
        let mut found = 0;
        for (image, hashes) in self.with(hashes) {
            for &hash in hashes {
                found += (self.catalogue.ask(image, hash) / 16 % 16 != 0) as u64;
            }
        }
        found
    }

    fn count(&mut self, hashes: &[u64]) -> u64 {
        let mut copies = 0;
        for (image, hashes) in self.with(hashes) {
            for &hash in hashes {
                copies += self.catalogue.count(image, hash) & 0xFFFFFFFF;
            }
        }
        copies
    }

    fn insert(&mut self, hashes: &[u64]) -> u64 {
        self.change(hashes, |catalogue, image, hash| {
            catalogue.insert(image, hash)
        })
    }

    fn delete(&mut self, hashes: &[u64]) -> u64 {
        self.change(hashes, |catalogue, image, hash| {
            catalogue.delete(image, hash)
        })
    }

    fn page(&mut self) -> Option<u64> {
        let images = self.images.chunks_exact(self.length);
        let page = |image| self.catalogue.page(image, 0, self.changes, &mut self.out);
        Some(images.map(page).map(|answer| answer & 0xFFFFFFFF).sum())
    }

    fn merge(&mut self) -> Option<u64> {
        let [first, second] = &self.halves;
        let sources = first
            .chunks_exact(self.length)
            .zip(second.chunks_exact(self.length));
        let merge = |(first, second)| self.catalogue.merge(first, second, &mut self.target);
        Some(any(sources.map(merge)))
    }

    fn check(&mut self) -> Option<u64> {
        let images = self.images.chunks_exact(self.length);
        Some(any(images.map(|image| self.catalogue.check(image))))
    }

    fn fresh(&mut self) -> Option<u64> {
        Some(self.catalogue.fresh(&mut self.target))
    }

    fn attach(&mut self) -> Option<u64> {
        let olds = self.olds.chunks_exact(self.length - TAIL);
        let attach = |old| self.catalogue.attach(old, &mut self.target);
        Some(any(olds.map(attach)))
    }

    fn detach(&mut self) -> Option<u64> {
        let olds = self.olds.chunks_exact_mut(self.length - TAIL);
        let images = self.images.chunks_exact(self.length);
        let detach = |(image, old)| self.catalogue.detach(image, old);
        Some(any(images.zip(olds).map(detach)))
    }

    fn tail(&mut self, times: u64) -> Option<u64> {
        let image: &[u8] = &self.images[..self.length];
        let total = |_| {
            let mut out = [0; 2];
            black_box(self.catalogue.tail(black_box(image), &mut out));
            out[0]
        };
        Some((0..times).map(total).sum())
    }

    fn bytes(&self) -> usize {
        self.start.len()
    }
}

/// The keys are hashes already: they are passed on as they are.
#[derive(Default)]
pub struct PassOn(u64);

impl Hasher for PassOn {
    fn finish(&self) -> u64 {
        self.0
    }
    fn write(&mut self, _: &[u8]) {
        unreachable!("keys are 64-bit numbers")
    }
    fn write_u64(&mut self, key: u64) {
        self.0 = key;
    }
}

type Counts = HashMap<u64, u32, BuildHasherDefault<PassOn>>;

/// Hash maps from hashes to their copies.
pub struct Map {
    maps: Vec<Counts>,
    halves: Vec<[Counts; 2]>,
    out: Vec<u64>,
    bytes: usize,
}

fn counts(hashes: &[u64]) -> Counts {
    let mut counts = Counts::default();
    for &hash in hashes {
        *counts.entry(hash).or_insert(0) += 1;
    }
    counts
}

impl Map {
    pub fn new<'a>(members: impl Iterator<Item = &'a [u64]> + Clone) -> Map {
        let maps: Vec<Counts> = members.clone().map(counts).collect();
        let halves = |members| {
            let (first, second) = sources(members);
            [counts(first), counts(second)]
        };
        // The table of a map: a power of two of entries, 16 bytes and a control byte each, at
        // most 7 of 8 in use.
        let bytes = |map: &Counts| (map.capacity() * 8 / 7).next_power_of_two() * 17 + 16;
        Map {
            bytes: maps.iter().map(bytes).sum(),
            maps,
            halves: members.map(halves).collect(),
            out: Vec::new(),
        }
    }

    /// The maps, and the hashes for each.
    fn with<'a>(
        &'a mut self,
        hashes: &'a [u64],
    ) -> impl Iterator<Item = (&'a mut Counts, &'a [u64])> {
        let each = hashes.len() / self.maps.len();
        self.maps.iter_mut().zip(hashes.chunks_exact(each))
    }
}

impl Subject for Map {
    fn name(&self) -> &'static str {
        "HashMap"
    }

    fn restore(&mut self) {}

    fn restore_all(&mut self) {}

    fn ask(&mut self, hashes: &[u64]) -> u64 {
        let mut found = 0;
        for (counts, hashes) in self.with(hashes) {
            found += hashes
                .iter()
                .filter(|&hash| counts.contains_key(hash))
                .count() as u64;
        }
        found
    }

    fn count(&mut self, hashes: &[u64]) -> u64 {
        let mut sum = 0;
        for (counts, hashes) in self.with(hashes) {
            let copies = |hash| counts.get(hash).copied().unwrap_or(0) as u64;
            sum += hashes.iter().map(copies).sum::<u64>();
        }
        sum
    }

    fn insert(&mut self, hashes: &[u64]) -> u64 {
        for (counts, hashes) in self.with(hashes) {
            for &hash in hashes {
                *counts.entry(hash).or_insert(0) += 1;
            }
        }
        hashes.len() as u64
    }

    fn delete(&mut self, hashes: &[u64]) -> u64 {
        use std::collections::hash_map::Entry;
        let mut accepted = 0;
        for (counts, hashes) in self.with(hashes) {
            for &hash in hashes {
                if let Entry::Occupied(mut entry) = counts.entry(hash) {
                    *entry.get_mut() -= 1;
                    if *entry.get() == 0 {
                        entry.remove();
                    }
                    accepted += 1;
                }
            }
        }
        accepted
    }

    fn page(&mut self) -> Option<u64> {
        let mut listed = 0;
        for counts in &self.maps {
            self.out.clear();
            for (&hash, &copies) in counts {
                self.out.extend(std::iter::repeat_n(hash, copies as usize));
            }
            self.out.sort_unstable();
            listed += self.out.len() as u64;
        }
        Some(listed)
    }

    fn merge(&mut self) -> Option<u64> {
        let merge = |[first, second]: &[Counts; 2]| {
            let most = first.len() + second.len();
            let mut merged = Counts::with_capacity_and_hasher(most, Default::default());
            for (&hash, &copies) in first.iter().chain(second) {
                *merged.entry(hash).or_insert(0) += copies;
            }
            merged.is_empty() as u64
        };
        Some(any(self.halves.iter().map(merge)))
    }

    fn check(&mut self) -> Option<u64> {
        None
    }

    fn fresh(&mut self) -> Option<u64> {
        None
    }

    fn attach(&mut self) -> Option<u64> {
        None
    }

    fn detach(&mut self) -> Option<u64> {
        None
    }

    fn tail(&mut self, _: u64) -> Option<u64> {
        None
    }

    fn bytes(&self) -> usize {
        self.bytes
    }
}
