//! What every subject is given alike: members, the two sources of a merge, the hashes of a round.

use differential::Fast;
use model::catalogue::Catalogue;
use model::random::Random;
use model::shape::Shape;

/// B, and the members as a share of the front slots in percent.
#[derive(Clone, Copy)]
pub struct Setting {
    pub b: u64,
    pub load: u64,
}

impl Setting {
    pub fn shape(self) -> Shape {
        Shape { b: self.b }
    }

    pub fn members(self) -> usize {
        (28 * self.shape().fronts() * self.load / 100) as usize
    }

    /// How many images, each with members of its own, are taken in turn: small ones are too soon
    /// done with, and a call made again on the same one is foreseen by the processor.
    pub fn images(self) -> usize {
        (1024 / self.buckets()).max(1)
    }

    /// How many freshes of an image are timed in a row: one is short.
    pub fn freshes(self) -> usize {
        if self.b > 4096 {
            1
        } else {
            16
        }
    }

    pub fn buckets(self) -> usize {
        self.shape().buckets() as usize
    }
}

/// An image with so many of these hashes as members, those that it takes.
pub fn filled(
    setting: Setting,
    hashes: impl Iterator<Item = u64>,
    most: usize,
) -> (Vec<u8>, Vec<u64>) {
    let mut image = vec![0; setting.shape().length()];
    Fast.fresh(&mut image);
    let mut took = Vec::with_capacity(most);
    for hash in hashes {
        if took.len() == most {
            break;
        }
        if Fast.insert(&mut image, hash) >> 56 == 0 {
            took.push(hash);
        }
    }
    (image, took)
}

/// The members of the two sources of a merge: 45 % in each. A merge inserts by front bucket, which
/// fills large images less well than a random order: 90 % of the front slots would be too many.
pub fn sources(members: &[u64]) -> (&[u64], &[u64]) {
    let n = members.len() * 9 / 20;
    (&members[..n], &members[n..2 * n])
}

/// The inputs of one round, the same for every subject: for each image as many, one image after the
/// other.
#[derive(Default)]
pub struct Batch {
    pub hits: Vec<u64>,
    pub misses: Vec<u64>,
    /// Asked before anything is timed, to warm the buffers.
    pub warm: Vec<u64>,
    pub new: Vec<u64>,
    pub new_shuffled: Vec<u64>,
}

fn shuffle(hashes: &mut [u64], random: &mut Random) {
    for at in (1..hashes.len()).rev() {
        hashes.swap(at, random.below(at as u64 + 1) as usize);
    }
}

/// New hashes that there is room for. The image is as before in its members.
fn new_hashes(image: &mut [u8], how_many: usize, random: &mut Random) -> Vec<u64> {
    let mut new = Vec::new();
    while new.len() < how_many {
        let hash = random.bits();
        if Fast.insert(image, hash) >> 56 == 0 {
            new.push(hash);
        }
    }
    for &hash in &new {
        Fast.delete(image, hash);
    }
    new
}

/// Adds the inputs for one more image with these members, so many hashes.
fn add(batch: &mut Batch, image: &mut [u8], members: &[u64], size: usize, random: &mut Random) {
    let n = members.len();
    let new = new_hashes(image, (n / 50).clamp(4, size), random);
    let mut new_shuffled = new.clone();
    shuffle(&mut new_shuffled, random);
    batch.new.extend(new);
    batch.new_shuffled.extend(new_shuffled);
    batch.misses.extend((0..size).map(|_| random.bits()));
    batch.warm.extend((0..size).map(|_| random.bits()));
    let hits = (0..size).map(|_| members[random.below(n as u64) as usize]);
    batch.hits.extend(hits);
}

/// About so many hashes for all images with their members.
pub fn batch(images: &mut [(Vec<u8>, Vec<u64>)], size: usize, random: &mut Random) -> Batch {
    let mut batch = Batch::default();
    let each = size.div_ceil(images.len());
    for (image, members) in images {
        add(&mut batch, image, members, each, random);
    }
    batch
}
