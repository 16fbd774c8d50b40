//! Rows of 96 asks against the same asks one by one, through the C functions.

use crate::inputs::{filled, Setting};
use crate::lines::Lines;
use crate::measure::{processor_time, timed, wall_time, Effort};
use crate::turns::in_turns;
use breadcrumb::{packed, Entry};
use model::random::Random;
use std::fs::File;
use std::hint::black_box;

/// A row has the asks of so many front buckets, so many each.
const GROUPS: usize = 12;
const ASKS: usize = 8;
const ROW: usize = GROUPS * ASKS;

/// Medians in ns an ask: one by one, and in rows.
pub struct Times {
    pub lone: f64,
    pub row: f64,
}

/// Where the hashes of a row come from.
struct Source {
    setting: Setting,
    random: Random,
    /// All members, ascending, so that those of a front bucket stand together.
    members: Vec<u64>,
}

impl Source {
    /// With the image of its members.
    fn new(setting: Setting) -> (Vec<u8>, Source) {
        let mut random = Random::new(setting.b * 1000 + setting.load);
        let any = std::iter::repeat_with(|| random.bits());
        let (image, members) = filled(setting, any, setting.members());
        (image, Source::of(setting, random, members))
    }

    fn of(setting: Setting, random: Random, mut members: Vec<u64>) -> Source {
        members.sort_unstable();
        Source {
            setting,
            random,
            members,
        }
    }

    /// The lowest upper half that a hash of front bucket f has; 2^32 for f = F.
    fn lowest(&self, f: u64) -> u64 {
        (f << 32).div_ceil(self.setting.shape().fronts())
    }

    /// The members of front bucket f.
    fn members_of(&self, f: u64) -> &[u64] {
        let [from, to] = [f, f + 1].map(|f| {
            let lowest = self.lowest(f);
            self.members.partition_point(|hash| hash >> 32 < lowest)
        });
        &self.members[from..to]
    }

    /// Hashes of front bucket f, of members or any; nothing where it has too few members.
    fn group(&mut self, f: u64, there: bool) -> Option<[u64; ASKS]> {
        if !there {
            let (from, to) = (self.lowest(f), self.lowest(f + 1));
            let mut any = || (from + self.random.below(to - from)) << 32 | self.random.bits() >> 32;
            return Some(std::array::from_fn(|_| any()));
        }
        let n = self.members_of(f).len();
        if n < ASKS {
            return None;
        }
        // Neighbours by hash from a random one on; their fingerprints are in no order.
        let start = self.random.below(n as u64) as usize;
        let members = self.members_of(f);
        Some(std::array::from_fn(|at| members[(start + at) % n]))
    }

    /// The hashes of a row, sorted.
    fn row(&mut self, there: bool) -> [u64; ROW] {
        let mut fronts = Vec::new();
        let mut hashes = Vec::new();
        while fronts.len() < GROUPS {
            let f = self.random.below(self.setting.shape().fronts());
            if fronts.contains(&f) {
                continue;
            }
            if let Some(group) = self.group(f, there) {
                fronts.push(f);
                hashes.extend(group);
            }
        }
        hashes.sort_unstable();
        hashes.try_into().expect("as many as a row has")
    }

    /// Rows with so many asks in all, or a few less.
    fn rows(&mut self, there: bool, asks: usize) -> Vec<[u64; ROW]> {
        (0..asks / ROW).map(|_| self.row(there)).collect()
    }
}

/// Asks one by one: how many are there.
fn lone(image: &[u8], rows: &[[u64; ROW]]) -> usize {
    let place = |&hash: &u64| packed::ask(image, hash) / 16 % 16;
    let hashes = rows.as_flattened().iter();
    hashes.filter(|hash| place(hash) != 0).count()
}

/// The same in rows: entries are filled, asked and looked at.
fn in_rows(image: &[u8], rows: &[[u64; ROW]]) -> usize {
    let mut entries = [Entry::new(0); ROW];
    let mut found = 0;
    for row in rows {
        for (entry, &hash) in entries.iter_mut().zip(row) {
            entry.hash = hash;
        }
        assert!(packed::row(image, &mut entries) >> 56 == 0, "accepted");
        found += entries.iter().filter(|entry| entry.place != 0).count();
    }
    found
}

/// Times of hashes that are there, and of others. Both ways have an image of their own and are
/// warmed by as many asks of their kind.
pub fn run(setting: Setting, effort: Effort) -> [Times; 2] {
    let (image, mut source) = Source::new(setting);
    let images = [Lines::of(&image, None), Lines::of(&image, None)];
    let asks = effort.batch / ROW * ROW;
    let ways = [lone, in_rows];
    [true, false].map(|there| {
        let mut batch = |there| source.rows(there, asks);
        let inputs = || (batch(there), batch(false));
        let [lone, row] = in_turns(effort.rounds, inputs, |way, (rows, warm)| {
            let image: &[u8] = &images[way];
            black_box(ways[way](image, warm));
            timed(wall_time, || ways[way](image, rows))
        });
        Times {
            lone: lone / asks as f64,
            row: row / asks as f64,
        }
    })
}

/// Rows without the asks one by one, on an image in a file whose memory another process may have
/// too.
pub struct Alone {
    start: Vec<u8>,
    image: Lines,
    source: Source,
}

impl Alone {
    /// With an image and its members.
    pub fn new(setting: Setting, (image, members): (&[u8], &[u64]), file: &File) -> Alone {
        let random = Random::new(setting.b * 1000 + setting.load);
        Alone {
            start: image.to_vec(),
            image: Lines::of(image, Some(file)),
            source: Source::of(setting, random, members.to_vec()),
        }
    }

    /// About so many asks for hashes that are there, or for others: ns an ask. The image is copied
    /// anew, so that what another process asked for is not in the caches, and warmed by as many
    /// asks for others.
    pub fn time(&mut self, there: bool, asks: usize) -> f64 {
        let [rows, warm] = [there, false].map(|there| self.source.rows(there, asks));
        self.image.copy_from_slice(&self.start);
        black_box(in_rows(&self.image, &warm));
        let (_, ns) = timed(processor_time, || in_rows(&self.image, &rows));
        ns / (ROW * rows.len()) as f64
    }
}

#[cfg(test)]
mod tests {
    use super::*;
    use model::fingerprint::Fingerprint;

    #[test]
    fn a_row_has_its_groups() {
        for b in [2, 3, 113] {
            let setting = Setting { b, load: 90 };
            let (_, mut source) = Source::new(setting);
            for there in [true, false] {
                let row = source.row(there);
                let front = |hash| Fingerprint::of_hash(hash, setting.shape()).front;
                let groups = row.chunk_by(|&x, &y| front(x) == front(y));
                assert!(groups.clone().all(|group| group.len() == ASKS));
                assert_eq!(groups.count(), GROUPS);
                assert!(row.is_sorted());
                let found = row.iter().filter(|hash| source.members.contains(hash));
                assert_eq!(found.count(), if there { ROW } else { 0 });
            }
        }
    }
}
