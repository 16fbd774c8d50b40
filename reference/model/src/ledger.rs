//! A ledger beside the images of a history: what the accepted calls filed in each, and the walks
//! that are under way.

use crate::calls::{checked_buckets, members};
use crate::fingerprint::Fingerprint;
use crate::shape::Shape;
use crate::stored::{Images, Line};
use crate::tail::Tail;
use std::collections::BTreeSet;

/// What the calls accepted on an image filed: its members, ascending, and its change count.
#[derive(Clone, Default)]
struct Filed {
    members: Vec<u64>,
    changes: u64,
}

impl Filed {
    /// What an image holds that no call left so, where its tail is good and its buckets are as they
    /// must be.
    fn found(image: &[u8]) -> Option<Filed> {
        let shape = Shape::of_length(image.len())?;
        let Tail { changes, .. } = Tail::of_image(image, shape)?;
        checked_buckets(image, shape).ok()?;
        let bag = |f| members(image, shape, f).expect("sound buckets");
        let members = (0..shape.fronts()).flat_map(bag).map(|g| g.number());
        Some(Filed {
            members: members.collect(),
            changes,
        })
    }

    fn merged(&self, other: &Filed) -> Filed {
        let mut members = [&self.members[..], &other.members].concat();
        members.sort();
        Filed {
            members,
            changes: 0,
        }
    }

    fn insert(&mut self, g: u64) {
        let at = self.members.partition_point(|&x| x < g);
        self.members.insert(at, g);
        self.changes += 1;
    }

    fn delete(&mut self, g: u64) {
        let at = self.members.binary_search(&g).expect("a member");
        self.members.remove(at);
        self.changes += 1;
    }
}

/// A walk under way: the change count it began with, the members by the ledger at its first page,
/// and what it has listed up to the front bucket it has come to.
struct Walk {
    changes: u64,
    members: Vec<u64>,
    listed: Vec<u64>,
    next: u64,
    pages: u64,
    /// What was played on the image between its pages, with the number given.
    between: BTreeSet<String>,
}

/// Of each image what is filed, where it is known, and the walks.
#[derive(Default)]
struct Ledger {
    filed: [Option<Filed>; 3],
    walks: [Vec<Walk>; 3],
    /// How many walks came to their end after more than one page.
    walked: u64,
    /// What was played between the pages of these.
    between: BTreeSet<String>,
    /// How many pages were refused with 14.
    stale: u64,
}

impl Ledger {
    /// Takes a line, performed, with the images after it.
    fn tell(&mut self, line: Line, answer: u64, images: &Images) {
        let number = answer >> 56;
        if let Line::Page { x, start, .. } = line {
            self.page(x, start, answer, images);
        }
        self.file(line, number, images);
        let name = format!("{line:?}");
        let name = format!("{} {number}", name.split(' ').next().expect("a name"));
        for x in line.images().into_iter().filter(|_| line.is_call()) {
            for walk in &mut self.walks[x] {
                walk.between.insert(name.clone());
            }
        }
    }

    /// What a line does to what is filed.
    fn file(&mut self, line: Line, number: u64, images: &Images) {
        let filed = |x: usize| self.filed[x].clone();
        match (line, number) {
            (Line::Insert { x, hash }, 0) => self.change(x, hash, images, Filed::insert),
            (Line::Delete { x, hash }, 0) => self.change(x, hash, images, Filed::delete),
            (Line::Fresh { x: z }, 0) | (Line::Merge { z, .. }, 4) => {
                self.start(z, Some(Filed::default()))
            }
            (Line::Merge { x, y, z }, 0) => {
                let both = filed(x).zip(filed(y));
                self.start(z, both.map(|(x, y)| x.merged(&y)));
            }
            (Line::Attach { x, y } | Line::Detach { x, y }, 0) => {
                self.start(y, filed(x).map(|x| Filed { changes: 0, ..x }))
            }
            (Line::Copy { x, y }, _) => self.start(y, filed(x)),
            (Line::New { x, .. } | Line::Poke { x, .. }, _) => {
                self.start(x, Filed::found(&images.image[x]))
            }
            _ => {}
        }
    }

    /// An accepted insert or delete.
    fn change(&mut self, x: usize, hash: u64, images: &Images, change: fn(&mut Filed, u64)) {
        let shape = Shape::of_length(images.image[x].len()).expect("a good length");
        if let Some(filed) = &mut self.filed[x] {
            change(filed, Fingerprint::of_hash(hash, shape).number());
        }
    }

    /// An image whose count is started anew, which ends its walks.
    fn start(&mut self, x: usize, filed: Option<Filed>) {
        self.filed[x] = filed;
        self.walks[x].clear();
    }

    /// A page is refused with 14 exactly where it brings another count than the ledger has, and a
    /// walk that comes to its end has listed the members that the ledger had at its first page.
    fn page(&mut self, x: usize, start: u64, answer: u64, images: &Images) {
        let shape = Shape::of_length(images.image[x].len());
        let (Some(shape), Some(filed)) = (shape, &self.filed[x]) else {
            return;
        };
        let (number, brought) = (answer >> 56, images.changes);
        assert_eq!(number == 14, brought != filed.changes);
        self.stale += (number == 14) as u64;
        if number != 0 {
            return;
        }
        if start == 0 {
            self.walks[x].push(Walk {
                changes: brought,
                members: filed.members.clone(),
                listed: Vec::new(),
                next: 0,
                pages: 0,
                between: BTreeSet::new(),
            });
        }
        let entries = images.out.chunks(8).take(answer as u32 as usize);
        let entries = entries.map(|entry| u64::from_le_bytes(entry.try_into().unwrap()));
        let entries: Vec<u64> = entries.collect();
        for walk in &mut self.walks[x] {
            if (walk.changes, walk.next) == (brought, start) {
                walk.listed.extend(&entries);
                walk.next = answer >> 32;
                walk.pages += 1;
            }
        }
        self.end(x, shape);
    }

    /// Takes the walks of an image that have come to its last front bucket.
    fn end(&mut self, x: usize, shape: Shape) {
        let ended = |walk: &mut Walk| walk.next == shape.fronts();
        for walk in self.walks[x].extract_if(.., ended) {
            assert_eq!(walk.listed, walk.members);
            self.walked += (walk.pages > 1) as u64;
            self.between.extend(walk.between);
        }
    }
}

#[cfg(test)]
mod tests {
    use super::*;
    use crate::cases;
    use crate::catalogue::Model;
    use crate::histories::{play, Kind, KINDS};
    use crate::prepare::{members_in, Player};

    #[test]
    fn totals_over_histories() {
        let mut ledger = Ledger::default();
        let mut observer = |line: Line, answer: u64, images: &Images| {
            ledger.tell(line, answer, images);
            let Some(&x) = line.images().last().filter(|_| line.is_call()) else {
                return;
            };
            let filed = ledger.filed[x].as_ref().expect("known");
            let (total, changes) = (filed.members.len() as u64, filed.changes);
            let shape = Shape::of_length(images.image[x].len()).expect("a good length");
            let tail = Tail::of_image(&images.image[x], shape);
            assert_eq!(tail, Some(Tail { total, changes }));
            assert_eq!(members_in(&images.image[x], shape), Some(total));
        };
        let mut player = Player::new(2, &mut observer);
        for b in [1, 2, 3, 8, 20] {
            for kind in [Kind::Plain, Kind::Merging] {
                play(&mut player, kind, b, 400);
            }
        }
    }

    /// What comes between the pages of a walk and does not disturb it.
    const UNDISTURBED: [&str; 12] = [
        "Insert 4",
        "Insert 12",
        "Insert 13",
        "Delete 5",
        "Delete 12",
        "Delete 13",
        "Ask 0",
        "Count 0",
        "Page 14",
        "Check 0",
        "Merge 0",
        "Tail 0",
    ];

    /// Every one of these came between the pages of some walk, and no change did.
    fn undisturbed(ledger: &Ledger, by: &[&str]) {
        let missing: Vec<_> = by
            .iter()
            .filter(|by| !ledger.between.contains(**by))
            .collect();
        assert!(missing.is_empty(), "missing: {missing:?}");
        for change in ["Insert 0", "Delete 0"] {
            assert!(!ledger.between.contains(change), "{change}");
        }
    }

    #[test]
    fn walks_over_histories() {
        let mut ledger = Ledger::default();
        let mut observer = |line: Line, answer: u64, images: &Images| {
            ledger.tell(line, answer, images);
        };
        let mut player = Player::new(3, &mut observer);
        for round in 0..30 {
            for kind in KINDS {
                play(&mut player, kind, [1, 2, 3, 8, 20][round % 5], 400);
            }
        }
        undisturbed(&ledger, &UNDISTURBED);
        assert!(ledger.walked > 300, "{} walks", ledger.walked);
        assert!(ledger.stale > 1000, "{} with 14", ledger.stale);
    }

    #[test]
    fn walks_of_stored_calls() {
        let mut ledger = Ledger::default();
        let mut images = Images::default();
        for line in cases::input().lines() {
            let line = Line::parse(line).expect("a stored line");
            let answer = images.perform(&Model, line);
            ledger.tell(line, answer, &images);
        }
        undisturbed(&ledger, &UNDISTURBED);
        let stored = ["Row 0", "Occupancy 0", "Page 6", "Page 7", "Detach 0"];
        undisturbed(&ledger, &stored);
        let kept_as_target = ["Merge 2", "Merge 12", "Attach 1", "Attach 3", "Detach 1"];
        undisturbed(&ledger, &kept_as_target);
        assert!(ledger.walked > 20, "{} walks", ledger.walked);
    }
}
