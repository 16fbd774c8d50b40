//! The calls of other implementations, compared with those of the model.

use model::beside::{difference, Beside, Call};
use model::catalogue::{Catalogue, Entry, Model};
use model::fingerprint::Fingerprint;
use model::histories::{self, Kind, KINDS};
use model::prepare::Player;
use model::random::Random;
use model::shape::{Shape, BUCKET};
use model::stored::{Images, Line};

/// Unverified Rust: the calls of a crate, which has neither rows nor occupancy pages.
macro_rules! unverified {
    ($name:ident, $calls:ident) => {
        pub struct $name;

        impl Catalogue for $name {
            fn fresh(&self, image: &mut [u8]) -> u64 {
                $calls::fresh(image)
            }
            fn check(&self, image: &[u8]) -> u64 {
                $calls::check(image)
            }
            fn insert(&self, image: &mut [u8], hash: u64) -> u64 {
                $calls::insert(image, hash)
            }
            fn delete(&self, image: &mut [u8], hash: u64) -> u64 {
                $calls::delete(image, hash)
            }
            fn ask(&self, image: &[u8], hash: u64) -> u64 {
                $calls::ask(image, hash)
            }
            fn row(&self, _: &[u8], _: &mut [Entry]) -> Option<u64> {
                None
            }
            fn count(&self, image: &[u8], hash: u64) -> u64 {
                $calls::count(image, hash)
            }
            fn page(&self, image: &[u8], start: u64, changes: u64, out: &mut [u64]) -> u64 {
                $calls::page(image, start, changes, out)
            }
            fn occupancy(&self, _: &[u8], _: u64, _: &mut [u8]) -> Option<u64> {
                None
            }
            fn merge(&self, first: &[u8], second: &[u8], target: &mut [u8]) -> u64 {
                $calls::merge(first, second, target)
            }
            fn tail(&self, image: &[u8], out: &mut [u64]) -> u64 {
                $calls::tail(image, out)
            }
            fn attach(&self, old: &[u8], target: &mut [u8]) -> u64 {
                $calls::attach(old, target)
            }
            fn detach(&self, image: &[u8], target: &mut [u8]) -> u64 {
                $calls::detach(image, target)
            }
        }
    };
}

unverified!(Fast, fast);
unverified!(Quick, quick);

/// The C functions.
#[cfg(feature = "capi")]
pub struct Capi;

#[cfg(feature = "capi")]
impl Catalogue for Capi {
    fn fresh(&self, image: &mut [u8]) -> u64 {
        breadcrumb::packed::fresh(image)
    }
    fn check(&self, image: &[u8]) -> u64 {
        breadcrumb::packed::check(image)
    }
    fn insert(&self, image: &mut [u8], hash: u64) -> u64 {
        breadcrumb::packed::insert(image, hash)
    }
    fn delete(&self, image: &mut [u8], hash: u64) -> u64 {
        breadcrumb::packed::delete(image, hash)
    }
    fn ask(&self, image: &[u8], hash: u64) -> u64 {
        breadcrumb::packed::ask(image, hash)
    }
    fn row(&self, image: &[u8], row: &mut [Entry]) -> Option<u64> {
        let mut lent: Vec<breadcrumb::Entry> = row.iter().map(to_lend).collect();
        let answer = breadcrumb::packed::row(image, &mut lent);
        for (entry, lent) in row.iter_mut().zip(lent) {
            *entry = lent_back(lent);
        }
        Some(answer)
    }
    fn count(&self, image: &[u8], hash: u64) -> u64 {
        breadcrumb::packed::count(image, hash)
    }
    fn page(&self, image: &[u8], start: u64, changes: u64, out: &mut [u64]) -> u64 {
        breadcrumb::packed::page(image, start, changes, out)
    }
    fn occupancy(&self, image: &[u8], page: u64, out: &mut [u8]) -> Option<u64> {
        Some(breadcrumb::packed::occupancy(image, page, out))
    }
    fn merge(&self, first: &[u8], second: &[u8], target: &mut [u8]) -> u64 {
        breadcrumb::packed::merge(first, second, target)
    }
    fn tail(&self, image: &[u8], out: &mut [u64]) -> u64 {
        breadcrumb::packed::tail(image, out)
    }
    fn attach(&self, old: &[u8], target: &mut [u8]) -> u64 {
        breadcrumb::packed::attach(old, target)
    }
    fn detach(&self, image: &[u8], target: &mut [u8]) -> u64 {
        breadcrumb::packed::detach(image, target)
    }
}

#[cfg(feature = "capi")]
fn to_lend(entry: &Entry) -> breadcrumb::Entry {
    breadcrumb::Entry {
        hash: entry.hash,
        reads: entry.reads,
        place: entry.place,
        slot: entry.slot,
        copies: entry.copies,
    }
}

#[cfg(feature = "capi")]
fn lent_back(entry: breadcrumb::Entry) -> Entry {
    Entry {
        hash: entry.hash,
        reads: entry.reads,
        place: entry.place,
        slot: entry.slot,
        copies: entry.copies,
    }
}

/// Once in so many calls a row is asked beside the history, and as often an occupancy page.
const CALLS_A_CALL_BESIDE: u64 = 4;

/// An implementation that performs every line that the model performs.
pub struct Follower<'a> {
    catalogue: &'a dyn Catalogue,
    images: Images,
    beside: Beside,
    /// Calls compared: their answers, and every byte of images and output.
    pub compared: u64,
    /// Tails among them.
    pub tails_compared: u64,
    /// Moves among them, either way.
    pub moves_compared: u64,
    /// Pages among them that are refused with 14.
    pub stale_compared: u64,
    /// Rows compared beside them: their answers, and every byte of entries and image.
    pub rows_compared: u64,
    /// Occupancy pages compared beside them: their answers, and every byte of output and image.
    pub occupancy_compared: u64,
}

impl<'a> Follower<'a> {
    pub fn new(catalogue: &'a dyn Catalogue) -> Follower<'a> {
        Follower {
            catalogue,
            images: Images::default(),
            beside: Beside::new(0),
            compared: 0,
            tails_compared: 0,
            moves_compared: 0,
            stale_compared: 0,
            rows_compared: 0,
            occupancy_compared: 0,
        }
    }

    /// Performs a line and compares; `expected` are the model's images after it.
    fn follow(&mut self, line: Line, answer: u64, expected: &Images) {
        let got = self.images.perform(self.catalogue, line);
        self.beside.tell(line);
        if !line.is_call() {
            return;
        }
        let mut text = line.text();
        if let Line::Page { .. } = line {
            text += &format!("which brings {}", expected.changes);
        }
        assert_eq!(got, answer, "answer {got:016X} for {answer:016X}: {text}");
        assert_eq!(self.images.out, expected.out, "the output: {text}");
        for x in line.images() {
            self.same_image(x, expected, &text);
        }
        self.compared += 1;
        match line {
            Line::Tail { .. } => self.tails_compared += 1,
            Line::Attach { .. } | Line::Detach { .. } => self.moves_compared += 1,
            Line::Page { .. } if answer >> 56 == 14 => self.stale_compared += 1,
            _ => {}
        }
        for make in [Beside::row, Beside::occupancy] {
            if self.beside.is_due(CALLS_A_CALL_BESIDE) {
                let x = line.images()[0];
                let call = make(&mut self.beside, &expected.image[x]);
                self.call_beside(x, &call, expected, &format!("{call} after {text}"));
            }
        }
    }

    fn same_image(&self, x: usize, expected: &Images, text: &str) {
        let (ours, theirs) = (&self.images.image[x], &expected.image[x]);
        if ours != theirs {
            let at = difference(ours, theirs);
            panic!("image {x} differs from byte {at:?} on: {text}");
        }
    }

    /// A call on an image as it is, on the same with a bucket of zeros, which is unsound, and on
    /// the same with a tail of zeros, which is bad.
    fn call_beside(&mut self, x: usize, call: &Call, expected: &Images, text: &str) {
        self.compare(x, call, text);
        if let Some(shape) = Shape::of_length(expected.image[x].len()) {
            if let Some(table) = self.beside.table(call, shape) {
                self.with_zeros(x, table as usize * BUCKET, call, text);
            }
            self.with_zeros(x, shape.old_length(), call, text);
        }
        self.same_image(x, expected, text);
    }

    /// A call with the 64 bytes from `at` on 0, which are then as before.
    fn with_zeros(&mut self, x: usize, at: usize, call: &Call, text: &str) {
        let bytes = at..at + BUCKET;
        let before = self.images.image[x][bytes.clone()].to_vec();
        self.images.image[x][bytes.clone()].fill(0);
        self.compare(x, call, text);
        assert_eq!(self.images.image[x][bytes.clone()], [0; BUCKET], "{text}");
        self.images.image[x][bytes].copy_from_slice(&before);
    }

    /// One call, by the implementation and by the model.
    fn compare(&mut self, x: usize, call: &Call, text: &str) {
        let image = &self.images.image[x];
        let (mut ours, mut theirs) = (call.clone(), call.clone());
        let Some(got) = ours.perform(self.catalogue, image) else {
            return;
        };
        let answer = theirs.perform(&Model, image).expect("the model has it");
        assert_eq!(got, answer, "answer {got:016X} for {answer:016X}: {text}");
        if let Some(at) = ours.difference(&theirs) {
            panic!("entry or byte {at} differs: {text}");
        }
        match call {
            Call::Row(_) => self.rows_compared += 1,
            Call::Occupancy { .. } => self.occupancy_compared += 1,
        }
    }

    /// A random history.
    pub fn history(&mut self, kind: Kind, b: u64, how_many: usize, seed: u64) {
        self.images = Images::default();
        self.beside = Beside::new(seed);
        let mut observer = |line: Line, answer: u64, images: &Images| {
            self.follow(line, answer, images);
        };
        let mut player = Player::new(seed, &mut observer);
        histories::play(&mut player, kind, b, how_many);
    }

    /// Random histories until so many calls are compared: every B up to 40, then larger ones.
    pub fn histories(&mut self, how_many: u64, seed: u64) {
        let mut random = Random::new(seed);
        let end = self.compared + how_many;
        let mut at = 0;
        while self.compared < end {
            let b = match at {
                0..40 => at + 1,
                _ if random.one_in(60) => *random.pick(&[511, 512, 513, 1000, 4096]),
                _ if random.one_in(8) => 1 + random.below(200),
                _ => 1 + random.below(40),
            };
            for kind in KINDS {
                let seed = random.bits();
                let length = 20 + random.below(240) as usize;
                // Named before it runs, so that a difference tells where it came from.
                self.told(kind, b, length, seed);
            }
            at += 1;
        }
    }

    fn told(&mut self, kind: Kind, b: u64, length: usize, seed: u64) {
        let told = std::panic::AssertUnwindSafe(|| self.history(kind, b, length, seed));
        if let Err(difference) = std::panic::catch_unwind(told) {
            eprintln!("in the history {kind:?}, B = {b}, {length} calls, seed {seed}");
            std::panic::resume_unwind(difference);
        }
    }

    /// The shortest and the longest image of either form, and lengths on either side.
    pub fn ends(&mut self) {
        self.images = Images::default();
        let mut observer = |line: Line, answer: u64, images: &Images| {
            self.follow(line, answer, images);
        };
        let p = &mut Player::new(1, &mut observer);
        for b in [1, 65536] {
            let shape = Shape { b };
            let length = shape.length();
            for wrong in [length - 1, length + 1, length - 576, length + 576] {
                if Shape::of_length(wrong).is_none() {
                    wrong_length(p, shape, wrong);
                }
            }
            // No other call takes an old image.
            wrong_length(p, shape, shape.old_length());
            p.new_image(0, length);
            calls_at_ends(p);
            // The layout alone: a good tail behind unsound buckets.
            p.play(Line::Poke {
                x: 0,
                at: shape.old_length() + 16,
                word: 1,
            });
            calls_at_ends(p);
            p.play(Line::Fresh { x: 0 });
            calls_at_ends(p);
            p.new_image(1, length);
            p.new_image(2, length);
            p.merge(0, 1, 2);
            p.merge(0, 0, 2);
            p.check(2);
            moves_at_ends(p, shape);
        }
        for x in 0..3 {
            p.new_image(x, 0);
        }
    }
}

/// Image 0 gets this length, which none of the new form has.
fn wrong_length(p: &mut Player, shape: Shape, length: usize) {
    p.new_image(0, length);
    p.play(Line::Fresh { x: 0 });
    p.check(0);
    p.page(0, 0, 1);
    p.tail(0, 2);
    for hash in [0, u64::MAX] {
        p.play(Line::Insert { x: 0, hash });
        p.play(Line::Delete { x: 0, hash });
        p.play(Line::Ask { x: 0, hash });
        p.play(Line::Count { x: 0, hash });
    }
    p.merge(0, 0, 1);
    // Moves from and to a fresh image.
    p.fresh(1, shape.b);
    p.detach(1, 0);
    p.attach(0, 1);
    p.detach(0, 1);
    p.attach(1, 0);
}

/// Image 0 becomes an old one and a new one again; then the lengths beside the old one.
fn moves_at_ends(p: &mut Player, shape: Shape) {
    let (length, old) = (shape.length(), shape.old_length());
    p.new_image(1, old);
    p.detach(0, 1);
    p.new_image(2, length);
    p.attach(1, 2);
    p.tail(2, 2);
    p.check(2);
    for wrong in [old - 1, old + 1, old - 576, old + 576] {
        p.new_image(1, wrong);
        p.detach(0, 1);
        p.attach(1, 2);
    }
}

/// Calls on the first and the last front bucket, and on one in between until it is full.
fn calls_at_ends(p: &mut Player) {
    let fronts = p.shape(0).fronts();
    for hash in [0, u64::MAX, 0x8000000040000007] {
        p.play(Line::Ask { x: 0, hash });
        p.play(Line::Insert { x: 0, hash });
        p.play(Line::Insert { x: 0, hash });
        p.play(Line::Delete { x: 0, hash });
        p.play(Line::Count { x: 0, hash });
        p.play(Line::Ask { x: 0, hash });
    }
    for front in [fronts - 1, fronts * 5 / 7] {
        let mut n = 0;
        while n < 80 && p.images.image[0][0] != 0 {
            let (mini, tag) = (35 - n % 36, 60000 + 64 * n);
            if p.insert(0, Fingerprint { front, mini, tag }) >> 56 != 0 {
                break;
            }
            n += 1;
        }
        for n in [0, 30, 60] {
            let (mini, tag) = (35 - n % 36, 60000 + 64 * n);
            p.look(0, Fingerprint { front, mini, tag });
            p.delete(0, Fingerprint { front, mini, tag });
        }
        p.page(0, front, 40);
        p.page(0, front, 90);
    }
    let right = p.changes(0);
    for start in [0, fronts - 1, fronts, fronts + 1] {
        p.page(0, start, 0);
        p.page(0, start, 100);
        for stale in [right.wrapping_sub(1), right + 1, right + (1 << 32)] {
            p.page_with(0, start, stale, 100);
        }
    }
    p.tail(0, 2);
    p.check(0);
}
