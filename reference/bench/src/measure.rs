//! Rounds over all subjects in turn; medians.

use crate::inputs::{batch, filled, sources, Batch, Setting};
use crate::subject::{Filter, Map, Subject};
use differential::{Fast, Quick};
use model::random::Random;
use std::fs::File;
use std::hint::black_box;
use std::sync::LazyLock;
use std::time::Instant;

/// What is measured, with its unit.
pub const CALLS: [(&str, &str); 12] = [
    ("ask, hit", "call"),
    ("ask, miss", "call"),
    ("count", "call"),
    ("insert", "call"),
    ("delete", "call"),
    ("page", "member"),
    ("merge", "member"),
    ("check", "bucket"),
    ("fresh", "bucket"),
    ("attach", "bucket"),
    ("detach", "bucket"),
    ("tail", "call"),
];

/// The first five are calls on one hash.
pub const ON_HASHES: usize = 5;

/// The medians of one subject in one setting, in ns per unit; nothing where it has no such call.
pub struct Times {
    pub name: &'static str,
    pub ns: [Option<f64>; CALLS.len()],
    pub bytes_a_member: f64,
}

/// How much is measured: rounds, rounds with the calls on whole images, hashes to a batch. Short
/// batches, so that few of them are interrupted.
#[derive(Clone, Copy)]
pub struct Effort {
    pub rounds: usize,
    pub whole: usize,
    pub batch: usize,
}

/// Who is measured.
pub enum Who {
    All,
    /// The C functions, or `fast` where they are not linked, on buffers in these files.
    First(Vec<File>),
}

fn subjects(setting: Setting, who: &Who, images: &[(Vec<u8>, Vec<u64>)]) -> Vec<Box<dyn Subject>> {
    let half = |members: &[u64]| filled(setting, members.iter().copied(), members.len()).0;
    let mut start: [Vec<u8>; 3] = Default::default();
    for (image, members) in images {
        let (first, second) = sources(members);
        start[0].extend(image);
        start[1].extend(half(first));
        start[2].extend(half(second));
    }
    let (all, files): (bool, &[File]) = match who {
        Who::All => (true, &[]),
        Who::First(files) => (false, files),
    };
    let mut subjects: Vec<Box<dyn Subject>> = Vec::new();
    #[cfg(feature = "capi")]
    subjects.push(Box::new(Filter::new(
        "capi",
        differential::Capi,
        setting,
        &start,
        files,
    )));
    if all || subjects.is_empty() {
        let fast = Filter::new("fast", Fast, setting, &start, files);
        subjects.push(Box::new(fast));
    }
    if all {
        let quick = Filter::new("quick", Quick, setting, &start, files);
        subjects.push(Box::new(quick));
        let members = images.iter().map(|(_, members)| &members[..]);
        subjects.push(Box::new(Map::new(members)));
    }
    subjects
}

/// The processor time of this thread in ns: what else runs on the machine is not in it.
pub fn processor_time() -> f64 {
    #[repr(C)]
    struct Time {
        seconds: i64,
        ns: i64,
    }
    unsafe extern "C" {
        fn clock_gettime(clock: i32, time: *mut Time) -> i32;
    }
    const CLOCK_THREAD_CPUTIME_ID: i32 = 3;
    let mut time = Time { seconds: 0, ns: 0 };
    assert_eq!(
        unsafe { clock_gettime(CLOCK_THREAD_CPUTIME_ID, &mut time) },
        0
    );
    time.seconds as f64 * 1e9 + time.ns as f64
}

/// Time since the first call, in ns.
pub fn wall_time() -> f64 {
    static START: LazyLock<Instant> = LazyLock::new(Instant::now);
    START.elapsed().as_nanos() as f64
}

/// Runs a batch: its result and its time in ns.
pub fn timed<T>(clock: fn() -> f64, batch: impl FnOnce() -> T) -> (T, f64) {
    let start = clock();
    let result = black_box(batch());
    (result, clock() - start)
}

/// One call on one subject: a number that all subjects agree on, and ns in all.
fn measure(
    subject: &mut dyn Subject,
    call: usize,
    batch: &Batch,
    freshes: usize,
    clock: fn() -> f64,
) -> Option<(u64, f64)> {
    black_box(subject.ask(&batch.warm));
    let size = batch.hits.len() as u64;
    let (result, ns) = match call {
        0 => timed(clock, || Some(subject.ask(&batch.hits))),
        // A few fingerprints are there by chance, and hits may have more copies.
        1 => timed(clock, || Some(subject.ask(&batch.misses) / size)),
        2 => timed(clock, || Some((subject.count(&batch.hits) >= size) as u64)),
        3 => {
            let timed = timed(clock, || Some(subject.insert(&batch.new)));
            subject.delete(&batch.new_shuffled);
            subject.restore();
            timed
        }
        4 => {
            subject.insert(&batch.new);
            let timed = timed(clock, || Some(subject.delete(&batch.new_shuffled)));
            subject.restore();
            timed
        }
        5 => timed(clock, || subject.page()),
        6 => timed(clock, || subject.merge()),
        7 => timed(clock, || subject.check()),
        8 => timed(clock, || (0..freshes).map(|_| subject.fresh()).last()?),
        9 => {
            // The old image that is moved is what this leaves.
            subject.detach();
            timed(clock, || subject.attach())
        }
        10 => timed(clock, || subject.detach()),
        _ => timed(clock, || subject.tail(size)),
    };
    Some((result?, ns))
}

pub fn median(mut values: Vec<f64>) -> Option<f64> {
    values.sort_by(f64::total_cmp);
    values.get(values.len() / 2).copied()
}

/// Subjects in one setting, measured a round at a time.
pub struct Rounds {
    setting: Setting,
    random: Random,
    /// The images with their members.
    images: Vec<(Vec<u8>, Vec<u64>)>,
    subjects: Vec<Box<dyn Subject>>,
    clock: fn() -> f64,
    done: usize,
}

impl Rounds {
    pub fn new(setting: Setting, who: Who) -> Rounds {
        let mut random = Random::new(setting.b * 1000 + setting.load);
        let mut image = |_| {
            let any = std::iter::repeat_with(|| random.bits());
            filled(setting, any, setting.members())
        };
        let images: Vec<_> = (0..setting.images()).map(&mut image).collect();
        let subjects = subjects(setting, &who, &images);
        Rounds {
            setting,
            random,
            images,
            subjects,
            clock: match who {
                Who::All => wall_time,
                Who::First(_) => processor_time,
            },
            done: 0,
        }
    }

    /// The first image at the start, before any round, and its members.
    pub fn start(&self) -> (&[u8], &[u64]) {
        let (image, members) = &self.images[0];
        (image, members)
    }

    /// A round of the first so many of `CALLS`, on hashes of its own. Takes by subject, call and ns
    /// a unit.
    pub fn round(&mut self, calls: usize, size: usize, mut take: impl FnMut(usize, usize, f64)) {
        let batch = batch(&mut self.images, size, &mut self.random);
        for call in 0..calls {
            self.call(call, &batch, |who, ns| take(who, call, ns));
        }
        self.done += 1;
    }

    /// One call by the first subject, on hashes of its own and on buffers that another process may
    /// have written: ns a unit.
    pub fn alone(&mut self, call: usize, size: usize) -> Option<f64> {
        let batch = batch(&mut self.images, size, &mut self.random);
        self.subjects[0].restore_all();
        let mut taken = None;
        self.call(call, &batch, |_, ns| taken = Some(ns));
        taken
    }

    /// A call by every subject in turn; the turn starts with another subject each round.
    fn call(&mut self, call: usize, batch: &Batch, mut take: impl FnMut(usize, f64)) {
        let mut agreed = None;
        let (images, buckets) = (self.images.len(), self.setting.buckets());
        let freshes = self.setting.freshes() * images;
        let units = match call {
            0..=2 => batch.hits.len(),
            3 | 4 => batch.new.len(),
            5 => images * self.setting.members(),
            6 => images * 2 * sources(self.start().1).0.len(),
            7 | 9 | 10 => images * buckets,
            8 => freshes * buckets,
            _ => batch.hits.len(),
        };
        for turn in 0..self.subjects.len() {
            let who = (self.done + turn) % self.subjects.len();
            let subject = &mut *self.subjects[who];
            let Some((result, ns)) = measure(subject, call, batch, freshes, self.clock) else {
                continue;
            };
            assert_eq!(*agreed.get_or_insert(result), result, "{}", CALLS[call].0);
            take(who, ns / units as f64);
        }
    }
}

/// The medians of the first so many of `CALLS`; a first round is not counted.
pub fn run(setting: Setting, calls: usize, effort: Effort) -> Vec<Times> {
    let mut rounds = Rounds::new(setting, Who::All);
    let mut samples = vec![vec![Vec::new(); CALLS.len()]; rounds.subjects.len()];
    for round in 0..=effort.rounds {
        let calls = if round > effort.whole {
            calls.min(ON_HASHES)
        } else {
            calls
        };
        rounds.round(calls, effort.batch, |who, call, ns| {
            if round > 0 {
                samples[who][call].push(ns);
            }
        });
    }
    let members = (setting.images() * setting.members()) as f64;
    let mut all = Vec::new();
    for (subject, samples) in rounds.subjects.iter().zip(samples) {
        let mut ns = [None; CALLS.len()];
        for (median_of, values) in ns.iter_mut().zip(samples) {
            *median_of = median(values);
        }
        all.push(Times {
            name: subject.name(),
            ns,
            bytes_a_member: subject.bytes() as f64 / members,
        });
    }
    all
}
