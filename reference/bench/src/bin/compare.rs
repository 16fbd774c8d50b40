//! The times of two builds of `bench` against each other, call by call.
//!
//!     compare BEFORE AFTER [quick]
//!
//! Both run at once and make the same call in turn, on the same hashes in the same memory, so that
//! what else the machine does, and where the buffers lie, meets both. They are started anew several
//! times. The ratio is the median of after / before over these pairs; `quick` starts once.

use std::io::{BufRead, BufReader, Write};
use std::path::Path;
use std::process::{Child, ChildStdin, ChildStdout, Command, Stdio};

/// B and load, how often the builds are started, and the pairs a start of a call on hashes and of
/// one on whole images.
const SETTINGS: [(u64, u64, usize, usize, usize); 4] = [
    (113, 50, 9, 100, 100),
    (113, 90, 9, 100, 100),
    (65536, 50, 3, 100, 15),
    (65536, 90, 3, 100, 15),
];

/// The calls on whole images.
const WHOLE: [&str; 6] = ["page", "merge", "check", "fresh", "attach", "detach"];

/// A build of `bench` that waits for its next call.
struct Build {
    child: Child,
    ask: ChildStdin,
    answer: BufReader<ChildStdout>,
    calls: Vec<String>,
}

impl Build {
    fn start(path: &str, b: u64, load: u64, folder: &Path) -> Build {
        let mut child = Command::new(path)
            .args(["calls", &b.to_string(), &load.to_string()])
            .arg(folder)
            .stdin(Stdio::piped())
            .stdout(Stdio::piped())
            .spawn()
            .expect("a build of bench");
        let ask = child.stdin.take().expect("its input");
        let answer = BufReader::new(child.stdout.take().expect("its output"));
        Build {
            child,
            ask,
            answer,
            calls: Vec::new(),
        }
    }

    fn line(&mut self) -> String {
        let mut line = String::new();
        self.answer.read_line(&mut line).expect("a line");
        line.trim_end().to_string()
    }

    /// The calls that it has, once it is ready.
    fn ready(&mut self) {
        self.calls = self.line().split('\t').map(str::to_string).collect();
    }

    /// The time of one call, in ns.
    fn time(&mut self, call: &str) -> f64 {
        let number = self.calls.iter().position(|name| name == call);
        writeln!(self.ask, "{}", number.expect("such a call")).expect("a build that runs");
        self.line().parse().expect("a time")
    }

    fn end(mut self) {
        drop(self.ask);
        self.child.wait().expect("its end");
    }
}

/// Times before and after, by call.
type Pairs = Vec<(String, Vec<(f64, f64)>)>;

/// One start of both: adds the pairs of every call that both have; the first pair is not counted.
fn add(all: &mut Pairs, paths: [&str; 2], b: u64, load: u64, hashes: usize, whole: usize) {
    let folder = Path::new("/dev/shm").join(format!("compare-{}", std::process::id()));
    std::fs::create_dir_all(&folder).expect("a folder");
    let [mut before, mut after] = paths.map(|path| Build::start(path, b, load, &folder));
    before.ready();
    after.ready();
    for call in before.calls.clone() {
        if !after.calls.contains(&call) {
            continue;
        }
        let at = all.iter().position(|(name, _)| *name == call);
        let at = at.unwrap_or_else(|| {
            all.push((call.clone(), Vec::new()));
            all.len() - 1
        });
        let many = if WHOLE.contains(&&*call) {
            whole
        } else {
            hashes
        };
        for turn in 0..=many {
            let pair = if turn % 2 == 0 {
                let first = before.time(&call);
                (first, after.time(&call))
            } else {
                let first = after.time(&call);
                (before.time(&call), first)
            };
            if turn > 0 {
                all[at].1.push(pair);
            }
        }
    }
    before.end();
    after.end();
    std::fs::remove_dir_all(&folder).expect("the folder");
}

fn median(values: impl Iterator<Item = f64>) -> f64 {
    let mut values: Vec<f64> = values.collect();
    values.sort_by(f64::total_cmp);
    values[values.len() / 2]
}

fn main() {
    let arguments: Vec<String> = std::env::args().skip(1).collect();
    let [before, after, rest @ ..] = &arguments[..] else {
        eprintln!("usage: compare BEFORE AFTER [quick]");
        std::process::exit(2);
    };
    for (b, load, starts, hashes, whole) in SETTINGS {
        let starts = if rest.is_empty() { starts } else { 1 };
        let mut all = Pairs::new();
        for _ in 0..starts {
            add(&mut all, [before, after], b, load, hashes, whole);
        }
        println!("\nB = {b}, load {load} %, ns\n");
        println!("| call | before | after | after / before |\n|---|---|---|---|");
        for (call, pairs) in all {
            let before = median(pairs.iter().map(|pair| pair.0));
            let after = median(pairs.iter().map(|pair| pair.1));
            let ratio = median(pairs.iter().map(|pair| pair.1 / pair.0));
            let mark = if ratio > 1.03 { " slower" } else { "" };
            println!("| {call} | {before:.1} | {after:.1} | {ratio:.3}{mark} |");
        }
    }
}
