//! Times of the calls: a table in Markdown and a plot in SVG.
//!
//!     bench FOLDER [quick]
//!     bench median FILE FILE FILE
//!     bench setting B LOAD [quick]
//!     bench rows [quick]
//!     bench occupancy [quick]
//!     bench calls B LOAD FOLDER
//!
//! The first writes FOLDER/bench.md and FOLDER/bench.svg; `quick` takes fewer rounds. The second
//! prints the median ratios of several bench.md, the third the table of one setting. The next two
//! print the table of rows or of occupancy pages alone, which are there with the feature `rows`.
//! The last is for `compare`: it names its calls, with the feature `rows` those of rows too, and
//! times the one whose number comes on standard input, again and again; its buffers are files of
//! FOLDER.

mod inputs;
mod lines;
mod measure;
mod medians;
#[cfg(feature = "rows")]
mod occupancy;
mod plot;
#[cfg(feature = "rows")]
mod rows;
mod subject;
#[cfg(feature = "rows")]
mod turns;

use inputs::Setting;
use measure::{Effort, Rounds, Times, Who, CALLS, ON_HASHES};
use medians::RATIOS;
use plot::{Panel, Series};
use std::collections::BTreeMap;
use std::fs::File;

fn effort(b: u64, quick: bool) -> Effort {
    let (rounds, whole, batch) = match (b > 4096, quick) {
        (false, false) => (301, 101, 2000),
        (false, true) => (101, 31, 2000),
        (true, false) => (61, 9, 4000),
        (true, true) => (21, 3, 4000),
    };
    Effort {
        rounds,
        whole,
        batch,
    }
}

/// What is measured so far, by B and load.
#[derive(Default)]
struct Results {
    quick: bool,
    all: BTreeMap<(u64, u64), Vec<Times>>,
}

impl Results {
    /// The times of the first so many calls in a setting, measured where they are not yet.
    fn of(&mut self, b: u64, load: u64, calls: usize) -> &[Times] {
        let effort = effort(b, self.quick);
        self.all.entry((b, load)).or_insert_with(|| {
            eprintln!("B = {b}, load {load} %");
            measure::run(Setting { b, load }, calls, effort)
        })
    }
}

fn ns(value: Option<f64>) -> String {
    match value {
        None => String::new(),
        Some(ns) if ns < 10.0 => format!("{ns:.1}"),
        Some(ns) => format!("{ns:.0}"),
    }
}

fn ratio(over: Option<f64>, under: Option<f64>) -> String {
    match (over, under) {
        (Some(over), Some(under)) => format!("{:.3}", over / under),
        _ => String::new(),
    }
}

fn row(cells: &[String]) -> String {
    format!("| {} |\n", cells.join(" | "))
}

/// The first row of a table, and the line below it.
fn head(cells: &[String]) -> String {
    row(cells) + &format!("|{}\n", "---|".repeat(cells.len()))
}

/// The two whose times a ratio compares, where both are measured.
fn compared<'a>(all: &'a [Times], ratio: &str) -> Option<[&'a Times; 2]> {
    let (over, under) = ratio.split_once(" / ")?;
    let of = |name| all.iter().find(|times| times.name == name);
    Some([of(over)?, of(under)?])
}

/// One table: a row a call, a column an implementation, and the ratios of capi to the others.
fn table(setting: Setting, all: &[Times]) -> String {
    let ratios = RATIOS.map(|name| Some((name, compared(all, name)?)));
    let ratios: Vec<_> = ratios.into_iter().flatten().collect();
    let mut text = format!(
        "\n## B = {}, load {} % ({} members)\n\n",
        setting.b,
        setting.load,
        setting.members()
    );
    let mut names = vec!["call".to_string(), "ns a".to_string()];
    names.extend(all.iter().map(|times| times.name.to_string()));
    names.extend(ratios.iter().map(|(name, _)| name.to_string()));
    text += &head(&names);
    for (call, (name, unit)) in CALLS.iter().enumerate() {
        let mut cells = vec![name.to_string(), unit.to_string()];
        cells.extend(all.iter().map(|times| ns(times.ns[call])));
        let cell = |[over, under]: [&Times; 2]| ratio(over.ns[call], under.ns[call]);
        cells.extend(ratios.iter().map(|&(_, compared)| cell(compared)));
        text += &row(&cells);
    }
    let mut cells = vec!["bytes a member".to_string(), String::new()];
    cells.extend(
        all.iter()
            .map(|times| format!("{:.1}", times.bytes_a_member)),
    );
    cells.resize(cells.len() + ratios.len(), String::new());
    text + &row(&cells)
}

const NOTES: &str = "\
Medians over rounds. In a round every implementation makes the same call on the same inputs in \
turn, each on its own buffers, which begin at a page; the order of turns changes from round to round, and a first round \
is not counted. Before each timed batch the buffers are warmed by as many asks for other random \
hashes, for every implementation in the same way. All are built for \
release for the plain instruction set of the processor family. Only ratios within one run mean \
much.

Load is the members' share of the 28 × F front slots; 90 % are 82 % of all slots. The hashes are \
random. `insert` and `delete` take a fiftieth of the members as new ones, in and out \
again, and the image is then copied anew from the start. For B = 1 and 8 there are 64 and 12 \
images, each with members of its own, and a batch takes them in turn. `merge` has 45 % of the \
members in each source, and includes both checks. `page` lists the whole image in one call. \
`attach` and `detach` move all members from an old image and to one, and include the check; \
`tail` tells the total and the change count. \
`fast` is unverified Rust with the same reading rule: every bucket is read whole before it is \
trusted. `quick` is `fast` with the library's ideas for a bucket. `HashMap` is Rust's \
`HashMap<u64, u32>` as a counting multiset, with the hashes as keys that are not hashed again; its \
`page` collects and sorts.
";

/// The settings of the tables: every B at every load.
const SIZES: [u64; 6] = [1, 8, 113, 1024, 8192, 65536];
const LOADS: [u64; 2] = [50, 90];

/// The sizes of the tables of two ways; a row needs more front buckets than B = 1 has.
#[cfg(feature = "rows")]
const SIZES_OF_WAYS: [u64; 2] = [113, 65536];

fn settings(sizes: &[u64]) -> impl Iterator<Item = Setting> + '_ {
    sizes
        .iter()
        .flat_map(|&b| LOADS.map(|load| Setting { b, load }))
}

/// A table of two ways under a title, with the rows of each setting.
#[cfg(feature = "rows")]
fn ways_table(
    title: &str,
    notes: &str,
    columns: &[&str],
    cells: impl Fn(Setting) -> Vec<Vec<String>>,
) -> String {
    let columns: Vec<String> = ["B", "load"]
        .iter()
        .chain(columns)
        .map(|name| name.to_string())
        .collect();
    let mut text = format!("\n## {title}\n\n{notes}\n{}", head(&columns));
    for setting in settings(&SIZES_OF_WAYS) {
        let Setting { b, load } = setting;
        eprintln!("{title}, B = {b}, load {load} %");
        for cells in cells(setting) {
            text += &row(&[vec![b.to_string(), format!("{load} %")], cells].concat());
        }
    }
    text
}

/// Two times and their ratio, the later over the earlier.
#[cfg(feature = "rows")]
fn two_ways(before: f64, after: f64) -> Vec<String> {
    let (before, after) = (Some(before), Some(after));
    vec![ns(before), ns(after), ratio(after, before)]
}

#[cfg(feature = "rows")]
fn rows_table(quick: bool) -> Option<String> {
    let columns = ["hashes", "lone", "row", "row / lone"];
    Some(ways_table("Rows", ROWS_NOTES, &columns, |setting| {
        let times = rows::run(setting, effort(setting.b, quick));
        let cells = |(times, hashes): (&rows::Times, &str)| {
            [vec![hashes.to_string()], two_ways(times.lone, times.row)].concat()
        };
        times.iter().zip(["members", "others"]).map(cells).collect()
    }))
}

#[cfg(feature = "rows")]
fn occupancy_table(quick: bool) -> Option<String> {
    let columns = ["page", "occupancy", "occupancy / page"];
    Some(ways_table(
        "Occupancy pages",
        OCCUPANCY_NOTES,
        &columns,
        |setting| {
            let times = occupancy::run(setting, effort(setting.b, quick));
            vec![two_ways(times.listed, times.line)]
        },
    ))
}

/// Times rows of about so many asks, for hashes that are there or for others: ns an ask.
type TimeRows = Box<dyn FnMut(bool, usize) -> f64>;

#[cfg(feature = "rows")]
fn rows_alone(setting: Setting, start: (&[u8], &[u64]), file: &File) -> Option<TimeRows> {
    let mut rows = rows::Alone::new(setting, start, file);
    Some(Box::new(move |there, asks| rows.time(there, asks)))
}

#[cfg(not(feature = "rows"))]
fn rows_alone(_: Setting, _: (&[u8], &[u64]), _: &File) -> Option<TimeRows> {
    None
}

#[cfg(not(feature = "rows"))]
fn rows_table(_: bool) -> Option<String> {
    None
}

#[cfg(not(feature = "rows"))]
fn occupancy_table(_: bool) -> Option<String> {
    None
}

#[cfg(feature = "rows")]
const ROWS_NOTES: &str = "\
ns an ask. A row has 96 asks, sorted by hash: 12 random front buckets with 8 hashes each, all of \
members or all of others. `lone` asks for them one by one in that order, `row` in one call of \
`bcf_row`; there filling the entries and looking at their places is in the time. In a round both \
ask for the same hashes, each on its own image, warmed by as many asks of its kind, and take turns at starting.
";

#[cfg(feature = "rows")]
const OCCUPANCY_NOTES: &str = "\
ns a front bucket. `occupancy` writes all occupancy pages of the image, a line a front bucket; \
`page` lists its members, in pages of 1,024 entries. Each has its own image, warmed by a check, and \
they take turns at starting.
";

/// The panels of one axis: one for each of the calls that are plotted. A point is its place on
/// the axis and its setting.
fn panels(
    results: &mut Results,
    points: &[(u64, u64, u64)],
    label: &str,
    log_x: bool,
    x_ticks: &[f64],
) -> Vec<Panel> {
    let plotted = [0, 1, 3, 4];
    let panel = |call: usize| Panel {
        title: format!("{}: ns a call", CALLS[call].0),
        x_label: label.to_string(),
        log_x,
        x_ticks: x_ticks.to_vec(),
        series: Vec::new(),
    };
    let mut panels: Vec<Panel> = plotted.iter().map(|&call| panel(call)).collect();
    for &(x, b, load) in points {
        for (who, times) in results.of(b, load, ON_HASHES).iter().enumerate() {
            for (panel, &call) in panels.iter_mut().zip(&plotted) {
                if panel.series.len() == who {
                    panel.series.push(Series {
                        name: times.name.to_string(),
                        points: Vec::new(),
                    });
                }
                if let Some(ns) = times.ns[call] {
                    panel.series[who].points.push((x as f64, ns));
                }
            }
        }
    }
    panels
}

/// The first implementation makes the calls that it is told to: `CALLS`, then those of rows where
/// it has them.
fn calls(setting: Setting, folder: &str) {
    let size = effort(setting.b, true).batch;
    let file = |number: usize| {
        let mut open = File::options();
        open.read(true).write(true).create(true).truncate(false);
        open.open(format!("{folder}/{number}")).expect("a buffer")
    };
    // Buffer 4 has rows in every `bench`, also in one that has no old image.
    let files = [0, 1, 2, 3, 5].map(file);
    let mut rounds = Rounds::new(setting, Who::First(files.into()));
    let mut rows = rows_alone(setting, rounds.start(), &file(4));
    let mut names = CALLS.map(|(name, _)| name).to_vec();
    if rows.is_some() {
        names.extend(["row, hit", "row, miss"]);
    }
    println!("{}", names.join("\t"));
    for line in std::io::stdin().lines() {
        let call: usize = line.expect("input").parse().expect("a call's number");
        let ns = match &mut rows {
            Some(rows) if call >= CALLS.len() => Some(rows(call == CALLS.len(), size)),
            _ => rounds.alone(call, size),
        };
        println!("{}", ns.expect("a time"));
    }
}

/// Every table.
fn tables(results: &mut Results) -> String {
    let quick = results.quick;
    let mut text = format!("# Times of the calls\n\n{NOTES}");
    for setting in settings(&SIZES) {
        let times = results.of(setting.b, setting.load, CALLS.len());
        text += &table(setting, times);
    }
    text += &rows_table(quick).unwrap_or_default();
    text + &occupancy_table(quick).unwrap_or_default()
}

/// The plot over load, and beside it over B.
fn plot(results: &mut Results) -> String {
    let loads = [10, 20, 30, 40, 50, 60, 70, 80, 90, 95];
    let over_load: Vec<_> = loads.map(|load| (load, 113, load)).to_vec();
    let over_size: Vec<_> = SIZES.map(|b| (b, b, 90)).to_vec();
    let left = panels(
        results,
        &over_load,
        "load in percent, B = 113",
        false,
        &[10.0, 30.0, 50.0, 70.0, 90.0],
    );
    let right = panels(
        results,
        &over_size,
        "B, load 90 %",
        true,
        &SIZES.map(|b| b as f64),
    );
    let both: Vec<Panel> = left
        .into_iter()
        .zip(right)
        .flat_map(|(l, r)| [l, r])
        .collect();
    plot::svg("ns a call over load and over B", &both, 2)
}

fn usage() -> ! {
    eprintln!("usage: bench FOLDER [quick] | rows [quick] | occupancy [quick]");
    eprintln!("       bench median FILE FILE FILE");
    eprintln!("       bench setting B LOAD [quick]");
    eprintln!("       bench calls B LOAD FOLDER");
    std::process::exit(2);
}

/// The reports of several runs, as `bench` wrote them.
fn medians_of(files: &[&str]) -> String {
    let read = |file: &&str| std::fs::read_to_string(file).expect("a bench.md");
    medians::tables(&files.iter().map(read).collect::<Vec<_>>())
}

/// Every table and the plot, into a folder.
fn report(results: &mut Results, folder: &str) -> String {
    let report = tables(results);
    let svg = plot(results);
    std::fs::create_dir_all(folder).expect("the folder");
    std::fs::write(format!("{folder}/bench.md"), &report).expect("bench.md");
    std::fs::write(format!("{folder}/bench.svg"), svg).expect("bench.svg");
    report
}

fn main() {
    let arguments: Vec<String> = std::env::args().skip(1).collect();
    let mut words: Vec<&str> = arguments.iter().map(String::as_str).collect();
    let quick = words.last() == Some(&"quick");
    if quick {
        words.pop();
    }
    let number = |at: usize| words[at].parse().unwrap_or_else(|_| usage());
    let setting = || Setting {
        b: number(1),
        load: number(2),
    };
    let mut results = Results {
        quick,
        ..Results::default()
    };
    const WITH_ROWS: &str = "a build with the feature `rows`";
    let text = match &words[..] {
        ["calls", _, _, folder] => return calls(setting(), folder),
        ["setting", _, _] => {
            let Setting { b, load } = setting();
            table(setting(), results.of(b, load, CALLS.len()))
        }
        ["median", files @ ..] if !files.is_empty() => medians_of(files),
        ["rows"] => rows_table(quick).expect(WITH_ROWS),
        ["occupancy"] => occupancy_table(quick).expect(WITH_ROWS),
        ["median" | "setting" | "calls"] => usage(),
        [folder] => report(&mut results, folder),
        _ => usage(),
    };
    print!("{text}");
}
