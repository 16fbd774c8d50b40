//! Replays calls of another model from text, and compares every answer and every byte.
//!
//! A line is `CALL = RESULT`; a line that begins with # starts a history, without images. `at level
//! 13` in it is the stage of request C-13, and none that of document 01. COPIES are there from stage
//! 13 on, CHANGES from stage 15 on.
//!
//! ```text
//! new R LENGTH         image R becomes so many zero bytes         = - SHA
//! poke R AT HEX        bytes of R from AT on are overwritten      = - SHA
//! fresh R              check R                                    = 0 SHA
//! insert R HASH        delete R HASH                              = 0 ANSWER SHA
//! ask R HASH           no slot: -                                 = 0 READS PLACE SLOT [COPIES] SHA
//! count R HASH                                                    = 0 COPIES READS SHA
//! page R S LENGTH [CHANGES]  entry i holds 2^64 - 1 - i before    = 0 HOW_MANY NEXT SHA SHA_OUTPUT
//! merge R R2 R3        R3 is the target                           = 0 SHA SHA2 SHA3
//! row R HASHES         an ENTRY is READS/PLACE/SLOT[/COPIES]      = 0 TOTAL ENTRIES SHA
//! occupancy R P LENGTH output byte i holds i mod 251 before       = 0 SHA SHA_OUTPUT
//! to_new R R2          the move of R into R2; from stage 14 on    = 0 SHA SHA2
//! to_old R R2          the move of R into R2; from stage 14 on    = 0 SHA SHA2
//! ```
//!
//! A refusal has NUMBER, or NUMBER TABLE_NUMBER, in the place of 0 and the values. HASH and HEX
//! are in hex, other numbers in base ten. HASHES and ENTRIES are joined by commas, `-` where there
//! are none. SHA is the SHA-256 of the image after the call.
//!
//! The images of the stages before 14 are old ones. They are replayed as images with a tail: `new`
//! makes 64 bytes more, every call finds a good tail behind each image that it is lent, and digests
//! are those of the bytes before the tail. A page of the stages before 15 brings the change count of
//! its image. The stages before 17 are brought to the text of C-17 where b0 = b1: asks and counts that
//! tell 3 reads there have 2, calls that meet a choice 0 crumb there are refused with 3, and calls on
//! images that such a call would have changed are left out.

mod coinciding;

use crate::catalogue::{Catalogue, Entry};
use crate::prepare::members_in;
use crate::sha256::sha256;
use crate::shape::{Shape, TAIL};
use crate::tail::Tail;
use coinciding::{reads_told, refused_now, total_told, Lost};
use std::collections::HashMap;

type Images = HashMap<String, Vec<u8>>;

/// From this stage on an ask tells copies.
const WITH_COPIES: u64 = 13;
/// From this stage on the images that are told have a tail.
const WITH_TAILS: u64 = 14;
/// From this stage on a page tells the change count that it brings.
const WITH_COUNTS: u64 = 15;

/// What a replay found: the calls compared, and a text for each that differs.
#[derive(Default)]
pub struct Replayed {
    pub compared: u64,
    /// Calls among them that were told before C-17 and are refused with 3 since.
    pub refused_now: u64,
    /// Calls that are not compared, since an image is not known after one of these.
    pub left_out: u64,
    pub differences: Vec<String>,
}

impl Replayed {
    /// What was found, without the differences: a line, and one more on what was brought to C-17.
    pub fn summary(&self) -> String {
        let (all, differ) = (self.compared, self.differences.len());
        let summary = format!("{all} calls compared, {differ} differ");
        match (self.refused_now, self.left_out) {
            (0, 0) => summary,
            (now, left) => {
                let refused = format!("{now} of them refused with 3 since C-17");
                format!("{summary}\n({refused}, {left} more left out)")
            }
        }
    }
}

fn number(word: &str) -> u64 {
    word.parse().expect("a number in base ten")
}

fn hash(word: &str) -> u64 {
    u64::from_str_radix(word, 16).expect("a number in hex")
}

fn bytes(word: &str) -> Vec<u8> {
    let pair = |at: usize| u8::from_str_radix(&word[at..at + 2], 16).expect("two hex digits");
    (0..word.len()).step_by(2).map(pair).collect()
}

/// A packed answer as text: `0` and the values, or the refusal.
fn text(answer: u64, values: impl Fn(u64) -> String) -> String {
    let (number, value) = (answer >> 56, answer % (1 << 56));
    match number {
        0 => format!("0{}", values(value)),
        3 | 8 => format!("{number} {value}"),
        _ => number.to_string(),
    }
}

/// The stage of a history by the line that starts it; 0 where it tells none.
fn stage_of(line: &str) -> u64 {
    let told = line.split_once(" at level ");
    let told = told.and_then(|(_, rest)| rest.split(':').next());
    told.map_or(0, number)
}

/// Reads, place, slot and copies of an ask, as far as they are told at this stage.
fn asked(stage: u64, [reads, place, slot, copies]: [u64; 4], joined_by: &str) -> String {
    let slot = match (place, slot) {
        (0, 0) => "-".to_string(),
        _ => slot.to_string(),
    };
    let mut told = vec![reads.to_string(), place.to_string(), slot];
    if stage >= WITH_COPIES {
        told.push(copies.to_string());
    }
    told.join(joined_by)
}

/// The answer of a lone ask for this hash in an image of so many bytes.
fn lone(stage: u64, length: usize, hash: u64, value: u64) -> String {
    let reads = reads_told(stage, length, hash, value % 16);
    let told = [reads, value / 16 % 16, value / 256 % 256, value >> 16];
    format!(" {}", asked(stage, told, " "))
}

/// The copies and the reads of a count.
fn counted(stage: u64, length: usize, hash: u64, value: u64) -> String {
    let reads = reads_told(stage, length, hash, value >> 32);
    format!(" {} {reads}", value % (1 << 32))
}

/// The entries that ask for these hashes; entry i holds 2^32 - 1 - i in its other fields.
fn entries(hashes: &str) -> Vec<Entry> {
    let entry = |(hash_text, old): (&str, u32)| Entry {
        hash: hash(hash_text),
        reads: old,
        place: old,
        slot: old,
        copies: old,
    };
    let hashes = hashes.split(',').filter(|&word| word != "-");
    hashes.zip((0..=u32::MAX).rev()).map(entry).collect()
}

/// The total and the answers of a row on an image of so many bytes.
fn rowed(stage: u64, length: usize, total: u64, row: &[Entry]) -> String {
    let answer = |entry: &Entry| {
        let [reads, place, slot, copies] =
            [entry.reads, entry.place, entry.slot, entry.copies].map(u64::from);
        let reads = reads_told(stage, length, entry.hash, reads);
        asked(stage, [reads, place, slot, copies], "/")
    };
    let total = total_told(stage, length, total, row);
    let answers: Vec<String> = row.iter().map(answer).collect();
    let entries = match row {
        [] => "-".to_string(),
        _ => answers.join(","),
    };
    format!(" {total} {entries}")
}

/// Whether a row kept what it must: all of it where it is refused, else the hashes.
fn kept(answer: u64, before: &[Entry], row: &[Entry]) -> bool {
    let hashes = |row: &[Entry]| -> Vec<u64> { row.iter().map(|entry| entry.hash).collect() };
    hashes(row) == hashes(before) && (answer >> 56 == 0 || row == before)
}

/// Two values, the first in the lower 32 bits.
fn pair(value: u64) -> String {
    format!(" {} {}", value % (1 << 32), value >> 32)
}

/// Bytes that an image has here beyond those told at this stage.
fn beyond(stage: u64) -> usize {
    match stage < WITH_TAILS {
        true => TAIL,
        false => 0,
    }
}

/// A good tail for an image: its members, or half the slots where a bucket is unsound.
fn put_tail(image: &mut [u8]) {
    if let Some(shape) = Shape::of_length(image.len()) {
        let total = members_in(image, shape).unwrap_or(shape.slots() / 2);
        Tail { total, changes: 0 }.write(image);
    }
}

/// The images that a call is lent, by name.
fn lent<'a>(words: &'a [&'a str]) -> &'a [&'a str] {
    match words[0] {
        "merge" | "to_new" | "to_old" => &words[1..],
        _ => &words[1..2],
    }
}

/// Performs one call: the text of its result at this stage. Nothing where the catalogue has no such
/// call.
fn perform(
    catalogue: &dyn Catalogue,
    images: &mut Images,
    stage: u64,
    call: &str,
) -> Option<String> {
    let words: Vec<&str> = call.split(' ').collect();
    let beyond = beyond(stage);
    if words[0] == "new" {
        let length = number(words[2]) as usize + beyond;
        images.insert(words[1].to_string(), vec![0; length]);
    }
    let is_call = !["new", "poke"].contains(&words[0]);
    if beyond > 0 && is_call {
        for name in lent(&words) {
            put_tail(images.get_mut(*name).expect("an image"));
        }
    }
    let (result, output) = perform_lent(catalogue, images, stage, &words)?;
    let digest = |name: &&str| {
        let image = &images[*name];
        sha256(&image[..image.len() - beyond])
    };
    let mut told = vec![result];
    told.extend(lent(&words).iter().map(digest));
    told.extend(output.map(|output| sha256(&output)));
    Some(told.join(" "))
}

/// Performs a call: the text of its answer, and the output if it has one.
fn perform_lent(
    catalogue: &dyn Catalogue,
    images: &mut Images,
    stage: u64,
    words: &[&str],
) -> Option<(String, Option<Vec<u8>>)> {
    if let [_, .., target] = lent(words) {
        return Some((into_target(catalogue, images, words, target), None));
    }
    let image = images.get_mut(words[1]).expect("an image");
    Some(match words[0] {
        "page" | "occupancy" => {
            let (result, output) = with_output(catalogue, image, stage, words)?;
            (result, Some(output))
        }
        "row" => (row(catalogue, image, stage, words[2])?, None),
        _ => (on_image(catalogue, image, stage, words), None),
    })
}

/// A call that writes a target, the last image it is lent.
fn into_target(
    catalogue: &dyn Catalogue,
    images: &mut Images,
    words: &[&str],
    target: &str,
) -> String {
    let mut written = images.remove(target).expect("an image");
    let source = |at: usize| &images[words[at]];
    let answer = match words[0] {
        "merge" => catalogue.merge(source(1), source(2), &mut written),
        "to_new" => catalogue.attach(source(1), &mut written),
        _ => catalogue.detach(source(1), &mut written),
    };
    images.insert(target.to_string(), written);
    text(answer, nothing)
}

/// What follows the 0 of a call that gives no value.
fn nothing(_: u64) -> String {
    String::new()
}

/// A call on one image alone.
fn on_image(catalogue: &dyn Catalogue, image: &mut [u8], stage: u64, words: &[&str]) -> String {
    let answer = |value| format!(" {value}");
    let length = image.len();
    match words[0] {
        "new" => "-".to_string(),
        "poke" => {
            let (at, new) = (number(words[2]) as usize, bytes(words[3]));
            image[at..at + new.len()].copy_from_slice(&new);
            "-".to_string()
        }
        "fresh" => text(catalogue.fresh(image), nothing),
        "check" => text(catalogue.check(image), nothing),
        "insert" => text(catalogue.insert(image, hash(words[2])), answer),
        "delete" => text(catalogue.delete(image, hash(words[2])), answer),
        "ask" => {
            let hash = hash(words[2]);
            text(catalogue.ask(image, hash), |value| {
                lone(stage, length, hash, value)
            })
        }
        "count" => {
            let hash = hash(words[2]);
            text(catalogue.count(image, hash), |value| {
                counted(stage, length, hash, value)
            })
        }
        other => panic!("no such call: {other}"),
    }
}

/// A row that asks for these hashes.
fn row(catalogue: &dyn Catalogue, image: &[u8], stage: u64, hashes: &str) -> Option<String> {
    let before = entries(hashes);
    let mut row = before.clone();
    let answer = catalogue.row(image, &mut row)?;
    Some(match kept(answer, &before, &row) {
        true => text(answer, |total| rowed(stage, image.len(), total, &row)),
        false => "entries not kept".to_string(),
    })
}

/// A page or an occupancy page, with the bytes of its output.
fn with_output(
    catalogue: &dyn Catalogue,
    image: &[u8],
    stage: u64,
    words: &[&str],
) -> Option<(String, Vec<u8>)> {
    let (from, length) = (number(words[2]), number(words[3]));
    if words[0] == "page" {
        let mut out: Vec<u64> = (0..length).map(|i| u64::MAX - i).collect();
        let answer = catalogue.page(image, from, brought(image, stage, words), &mut out);
        let bytes = out.iter().flat_map(|x| x.to_le_bytes());
        return Some((text(answer, pair), bytes.collect()));
    }
    let mut out = output_before(length as usize);
    let answer = catalogue.occupancy(image, from, &mut out)?;
    Some((text(answer, nothing), out))
}

/// The change count that a page brings.
fn brought(image: &[u8], stage: u64, words: &[&str]) -> u64 {
    match stage < WITH_COUNTS {
        // Where it is no image any count will do.
        true => Tail::changes_in(image).unwrap_or(0),
        false => number(words[4]),
    }
}

/// The output of an occupancy page before the call.
pub fn output_before(length: usize) -> Vec<u8> {
    (0..length).map(|i| (i % 251) as u8).collect()
}

/// Replays a whole text.
pub fn replay(catalogue: &dyn Catalogue, lines: &str) -> Replayed {
    let (mut images, mut stage) = (Images::new(), 0);
    let mut lost = Lost::default();
    let mut replayed = Replayed::default();
    for (at, line) in lines.lines().enumerate() {
        if line.starts_with('#') {
            images.clear();
            lost = Lost::default();
            stage = stage_of(line);
            continue;
        }
        let (call, told) = line.split_once(" = ").expect("CALL = RESULT");
        if !lost.follows(call, told) {
            replayed.left_out += 1;
            continue;
        }
        let now = refused_now(&images, stage, call);
        let Some(got) = perform(catalogue, &mut images, stage, call) else {
            continue;
        };
        if let Some(now) = &now {
            lost.tell(call, told, now);
            replayed.refused_now += (now != told) as u64;
        }
        let expected = now.as_deref().unwrap_or(told);
        replayed.compared += 1;
        if got != expected {
            let at = at + 1;
            let difference = format!("line {at}: {call}\n  {expected}\n  got {got}");
            replayed.differences.push(difference);
        }
    }
    replayed
}

#[cfg(test)]
mod tests {
    use super::*;
    use crate::catalogue::Model;
    use crate::prepare::fresh_image;

    /// The digests of 1,024 zero bytes and of a fresh image of stages before 14, B = 1.
    fn old_digests() -> (String, String) {
        (sha256(&[0; 1024]), sha256(&fresh_image(1)[..1024]))
    }

    #[test]
    fn a_difference_is_seen() {
        let (zeros, fresh) = old_digests();
        let good = format!(
            "# a\n\
             new a 1024 = - {zeros}\n\
             fresh a = 0 {fresh}\n\
             delete a 1F = 5 {fresh}\n\
             ask a 1F = 0 1 0 - {fresh}\n\
             row a 1F,2F = 0 1 1/0/-,1/0/- {fresh}\n\
             row a - = 0 0 - {fresh}\n\
             occupancy a 1 9 = 6 {fresh} {}\n",
            sha256(&[0, 1, 2, 3, 4, 5, 6, 7, 8]),
        );
        let replayed = replay(&Model, &good);
        assert_eq!((replayed.compared, replayed.differences.len()), (7, 0));
        for (right, wrong) in [("= 5", "= 4"), ("1/0/- ", "1/1/0 "), (" 9 ", " 8 ")] {
            let wrong = good.replace(right, wrong);
            assert_eq!(replay(&Model, &wrong).differences.len(), 1);
        }
    }

    #[test]
    fn copies_from_stage_13_on() {
        let (zeros, fresh) = old_digests();
        let mut image = fresh_image(1);
        Model.insert(&mut image, 0x1F);
        let filed = sha256(&image[..1024]);
        let calls = |with: &str, without: &str| {
            format!(
                "new a 1024 = - {zeros}\n\
                 fresh a = 0 {fresh}\n\
                 insert a 1F = 0 0 {filed}\n\
                 ask a 1F = 0 1 1 0{with} {filed}\n\
                 ask a 2F = 0 1 0 -{without} {filed}\n",
            )
        };
        let told = calls(" 1", " 0") + &format!("row a 1F,2F = 0 1 1/1/0/1,1/0/-/0 {filed}\n");
        let untold = calls("", "") + &format!("row a 1F,2F = 0 1 1/1/0,1/0/- {filed}\n");
        for (level, right, wrong) in [
            ("", &untold, &told),
            (" at level 12", &untold, &told),
            (" at level 13", &told, &untold),
        ] {
            let differ = |calls: &str| {
                let history = format!("# history 0 of seed 1{level}: plain\n{calls}");
                replay(&Model, &history).differences.len()
            };
            assert_eq!((differ(right), differ(wrong)), (0, 3));
        }
    }

    #[test]
    fn tails_from_stage_14_on() {
        let (zeros, fresh) = old_digests();
        let unchecked = format!("check a = 3 0 {zeros}\nask a 1F = 3 0 {zeros}\n");
        let before = format!(
            "# a at level 13: plain\n\
             new a 1024 = - {zeros}\n{unchecked}\
             fresh a = 0 {fresh}\n\
             check a = 0 {fresh}\n\
             new b 1088 = - {}\n\
             merge a a b = 1 {fresh} {fresh} {0}\n",
            sha256(&[0; 1088]),
        );
        let replayed = replay(&Model, &before);
        assert_eq!((replayed.compared, replayed.differences.len()), (7, 0));
        let (zeros, new) = (sha256(&[0; 1088]), sha256(&fresh_image(1)));
        let from = format!(
            "# a at level 14: plain\n\
             new a 1088 = - {zeros}\n\
             check a = 11 {zeros}\n\
             fresh a = 0 {new}\n\
             new b 1024 = - {}\n\
             to_old a b = 0 {new} {fresh}\n\
             to_new b a = 0 {fresh} {new}\n\
             to_new a b = 1 {new} {fresh}\n",
            sha256(&[0; 1024]),
        );
        let replayed = replay(&Model, &from);
        assert_eq!((replayed.compared, replayed.differences.len()), (7, 0));
    }

    #[test]
    fn counts_from_stage_15_on() {
        let mut image = fresh_image(1);
        let (zeros, fresh, none) = (sha256(&[0; 1088]), sha256(&image), sha256(&[]));
        Model.insert(&mut image, 0x1F);
        let filed = sha256(&image);
        let history = |stage: u64, count: &str, answer: &str| {
            format!(
                "# a at level {stage}: plain\n\
                 new a 1088 = - {zeros}\n\
                 fresh a = 0 {fresh}\n\
                 insert a 1F = 0 0 {filed}\n\
                 page a 8 0{count} = {answer} {filed} {none}\n",
            )
        };
        for (stage, count, right, wrong) in [
            (14, "", "0 0 8", "14"),
            (15, " 1", "0 0 8", "14"),
            (15, " 0", "14", "0 0 8"),
            (15, " 18446744073709551615", "14", "0 0 8"),
        ] {
            let differ = |answer| {
                replay(&Model, &history(stage, count, answer))
                    .differences
                    .len()
            };
            assert_eq!((differ(right), differ(wrong)), (0, 1));
        }
    }
}
