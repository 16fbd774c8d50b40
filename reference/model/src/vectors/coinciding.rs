//! Stages before C-17, brought to its text where b0 = b1.
//!
//! Their asks and counts read such a bucket twice. Their images may have a choice 0 crumb there; a
//! call that reads the bucket is refused with 3 now, and where it would have changed an image, that
//! image is lost: its bytes are not known until a call writes all of them.

use super::{lent, perform, Images};
use crate::calls::carries_choice_0;
use crate::catalogue::{Entry, Model};
use crate::fingerprint::Fingerprint;
use crate::shape::Shape;
use std::collections::HashSet;

/// From this stage on a bucket is not read a second time, and choice 0 is unsound there.
const READ_ONCE: u64 = 17;

/// The reads that this stage tells of an ask or a count that has so many now.
pub(super) fn reads_told(stage: u64, length: usize, hash: u64, reads: u64) -> u64 {
    let coincides = |shape: Shape| shape.coincides(Fingerprint::of_hash(hash, shape).front);
    let both = reads == 2 && Shape::of_length(length).is_some_and(coincides);
    reads + (stage < READ_ONCE && both) as u64
}

/// The total that this stage tells of a row that has this one now.
pub(super) fn total_told(stage: u64, length: usize, total: u64, row: &[Entry]) -> u64 {
    let front = |entry: &Entry| {
        let shape = Shape::of_length(length).expect("an accepted row");
        Fingerprint::of_hash(entry.hash, shape).front
    };
    let more = |group: &[Entry]| {
        let greatest = group.iter().map(|entry| entry.reads as u64).max();
        let greatest = greatest.expect("a group has an entry");
        reads_told(stage, length, group[0].hash, greatest) - greatest
    };
    let groups = row.chunk_by(|x, y| front(x) == front(y));
    total + groups.map(more).sum::<u64>()
}

/// The table numbers of the buckets of an image, of either form, that are unsound for a choice 0
/// crumb alone.
fn carried(image: &[u8]) -> Vec<u64> {
    let length = image.len();
    let Some(shape) = Shape::of_length(length).or(Shape::of_old_length(length)) else {
        return Vec::new();
    };
    let fronts = shape.coinciding().into_iter();
    let tables = fronts.map(|f| shape.table_number(shape.first_home(f).bucket));
    let carries = |&table: &u64| carries_choice_0(image, shape, table);
    tables.filter(carries).collect()
}

/// The images that a call reads: all that it is lent but for a target.
fn read<'a>(words: &'a [&'a str]) -> &'a [&'a str] {
    match lent(words) {
        [sources @ .., _] if !sources.is_empty() => sources,
        alone => alone,
    }
}

/// The result of a call of this stage that is refused with 3 now, for a choice 0 crumb.
pub(super) fn refused_now(images: &Images, stage: u64, call: &str) -> Option<String> {
    let words: Vec<&str> = call.split(' ').collect();
    if stage >= READ_ONCE || ["new", "poke"].contains(&words[0]) {
        return None;
    }
    let sources = read(&words).iter();
    let tables: Vec<u64> = sources.flat_map(|name| carried(&images[*name])).collect();
    if tables.is_empty() {
        return None;
    }
    let now = perform(&Model, &mut images.clone(), stage, call)?;
    let is_refused = |table: &u64| now.starts_with(&format!("3 {table} "));
    tables.iter().any(is_refused).then_some(now)
}

/// The images that are lost, by name.
#[derive(Default)]
pub(super) struct Lost {
    names: HashSet<String>,
}

impl Lost {
    /// Whether a call with this result can be followed: no image that it reads is lost, or it writes
    /// all of it. Where it does, the image is found again.
    pub(super) fn follows(&mut self, call: &str, told: &str) -> bool {
        let words: Vec<&str> = call.split(' ').collect();
        let is_lost = |name: &&str| self.names.contains(*name);
        let writes_all = match words[0] {
            "new" | "fresh" => true,
            "merge" | "to_new" | "to_old" => {
                let number = told.split(' ').next().expect("a result");
                ["0", "4"].contains(&number) && !read(&words).iter().any(is_lost)
            }
            _ => false,
        };
        if !writes_all {
            return !lent(&words).iter().any(is_lost);
        }
        let written = lent(&words).last().expect("an image");
        self.names.remove(*written);
        true
    }

    /// Takes a call that is refused now: the images that it would have changed are lost.
    pub(super) fn tell(&mut self, call: &str, told: &str, now: &str) {
        let words: Vec<&str> = call.split(' ').collect();
        for ((name, then), now) in lent(&words).iter().zip(digests(told)).zip(digests(now)) {
            if then != now {
                self.names.insert(name.to_string());
            }
        }
    }
}

/// The digests in a result: 64 hex digits. An entry of a row has a stroke.
fn digests(result: &str) -> impl Iterator<Item = &str> {
    let is_digest = |word: &&str| word.len() == 64 && !word.contains('/');
    result.split(' ').filter(is_digest)
}

#[cfg(test)]
mod tests {
    use super::super::{replay, Replayed};
    use super::*;
    use crate::bucket::{encode_backyard, encode_front, Member};
    use crate::catalogue::Catalogue;
    use crate::prepare::{fresh_image, hash_of};
    use crate::random::Random;
    use crate::sha256::sha256;

    const SHAPE: Shape = Shape { b: 3 };

    fn hash(front: u64, tag: u64) -> u64 {
        let mini = 0;
        hash_of(
            Fingerprint { front, mini, tag },
            SHAPE,
            &mut Random::new(tag),
        )
    }

    /// Lines that make image R these bytes.
    fn made(name: &str, image: &[u8]) -> String {
        let hex: String = image.iter().map(|byte| format!("{byte:02X}")).collect();
        let (zeros, after) = (sha256(&vec![0; image.len()]), sha256(image));
        let new = format!("new {name} {} = - {zeros}\n", image.len());
        format!("{new}poke {name} 0 {hex} = - {after}\n")
    }

    fn replayed(stage: u64, lines: &str) -> (u64, u64, u64, usize) {
        let history = format!("# history 0 at level {stage}: plain\n{lines}");
        let found = replay(&Model, &history);
        let Replayed {
            compared,
            refused_now,
            left_out,
            differences,
        } = found;
        (compared, refused_now, left_out, differences.len())
    }

    /// 30 members of front bucket 9, tags from 0 up.
    fn overflowing() -> Vec<u8> {
        let mut image = fresh_image(SHAPE.b);
        for tag in 0..30 {
            Model.insert(&mut image, hash(9, tag));
        }
        image
    }

    #[test]
    fn reads_before_stage_17() {
        let image = overflowing();
        let after = sha256(&image);
        let [front, behind, absent] = [0, 29, 30].map(|tag| hash(9, tag));
        let calls = |reads: u64, total: u64| {
            format!(
                "ask a {front:X} = 0 1 1 0 1 {after}\n\
                 ask a {behind:X} = 0 {reads} 3 1 1 {after}\n\
                 ask a {absent:X} = 0 {reads} 0 - 0 {after}\n\
                 count a {behind:X} = 0 1 {reads} {after}\n\
                 row a {front:X},{behind:X},{:X} = 0 {total} 1/1/0/1,{reads}/3/1/1,1/0/-/0 {after}\n",
                hash(13, 0)
            )
        };
        let (before, from) = (
            made("a", &image) + &calls(3, 4),
            made("a", &image) + &calls(2, 3),
        );
        for (stage, right, wrong) in [(15, &before, &from), (17, &from, &before)] {
            assert_eq!(replayed(stage, right), (7, 0, 0, 0));
            assert_eq!(replayed(stage, wrong), (7, 0, 0, 4));
        }
    }

    /// Front bucket 9 is full, and one behind it carries choice 0.
    fn carrying() -> Vec<u8> {
        let mut image = overflowing();
        let one = |tag, crumb| Member {
            mini: 0,
            tag,
            crumb,
        };
        let front: Vec<Member> = (0..28).map(|tag| one(tag, 0)).collect();
        let behind = [one(28, 1), one(29, 9)];
        image[9 * 64..10 * 64].copy_from_slice(&encode_front(&front));
        image[25 * 64..26 * 64].copy_from_slice(&encode_backyard(&behind));
        image
    }

    #[test]
    fn choice_0_before_stage_17() {
        let (image, fresh) = (carrying(), fresh_image(SHAPE.b));
        let (here, empty, lost) = (sha256(&image), sha256(&fresh), sha256(b"lost"));
        assert_eq!(carried(&image), [25]);
        assert_eq!(carried(&image[..SHAPE.old_length()]), [25]);
        let (behind, front) = (hash(9, 28), hash(9, 0));
        // Refused now, without and with a change of the image; read without it; then not known.
        let refused = made("a", &image)
            + &format!(
                "ask a {behind:X} = 0 2 2 0 1 {here}\n\
                 ask a {front:X} = 0 1 1 0 1 {here}\n\
                 delete a {behind:X} = 0 2 {lost}\n"
            );
        assert_eq!(replayed(15, &refused), (5, 2, 0, 0));
        assert_eq!(replayed(17, &refused), (5, 0, 0, 2));
        let unknown = format!(
            "ask a {front:X} = 0 1 1 0 1 {lost}\n\
             poke a 0 00 = - {lost}\n\
             merge a b b2 = 8 25 {lost} {empty} {empty}\n"
        );
        let others = made("b", &fresh) + &made("b2", &fresh);
        let unknown = refused + &others + &unknown;
        assert_eq!(replayed(15, &unknown), (9, 2, 3, 0));
        // Known again: fresh, a merge into it, made anew.
        for anew in [
            format!("fresh a = 0 {empty}\n"),
            format!("merge b b2 a = 0 {empty} {empty} {empty}\n"),
            format!("new a 2240 = - {}\n", sha256(&[0; 2240])),
        ] {
            let known = unknown.clone() + &anew + &anew;
            assert_eq!(replayed(15, &known), (11, 2, 3, 0));
        }
        // A merge into it that is refused keeps what is not known.
        let kept = format!("merge b b2 a = 12 {empty} {empty} {lost}\n");
        assert_eq!(replayed(15, &(unknown + &kept)), (9, 2, 4, 0));
    }
}
