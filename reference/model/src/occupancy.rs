//! The program that prints every occupancy page of an image, and the images stored for it.

use crate::calls::{self, Refusal, OCCUPANCY_BYTES};
use crate::fingerprint::Fingerprint;
use crate::prepare::{fresh_image, hash_of};
use crate::random::Random;
use crate::shape::{Shape, BUCKET};

/// The longest image that the program takes: B = 112.
const LONGEST: usize = 65024;

/// What is printed for an input: page after page, and where one is refused a last line that tells
/// why.
pub fn run(input: &[u8]) -> String {
    // One byte more shows that the input is too long.
    let image = &input[..input.len().min(LONGEST + 1)];
    let mut text = String::new();
    for page in 0.. {
        let mut out = [0; OCCUPANCY_BYTES];
        match calls::occupancy(image, page, &mut out) {
            Ok(()) => text.extend(out.map(char::from)),
            Err(Refusal { number: 6, .. }) => break,
            Err(refusal) => {
                text += &refused(refusal);
                break;
            }
        }
    }
    text
}

/// The line that tells a refusal.
fn refused(refusal: Refusal) -> String {
    match refusal.table {
        Some(table) => format!("{} {table}\n", refusal.number),
        None => format!("{}\n", refusal.number),
    }
}

/// The names of the stored images.
pub const NAMES: [&str; 5] = ["full", "day", "unsound", "short", "tail"];

/// The image of this name: a stored one, or `largest`, which is written anew where it is tried.
pub fn image(name: &str) -> Option<Vec<u8>> {
    Some(match name {
        "full" => full(),
        "day" => day(),
        "unsound" => unsound(),
        "short" => day()[1..].to_vec(),
        "tail" => bad_tail(),
        "largest" => largest(),
        _ => return None,
    })
}

/// Inserts for every front bucket until each is refused: no slot that they can use is free.
fn full() -> Vec<u8> {
    let shape = Shape { b: 3 };
    let mut image = fresh_image(shape.b);
    let mut random = Random::new(1);
    let mut open: Vec<u64> = (0..shape.fronts()).collect();
    while !open.is_empty() {
        let front = *random.pick(&open);
        if insert(&mut image, shape, front, &mut random).is_err() {
            open.retain(|&other| other != front);
        }
    }
    image
}

/// A random member of a front bucket.
fn insert(image: &mut [u8], shape: Shape, front: u64, random: &mut Random) -> Result<u64, Refusal> {
    let (mini, tag) = (random.below(36), random.below(65536));
    let hash = hash_of(Fingerprint { front, mini, tag }, shape, random);
    calls::insert(image, hash)
}

/// Two pages of front buckets that are empty, have a few members, one less than they hold, as many,
/// or more.
fn day() -> Vec<u8> {
    let shape = Shape { b: 4 };
    let mut image = fresh_image(shape.b);
    let mut random = Random::new(2);
    let members = [0, 3, 12, 27, 28, 29, 30, 9, 38, 1, 17, 28, 26, 33, 0, 21];
    for (front, &n) in (0..shape.fronts()).zip(members.iter().cycle()) {
        for _ in 0..n {
            insert(&mut image, shape, front, &mut random).expect("room");
        }
    }
    image
}

/// The same with front bucket 27 unsound, on the second page.
fn unsound() -> Vec<u8> {
    let mut image = day();
    image[27 * BUCKET] ^= 1;
    image
}

/// The same with a bad tail: its last byte is not 0.
fn bad_tail() -> Vec<u8> {
    let mut image = day();
    *image.last_mut().expect("a tail") = 1;
    image
}

/// 90 % of all slots, at random.
fn largest() -> Vec<u8> {
    let shape = Shape { b: 112 };
    let mut image = fresh_image(shape.b);
    let mut random = Random::new(3);
    let mut left = shape.slots() * 9 / 10;
    while left > 0 {
        // A hash that is refused as full is let go.
        left -= calls::insert(&mut image, random.bits()).is_ok() as u64;
    }
    image
}

#[cfg(test)]
mod tests {
    use super::*;
    use crate::bucket::{encode_front, Member};
    use crate::prepare::members_in;
    use crate::shape::{BACKYARD_SLOTS, FRONT_SLOTS};
    use crate::tail::Tail;

    #[test]
    fn pages_and_refusals() {
        let lines = |name| -> Vec<String> {
            let text = run(&image(name).unwrap());
            text.lines().map(str::to_string).collect()
        };
        let (full, day, unsound) = (lines("full"), lines("day"), lines("unsound"));
        assert_eq!((full.len(), day.len(), unsound.len()), (24, 48, 25));
        assert!(full.iter().all(|line| line.ends_with(&"#".repeat(28))));
        assert_eq!(day[..24], unsound[..24]);
        assert_eq!(unsound[24], "3 27");
        assert_eq!(day[31][..13], *"    31 21  0 ");
        assert_eq!(day[32], " ".repeat(41));
        assert_eq!(lines("short"), ["1"]);
        assert_eq!(lines("tail"), ["11"]);
        assert_eq!(lines("largest").len(), 38 * 24);
    }

    #[test]
    fn tails() {
        for name in ["full", "day", "largest"] {
            let image = image(name).unwrap();
            let shape = Shape::of_length(image.len()).unwrap();
            let total = members_in(&image, shape).unwrap();
            let changes = total;
            assert_eq!(Tail::of_image(&image, shape), Some(Tail { total, changes }));
            assert_eq!(calls::check(&image), Ok(()));
        }
        let day = image("day").unwrap();
        for name in ["unsound", "tail"] {
            let image = image(name).unwrap();
            let differ = day.iter().zip(&image).filter(|(a, b)| a != b);
            assert_eq!((image.len(), differ.count()), (day.len(), 1));
        }
    }

    #[test]
    fn every_usable_slot_is_full() {
        let image = image("full").unwrap();
        let shape = Shape { b: 3 };
        for f in 0..shape.fronts() {
            assert_eq!(calls::read_front(&image, f).unwrap().len(), FRONT_SLOTS);
        }
        // 8 and 9 serve no front bucket.
        for j in 0..8 {
            let members = calls::read_backyard(&image, shape, j).unwrap();
            assert_eq!(members.len(), BACKYARD_SLOTS);
        }
    }

    #[test]
    fn lengths() {
        let longest = fresh_image(112);
        assert_eq!(longest.len(), LONGEST);
        assert_eq!(run(&longest).len(), 38 * OCCUPANCY_BYTES);
        assert_eq!(run(&[&longest[..], &[0]].concat()), "1\n");
        // An image with B = 113 is cut short.
        assert_eq!(run(&fresh_image(113)), "1\n");
        assert_eq!(run(b""), "1\n");
        // An old image, and no tail at all.
        assert_eq!(run(&fresh_image(1)[..1024]), "1\n");
        assert_eq!(run(&[0; 1088]), "11\n");
    }

    #[test]
    fn an_unsound_bucket_behind() {
        let mut image = fresh_image(3);
        let full = vec![
            Member {
                mini: 0,
                tag: 0,
                crumb: 0
            };
            FRONT_SLOTS
        ];
        image[13 * BUCKET..14 * BUCKET].copy_from_slice(&encode_front(&full));
        image[25 * BUCKET] ^= 1;
        assert_eq!(run(&image), "3 25\n");
    }
}
