//! Stored calls: lines of fixed width, performed on three images and one output.
//!
//! The format is written down in reference/README.md.

use crate::catalogue::{Catalogue, Entry, Model};

/// Bytes of a line, without its newline.
pub const WIDTH: usize = 29;

/// One line. `x`, `y` and `z` number the images from 0 to 2.
#[derive(Clone, Copy, PartialEq, Eq, Debug)]
pub enum Line {
    /// Image x becomes so many zero bytes.
    New {
        x: usize,
        length: usize,
    },
    Insert {
        x: usize,
        hash: u64,
    },
    Delete {
        x: usize,
        hash: u64,
    },
    Ask {
        x: usize,
        hash: u64,
    },
    Count {
        x: usize,
        hash: u64,
    },
    /// The page brings the change count of the last `Walk`, 0 before any. The output has `length`
    /// entries, entry i holding 2^64 - 1 - i before the call.
    Page {
        x: usize,
        start: u64,
        length: usize,
    },
    Fresh {
        x: usize,
    },
    Check {
        x: usize,
    },
    /// x and y into z, which is neither.
    Merge {
        x: usize,
        y: usize,
        z: usize,
    },
    /// Eight bytes of image x from `at` on are overwritten, little-endian.
    Poke {
        x: usize,
        at: usize,
        word: u64,
    },
    /// Image y becomes a copy of image x.
    Copy {
        x: usize,
        y: usize,
    },
    /// Three asks in a row, the next two each so much further on; before the call their entries
    /// hold 7 besides the hash.
    Row {
        x: usize,
        hash: u64,
        step: Step,
    },
    /// The output has `length` bytes, each holding 7 before the call.
    Occupancy {
        x: usize,
        page: u64,
        length: usize,
    },
    /// Old image x into y, which is another.
    Attach {
        x: usize,
        y: usize,
    },
    /// Image x into the old image y, which is another.
    Detach {
        x: usize,
        y: usize,
    },
    /// The output has `length` entries, which hold before the call what those of a page do.
    Tail {
        x: usize,
        length: usize,
    },
    /// The pages that follow bring this change count.
    Walk {
        changes: u64,
    },
}

/// How far the hashes of a row lie apart: what is added to their two digits of 16 bits that tell
/// the mini-bucket and the front bucket, the carry included.
#[derive(Clone, Copy, PartialEq, Eq, Debug)]
pub struct Step {
    pub mini: u16,
    pub front: u16,
}

/// The three hashes of a row.
pub fn row_hashes(hash: u64, step: Step) -> [u64; 3] {
    let step = ((step.front as u64) << 48) + ((step.mini as u64) << 16);
    [0, 1, 2].map(|n: u64| hash.wrapping_add(step.wrapping_mul(n)))
}

impl Line {
    /// Operation, x, y, z, p and q.
    fn fields(self) -> (u64, usize, usize, usize, u64, usize) {
        match self {
            Line::New { x, length } => (0x00, x, 0, 0, 0, length),
            Line::Insert { x, hash } => (0x01, x, 0, 0, hash, 0),
            Line::Delete { x, hash } => (0x02, x, 0, 0, hash, 0),
            Line::Ask { x, hash } => (0x03, x, 0, 0, hash, 0),
            Line::Count { x, hash } => (0x04, x, 0, 0, hash, 0),
            Line::Page { x, start, length } => (0x05, x, 0, 0, start, length),
            Line::Fresh { x } => (0x06, x, 0, 0, 0, 0),
            Line::Check { x } => (0x07, x, 0, 0, 0, 0),
            Line::Merge { x, y, z } => (0x08, x, y, z, 0, 0),
            Line::Poke { x, at, word } => (0x09, x, 0, 0, word, at),
            Line::Copy { x, y } => (0x0A, x, y, 0, 0, 0),
            Line::Row { x, hash, step } => {
                let q = ((step.front as usize) << 16) + step.mini as usize;
                (0x0B, x, 0, 0, hash, q)
            }
            Line::Occupancy { x, page, length } => (0x0C, x, 0, 0, page, length),
            Line::Attach { x, y } => (0x0D, x, y, 0, 0, 0),
            Line::Detach { x, y } => (0x0E, x, y, 0, 0, 0),
            Line::Tail { x, length } => (0x0F, x, 0, 0, 0, length),
            Line::Walk { changes } => (0x10, 0, 0, 0, changes, 0),
        }
    }

    pub fn text(self) -> String {
        let (operation, x, y, z, p, q) = self.fields();
        format!("{operation:02X}{x}{y}{z}{p:016X}{q:08X}\n")
    }

    pub fn parse(text: &str) -> Option<Line> {
        let field = |from: usize, to: usize| u64::from_str_radix(text.get(from..to)?, 16).ok();
        let (operation, p) = (field(0, 2)?, field(5, 21)?);
        let image = |at: usize| Some(field(at, at + 1)? as usize);
        let (x, y, z) = (image(2)?, image(3)?, image(4)?);
        let q = field(21, 29)? as usize;
        let line = match operation {
            0x00 => Line::New { x, length: q },
            0x01 => Line::Insert { x, hash: p },
            0x02 => Line::Delete { x, hash: p },
            0x03 => Line::Ask { x, hash: p },
            0x04 => Line::Count { x, hash: p },
            0x05 => Line::Page {
                x,
                start: p,
                length: q,
            },
            0x06 => Line::Fresh { x },
            0x07 => Line::Check { x },
            0x08 => Line::Merge { x, y, z },
            0x09 => Line::Poke { x, at: q, word: p },
            0x0A => Line::Copy { x, y },
            0x0B => {
                let (mini, front) = (q as u16, (q >> 16) as u16);
                let step = Step { mini, front };
                Line::Row { x, hash: p, step }
            }
            0x0C => Line::Occupancy {
                x,
                page: p,
                length: q,
            },
            0x0D => Line::Attach { x, y },
            0x0E => Line::Detach { x, y },
            0x0F => Line::Tail { x, length: q },
            0x10 => Line::Walk { changes: p },
            _ => return None,
        };
        (line.text().trim_end() == text).then_some(line)
    }

    /// The images that the line names.
    pub fn images(self) -> Vec<usize> {
        match self {
            Line::Merge { x, y, z } => vec![x, y, z],
            Line::Copy { x, y } | Line::Attach { x, y } | Line::Detach { x, y } => vec![x, y],
            Line::Walk { .. } => vec![],
            _ => vec![self.fields().1],
        }
    }

    /// Whether the line is a call.
    pub fn is_call(self) -> bool {
        !matches!(
            self,
            Line::New { .. } | Line::Poke { .. } | Line::Copy { .. } | Line::Walk { .. }
        )
    }
}

/// Three images, the change count that pages bring, and what the last call was lent besides, as
/// bytes: the output of a page, of an occupancy page or of a tail, or the fields of a row's entries.
#[derive(Clone, Default, PartialEq, Eq)]
pub struct Images {
    pub image: [Vec<u8>; 3],
    pub changes: u64,
    pub out: Vec<u8>,
}

impl Images {
    /// Performs a line. The answer of a line that is no call is 0.
    pub fn perform(&mut self, catalogue: &dyn Catalogue, line: Line) -> u64 {
        self.out.clear();
        let image = &mut self.image;
        match line {
            Line::New { x, length } => image[x] = vec![0; length],
            Line::Poke { x, at, word } => image[x][at..at + 8].copy_from_slice(&word.to_le_bytes()),
            Line::Copy { x, y } => image[y] = image[x].clone(),
            Line::Walk { changes } => self.changes = changes,
            Line::Insert { x, hash } => return catalogue.insert(&mut image[x], hash),
            Line::Delete { x, hash } => return catalogue.delete(&mut image[x], hash),
            Line::Ask { x, hash } => return catalogue.ask(&image[x], hash),
            Line::Count { x, hash } => return catalogue.count(&image[x], hash),
            Line::Fresh { x } => return catalogue.fresh(&mut image[x]),
            Line::Check { x } => return catalogue.check(&image[x]),
            Line::Merge { x, y, z } => {
                assert!(z != x && z != y, "the target is no source");
                let mut target = std::mem::take(&mut image[z]);
                let answer = catalogue.merge(&image[x], &image[y], &mut target);
                image[z] = target;
                return answer;
            }
            Line::Attach { x, y } | Line::Detach { x, y } => {
                assert!(x != y, "the target is not the source");
                let mut target = std::mem::take(&mut image[y]);
                let answer = match line {
                    Line::Attach { .. } => catalogue.attach(&image[x], &mut target),
                    _ => catalogue.detach(&image[x], &mut target),
                };
                image[y] = target;
                return answer;
            }
            Line::Page { .. } | Line::Row { .. } | Line::Occupancy { .. } | Line::Tail { .. } => {
                return self.perform_with_output(catalogue, line);
            }
        }
        0
    }

    /// Performs a call that is lent more than an image.
    fn perform_with_output(&mut self, catalogue: &dyn Catalogue, line: Line) -> u64 {
        let bytes = |numbers: &[u64]| numbers.iter().flat_map(|n| n.to_le_bytes()).collect();
        let before = |length| -> Vec<u64> { (0..length as u64).map(|i| u64::MAX - i).collect() };
        let answer = match line {
            Line::Page { x, start, length } => {
                let mut out = before(length);
                let answer = catalogue.page(&self.image[x], start, self.changes, &mut out);
                self.out = bytes(&out);
                Some(answer)
            }
            Line::Row { x, hash, step } => {
                let mut row = row_hashes(hash, step).map(entry);
                let answer = catalogue.row(&self.image[x], &mut row);
                self.out = bytes(row.map(|entry| numbers(&entry)).as_flattened());
                answer
            }
            Line::Occupancy { x, page, length } => {
                self.out = vec![7; length];
                catalogue.occupancy(&self.image[x], page, &mut self.out)
            }
            Line::Tail { x, length } => {
                let mut out = before(length);
                let answer = catalogue.tail(&self.image[x], &mut out);
                self.out = bytes(&out);
                Some(answer)
            }
            _ => panic!("a call without output"),
        };
        answer.expect("an implementation that has this call")
    }

    /// FNV-1a over the bytes that the call was lent: the image, for a merge the three and for a
    /// move the two in their order, then the output.
    fn checksum(&self, line: Line) -> u64 {
        let images = line.images().into_iter().map(|x| &self.image[x]);
        images
            .chain([&self.out])
            .fold(FNV_START, |sum, bytes| fnv1a(sum, bytes))
    }

    /// The line that answers a call; nothing for a line that is no call.
    pub fn answer(&mut self, catalogue: &dyn Catalogue, line: Line) -> String {
        let answer = self.perform(catalogue, line);
        if !line.is_call() {
            return String::new();
        }
        let (operation, ..) = line.fields();
        format!("{operation:02X}{answer:016X}{:016X}\n", self.checksum(line))
    }
}

/// An entry of a row before the call: all but the hash is 7, so that what is kept shows.
fn entry(hash: u64) -> Entry {
    Entry {
        hash,
        reads: 7,
        place: 7,
        slot: 7,
        copies: 7,
    }
}

/// The fields of an entry in their order.
fn numbers(entry: &Entry) -> [u64; 5] {
    let [reads, place, slot, copies] =
        [entry.reads, entry.place, entry.slot, entry.copies].map(u64::from);
    [entry.hash, reads, place, slot, copies]
}

pub const FNV_START: u64 = 0xCBF29CE484222325;

/// FNV-1a, 64 bits, going on from `sum`.
pub fn fnv1a(sum: u64, bytes: &[u8]) -> u64 {
    bytes.iter().fold(sum, |sum, &byte| {
        (sum ^ byte as u64).wrapping_mul(0x100000001B3)
    })
}

/// The output for stored calls.
pub fn run(input: &str) -> String {
    let mut images = Images::default();
    let answer = |line| images.answer(&Model, Line::parse(line).expect("a stored line"));
    input.lines().map(answer).collect()
}

#[cfg(test)]
mod tests {
    use super::*;

    #[test]
    fn published_checksums() {
        assert_eq!(fnv1a(FNV_START, b""), 0xCBF29CE484222325);
        assert_eq!(fnv1a(FNV_START, b"a"), 0xAF63DC4C8601EC8C);
        assert_eq!(fnv1a(FNV_START, b"foobar"), 0x85944171F73967E8);
    }

    #[test]
    fn lines_are_read_back() {
        for line in [
            Line::New { x: 2, length: 1600 },
            Line::Insert { x: 1, hash: 7 },
            Line::Page {
                x: 0,
                start: 9,
                length: 72,
            },
            Line::Merge { x: 1, y: 1, z: 2 },
            Line::Poke {
                x: 0,
                at: 512,
                word: u64::MAX,
            },
            Line::Copy { x: 0, y: 2 },
            Line::Row {
                x: 1,
                hash: u64::MAX,
                step: Step {
                    mini: 0xFFFE,
                    front: 0xFFFD,
                },
            },
            Line::Occupancy {
                x: 2,
                page: u64::MAX,
                length: 1040,
            },
            Line::Attach { x: 2, y: 1 },
            Line::Detach { x: 0, y: 1 },
            Line::Tail { x: 1, length: 4 },
            Line::Walk { changes: 1 << 63 },
        ] {
            let text = line.text();
            assert_eq!(text.len(), WIDTH + 1);
            assert_eq!(Line::parse(text.trim_end()), Some(line));
        }
        assert_eq!(Line::parse("01"), None);
    }

    #[test]
    fn hashes_of_a_row() {
        let hashes = |hash, mini, front| row_hashes(hash, Step { mini, front });
        assert_eq!(hashes(5, 0, 0), [5, 5, 5]);
        assert_eq!(hashes(5, 1, 0), [5, 0x10005, 0x20005]);
        assert_eq!(
            hashes(5, 0x8000, 2),
            [5, 0x0002000080000005, 0x0004000100000005]
        );
        assert_eq!(
            hashes(u64::MAX, 1, 0xFFFF),
            [u64::MAX, 0xFFFF00000000FFFF, 0xFFFE00000001FFFF]
        );
    }

    #[test]
    fn a_row_and_what_it_keeps() {
        let mut images = Images::default();
        let mut row = |line| (images.perform(&Model, line), images.out.clone());
        let step = Step { mini: 0, front: 1 };
        let ask = Line::Row {
            x: 0,
            hash: 5,
            step,
        };
        row(Line::New { x: 0, length: 1088 });
        row(Line::Fresh { x: 0 });
        let hashes = row_hashes(5, step);
        let fields = |told: [u64; 4]| -> Vec<u8> {
            let fields = hashes.iter().flat_map(|&h| [&[h], &told[..]].concat());
            fields.flat_map(u64::to_le_bytes).collect()
        };
        assert_eq!(row(ask), (1, fields([1, 0, 0, 0])));
        // All three have one fingerprint.
        for hash in hashes {
            row(Line::Insert { x: 0, hash });
        }
        assert_eq!(row(ask), (1, fields([1, 1, 0, 3])));
        row(Line::New { x: 0, length: 1089 });
        assert_eq!(row(ask), (1 << 56, fields([7, 7, 7, 7])));
    }

    #[test]
    fn an_occupancy_page_and_what_it_keeps() {
        let mut images = Images::default();
        images.perform(&Model, Line::New { x: 0, length: 1088 });
        images.perform(&Model, Line::Fresh { x: 0 });
        let mut page = |page, length| {
            let answer = images.perform(&Model, Line::Occupancy { x: 0, page, length });
            (answer, images.out.clone())
        };
        let (answer, out) = page(0, 1010);
        assert_eq!((answer, out.len()), (0, 1010));
        assert_eq!(out[..13], *b"     0  0  0 ");
        assert_eq!(out[1006..], [b' ', b'\n', 7, 7]);
        assert_eq!(page(1, 253), (6 << 56, vec![7; 253]));
    }

    #[test]
    fn a_walk_and_what_its_pages_bring() {
        let mut images = Images::default();
        let mut number = |line| images.perform(&Model, line) >> 56;
        let page = Line::Page {
            x: 0,
            start: 0,
            length: 1,
        };
        number(Line::New { x: 0, length: 1088 });
        number(Line::Fresh { x: 0 });
        assert_eq!(number(page), 0);
        number(Line::Insert { x: 0, hash: 5 });
        assert_eq!(number(page), 14);
        let walk = Line::Walk { changes: 1 };
        assert_eq!((number(walk), walk.is_call()), (0, false));
        assert_eq!(
            (walk.images(), images.answer(&Model, walk)),
            (vec![], String::new())
        );
        assert_eq!(walk.text(), "10000000000000000000100000000\n");
        let mut number = |line| images.perform(&Model, line) >> 56;
        assert_eq!([number(page), number(page)], [0, 0]);
        number(Line::Walk { changes: 2 });
        assert_eq!(number(page), 14);
    }

    #[test]
    fn tails_and_what_they_keep() {
        let mut images = Images::default();
        let mut play = |line| (images.perform(&Model, line), images.out.clone());
        let mut tail = |length| play(Line::Tail { x: 0, length });
        let bytes =
            |numbers: &[u64]| -> Vec<u8> { numbers.iter().flat_map(|n| n.to_le_bytes()).collect() };
        let before = [u64::MAX, u64::MAX - 1, u64::MAX - 2];
        assert_eq!(tail(2), (1 << 56, bytes(&before[..2])));
        play(Line::New { x: 0, length: 1088 });
        let mut tail = |length| play(Line::Tail { x: 0, length });
        assert_eq!(tail(0), (11 << 56, vec![]));
        play(Line::Fresh { x: 0 });
        for hash in [0, 1] {
            play(Line::Insert { x: 0, hash });
        }
        play(Line::Delete { x: 0, hash: 1 });
        let mut tail = |length| play(Line::Tail { x: 0, length });
        assert_eq!(tail(1), (7 << 56, bytes(&before[..1])));
        assert_eq!(tail(2), (0, bytes(&[1, 3])));
        assert_eq!(tail(3), (0, bytes(&[1, 3, before[2]])));
    }
}
