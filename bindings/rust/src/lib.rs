//! A safe wrapper over the C functions of the proved breadcrumb catalogue.
//!
//! A catalogue is a multiset of 64-bit hashes, kept as fingerprints in the bytes of an image:
//! 576 × B + 512 bytes, B from 1 to 65,536. Hashes with equal fingerprints are alike. The last 64
//! bytes, the tail, hold the total of the members and a change count. An old image has no tail.
//!
//! ```no_run
//! use breadcrumb::{Image, Place};
//!
//! let mut image = Image::new(112).unwrap();
//! image.insert(0x8000000040000007).unwrap();
//! assert_ne!(image.ask(0x8000000040000007).unwrap().place, Place::None);
//! assert_eq!(image.total(), Ok(1));
//! ```

pub mod packed;
mod walk;

pub use walk::{Over, Walk};

use std::fmt;

/// Bytes of a tail: an image is so much longer than an old one.
const TAIL_BYTES: usize = 64;

/// The length of an image.
const fn length(b: usize) -> usize {
    576 * b + 512
}

/// Bytes of an occupancy page.
pub const OCCUPANCY_BYTES: usize = 1008;

/// Why a call was refused. A refused call has written nothing, but for the target of a merge
/// that is full, which is then fresh.
#[derive(Clone, Copy, PartialEq, Eq, Debug)]
pub enum Refusal {
    /// 1: the length is not 576 × B + 512 with B from 1 to 65,536; of an old image, not
    /// 576 × B + 448.
    WrongLength,
    /// 2: the images of a merge or a move do not have one B.
    LengthsDiffer,
    /// 3: a bucket that was read is unsound; its table number.
    Unsound(u64),
    /// 4: both backyard buckets are full.
    Full,
    /// 5: there is no such member to delete.
    Absent,
    /// 6: a page from beyond the last front bucket, or an occupancy page past the last.
    PastTheEnd,
    /// 7: the first front bucket of a page does not fit into the output, or an occupancy page or a
    /// tail does not.
    DoesNotFit,
    /// 8: a backyard bucket has a member before its turn; its table number.
    Early(u64),
    /// 10: an entry of a row has a front bucket below that of the entry before it.
    Descending,
    /// 11: the tail has an unknown layout, a rest byte that is not 0, or a total above the slots.
    BadTail,
    /// 12: the total differs from the members, or an insert or delete would take it above the slots
    /// or below 0.
    Miscounted,
    /// 13: the change count is at its top, 2^64 - 1.
    Spent,
    /// 14: the change count that a page brought is not the image's, which has changed since the
    /// walk began: begin anew.
    Changed,
    /// A number that this wrapper does not know, with its value.
    Other(u8, u64),
}

impl fmt::Display for Refusal {
    fn fmt(&self, f: &mut fmt::Formatter) -> fmt::Result {
        match self {
            Refusal::WrongLength => write!(f, "1: wrong length"),
            Refusal::LengthsDiffer => write!(f, "2: the lengths differ"),
            Refusal::Unsound(table) => write!(f, "3: bucket {table} is unsound"),
            Refusal::Full => write!(f, "4: full"),
            Refusal::Absent => write!(f, "5: no such member"),
            Refusal::PastTheEnd => write!(f, "6: past the last front bucket"),
            Refusal::DoesNotFit => write!(f, "7: the output is too short"),
            Refusal::Early(table) => write!(f, "8: bucket {table} has a member before its turn"),
            Refusal::Descending => write!(f, "10: the front buckets of the row descend"),
            Refusal::BadTail => write!(f, "11: the tail is bad"),
            Refusal::Miscounted => write!(f, "12: the total is not that of the members"),
            Refusal::Spent => write!(f, "13: the change count is at its top"),
            Refusal::Changed => write!(f, "14: the image has changed since the walk began"),
            Refusal::Other(number, value) => write!(f, "{number}: {value}"),
        }
    }
}

impl std::error::Error for Refusal {}

/// Where an insert or a delete changed the image.
#[derive(Clone, Copy, PartialEq, Eq, Debug)]
pub enum Changed {
    /// Its front bucket alone.
    Front,
    /// This backyard bucket as well, or alone: it took the overflow, or a member left it.
    Backyard(u64),
}

/// Where an ask ended, with the lowest slot of the fingerprint there.
#[derive(Clone, Copy, PartialEq, Eq, Debug)]
pub enum Place {
    None,
    Front(u64),
    First(u64),
    Second(u64),
}

/// The answer of an ask.
#[derive(Clone, Copy, PartialEq, Eq, Debug)]
pub struct Asked {
    /// At most 3, and at most 2 where both backyard buckets of the front bucket are one.
    pub reads: u64,
    pub place: Place,
    /// The copies at this place, 0 for none: of a fingerprint in front more may be in first and
    /// second, of one in first more in second. A count tells them all.
    pub copies: u64,
}

/// An ask in a row: its hash, and what an accepted row tells of it in numbers.
#[repr(C)]
#[derive(Clone, Copy, PartialEq, Eq, Debug)]
pub struct Entry {
    pub hash: u64,
    pub reads: u32,
    /// 0 none, 1 front, 2 first, 3 second.
    pub place: u32,
    /// 0 where the place is none.
    pub slot: u32,
    /// 0 where the place is none.
    pub copies: u32,
}

impl Entry {
    /// An ask for this hash; all else is 0.
    pub fn new(hash: u64) -> Entry {
        Entry {
            hash,
            reads: 0,
            place: 0,
            slot: 0,
            copies: 0,
        }
    }

    /// The answer of the ask, once a row was accepted.
    pub fn asked(&self) -> Asked {
        Asked {
            reads: self.reads.into(),
            place: place(self.place.into(), self.slot.into()),
            copies: self.copies.into(),
        }
    }
}

/// The answer of a count.
#[derive(Clone, Copy, PartialEq, Eq, Debug)]
pub struct Counted {
    pub copies: u64,
    pub reads: u64,
}

/// The answer of a page: how many fingerprints it wrote, and the front bucket to go on with.
#[derive(Clone, Copy, PartialEq, Eq, Debug)]
pub struct Paged {
    pub how_many: usize,
    pub next: u64,
}

/// What the tail of an image tells.
#[derive(Clone, Copy, PartialEq, Eq, Debug)]
pub struct Tail {
    /// The members, each copy counted.
    pub total: u64,
    /// The accepted inserts and deletes since the image was fresh, merged or moved from an old one.
    pub changes: u64,
}

/// The value of a packed answer, or the refusal.
fn unpack(answer: u64) -> Result<u64, Refusal> {
    let (number, value) = ((answer >> 56) as u8, answer & ((1 << 56) - 1));
    Err(match number {
        0 => return Ok(value),
        1 => Refusal::WrongLength,
        2 => Refusal::LengthsDiffer,
        3 => Refusal::Unsound(value),
        4 => Refusal::Full,
        5 => Refusal::Absent,
        6 => Refusal::PastTheEnd,
        7 => Refusal::DoesNotFit,
        8 => Refusal::Early(value),
        10 => Refusal::Descending,
        11 => Refusal::BadTail,
        12 => Refusal::Miscounted,
        13 => Refusal::Spent,
        14 => Refusal::Changed,
        _ => Refusal::Other(number, value),
    })
}

fn changed(value: u64) -> Changed {
    match value {
        0 => Changed::Front,
        _ => Changed::Backyard(value - 1),
    }
}

/// A place by its number, 0 to 3.
fn place(number: u64, slot: u64) -> Place {
    match number {
        0 => Place::None,
        1 => Place::Front(slot),
        2 => Place::First(slot),
        _ => Place::Second(slot),
    }
}

/// A catalogue in bytes of any kind: owned as `Vec<u8>`, or lent as `&mut [u8]` or `&[u8]`.
#[derive(Clone, PartialEq, Eq, Debug)]
pub struct Image<Bytes = Vec<u8>> {
    bytes: Bytes,
}

/// A catalogue in document 01's form, without a tail, in bytes of any kind.
#[derive(Clone, PartialEq, Eq, Debug)]
pub struct OldImage<Bytes = Vec<u8>> {
    bytes: Bytes,
}

impl<Bytes: AsRef<[u8]>> OldImage<Bytes> {
    /// These bytes as an old image. Nothing is tested here: the move tests them.
    pub fn over(bytes: Bytes) -> Self {
        OldImage { bytes }
    }

    pub fn bytes(&self) -> &[u8] {
        self.bytes.as_ref()
    }

    pub fn into_bytes(self) -> Bytes {
        self.bytes
    }

    /// The same members with a tail, once they are checked: the total is theirs, the change count 0.
    /// A member that leads by choice 0 to a front bucket with b0 = b1 is unsound.
    pub fn attach(&self) -> Result<Image, Refusal> {
        let mut target = vec![0; self.bytes().len() + TAIL_BYTES];
        unpack(packed::attach(self.bytes(), &mut target))?;
        Ok(Image::over(target))
    }
}

impl Image {
    /// A fresh image of its own with 8 × B front buckets.
    pub fn new(b: usize) -> Result<Self, Refusal> {
        if b == 0 || b > 65536 {
            return Err(Refusal::WrongLength);
        }
        let mut image = Image::over(vec![0; length(b)]);
        image.fresh()?;
        Ok(image)
    }
}

impl<Bytes: AsRef<[u8]>> Image<Bytes> {
    /// These bytes as an image. Nothing is tested here: every call tests what it reads.
    pub fn over(bytes: Bytes) -> Self {
        Image { bytes }
    }

    pub fn bytes(&self) -> &[u8] {
        self.bytes.as_ref()
    }

    pub fn into_bytes(self) -> Bytes {
        self.bytes
    }

    /// Whether every bucket is sound, every backyard member in its turn, and the total that of the
    /// members.
    pub fn check(&self) -> Result<(), Refusal> {
        unpack(packed::check(self.bytes())).map(|_| ())
    }

    /// The total and the change count. No bucket is read.
    pub fn tail(&self) -> Result<Tail, Refusal> {
        let mut out = [0; 2];
        unpack(packed::tail(self.bytes(), &mut out))?;
        let [total, changes] = out;
        Ok(Tail { total, changes })
    }

    /// The members, each copy counted, as the tail tells them.
    pub fn total(&self) -> Result<u64, Refusal> {
        self.tail().map(|tail| tail.total)
    }

    /// The accepted inserts and deletes since the image was fresh, merged or moved from an old one.
    pub fn changes(&self) -> Result<u64, Refusal> {
        self.tail().map(|tail| tail.changes)
    }

    /// The same members without the tail, once they are checked.
    pub fn detach(&self) -> Result<OldImage, Refusal> {
        let mut target = vec![0; self.bytes().len().saturating_sub(TAIL_BYTES)];
        unpack(packed::detach(self.bytes(), &mut target))?;
        Ok(OldImage::over(target))
    }

    pub fn ask(&self, hash: u64) -> Result<Asked, Refusal> {
        let value = unpack(packed::ask(self.bytes(), hash))?;
        Ok(Asked {
            reads: value % 16,
            place: place(value / 16 % 16, value / 256 % 256),
            copies: value >> 16,
        })
    }

    /// Asks for the hash of every entry, each answered as a lone ask would be. Front buckets must
    /// not descend from entry to entry; they do not in a row that is sorted by hash. Neighbours
    /// with the same front bucket share their reads: the total is the sum over such groups of the
    /// greatest reads in the group.
    pub fn row(&self, row: &mut [Entry]) -> Result<u64, Refusal> {
        unpack(packed::row(self.bytes(), row))
    }

    pub fn count(&self, hash: u64) -> Result<Counted, Refusal> {
        let value = unpack(packed::count(self.bytes(), hash))?;
        Ok(Counted {
            copies: value & 0xFFFFFFFF,
            reads: value >> 32,
        })
    }

    /// Lists whole front buckets from `start` on as far as they fit. `changes` is the change count
    /// that the walk began with. A `Walk` does this for all members.
    pub fn page(&self, start: u64, changes: u64, out: &mut [u64]) -> Result<Paged, Refusal> {
        let value = unpack(packed::page(self.bytes(), start, changes, out))?;
        Ok(Paged {
            how_many: (value & 0xFFFFFFFF) as usize,
            next: value >> 32,
        })
    }

    /// Begins a walk over the members. It notices when the image changes before its end.
    pub fn walk(&self) -> Result<Walk, Refusal> {
        self.changes().map(Walk::new)
    }

    /// Every fingerprint, ascending, each as often as it is a member.
    pub fn list(&self) -> Result<Vec<u64>, Refusal> {
        self.walk()?.over(self).collect()
    }

    /// The number of front buckets that an image of this length has.
    fn fronts(&self) -> u64 {
        8 * (self.bytes().len().saturating_sub(length(0)) / 576) as u64
    }

    /// Writes how full the 24 front buckets from 24 × `page` on are, a line of 42 bytes each: the
    /// first `OCCUPANCY_BYTES` of the output.
    pub fn occupancy(&self, page: u64, out: &mut [u8]) -> Result<(), Refusal> {
        unpack(packed::occupancy(self.bytes(), page, out)).map(|_| ())
    }

    /// All occupancy pages, one after the other.
    pub fn occupancy_pages(&self) -> Result<String, Refusal> {
        let mut text = String::new();
        let mut out = [0; OCCUPANCY_BYTES];
        for page in 0.. {
            match self.occupancy(page, &mut out) {
                Err(Refusal::PastTheEnd) => break,
                written => written?,
            }
            text.extend(out.map(char::from));
        }
        Ok(text)
    }
}

impl<Bytes: AsRef<[u8]> + AsMut<[u8]>> Image<Bytes> {
    /// Every bucket empty, total and change count 0.
    pub fn fresh(&mut self) -> Result<(), Refusal> {
        unpack(packed::fresh(self.bytes.as_mut())).map(|_| ())
    }

    pub fn insert(&mut self, hash: u64) -> Result<Changed, Refusal> {
        unpack(packed::insert(self.bytes.as_mut(), hash)).map(changed)
    }

    pub fn delete(&mut self, hash: u64) -> Result<Changed, Refusal> {
        unpack(packed::delete(self.bytes.as_mut(), hash)).map(changed)
    }

    /// Writes the members of both sources into this image, whatever it held. The totals are added,
    /// the change count is 0.
    pub fn merge<First, Second>(
        &mut self,
        first: &Image<First>,
        second: &Image<Second>,
    ) -> Result<(), Refusal>
    where
        First: AsRef<[u8]>,
        Second: AsRef<[u8]>,
    {
        let target = self.bytes.as_mut();
        unpack(packed::merge(first.bytes(), second.bytes(), target)).map(|_| ())
    }
}
