//! A walk over the members of an image that notices when the image changes.

use crate::{Image, Refusal};
use std::iter::FusedIterator;

/// Entries of a page. 72 hold any bucket; the more there are, the fewer buckets are read for two
/// pages, and so many lie on a stack with ease.
const ENTRIES: usize = 256;

/// A walk over the members of one image, begun with `Image::walk`.
///
/// It yields every fingerprint as often as it is a member, ascending, as the members stood when the
/// walk's first page was read. It does not borrow the image: inserts and deletes may stand between
/// its steps.
///
/// An accepted insert or delete is noticed when the next page is read, at most 256 entries later:
/// the walk ends with `Refusal::Changed`. What it yielded until then belongs to the members as they
/// stood; whoever wants them all begins anew. Where no page is left to read, the walk is whole, and
/// a change is none of its matter. After a refusal or the end it yields nothing more.
///
/// Each step must be given the image that the walk was begun on. What starts that image's change
/// count anew, `fresh`, `merge` into it, also one that is full, or an attached image in its place,
/// may go unnoticed, so a walk must not go on after it. If it does, or goes on over another image
/// of whatever length, it is safe and ends, but nothing is promised of what it yields.
///
/// ```no_run
/// use breadcrumb::{Image, Refusal};
///
/// let mut image = Image::new(112).unwrap();
/// for n in 0..2000u64 {
///     image.insert(n.wrapping_mul(0x9E3779B97F4A7C15)).unwrap();
/// }
/// let mut walk = image.walk().unwrap();
/// assert!(walk.over(&image).take(500).all(|member| member.is_ok()));
/// image.insert(7).unwrap();
/// assert_eq!(walk.over(&image).last(), Some(Err(Refusal::Changed)));
///
/// let members: Result<Vec<u64>, Refusal> = image.walk().unwrap().over(&image).collect();
/// assert_eq!(members.unwrap().len(), 2001);
/// ```
#[derive(Clone, Debug)]
pub struct Walk {
    changes: u64,
    /// The front bucket that the next page starts from.
    next: u64,
    /// Whether no page is left to read.
    ended: bool,
    page: [u64; ENTRIES],
    how_many: usize,
    /// How many of the page were yielded.
    yielded: usize,
}

impl Walk {
    /// A walk over an image with this change count, no page read yet.
    pub(crate) fn new(changes: u64) -> Walk {
        Walk {
            changes,
            next: 0,
            ended: false,
            page: [0; ENTRIES],
            how_many: 0,
            yielded: 0,
        }
    }

    /// The next member, or the refusal that ends the walk.
    pub fn next<Bytes: AsRef<[u8]>>(
        &mut self,
        image: &Image<Bytes>,
    ) -> Option<Result<u64, Refusal>> {
        while self.yielded == self.how_many {
            if self.ended {
                return None;
            }
            if let Err(refusal) = self.turn(image) {
                self.ended = true;
                return Some(Err(refusal));
            }
        }
        self.yielded += 1;
        Some(Ok(self.page[self.yielded - 1]))
    }

    /// Reads the next page.
    fn turn<Bytes: AsRef<[u8]>>(&mut self, image: &Image<Bytes>) -> Result<(), Refusal> {
        let paged = image.page(self.next, self.changes, &mut self.page)?;
        self.next = paged.next;
        self.ended = paged.next >= image.fronts();
        (self.how_many, self.yielded) = (paged.how_many, 0);
        Ok(())
    }

    /// The rest of the walk as an iterator. It lends the image for as long as it lives; the walk
    /// then goes on from where it stopped.
    pub fn over<'a, Bytes: AsRef<[u8]>>(&'a mut self, image: &'a Image<Bytes>) -> Over<'a, Bytes> {
        Over { walk: self, image }
    }
}

/// The rest of a walk, made by `Walk::over`.
#[derive(Debug)]
pub struct Over<'a, Bytes> {
    walk: &'a mut Walk,
    image: &'a Image<Bytes>,
}

impl<Bytes: AsRef<[u8]>> Iterator for Over<'_, Bytes> {
    type Item = Result<u64, Refusal>;

    fn next(&mut self) -> Option<Self::Item> {
        self.walk.next(self.image)
    }
}

impl<Bytes: AsRef<[u8]>> FusedIterator for Over<'_, Bytes> {}
