//! The calls as the C boundary has them: every answer is one 64-bit number,
//! number × 2^56 + value, number 0 when accepted. The value of a refusal is its table number
//! (3 and 8), else 0.

use crate::calls::{self, Asked, Place, Refusal};

/// An ask in a row, its answer in numbers: place 0 none, 1 front, 2 first, 3 second; slot and
/// copies 0 where there is none.
#[derive(Clone, Copy, PartialEq, Eq, Debug)]
pub struct Entry {
    pub hash: u64,
    pub reads: u32,
    pub place: u32,
    pub slot: u32,
    pub copies: u32,
}

/// An implementation of the calls.
pub trait Catalogue {
    /// Value 0.
    fn fresh(&self, image: &mut [u8]) -> u64;
    /// Value 0.
    fn check(&self, image: &[u8]) -> u64;
    /// Value: the answer.
    fn insert(&self, image: &mut [u8], hash: u64) -> u64;
    /// Value: the answer.
    fn delete(&self, image: &mut [u8], hash: u64) -> u64;
    /// Value: reads + 16 × place + 256 × slot + 2^16 × copies, place 0 none, 1 front, 2 first,
    /// 3 second.
    fn ask(&self, image: &[u8], hash: u64) -> u64;
    /// Value: the total. Nothing where an implementation has no row.
    fn row(&self, image: &[u8], row: &mut [Entry]) -> Option<u64>;
    /// Value: copies + 2^32 × reads.
    fn count(&self, image: &[u8], hash: u64) -> u64;
    /// Value: how many + 2^32 × next. `changes` is the change count that the walk began with.
    fn page(&self, image: &[u8], start: u64, changes: u64, out: &mut [u64]) -> u64;
    /// Value 0. Nothing where an implementation has no occupancy page.
    fn occupancy(&self, image: &[u8], page: u64, out: &mut [u8]) -> Option<u64>;
    /// Value 0.
    fn merge(&self, first: &[u8], second: &[u8], target: &mut [u8]) -> u64;
    /// Value 0. The output gets the total, then the change count.
    fn tail(&self, image: &[u8], out: &mut [u64]) -> u64;
    /// The move to the new form. Value 0.
    fn attach(&self, old: &[u8], target: &mut [u8]) -> u64;
    /// The move to the old form. Value 0.
    fn detach(&self, image: &[u8], target: &mut [u8]) -> u64;
}

/// The plain machine.
pub struct Model;

fn pack<T>(result: Result<T, Refusal>, value: impl Fn(T) -> u64) -> u64 {
    match result {
        Ok(answer) => value(answer),
        Err(refusal) => ((refusal.number as u64) << 56) + refusal.table.unwrap_or(0),
    }
}

/// The numbers of a place and of its slot.
fn numbers(asked: &Asked) -> (u64, u64) {
    match asked.place {
        Place::None => (0, 0),
        Place::Front(slot) => (1, slot),
        Place::First(slot) => (2, slot),
        Place::Second(slot) => (3, slot),
    }
}

impl Catalogue for Model {
    fn fresh(&self, image: &mut [u8]) -> u64 {
        pack(calls::fresh(image), |()| 0)
    }

    fn check(&self, image: &[u8]) -> u64 {
        pack(calls::check(image), |()| 0)
    }

    fn insert(&self, image: &mut [u8], hash: u64) -> u64 {
        pack(calls::insert(image, hash), |answer| answer)
    }

    fn delete(&self, image: &mut [u8], hash: u64) -> u64 {
        pack(calls::delete(image, hash), |answer| answer)
    }

    fn ask(&self, image: &[u8], hash: u64) -> u64 {
        pack(calls::ask(image, hash), |asked| {
            let (place, slot) = numbers(&asked);
            asked.reads + 16 * place + 256 * slot + (asked.copies << 16)
        })
    }

    fn row(&self, image: &[u8], row: &mut [Entry]) -> Option<u64> {
        let hashes: Vec<u64> = row.iter().map(|entry| entry.hash).collect();
        let result = calls::row(image, &hashes);
        if let Ok(rowed) = &result {
            for (entry, asked) in row.iter_mut().zip(&rowed.asked) {
                let (place, slot) = numbers(asked);
                entry.reads = asked.reads as u32;
                entry.place = place as u32;
                entry.slot = slot as u32;
                entry.copies = asked.copies as u32;
            }
        }
        Some(pack(result, |rowed| rowed.total))
    }

    fn count(&self, image: &[u8], hash: u64) -> u64 {
        pack(calls::count(image, hash), |counted| {
            counted.copies + (counted.reads << 32)
        })
    }

    fn page(&self, image: &[u8], start: u64, changes: u64, out: &mut [u64]) -> u64 {
        pack(calls::page(image, start, changes, out), |paged| {
            paged.how_many + (paged.next << 32)
        })
    }

    fn occupancy(&self, image: &[u8], page: u64, out: &mut [u8]) -> Option<u64> {
        Some(pack(calls::occupancy(image, page, out), |()| 0))
    }

    fn merge(&self, first: &[u8], second: &[u8], target: &mut [u8]) -> u64 {
        pack(calls::merge(first, second, target), |()| 0)
    }

    fn tail(&self, image: &[u8], out: &mut [u64]) -> u64 {
        pack(calls::tail(image, out), |()| 0)
    }

    fn attach(&self, old: &[u8], target: &mut [u8]) -> u64 {
        pack(calls::attach(old, target), |()| 0)
    }

    fn detach(&self, image: &[u8], target: &mut [u8]) -> u64 {
        pack(calls::detach(image, target), |()| 0)
    }
}
