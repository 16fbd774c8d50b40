//! The breadcrumb catalogue in unverified Rust: the yardstick for speed.
//!
//! The calls, their answers and the bytes they leave are those of documents 01 and 02, without rows
//! and occupancy pages; every bucket that a call reads is first read whole and found sound. Answers
//! are packed as at the C boundary: number × 2^56 + value. Indices are not tested at run time
//! (`unsafe`), which stands for proved bounds. No vector instructions.
//!
//! What a call does with one bucket can be replaced: `bucket::Bucket` has it, as `fast` does it.

pub mod bits;
pub mod bucket;
pub mod calls;
mod map;
mod tail;

/// The calls as functions of the crate that names its way with buckets.
#[macro_export]
macro_rules! calls {
    ($way:ty) => {
        pub use $crate::calls::{fresh, tail};
        $crate::calls! { $way;
            insert(image: &mut [u8], hash: u64)
            delete(image: &mut [u8], hash: u64)
            ask(image: &[u8], hash: u64)
            count(image: &[u8], hash: u64)
            page(image: &[u8], start: u64, changes: u64, out: &mut [u64])
            check(image: &[u8])
            merge(first: &[u8], second: &[u8], target: &mut [u8])
            attach(old: &[u8], target: &mut [u8])
            detach(image: &[u8], target: &mut [u8])
        }
    };
    ($way:ty; $($call:ident($($name:ident: $of:ty),*))*) => {$(
        #[inline(never)]
        pub fn $call($($name: $of),*) -> u64 {
            $crate::calls::$call::<$way>($($name),*)
        }
    )*};
}

calls!(bucket::Plain);
