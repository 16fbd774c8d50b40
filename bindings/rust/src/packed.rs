//! The C functions on slices, their answers packed: number × 2^56 + value.
//!
//! Each takes any bytes: a slice is passed as a pointer and a length, and the functions have no
//! further conditions. include/breadcrumb.h has the same declarations.

use crate::Entry;

unsafe extern "C" {
    fn bcf_fresh(image: *mut u8, length: usize) -> u64;
    fn bcf_check(image: *const u8, length: usize) -> u64;
    fn bcf_tail(image: *const u8, length: usize, out: *mut u64, out_length: usize) -> u64;
    fn bcf_insert(image: *mut u8, length: usize, hash: u64) -> u64;
    fn bcf_delete(image: *mut u8, length: usize, hash: u64) -> u64;
    fn bcf_ask(image: *const u8, length: usize, hash: u64) -> u64;
    fn bcf_row(image: *const u8, length: usize, row: *mut Entry, row_length: usize) -> u64;
    fn bcf_count(image: *const u8, length: usize, hash: u64) -> u64;
    fn bcf_page(
        image: *const u8,
        length: usize,
        start: u64,
        changes: u64,
        out: *mut u64,
        out_length: usize,
    ) -> u64;
    fn bcf_occupancy(
        image: *const u8,
        length: usize,
        page: u64,
        out: *mut u8,
        out_length: usize,
    ) -> u64;
    fn bcf_merge(
        first: *const u8,
        first_length: usize,
        second: *const u8,
        second_length: usize,
        target: *mut u8,
        target_length: usize,
    ) -> u64;
    fn bcf_attach(old: *const u8, old_length: usize, target: *mut u8, target_length: usize) -> u64;
    fn bcf_detach(image: *const u8, length: usize, target: *mut u8, target_length: usize) -> u64;
}

/// Value 0.
pub fn fresh(image: &mut [u8]) -> u64 {
    unsafe { bcf_fresh(image.as_mut_ptr(), image.len()) }
}

/// Value 0.
pub fn check(image: &[u8]) -> u64 {
    unsafe { bcf_check(image.as_ptr(), image.len()) }
}

/// Value 0. The output gets the total, then the change count.
pub fn tail(image: &[u8], out: &mut [u64]) -> u64 {
    unsafe { bcf_tail(image.as_ptr(), image.len(), out.as_mut_ptr(), out.len()) }
}

/// Value: 0, or 1 + the backyard bucket that took the overflow.
pub fn insert(image: &mut [u8], hash: u64) -> u64 {
    unsafe { bcf_insert(image.as_mut_ptr(), image.len(), hash) }
}

/// Value: 0, or 1 + the backyard bucket that a member left.
pub fn delete(image: &mut [u8], hash: u64) -> u64 {
    unsafe { bcf_delete(image.as_mut_ptr(), image.len(), hash) }
}

/// Value: reads + 16 × place + 256 × slot + 2^16 × copies, place 0 none, 1 front, 2 first,
/// 3 second.
pub fn ask(image: &[u8], hash: u64) -> u64 {
    unsafe { bcf_ask(image.as_ptr(), image.len(), hash) }
}

/// Value: the total.
pub fn row(image: &[u8], row: &mut [Entry]) -> u64 {
    unsafe { bcf_row(image.as_ptr(), image.len(), row.as_mut_ptr(), row.len()) }
}

/// Value: copies + 2^32 × reads.
pub fn count(image: &[u8], hash: u64) -> u64 {
    unsafe { bcf_count(image.as_ptr(), image.len(), hash) }
}

/// Value: how many + 2^32 × next. `changes` is the change count that the walk began with.
pub fn page(image: &[u8], start: u64, changes: u64, out: &mut [u64]) -> u64 {
    unsafe {
        bcf_page(
            image.as_ptr(),
            image.len(),
            start,
            changes,
            out.as_mut_ptr(),
            out.len(),
        )
    }
}

/// Value 0.
pub fn occupancy(image: &[u8], page: u64, out: &mut [u8]) -> u64 {
    unsafe {
        bcf_occupancy(
            image.as_ptr(),
            image.len(),
            page,
            out.as_mut_ptr(),
            out.len(),
        )
    }
}

/// Value 0.
pub fn merge(first: &[u8], second: &[u8], target: &mut [u8]) -> u64 {
    unsafe {
        bcf_merge(
            first.as_ptr(),
            first.len(),
            second.as_ptr(),
            second.len(),
            target.as_mut_ptr(),
            target.len(),
        )
    }
}

/// Value 0. The source is an old image, the target of the new form.
pub fn attach(old: &[u8], target: &mut [u8]) -> u64 {
    unsafe { bcf_attach(old.as_ptr(), old.len(), target.as_mut_ptr(), target.len()) }
}

/// Value 0. The source is of the new form, the target an old image.
pub fn detach(image: &[u8], target: &mut [u8]) -> u64 {
    unsafe {
        bcf_detach(
            image.as_ptr(),
            image.len(),
            target.as_mut_ptr(),
            target.len(),
        )
    }
}
