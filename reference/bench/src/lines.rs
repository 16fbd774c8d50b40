//! Bytes of an image. They begin at a page, so that a bucket takes one cache line.

use std::fs::File;
use std::ops::{Deref, DerefMut};
use std::os::fd::AsRawFd;

unsafe extern "C" {
    fn mmap(at: *mut u8, length: usize, access: i32, kind: i32, file: i32, from: i64) -> *mut u8;
    fn munmap(at: *mut u8, length: usize) -> i32;
}

const READ_AND_WRITE: i32 = 3;
const SHARED: i32 = 1;
const PRIVATE_WITHOUT_FILE: i32 = 0x22;

pub struct Lines {
    at: *mut u8,
    length: usize,
}

impl Lines {
    /// A copy of an image; in a file, where one is given, whose memory another process may have
    /// too.
    pub fn of(image: &[u8], file: Option<&File>) -> Lines {
        let length = image.len();
        let (kind, number) = match file {
            Some(file) => (SHARED, file.as_raw_fd()),
            None => (PRIVATE_WITHOUT_FILE, -1),
        };
        if let Some(file) = file {
            let longest = file
                .metadata()
                .expect("its length")
                .len()
                .max(length as u64);
            file.set_len(longest).expect("room");
        }
        let at = unsafe {
            mmap(
                std::ptr::null_mut(),
                length,
                READ_AND_WRITE,
                kind,
                number,
                0,
            )
        };
        assert_ne!(at as isize, -1, "no memory");
        let mut lines = Lines { at, length };
        lines.copy_from_slice(image);
        lines
    }
}

impl Drop for Lines {
    fn drop(&mut self) {
        unsafe { munmap(self.at, self.length) };
    }
}

impl Deref for Lines {
    type Target = [u8];
    fn deref(&self) -> &[u8] {
        unsafe { std::slice::from_raw_parts(self.at, self.length) }
    }
}

impl DerefMut for Lines {
    fn deref_mut(&mut self) -> &mut [u8] {
        unsafe { std::slice::from_raw_parts_mut(self.at, self.length) }
    }
}
