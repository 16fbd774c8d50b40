//! The tail of an image, its last 64 bytes: total, change count, layout, and zeros.

/// The layout, and the seven zeros behind it, as one word.
const LAYOUT: u64 = 1;

/// The numbers of a good tail.
#[derive(Clone, Copy)]
pub struct Tail {
    pub total: u64,
    pub changes: u64,
}

impl Tail {
    /// Reads a tail by its eight words; nothing where it is bad.
    #[inline(always)]
    pub unsafe fn read(t: *const u8, slots: u64) -> Option<Tail> {
        let word = |at: usize| u64::from_le((t as *const u64).add(at).read_unaligned());
        let (total, changes) = (word(0), word(1));
        let wrong = (word(2) ^ LAYOUT) | word(3) | word(4) | word(5) | word(6) | word(7);
        (wrong == 0 && total <= slots).then_some(Tail { total, changes })
    }

    /// Writes both numbers over those of a good tail.
    #[inline(always)]
    pub unsafe fn change(self, t: *mut u8) {
        (t as *mut u64).write_unaligned(self.total.to_le());
        (t as *mut u64).add(1).write_unaligned(self.changes.to_le());
    }

    /// After one more insert.
    #[inline(always)]
    pub fn with_one_more(self) -> Tail {
        Tail {
            total: self.total + 1,
            changes: self.changes + 1,
        }
    }

    /// After one more delete.
    #[inline(always)]
    pub fn with_one_less(self) -> Tail {
        Tail {
            total: self.total - 1,
            changes: self.changes + 1,
        }
    }

    /// Writes all 64 bytes.
    #[inline(always)]
    pub unsafe fn write(self, t: *mut u8) {
        std::ptr::write_bytes(t, 0, 64);
        self.change(t);
        (t as *mut u64).add(2).write_unaligned(LAYOUT.to_le());
    }
}
