//! The numbers, the probe sequences and the control bytes of tables.

use crate::fx::SEED;
use std::arch::x86_64::{
    __m128i, _mm_cmpeq_epi8, _mm_loadu_si128, _mm_movemask_epi8, _mm_set1_epi8,
};

/// The size of a word of a narrow archive.
pub(super) const WORD: usize = size_of::<u32>();

/// The size of the header of a table: a distance, the number of items and the capacity.
pub(super) const HEADER: usize = 3 * WORD;

/// The number of control bytes of a stride.
pub(super) const STRIDE: usize = 16;

/// The control byte of an empty bucket.
pub(super) const EMPTY: u8 = 0xff;

/// A key and its value. It may be at any position.
pub(super) type Entry = [[u8; WORD]; 2];

/// Returns the hash of a key, which is one hash word.
#[inline]
pub(super) fn hash(key: u32) -> u64 {
    u64::from(key).wrapping_mul(SEED)
}

/// Returns the tag of a hash.
#[inline]
pub(super) fn tag(hash: u64) -> u8 {
    (hash >> 57) as u8
}

/// The numbers of a table that has buckets.
pub(super) struct Sizes {
    pub(super) capacity: usize,
    /// 2^64 - 1 divided by the capacity, rounded down.
    reciprocal: u64,
    probe_capacity: usize,
    /// The modulus less one.
    mask: usize,
}

impl Sizes {
    /// Returns the numbers of a table with a capacity above 0.
    pub(super) fn new(capacity: usize) -> Sizes {
        let probe_capacity = capacity.next_multiple_of(STRIDE);
        let modulus = (probe_capacity + STRIDE - 1).next_power_of_two();
        Sizes {
            capacity,
            reciprocal: u64::MAX / capacity as u64,
            probe_capacity,
            mask: modulus - 1,
        }
    }

    /// Returns the number of control bytes.
    #[inline]
    pub(super) fn control_count(&self) -> usize {
        self.probe_capacity + STRIDE - 1
    }

    /// Returns an index below twice the capacity, modulo the capacity.
    #[inline]
    pub(super) fn bucket(&self, index: usize) -> usize {
        if index < self.capacity {
            index
        } else {
            index - self.capacity
        }
    }

    /// Returns a hash modulo the capacity.
    #[inline]
    fn start(&self, hash: u64) -> usize {
        let product = u128::from(hash) * u128::from(self.reciprocal);
        // This is the quotient or one less, since the reciprocal is at most 1 too small.
        let quotient = (product >> 64) as usize;
        self.bucket(hash as usize - quotient * self.capacity)
    }

    /// Returns the first index of the probe sequence of a hash.
    #[inline]
    pub(super) fn probe(&self, hash: u64) -> Probe {
        Probe {
            index: self.start(hash),
            distance: 0,
        }
    }
}

/// An index of a probe sequence, below the probe capacity.
pub(super) struct Probe {
    index: usize,
    /// The distance from the index before.
    distance: usize,
}

impl Probe {
    #[inline]
    pub(super) fn index(&self) -> usize {
        self.index
    }

    /// Goes to the next index below the probe capacity.
    #[inline]
    pub(super) fn advance(&mut self, sizes: &Sizes) {
        loop {
            self.distance += STRIDE;
            self.index = (self.index + self.distance) & sizes.mask;
            if self.index < sizes.probe_capacity {
                return;
            }
        }
    }
}

/// The control bytes of a stride.
#[derive(Clone, Copy)]
pub(super) struct Stride(__m128i);

impl Stride {
    /// Reads sixteen control bytes.
    ///
    /// # Safety
    ///
    /// - The sixteen bytes from the pointer on may be read.
    #[inline]
    pub(super) unsafe fn read(controls: *const u8) -> Stride {
        // SAFETY: these bytes may be read, and the pointer needs no alignment. Each x86-64 processor
        // has SSE2.
        Stride(unsafe { _mm_loadu_si128(controls.cast()) })
    }

    /// Marks the control bytes that equal a tag.
    #[inline]
    pub(super) fn equal(self, tag: u8) -> Marks {
        // SAFETY: each x86-64 processor has SSE2.
        let equal = unsafe { _mm_movemask_epi8(_mm_cmpeq_epi8(self.0, _mm_set1_epi8(tag as i8))) };
        Marks(equal as u32)
    }

    /// Marks the empty control bytes.
    #[inline]
    pub(super) fn empty(self) -> Marks {
        // SAFETY: each x86-64 processor has SSE2.
        let empty = unsafe { _mm_movemask_epi8(self.0) };
        Marks(empty as u32)
    }

    /// Marks the full control bytes among the first `count`.
    #[inline]
    pub(super) fn full(self, count: usize) -> Marks {
        let first = (1 << count.min(STRIDE)) - 1;
        Marks(!self.empty().0 & first)
    }
}

/// The marked control bytes of a stride.
#[derive(Clone, Copy)]
pub(super) struct Marks(u32);

impl Marks {
    /// Returns the distance of the first mark from the first control byte.
    #[inline]
    pub(super) fn first(self) -> Option<usize> {
        (self.0 != 0).then(|| self.0.trailing_zeros() as usize)
    }

    /// Removes the first mark.
    #[inline]
    pub(super) fn remove_first(&mut self) {
        self.0 &= self.0.wrapping_sub(1);
    }
}
