//! Building of archives.

use super::table::{hash, tag, Entry, Sizes, Stride, EMPTY, HEADER, WORD};

/// Archives a map of the keys into the front of `out`, and returns the length of the archive.
///
/// Each key has the value at its index.
/// Keys without a value, and values without a key, are left out. The load factor is 7 / 8.
///
/// Returns 0, with `out` unchanged, if the archive doesn't fit, or is too long for a narrow one.
#[inline(never)]
pub(super) fn build(keys: &[u32], values: &[u32], out: &mut [u8]) -> usize {
    let count = keys.len().min(values.len());
    if count == 0 {
        return build_empty(out);
    }
    let sizes = Sizes::new((count * 8 / 7).max(count + 1));
    let controls = size_of::<Entry>() * sizes.capacity;
    let end = controls + sizes.control_count();
    let header = end.next_multiple_of(WORD);
    let len = header + HEADER;
    if len > out.len().min(u32::MAX as usize) {
        return 0;
    }
    out[..controls].fill(0);
    out[controls..end].fill(EMPTY);
    out[end..header].fill(0);
    let distance = (controls as u32).wrapping_sub(header as u32);
    write_header(
        [distance, count as u32, sizes.capacity as u32],
        &mut out[header..],
    );
    let table = NewTable {
        controls: out.as_mut_ptr().wrapping_add(controls),
        sizes,
    };
    for (key, value) in keys.iter().zip(values) {
        // SAFETY: `out` has the buckets before the control bytes, and the control bytes are those
        // of the pairs before. The capacity is greater than the number of pairs.
        unsafe { table.place(*key, *value) };
    }
    len
}

/// Archives a map of no keys.
fn build_empty(out: &mut [u8]) -> usize {
    if out.len() < HEADER {
        return 0;
    }
    write_header([1, 0, 0], out);
    HEADER
}

/// Writes the distance, the number of items and the capacity to the front of `out`.
fn write_header(words: [u32; 3], out: &mut [u8]) {
    for (word, bytes) in words.iter().zip(out.chunks_exact_mut(WORD)) {
        bytes.copy_from_slice(&word.to_le_bytes());
    }
}

/// A table into which items are placed.
struct NewTable {
    sizes: Sizes,
    /// Control byte 0, behind bucket 0.
    controls: *mut u8,
}

impl NewTable {
    /// Writes a pair and its control bytes.
    ///
    /// # Safety
    ///
    /// - The buckets and the control bytes of the capacity may be read and written.
    /// - The control bytes are of earlier pairs, and one bucket is empty.
    #[inline]
    unsafe fn place(&self, key: u32, value: u32) {
        let hash = hash(key);
        // SAFETY: the control bytes may be read, and one bucket is empty.
        let bucket = unsafe { self.home_bucket(hash) };
        let entry: Entry = [key.to_le_bytes(), value.to_le_bytes()];
        // SAFETY: the bucket is below the capacity, and there are as many before control byte 0.
        unsafe { *self.controls.cast::<Entry>().sub(bucket + 1) = entry };
        // SAFETY: a bucket is less than the number of control bytes.
        unsafe { *self.controls.add(bucket) = tag(hash) };
        let mirrored = bucket + self.sizes.capacity;
        if mirrored < self.sizes.control_count() {
            // SAFETY: the index is less than the number of control bytes.
            unsafe { *self.controls.add(mirrored) = tag(hash) };
        }
    }

    /// Returns the first empty bucket of the strides of a hash.
    ///
    /// # Safety
    ///
    /// - The control bytes may be read. They are of earlier pairs, and one bucket is empty.
    #[inline]
    unsafe fn home_bucket(&self, hash: u64) -> usize {
        let mut probe = self.sizes.probe(hash);
        loop {
            // SAFETY: the index is below the probe capacity, which is 15 less than the number of
            // control bytes.
            let stride = unsafe { Stride::read(self.controls.add(probe.index())) };
            if let Some(mark) = stride.empty().first() {
                return self.sizes.bucket(probe.index() + mark);
            }
            probe.advance(&self.sizes);
        }
    }
}
