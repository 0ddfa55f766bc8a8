//! Lookups and iteration.

use super::table::{hash, tag, Entry, Sizes, Stride, HEADER, STRIDE, WORD};
use crate::archived::Archive;
use crate::common::MISS;
use hodkhaki::{HashKind, IndexKind};

/// The size of the header of an index map: the header of a table, and a distance.
const INDEX_HEADER: usize = HEADER + WORD;

/// Returns the sum of the values of the keys, plus 2^32 for each key that isn't found.
#[inline(never)]
pub(super) fn lookup(keys: &[u32], archive: &Archive<'_, u32, HashKind>) -> u64 {
    let archive = archive.bytes();
    match Table::decode(archive, archive.len() - HEADER) {
        Some(table) => sum_values(keys, &Map { table }),
        None => MISS * keys.len() as u64,
    }
}

/// Returns the same sum as `lookup`, of an index map.
#[inline(never)]
pub(super) fn lookup_index(keys: &[u32], archive: &Archive<'_, u32, IndexKind>) -> u64 {
    let archive = archive.bytes();
    let header = archive.len() - INDEX_HEADER;
    match Table::decode(archive, header) {
        Some(table) => {
            let entries = pointer(archive, header + HEADER).cast();
            sum_values(keys, &IndexMap { table, entries })
        }
        None => MISS * keys.len() as u64,
    }
}

/// Returns the sum of the values.
#[inline(never)]
pub(super) fn iterate(archive: &Archive<'_, u32, HashKind>) -> u64 {
    let archive = archive.bytes();
    match Table::decode(archive, archive.len() - HEADER) {
        Some(table) => sum_all_values(&Map { table }),
        None => 0,
    }
}

/// Reads the word at a position.
fn word(archive: &[u8], position: usize) -> u32 {
    u32::from_le_bytes(archive[position..position + WORD].try_into().unwrap())
}

/// Returns a pointer to the bytes to which the distance at a position leads.
fn pointer(archive: &[u8], position: usize) -> *const u8 {
    let distance = word(archive, position) as i32;
    let target = position.wrapping_add_signed(distance as isize);
    archive.as_ptr().wrapping_add(target)
}

/// A table that has buckets, in a valid archive that stays borrowed.
struct Table {
    sizes: Sizes,
    /// Control byte 0, behind bucket 0.
    controls: *const u8,
}

impl Table {
    /// Decodes the header at a position of a valid archive. Returns `None` if there are no buckets.
    fn decode(archive: &[u8], header: usize) -> Option<Table> {
        let capacity = word(archive, header + 2 * WORD) as usize;
        (capacity > 0).then(|| Table {
            sizes: Sizes::new(capacity),
            controls: pointer(archive, header),
        })
    }

    /// Reads the control bytes from an index on.
    ///
    /// # Safety
    ///
    /// - The index is below the probe capacity.
    #[inline]
    unsafe fn stride(&self, index: usize) -> Stride {
        // SAFETY: the probe capacity is 15 less than the number of control bytes, so the archive
        // has sixteen of them from this index on.
        unsafe { Stride::read(self.controls.add(index)) }
    }

    /// Returns a pointer to the item of a bucket.
    ///
    /// # Safety
    ///
    /// - The bucket is below the capacity, and the items are of type `T`, which has alignment 1.
    #[inline]
    unsafe fn item<T>(&self, bucket: usize) -> *const T {
        // SAFETY: the archive has a bucket for each index below the capacity. They precede control
        // byte 0, in descending order.
        unsafe { self.controls.cast::<T>().sub(bucket + 1) }
    }
}

/// A map in a valid archive.
trait Entries {
    fn table(&self) -> &Table;

    /// Reads the entry of a bucket.
    ///
    /// # Safety
    ///
    /// - The bucket is below the capacity, and full.
    unsafe fn entry(&self, bucket: usize) -> Entry;
}

/// A hash map: its items are entries.
struct Map {
    table: Table,
}

impl Entries for Map {
    #[inline]
    fn table(&self) -> &Table {
        &self.table
    }

    #[inline]
    unsafe fn entry(&self, bucket: usize) -> Entry {
        // SAFETY: the bucket is below the capacity, and its item is an entry, which may be any
        // bytes.
        unsafe { *self.table.item::<Entry>(bucket) }
    }
}

/// An index map: its items are indices of entries.
struct IndexMap {
    table: Table,
    /// Entry 0.
    entries: *const Entry,
}

impl Entries for IndexMap {
    #[inline]
    fn table(&self) -> &Table {
        &self.table
    }

    #[inline]
    unsafe fn entry(&self, bucket: usize) -> Entry {
        // SAFETY: the bucket is below the capacity, and its item is a word, which may be any bytes.
        let index = unsafe { *self.table.item::<[u8; WORD]>(bucket) };
        // SAFETY: the bucket is full, so its index is below the number of entries: validation
        // compares both.
        unsafe { *self.entries.add(u32::from_le_bytes(index) as usize) }
    }
}

/// Returns the sum of the values of the keys, plus 2^32 for each key that isn't found.
#[inline]
fn sum_values(keys: &[u32], map: &impl Entries) -> u64 {
    let mut total = 0u64;
    for key in keys {
        total = total.wrapping_add(value_or_miss(map, *key));
    }
    total
}

/// Returns the value of a key, or 2^32 if it isn't found.
#[inline]
fn value_or_miss(map: &impl Entries, key: u32) -> u64 {
    let table = map.table();
    let hash = hash(key);
    let mut probe = table.sizes.probe(hash);
    loop {
        // SAFETY: the index of a probe sequence is below the probe capacity.
        let stride = unsafe { table.stride(probe.index()) };
        let mut marks = stride.equal(tag(hash));
        while let Some(mark) = marks.first() {
            let bucket = table.sizes.bucket(probe.index() + mark);
            // SAFETY: the control byte is a tag. In a valid archive, such a byte is below twice the
            // capacity, and its bucket is full.
            let [found, value] = unsafe { map.entry(bucket) };
            if u32::from_le_bytes(found) == key {
                return u64::from(u32::from_le_bytes(value));
            }
            marks.remove_first();
        }
        // A valid table has an empty bucket, so the loop ends.
        if stride.empty().first().is_some() {
            return MISS;
        }
        probe.advance(&table.sizes);
    }
}

/// Returns the sum of all values.
#[inline]
fn sum_all_values(map: &impl Entries) -> u64 {
    let table = map.table();
    let capacity = table.sizes.capacity;
    let mut total = 0u64;
    for index in (0..capacity).step_by(STRIDE) {
        // SAFETY: the index is below the capacity, which is at most the probe capacity.
        let stride = unsafe { table.stride(index) };
        let mut marks = stride.full(capacity - index);
        while let Some(mark) = marks.first() {
            // SAFETY: the mark is full, and it is among the control bytes below the capacity.
            let [_, value] = unsafe { map.entry(index + mark) };
            total = total.wrapping_add(u64::from(u32::from_le_bytes(value)));
            marks.remove_first();
        }
    }
    total
}
