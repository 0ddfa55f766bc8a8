//! Narrow maps of `u32` to `u32`, as unsafe code that is written by hand for these types.
//!
//! It reads and writes the same bytes as the library, and shows how fast this processor can do so.
//! A call decodes the header once, and checks no bounds of keys, buckets or control bytes. The start
//! of a hash takes a reciprocal in place of a division, and a stride one comparison.

mod read;
mod table;
mod write;

use crate::archived::{Archive, ListedKey};
use hodkhaki::{HashKind, IndexKind};

/// The calls for maps of a type of keys and of a kind.
pub struct Calls<Q: ListedKey, C> {
    pub build: Option<Build<Q>>,
    pub lookup: Option<Lookup<Q, C>>,
    pub iterate: Option<Iterate<Q, C>>,
}

impl<Q: ListedKey, C> Calls<Q, C> {
    /// No calls.
    pub const NONE: Self = Calls {
        build: None,
        lookup: None,
        iterate: None,
    };
}

/// Archives keys and values into the front of a slice. Returns the archive's length.
pub type Build<Q> = fn(&[Q], &[u32], &mut [u8]) -> usize;

/// Returns the sum of the values of the keys, plus `MISS` for each key that isn't found.
pub type Lookup<Q, C> = fn(&[Q], &Archive<'_, Q, C>) -> u64;

/// Returns the sum of the values.
pub type Iterate<Q, C> = fn(&Archive<'_, Q, C>) -> u64;

/// The calls for hash maps of numbers.
pub const OF_NUMBERS: Calls<u32, HashKind> = Calls {
    build: Some(write::build),
    lookup: Some(read::lookup),
    iterate: Some(read::iterate),
};

/// The calls for index maps of numbers. Index maps are only looked up.
pub const OF_INDEX_MAPS: Calls<u32, IndexKind> = Calls {
    build: None,
    lookup: Some(read::lookup_index),
    iterate: None,
};
