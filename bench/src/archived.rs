//! The archived maps, which the Rust crate `hodkhaki` builds and reads.

use crate::common::{sum, MISS};
use hodkhaki::{Builder, Error, HashKind, IndexKind, Key, Kind, Map, Width};
use std::hash::Hash;

/// The number of keys of one call of `get_many`.
const AT_ONCE: usize = 1024;

/// A key in a list, which archived maps and std's maps look up.
pub trait ListedKey: Copy {
    type Key: Key + ToOwned<Owned: Eq + Hash> + Eq + Hash + ?Sized;

    fn key(&self) -> &Self::Key;
}

impl ListedKey for u32 {
    type Key = u32;

    #[inline]
    fn key(&self) -> &u32 {
        self
    }
}

impl ListedKey for &str {
    type Key = str;

    #[inline]
    fn key(&self) -> &str {
        self
    }
}

/// The kind of an archived map: a hash map or an index map.
pub trait MapKind: Kind {
    /// Builds the narrow archive of a map.
    fn build<K: Key + ?Sized>(builder: &Builder<K, u32>) -> Result<Vec<u8>, Error>;
}

impl MapKind for HashKind {
    fn build<K: Key + ?Sized>(builder: &Builder<K, u32>) -> Result<Vec<u8>, Error> {
        Ok(builder.build_archive(Width::Narrow)?.into_bytes())
    }
}

impl MapKind for IndexKind {
    fn build<K: Key + ?Sized>(builder: &Builder<K, u32>) -> Result<Vec<u8>, Error> {
        Ok(builder.build_index_archive(Width::Narrow)?.into_bytes())
    }
}

/// Builds the archive of a map. Each key has the value at its index.
pub fn build<Q: ListedKey, C: MapKind>(keys: &[Q], values: &[u32]) -> Vec<u8> {
    let mut builder = Builder::<Q::Key, u32>::with_capacity(keys.len());
    for (key, value) in keys.iter().zip(values) {
        builder.push(key.key(), *value);
    }
    C::build(&builder).expect("the map is archived")
}

/// The valid archive of a narrow map of keys to `u32`, which is open.
pub struct Archive<'a, Q: ListedKey, C> {
    bytes: &'a [u8],
    map: Map<'a, Q::Key, u32, C>,
}

impl<'a, Q: ListedKey, C: MapKind> Archive<'a, Q, C> {
    /// Validates an archive.
    pub fn open(bytes: &'a [u8]) -> Self {
        let map = Map::open_archive(bytes, Width::Narrow).expect("the archive is valid");
        Archive { bytes, map }
    }

    pub fn bytes(&self) -> &'a [u8] {
        self.bytes
    }

    pub fn len(&self) -> usize {
        self.map.len()
    }

    /// Returns the sum of the values of the keys, plus `MISS` for each key that isn't found.
    pub fn get_each(&self, keys: &[Q]) -> u64 {
        sum(keys
            .iter()
            .map(|key| value_or_miss(self.map.get(key.key()))))
    }

    /// Returns the same sum as `get_each`, by calls of `get_many`.
    pub fn get_many(&self, keys: &[Q]) -> u64 {
        sum(keys.chunks(AT_ONCE).map(|chunk| {
            let values = self.map.get_many(chunk.iter().map(ListedKey::key));
            sum(values.into_iter().map(value_or_miss))
        }))
    }

    /// Returns the sum of the values.
    pub fn iterate(&self) -> u64 {
        sum(self.map.iter().map(|(_, value)| u64::from(value)))
    }
}

fn value_or_miss(value: Option<u32>) -> u64 {
    value.map_or(MISS, u64::from)
}
