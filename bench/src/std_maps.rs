//! std's maps, beside which the archived maps are measured.

use crate::archived::ListedKey;
use crate::common::{sum, MISS};
use std::collections::HashMap;
use std::hash::{BuildHasher, Hash};

/// The key that a map of std's owns.
pub type Owned<Q> = <<Q as ListedKey>::Key as ToOwned>::Owned;

/// Fills a map. Each key has the value at its index.
pub fn build<K: Eq + Hash, S: BuildHasher + Default>(
    keys: impl ExactSizeIterator<Item = K>,
    values: &[u32],
) -> HashMap<K, u32, S> {
    let mut map = HashMap::with_capacity_and_hasher(keys.len(), S::default());
    for (key, value) in keys.zip(values) {
        map.insert(key, *value);
    }
    map
}

/// Fills a map that owns its keys.
pub fn build_owned<Q: ListedKey, S: BuildHasher + Default>(
    keys: &[Q],
    values: &[u32],
) -> HashMap<Owned<Q>, u32, S> {
    build(keys.iter().map(|key| key.key().to_owned()), values)
}

/// Returns the sum of the values of the keys, plus `MISS` for each key that isn't found.
pub fn get_each<Q: ListedKey, S: BuildHasher>(map: &HashMap<Owned<Q>, u32, S>, keys: &[Q]) -> u64 {
    sum(keys
        .iter()
        .map(|key| map.get(key.key()).map_or(MISS, |value| u64::from(*value))))
}
