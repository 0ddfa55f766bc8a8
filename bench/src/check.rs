//! Compares `limit` with the library.

use crate::archived::{build, Archive, MapKind};
use crate::limit::{self, Calls};
use crate::lists;

/// Stops the program if a result or an archive of `limit` differs from the library's.
pub fn compare_limit() {
    for count in (0..=300).chain([1_000, 10_000]) {
        let (lists, values) = lists(count);
        compare_maps(&lists, &values);
    }
    // Equal keys have the longest probe sequences.
    for count in (1..=300).step_by(7) {
        let ([_, others, misses], values) = lists(count);
        compare_maps(&[vec![others[0]; count], others, misses], &values);
    }
}

/// Compares a hash map and an index map of the first list of keys, and lookups of all lists.
fn compare_maps(keys: &[Vec<u32>; 3], values: &[u32]) {
    compare(&limit::OF_NUMBERS, keys, values);
    compare(&limit::OF_INDEX_MAPS, keys, values);
}

/// Compares the archive of the first keys, the lookups of all keys, and the iteration.
fn compare<C: MapKind>(limit: &Calls<u32, C>, keys: &[Vec<u32>; 3], values: &[u32]) {
    let bytes = build::<u32, C>(&keys[0], values);
    let archive = Archive::<u32, C>::open(&bytes);
    assert_eq!(archive.len(), values.len());
    if let Some(build) = limit.build {
        let mut out = vec![1; bytes.len()];
        let len = build(&keys[0], values, &mut out);
        assert!(len == bytes.len() && out == bytes, "limit: another archive");
    }
    if let Some(lookup) = limit.lookup {
        for list in keys {
            let found = archive.get_each(list);
            assert_eq!(
                lookup(list, &archive),
                found,
                "limit: another result of lookups"
            );
            assert_eq!(
                archive.get_many(list),
                found,
                "another result of `get_many`"
            );
        }
    }
    if let Some(iterate) = limit.iterate {
        let (sum, expected) = (iterate(&archive), archive.iterate());
        assert_eq!(sum, expected, "limit: another result of an iteration");
    }
}
