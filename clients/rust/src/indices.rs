use std::hash::{BuildHasher, RandomState};

use crate::store::Store;
use crate::Key;

/// A slot without an index.
const EMPTY: usize = usize::MAX;

/// The index of the first pair with each key of a builder: a table of indices with linear probing.
/// The hash has a random seed.
///
/// The table has all keys that the builder had at the last call of `find`, and those that `fill` has
/// added.
#[derive(Clone, Default)]
pub(crate) struct Indices {
    hasher: RandomState,
    /// There are none, or a power of two, of which at most half are full.
    slots: Vec<usize>,
    full: usize,
    /// The number of the builder's pairs whose keys the table has.
    seen: usize,
}

impl Indices {
    /// Returns the index of the first of the keys that equals this one, or the slot to fill if none
    /// does. The keys are the same ones at each call, and may have more at the end.
    pub fn find<K: Key + ?Sized>(&mut self, key: &K, keys: &K::Store) -> Result<usize, usize> {
        while self.seen < keys.len() {
            self.reserve(keys);
            let slot = self.slot(keys.get(self.seen), keys);
            if self.slots[slot] == EMPTY {
                self.fill(slot, self.seen);
            } else {
                self.seen += 1;
            }
        }
        self.reserve(keys);
        let slot = self.slot(key, keys);
        match self.slots[slot] {
            EMPTY => Err(slot),
            index => Ok(index),
        }
    }

    /// Adds the index of a key, after `find` has returned this slot. It is the next index that the
    /// table doesn't have.
    pub fn fill(&mut self, slot: usize, index: usize) {
        self.slots[slot] = index;
        self.full += 1;
        self.seen = index + 1;
    }

    /// Ensures that a slot can be filled.
    fn reserve<K: Key + ?Sized>(&mut self, keys: &impl Store<K>) {
        if self.slots.len() >= 2 * (self.full + 1) {
            return;
        }
        let more = vec![EMPTY; (2 * self.slots.len()).max(8)];
        for index in std::mem::replace(&mut self.slots, more) {
            if index != EMPTY {
                let slot = self.slot(keys.get(index), keys);
                self.slots[slot] = index;
            }
        }
    }

    /// The slot that has the index of the key, or the empty one where it belongs.
    fn slot<K: Key + ?Sized>(&self, key: &K, keys: &impl Store<K>) -> usize {
        let mask = self.slots.len() - 1;
        let mut slot = self.hasher.hash_one(key) as usize & mask;
        while self.slots[slot] != EMPTY && keys.get(self.slots[slot]) != key {
            slot = (slot + 1) & mask;
        }
        slot
    }
}
