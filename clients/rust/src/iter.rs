use std::fmt;
use std::iter::FusedIterator;
use std::marker::PhantomData;

use crate::raw::{RawItem, RawMap};
use crate::types::Unit;
use crate::{HashKind, IndexKind, Key, Kind, Value};
#[cfg(doc)]
use crate::{Map, Set};

/// The number of pairs that one call of the library stores.
const BATCH: usize = 16;

/// An iterator over the pairs of a [`Map`], in the order of the archive.
#[must_use = "iterators are lazy and do nothing unless consumed"]
pub struct Iter<'a, K: Key + ?Sized, V: Value + ?Sized, C = HashKind> {
    raw: RawMap,
    /// The items that were stored last. Those before `taken` were returned, and those from `stored`
    /// on have no meaning.
    items: [RawItem; BATCH],
    taken: usize,
    stored: usize,
    /// The bucket or the index behind the pairs that were stored, and the number of pairs from there
    /// on that remain.
    from: u64,
    left: usize,
    bytes: PhantomData<&'a [u8]>,
    of: PhantomData<fn(&K, &V, C)>,
}

// SAFETY: as a map, an iterator is a shared borrow of bytes, which its calls only read. The pairs
// and the position are its own.
unsafe impl<K: Key + ?Sized, V: Value + ?Sized, C> Send for Iter<'_, K, V, C> {}

// SAFETY: a shared reference to an iterator gives access to its bytes, pairs and position only to
// read.
unsafe impl<K: Key + ?Sized, V: Value + ?Sized, C> Sync for Iter<'_, K, V, C> {}

impl<'a, K: Key + ?Sized, V: Value + ?Sized, C: Kind> Iter<'a, K, V, C> {
    /// The pairs of a map.
    ///
    /// # Safety
    /// It is the handle of an open collection of this kind and of these types, whose bytes are
    /// borrowed for `'a`.
    pub(crate) unsafe fn new(raw: RawMap) -> Self {
        Iter {
            raw,
            items: [RawItem::NONE; BATCH],
            taken: 0,
            stored: 0,
            from: 0,
            left: raw.len(),
            bytes: PhantomData,
            of: PhantomData,
        }
    }

    /// Stores the next pairs. At least one is left.
    #[inline(never)]
    fn store(&mut self) {
        let room = BATCH.min(self.left);
        let items = &mut self.items[..room];
        // SAFETY: the map is open, and its bytes are borrowed for 'a.
        self.stored = unsafe { self.raw.next(self.from, items) };
        assert!(self.stored > 0, "an open map has {} more pairs", self.left);
        self.taken = 0;
        self.from = self.items[self.stored - 1].next;
        self.left -= self.stored;
    }

    /// The key and the value of an item.
    ///
    /// # Safety
    /// The item is one that `store` has stored.
    unsafe fn pair(item: RawItem) -> (K::Ref<'a>, V::Ref<'a>) {
        // SAFETY: the caller ensures that the item is one of the map, which is open, of these types,
        // and its bytes are borrowed for 'a.
        unsafe { (K::of(item.key), V::of(item.value)) }
    }

    fn remaining(&self) -> usize {
        self.stored - self.taken + self.left
    }
}

impl<K: Key + ?Sized, V: Value + ?Sized, C> Clone for Iter<'_, K, V, C> {
    fn clone(&self) -> Self {
        Iter { ..*self }
    }
}

impl<'a, K: Key + ?Sized, V: Value + ?Sized, C: Kind> Iterator for Iter<'a, K, V, C> {
    type Item = (K::Ref<'a>, V::Ref<'a>);

    fn next(&mut self) -> Option<(K::Ref<'a>, V::Ref<'a>)> {
        if self.taken == self.stored {
            if self.left == 0 {
                return None;
            }
            self.store();
        }
        let item = self.items[self.taken];
        self.taken += 1;
        // SAFETY: the item is below `stored`.
        Some(unsafe { Self::pair(item) })
    }

    fn nth(&mut self, mut n: usize) -> Option<(K::Ref<'a>, V::Ref<'a>)> {
        loop {
            let taken = n.min(self.stored - self.taken);
            self.taken += taken;
            n -= taken;
            if n == 0 || self.left == 0 {
                return self.next();
            }
            if C::IS_INDEXED {
                let skipped = n.min(self.left);
                self.from += skipped as u64;
                self.left -= skipped;
                n = 0;
            } else {
                self.store();
            }
        }
    }

    fn size_hint(&self) -> (usize, Option<usize>) {
        let remaining = self.remaining();
        (remaining, Some(remaining))
    }

    fn fold<B, F: FnMut(B, Self::Item) -> B>(mut self, init: B, mut f: F) -> B {
        let mut result = init;
        loop {
            for item in &self.items[self.taken..self.stored] {
                // SAFETY: the item is below `stored`.
                result = f(result, unsafe { Self::pair(*item) });
            }
            if self.left == 0 {
                return result;
            }
            self.store();
        }
    }
}

/// The last pair that remains is found by its index.
impl<K: Key + ?Sized, V: Value + ?Sized> DoubleEndedIterator for Iter<'_, K, V, IndexKind> {
    fn next_back(&mut self) -> Option<Self::Item> {
        let item = if self.left > 0 {
            self.left -= 1;
            let (mut last, index) = ([RawItem::NONE], self.from + self.left as u64);
            // SAFETY: the map is open, and its bytes are borrowed for 'a.
            let stored = unsafe { self.raw.next(index, &mut last) };
            assert!(stored == 1, "an open map has a pair at {index}");
            last[0]
        } else if self.taken < self.stored {
            self.stored -= 1;
            self.items[self.stored]
        } else {
            return None;
        };
        // SAFETY: the call has stored the item, or it was below `stored`.
        Some(unsafe { Self::pair(item) })
    }
}

impl<K: Key + ?Sized, V: Value + ?Sized, C: Kind> ExactSizeIterator for Iter<'_, K, V, C> {}

impl<K: Key + ?Sized, V: Value + ?Sized, C: Kind> FusedIterator for Iter<'_, K, V, C> {}

impl<K: Key + ?Sized, V: Value + ?Sized, C: Kind> fmt::Debug for Iter<'_, K, V, C> {
    fn fmt(&self, f: &mut fmt::Formatter<'_>) -> fmt::Result {
        f.debug_list().entries(self.clone()).finish()
    }
}

/// Declares an iterator over the keys or the values of an iterator over pairs.
macro_rules! part {
    ($(#[$doc:meta])* $name:ident, $item:ty, $index:tt) => {
        $(#[$doc])*
        #[must_use = "iterators are lazy and do nothing unless consumed"]
        pub struct $name<'a, K: Key + ?Sized, V: Value + ?Sized, C = HashKind> {
            pairs: Iter<'a, K, V, C>,
        }

        impl<'a, K: Key + ?Sized, V: Value + ?Sized, C> $name<'a, K, V, C> {
            pub(crate) fn new(pairs: Iter<'a, K, V, C>) -> Self {
                $name { pairs }
            }
        }

        impl<K: Key + ?Sized, V: Value + ?Sized, C> Clone for $name<'_, K, V, C> {
            fn clone(&self) -> Self {
                $name::new(self.pairs.clone())
            }
        }

        impl<'a, K: Key + ?Sized, V: Value + ?Sized, C: Kind> Iterator for $name<'a, K, V, C> {
            type Item = $item;

            fn next(&mut self) -> Option<$item> {
                self.pairs.next().map(|pair| pair.$index)
            }

            fn nth(&mut self, n: usize) -> Option<$item> {
                self.pairs.nth(n).map(|pair| pair.$index)
            }

            fn size_hint(&self) -> (usize, Option<usize>) {
                self.pairs.size_hint()
            }

            fn fold<B, F: FnMut(B, $item) -> B>(self, init: B, mut f: F) -> B {
                self.pairs.fold(init, |result, pair| f(result, pair.$index))
            }
        }

        impl<K: Key + ?Sized, V: Value + ?Sized> DoubleEndedIterator for $name<'_, K, V, IndexKind> {
            fn next_back(&mut self) -> Option<Self::Item> {
                self.pairs.next_back().map(|pair| pair.$index)
            }
        }

        impl<K: Key + ?Sized, V: Value + ?Sized, C: Kind> ExactSizeIterator for $name<'_, K, V, C> {}

        impl<K: Key + ?Sized, V: Value + ?Sized, C: Kind> FusedIterator for $name<'_, K, V, C> {}

        impl<K: Key + ?Sized, V: Value + ?Sized, C: Kind> fmt::Debug for $name<'_, K, V, C> {
            fn fmt(&self, f: &mut fmt::Formatter<'_>) -> fmt::Result {
                f.debug_list().entries(self.clone()).finish()
            }
        }
    };
}

part! {
    /// An iterator over the keys of a [`Map`], in the order of the archive.
    Keys, K::Ref<'a>, 0
}

part! {
    /// An iterator over the values of a [`Map`], in the order of the archive.
    Values, V::Ref<'a>, 1
}

/// An iterator over the items of a [`Set`], in the order of the archive. In an
/// [`IndexSet`](crate::IndexSet) this is the insertion order.
pub type Members<'a, K, C = HashKind> = Keys<'a, K, Unit, C>;
