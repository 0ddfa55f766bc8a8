//! Index maps and index sets: those that keep their pairs or items in insertion order.

#[cfg(doc)]
use crate::{Builder, IndexMapBuf};
use crate::{IndexKind, Key, Map, Set, Value};

/// An index map of `K` to `V` that borrows its bytes, which are a container or an archive.
///
/// The pairs are in insertion order. A lookup by a key also returns the index, and one by an index
/// returns the pair: a table of interned strings is such a map.
///
/// It has all methods of a [`Map`]. An [`IndexMapBuf`] owns its bytes.
///
/// # Examples
/// ```
/// use hodkhaki::{Builder, IndexMap};
///
/// # fn main() -> Result<(), hodkhaki::Error> {
/// let builder = Builder::<str, u64>::from([("main", 0x1139), ("_start", 0x1040)]);
/// let bytes = builder.build_index()?.into_bytes();
/// let map = IndexMap::<str, u64>::open(&bytes)?;
/// assert_eq!(map.get_full("_start"), Some((1, "_start", 0x1040)));
/// assert_eq!(map.get_index(0), Some(("main", 0x1139)));
/// assert!(map.keys().eq(["main", "_start"]));
/// # Ok(())
/// # }
/// ```
pub type IndexMap<'a, K, V> = Map<'a, K, V, IndexKind>;

/// An index set of `K` that borrows its bytes, which are a container or an archive.
///
/// The items are in insertion order. It has all methods of a [`Set`], and those of an index.
///
/// # Examples
/// ```
/// use hodkhaki::{IndexSet, SetBuilder};
///
/// # fn main() -> Result<(), hodkhaki::Error> {
/// let words: SetBuilder<str> = "to be or not to be".split(' ').collect();
/// let bytes = words.build_index()?.into_bytes();
/// let set = IndexSet::<str>::open(&bytes)?;
/// assert_eq!((set.get_index_of("or"), set.get_index(1)), (Some(2), Some("be")));
/// # Ok(())
/// # }
/// ```
pub type IndexSet<'a, K> = Set<'a, K, IndexKind>;

/// An iterator over the pairs of an [`IndexMap`], in insertion order.
pub type Iter<'a, K, V> = crate::Iter<'a, K, V, IndexKind>;

/// An iterator over the keys of an [`IndexMap`], in insertion order.
pub type Keys<'a, K, V> = crate::Keys<'a, K, V, IndexKind>;

/// An iterator over the values of an [`IndexMap`], in insertion order.
pub type Values<'a, K, V> = crate::Values<'a, K, V, IndexKind>;

/// An iterator over the items of an [`IndexSet`], in insertion order.
pub type Members<'a, K> = crate::Members<'a, K, IndexKind>;

/// The methods of index maps.
impl<'a, K: Key + ?Sized, V: Value + ?Sized> Map<'a, K, V, IndexKind> {
    /// Returns the index of a key, or `None` if the lookup doesn't find the key.
    ///
    /// In a map that a [`Builder`] has built, this is the index of the first pair with the key.
    ///
    /// # Examples
    /// ```
    /// use hodkhaki::Builder;
    ///
    /// # fn main() -> Result<(), hodkhaki::Error> {
    /// let builder = Builder::<str, u32>::from([("was", 7), ("der", 8), ("was", 9)]);
    /// let map = builder.build_index()?;
    /// assert_eq!(map.get_index_of("der"), Some(1));
    /// assert_eq!(map.get_index_of("was"), Some(0));
    /// assert_eq!(map.get_index_of("die"), None);
    /// # Ok(())
    /// # }
    /// ```
    pub fn get_index_of(&self, key: &K) -> Option<usize> {
        self.find(key).map(|(index, _)| index)
    }

    /// Returns the index, the key and the value of a pair, or `None` if the lookup doesn't find the
    /// key.
    ///
    /// The key is the stored one, which borrows the archive.
    pub fn get_full(&self, key: &K) -> Option<(usize, K::Ref<'a>, V::Ref<'a>)> {
        let (index, value) = self.find(key)?;
        let (key, _) = self.get_index(index)?;
        Some((index, key, value))
    }

    /// Returns the key and the value of a pair, or `None` if the lookup doesn't find the key.
    ///
    /// The key is the stored one, which borrows the archive.
    pub fn get_key_value(&self, key: &K) -> Option<(K::Ref<'a>, V::Ref<'a>)> {
        self.get_full(key).map(|(_, key, value)| (key, value))
    }

    /// Returns the pair at an index, in insertion order, or `None` if the index isn't less than the
    /// length.
    ///
    /// # Examples
    /// ```
    /// use hodkhaki::Builder;
    ///
    /// # fn main() -> Result<(), hodkhaki::Error> {
    /// let map = Builder::<u32, u32>::from([(30, 3), (10, 1)]).build_index()?;
    /// assert_eq!(map.get_index(1), Some((10, 1)));
    /// assert_eq!(map.get_index(2), None);
    /// # Ok(())
    /// # }
    /// ```
    pub fn get_index(&self, index: usize) -> Option<(K::Ref<'a>, V::Ref<'a>)> {
        self.pair_from(index as u64)
    }

    /// Returns the first pair, or `None` if the map has no pairs.
    pub fn first(&self) -> Option<(K::Ref<'a>, V::Ref<'a>)> {
        self.get_index(0)
    }

    /// Returns the last pair, or `None` if the map has no pairs.
    pub fn last(&self) -> Option<(K::Ref<'a>, V::Ref<'a>)> {
        self.get_index(self.len().checked_sub(1)?)
    }
}

/// The methods of index sets.
impl<'a, K: Key + ?Sized> Set<'a, K, IndexKind> {
    /// Returns the index of an item, or `None` if the lookup doesn't find the item.
    pub fn get_index_of(&self, item: &K) -> Option<usize> {
        self.map().get_index_of(item)
    }

    /// Returns the index of an item and the stored item, or `None` if the lookup doesn't find it.
    pub fn get_full(&self, item: &K) -> Option<(usize, K::Ref<'a>)> {
        let (index, item, _) = self.map().get_full(item)?;
        Some((index, item))
    }

    /// Returns the stored item that equals an item, or `None` if the lookup doesn't find it.
    pub fn get(&self, item: &K) -> Option<K::Ref<'a>> {
        self.get_full(item).map(|(_, item)| item)
    }

    /// Returns the item at an index, in insertion order, or `None` if the index isn't less than the
    /// length.
    pub fn get_index(&self, index: usize) -> Option<K::Ref<'a>> {
        self.map().get_index(index).map(|(item, _)| item)
    }

    /// Returns the first item, or `None` if the set has no items.
    pub fn first(&self) -> Option<K::Ref<'a>> {
        self.get_index(0)
    }

    /// Returns the last item, or `None` if the set has no items.
    pub fn last(&self) -> Option<K::Ref<'a>> {
        self.get_index(self.len().checked_sub(1)?)
    }
}
