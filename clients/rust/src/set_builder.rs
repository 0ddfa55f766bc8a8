use std::collections::{BTreeSet, HashSet};
use std::fmt;

use crate::item::from_collections;
use crate::types::Unit;
use crate::{AsItem, Builder, Checksum, Error, IndexSetBuf, Key, SetBuf, Width};
#[cfg(doc)]
use crate::{IndexSet, Set};

/// The items of a set that is to be archived.
///
/// [`build`](SetBuilder::build) makes a [`Set`] of them, and [`build_index`](SetBuilder::build_index) an
/// [`IndexSet`]. Each is in a container.
///
/// Items are kept in insertion order. [`insert`](SetBuilder::insert) keeps one of equal items, as a std
/// set does. [`push`](SetBuilder::push) and `extend` keep them all: [`Set::len`] counts them, and
/// iterators return them.
///
/// `From` converts a `HashSet`, a `BTreeSet`, a `Vec` or a slice of items. They may be owned or
/// borrowed, as [`AsItem`] says.
///
/// # Examples
/// ```
/// use hodkhaki::SetBuilder;
///
/// # fn main() -> Result<(), hodkhaki::Error> {
/// let mut squares: SetBuilder<u32> = (0..1000u32).map(|n| n * n).collect();
/// squares.push(7);
/// let set = squares.build()?;
/// assert!(set.contains(&900) && !set.contains(&8));
/// # Ok(())
/// # }
/// ```
pub struct SetBuilder<K: Key + ?Sized> {
    builder: Builder<K, Unit>,
}

impl<K: Key + ?Sized> SetBuilder<K> {
    /// Returns a builder without items.
    pub fn new() -> Self {
        SetBuilder {
            builder: Builder::new(),
        }
    }

    /// Returns a builder without items that has room for `capacity` of them.
    ///
    /// The bytes of strings are not counted.
    pub fn with_capacity(capacity: usize) -> Self {
        SetBuilder {
            builder: Builder::with_capacity(capacity),
        }
    }

    /// Reserves room for at least `additional` more items.
    pub fn reserve(&mut self, additional: usize) {
        self.builder.reserve(additional);
    }

    /// Returns the number of items that the builder has room for without allocating.
    ///
    /// The bytes of strings are not counted.
    pub fn capacity(&self) -> usize {
        self.builder.capacity()
    }

    /// Returns the number of items. Equal items count separately.
    pub fn len(&self) -> usize {
        self.builder.len()
    }

    /// Returns `true` if the builder has no items.
    pub fn is_empty(&self) -> bool {
        self.builder.is_empty()
    }

    /// Inserts an item, which is owned or borrowed. Returns `false`, and changes nothing, if the builder
    /// has an equal one.
    ///
    /// # Examples
    /// ```
    /// use hodkhaki::SetBuilder;
    ///
    /// # fn main() -> Result<(), hodkhaki::Error> {
    /// let mut words = SetBuilder::<str>::new();
    /// for word in "to be or not to be".split(' ') {
    ///     words.insert(word);
    /// }
    /// assert!(!words.insert("not"));
    /// assert_eq!(words.build()?.len(), 4);
    /// # Ok(())
    /// # }
    /// ```
    pub fn insert(&mut self, item: impl AsItem<K>) -> bool {
        self.builder.insert(item, Unit).is_none()
    }

    /// Appends an item, even if there is an equal one.
    ///
    /// If many items are equal, building takes quadratic time: [`insert`](SetBuilder::insert) keeps one
    /// of them.
    pub fn push(&mut self, item: impl AsItem<K>) {
        self.builder.push(item, Unit);
    }

    /// Builds the set of the items, as [`Builder::build`] does.
    ///
    /// # Errors
    /// As [`Builder::build`].
    pub fn build(&self) -> Result<SetBuf<K>, Error> {
        self.builder.build().map(SetBuf::of)
    }

    /// Builds the set of the items, as [`Builder::build_with`] does.
    ///
    /// # Errors
    /// As [`Builder::build`].
    pub fn build_with(&self, width: Width, checksum: Checksum) -> Result<SetBuf<K>, Error> {
        self.builder.build_with(width, checksum).map(SetBuf::of)
    }

    /// Builds the set of the items, as [`Builder::build_archive`] does.
    ///
    /// # Errors
    /// As [`Builder::build`].
    pub fn build_archive(&self, width: Width) -> Result<SetBuf<K>, Error> {
        self.builder.build_archive(width).map(SetBuf::of)
    }

    /// Builds the index set of the items, as [`Builder::build`] does.
    ///
    /// # Errors
    /// As [`Builder::build`].
    pub fn build_index(&self) -> Result<IndexSetBuf<K>, Error> {
        self.builder.build_index().map(SetBuf::of)
    }

    /// Builds the index set of the items, as [`Builder::build_with`] does.
    ///
    /// # Errors
    /// As [`Builder::build`].
    pub fn build_index_with(
        &self,
        width: Width,
        checksum: Checksum,
    ) -> Result<IndexSetBuf<K>, Error> {
        let built = self.builder.build_index_with(width, checksum);
        built.map(SetBuf::of)
    }

    /// Builds the index set of the items, as [`Builder::build_archive`] does.
    ///
    /// # Errors
    /// As [`Builder::build`].
    pub fn build_index_archive(&self, width: Width) -> Result<IndexSetBuf<K>, Error> {
        self.builder.build_index_archive(width).map(SetBuf::of)
    }
}

impl<K: Key + ?Sized> Default for SetBuilder<K> {
    fn default() -> Self {
        SetBuilder::new()
    }
}

impl<K: Key + ?Sized> Clone for SetBuilder<K> {
    fn clone(&self) -> Self {
        SetBuilder {
            builder: self.builder.clone(),
        }
    }
}

impl<K: Key + ?Sized> fmt::Debug for SetBuilder<K> {
    fn fmt(&self, f: &mut fmt::Formatter<'_>) -> fmt::Result {
        f.debug_set().entries(self.builder.keys()).finish()
    }
}

/// Appends the items, as [`push`](SetBuilder::push) does.
impl<K: Key + ?Sized, Q: AsItem<K>> Extend<Q> for SetBuilder<K> {
    fn extend<I: IntoIterator<Item = Q>>(&mut self, items: I) {
        let items = items.into_iter();
        self.reserve(items.size_hint().0);
        items.for_each(|item| self.push(item));
    }
}

/// Collects items in their order.
impl<K: Key + ?Sized, Q: AsItem<K>> FromIterator<Q> for SetBuilder<K> {
    fn from_iter<I: IntoIterator<Item = Q>>(items: I) -> Self {
        let mut builder = SetBuilder::new();
        builder.extend(items);
        builder
    }
}

from_collections! {
    SetBuilder<K>,
    [K: Key + ?Sized, Q: AsItem<K>],
    (const N: usize,) [Q; N],
    ('p, const N: usize,) &'p [Q; N],
    ('p,) &'p [Q],
    () Vec<Q>,
    ('p,) &'p Vec<Q>,
    (S,) HashSet<Q, S>,
    ('p, S,) &'p HashSet<Q, S>,
    () BTreeSet<Q>,
    ('p,) &'p BTreeSet<Q>,
}
