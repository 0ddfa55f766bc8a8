use std::fmt;

use crate::iter::Members;
use crate::types::Unit;
use crate::{Error, HashKind, Key, Kind, Map, Width};
#[cfg(doc)]
use crate::{IndexSet, SetBuf, SetBuilder};

/// A set of `K` that borrows its bytes, which are a container or an archive.
///
/// Its methods are those of an [`IndexSet`] too, which is a set of another kind `C`. A [`SetBuf`] owns
/// its bytes.
///
/// A `Set` is a few words: copy it freely. Lookups and iteration allocate nothing and read the
/// bytes in place, at any alignment.
///
/// # Examples
/// ```
/// use hodkhaki::{Set, SetBuilder};
///
/// # fn main() -> Result<(), hodkhaki::Error> {
/// let bytes = SetBuilder::<str>::from(["tea", "cake"]).build()?.into_bytes();
/// let set = Set::<str>::open(&bytes)?;
/// assert!(set.contains("tea") && !set.contains("coffee"));
/// assert_eq!(set.iter().map(str::len).sum::<usize>(), 7);
/// # Ok(())
/// # }
/// ```
pub struct Set<'a, K: ?Sized, C = HashKind> {
    map: Map<'a, K, Unit, C>,
}

// Not derived: a derived impl would require `K: Copy`, which `str` isn't.
impl<K: ?Sized, C> Clone for Set<'_, K, C> {
    fn clone(&self) -> Self {
        *self
    }
}

impl<K: ?Sized, C> Copy for Set<'_, K, C> {}

impl<'a, K: Key + ?Sized, C: Kind> Set<'a, K, C> {
    /// The set of the keys of a map.
    pub(crate) fn of(map: Map<'a, K, Unit, C>) -> Self {
        Set { map }
    }

    /// The map whose keys are the items.
    pub(crate) fn map(&self) -> Map<'a, K, Unit, C> {
        self.map
    }

    /// Opens the set in a container, whose header records its kind, its type and its width.
    ///
    /// A container of another kind or of another type is never opened. The archive in the container is
    /// then validated, as [`open_archive`](Set::open_archive) does.
    ///
    /// # Errors
    /// As [`Map::open`].
    ///
    /// # Examples
    /// ```
    /// use hodkhaki::{Error, ErrorKind, Map, Set, SetBuilder};
    ///
    /// # fn main() -> Result<(), Error> {
    /// let container = SetBuilder::<u32>::from([2, 3, 5, 7]).build()?.into_bytes();
    /// assert!(Set::<u32>::open(&container)?.contains(&5));
    /// let error = Map::<u32, u32>::open(&container).unwrap_err();
    /// assert_eq!(error.kind(), ErrorKind::WrongCollection);
    /// # Ok(())
    /// # }
    /// ```
    pub fn open(container: &'a [u8]) -> Result<Self, Error> {
        Map::open(container).map(Set::of)
    }

    /// Opens the set in a container that has an archive of the given width.
    ///
    /// # Errors
    /// As [`Map::open_with_width`].
    pub fn open_with_width(container: &'a [u8], width: Width) -> Result<Self, Error> {
        Map::open_with_width(container, width).map(Set::of)
    }

    /// Validates the bytes and opens the set whose archive they are.
    ///
    /// An archive doesn't record its type. [`open`](Set::open) opens containers, which record it.
    ///
    /// # Errors
    /// As [`Map::open_archive`].
    pub fn open_archive(archive: &'a [u8], width: Width) -> Result<Self, Error> {
        Map::open_archive(archive, width).map(Set::of)
    }

    /// Returns the width of the archive.
    pub fn width(&self) -> Width {
        self.map.width()
    }

    /// Returns the number of items. Equal items count separately.
    pub fn len(&self) -> usize {
        self.map.len()
    }

    /// Returns `true` if the set has no items.
    pub fn is_empty(&self) -> bool {
        self.map.is_empty()
    }

    /// Returns `true` if a lookup finds the item.
    ///
    /// In a set that a [`SetBuilder`] has built, each of its items is found, and nothing else.
    #[inline]
    pub fn contains(&self, item: &K) -> bool {
        self.map.contains_key(item)
    }

    /// Returns the number of misplaced items, or `None` at a limit on the work.
    ///
    /// An item is misplaced if a lookup of the item itself finds an equal one in its place, or none. The
    /// limit is that of [`Map::misplaced_up_to`].
    ///
    /// # Examples
    /// ```
    /// use hodkhaki::SetBuilder;
    ///
    /// # fn main() -> Result<(), hodkhaki::Error> {
    /// let set = SetBuilder::<u32>::from([2, 3, 2]).build()?;
    /// assert_eq!(set.misplaced_up_to(12), Some(1));
    /// assert_eq!(set.misplaced_up_to(2), None);
    /// # Ok(())
    /// # }
    /// ```
    pub fn misplaced_up_to(&self, limit: u64) -> Option<u64> {
        self.map.misplaced_up_to(limit)
    }

    /// Returns an iterator over the items, in the order of the archive. In an index set this is the
    /// insertion order.
    pub fn iter(&self) -> Members<'a, K, C> {
        self.map.keys()
    }
}

impl<K: Key + ?Sized, C: Kind> fmt::Debug for Set<'_, K, C> {
    fn fmt(&self, f: &mut fmt::Formatter<'_>) -> fmt::Result {
        f.debug_set().entries(self).finish()
    }
}

impl<'a, K: Key + ?Sized, C: Kind> IntoIterator for Set<'a, K, C> {
    type Item = K::Ref<'a>;
    type IntoIter = Members<'a, K, C>;

    fn into_iter(self) -> Members<'a, K, C> {
        self.iter()
    }
}

impl<'a, K: Key + ?Sized, C: Kind> IntoIterator for &Set<'a, K, C> {
    type Item = K::Ref<'a>;
    type IntoIter = Members<'a, K, C>;

    fn into_iter(self) -> Members<'a, K, C> {
        self.iter()
    }
}
