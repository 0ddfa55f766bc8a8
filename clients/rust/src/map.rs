use std::fmt;
use std::marker::PhantomData;
use std::slice;

use crate::error::{found, within_limit};
use crate::iter::{Iter, Keys, Values};
use crate::open::{code, types, Opener, ARCHIVE, CONTAINER};
use crate::raw::{self, RawFound, RawItem, RawLookedUp, RawMap, RawValue};
#[cfg(doc)]
use crate::{Builder, ErrorKind, IndexMap, MapBuf, Set};
use crate::{Error, HashKind, Key, Kind, Value, Width};

/// The number of keys that one call of the library looks up.
const AT_ONCE: usize = 64;

/// A map of `K` to `V` that borrows its bytes, which are a container or an archive.
///
/// Its methods are those of an [`IndexMap`] too, which is a map of another kind `C`. A [`MapBuf`] owns
/// its bytes.
///
/// A `Map` is a few words: copy it freely. Lookups and iteration allocate nothing and read the
/// bytes in place, at any alignment.
///
/// # Examples
/// ```
/// use hodkhaki::{Builder, Map};
///
/// # fn main() -> Result<(), hodkhaki::Error> {
/// let builder = Builder::<str, u64>::from([("main", 0x1139), ("_start", 0x1040)]);
/// let bytes = builder.build()?.into_bytes();
/// let map = Map::<str, u64>::open(&bytes)?;
/// assert_eq!(map.get("main"), Some(0x1139));
/// assert_eq!(map.get("puts"), None);
/// assert_eq!(map.iter().map(|(_, address)| address).max(), Some(0x1139));
/// # Ok(())
/// # }
/// ```
///
/// Values that are strings or byte strings are parts of the archive:
///
/// ```
/// use hodkhaki::{Builder, Map};
///
/// # fn main() -> Result<(), hodkhaki::Error> {
/// let builder = Builder::<str, str>::from([("tea", "Tee"), ("cake", "Kuchen")]);
/// let bytes = builder.build()?.into_bytes();
/// let map = Map::<str, str>::open(&bytes)?;
/// let cake: &str = map.get("cake").expect("the word is there");
/// assert_eq!(cake, "Kuchen");
/// # Ok(())
/// # }
/// ```
pub struct Map<'a, K: ?Sized, V: ?Sized, C = HashKind> {
    raw: RawMap,
    bytes: PhantomData<&'a [u8]>,
    types: PhantomData<fn(&K, &V, C)>,
}

// SAFETY: a map is a shared borrow of bytes, which may be sent to another thread. Its calls only
// read the bytes, and keep no state.
unsafe impl<K: ?Sized, V: ?Sized, C> Send for Map<'_, K, V, C> {}

// SAFETY: as above. Several threads may read by one handle at the same time.
unsafe impl<K: ?Sized, V: ?Sized, C> Sync for Map<'_, K, V, C> {}

// Not derived: a derived impl would require `K: Copy`, which `str` isn't.
impl<K: ?Sized, V: ?Sized, C> Clone for Map<'_, K, V, C> {
    fn clone(&self) -> Self {
        *self
    }
}

impl<K: ?Sized, V: ?Sized, C> Copy for Map<'_, K, V, C> {}

impl<'a, K: Key + ?Sized, V: Value + ?Sized, C: Kind> Map<'a, K, V, C> {
    /// Opens the map in a container, whose header records its kind, its types and its width.
    ///
    /// A container of another kind or of other types is never opened. The archive in the container is
    /// then validated, as [`open_archive`](Map::open_archive) does.
    ///
    /// # Errors
    /// The first of these:
    /// - [`ErrorKind::ContainerTooShort`]
    /// - [`ErrorKind::WrongMagic`]
    /// - [`ErrorKind::UnsupportedVersion`]
    /// - [`ErrorKind::UnknownCollection`]
    /// - [`ErrorKind::UnknownKeyType`]
    /// - [`ErrorKind::UnknownValueType`]
    /// - [`ErrorKind::UnknownWidth`]
    /// - [`ErrorKind::UnknownFlags`]
    /// - [`ErrorKind::UnexpectedChecksum`]
    /// - [`ErrorKind::NonzeroReserved`]
    /// - [`ErrorKind::WrongCollection`]
    /// - [`ErrorKind::WrongKeyType`]
    /// - [`ErrorKind::WrongValueType`]
    /// - [`ErrorKind::WrongLength`]
    /// - [`ErrorKind::WrongChecksum`]
    /// - those of validation in [`open_archive`](Map::open_archive)
    ///
    /// # Examples
    /// ```
    /// use hodkhaki::{Builder, Error, ErrorKind, IndexMap, Map};
    ///
    /// # fn main() -> Result<(), Error> {
    /// let container = Builder::<str, u64>::from([("main", 0x1139)]).build()?.into_bytes();
    /// assert_eq!(Map::<str, u64>::open(&container)?.at("main"), 0x1139);
    /// let error = Map::<u32, u64>::open(&container).unwrap_err();
    /// assert_eq!(error.kind(), ErrorKind::WrongKeyType);
    /// let error = IndexMap::<str, u64>::open(&container).unwrap_err();
    /// assert_eq!(error.kind(), ErrorKind::WrongCollection);
    /// # Ok(())
    /// # }
    /// ```
    pub fn open(container: &'a [u8]) -> Result<Self, Error> {
        Map::open_by(&CONTAINER, container, None)
    }

    /// Opens the map in a container that has an archive of the given width.
    ///
    /// # Errors
    /// As [`open`](Map::open), and after [`ErrorKind::WrongValueType`]:
    /// - [`ErrorKind::WrongWidth`]
    pub fn open_with_width(container: &'a [u8], width: Width) -> Result<Self, Error> {
        Map::open_by(&CONTAINER, container, Some(width))
    }

    /// Validates the bytes and opens the map whose archive they are.
    ///
    /// Validation reads the control bytes, the indices of an index map, and each `bool`, `char`, `str`
    /// and `[u8]`. Numbers need no validation. An archive doesn't record its types: that of one type
    /// may be valid as another, with meaningless pairs. [`open`](Map::open) opens containers, which
    /// record them.
    ///
    /// # Errors
    /// - [`ErrorKind::IsContainer`], before the others
    ///
    /// The first error of validation, in the order of the parts:
    /// - [`ErrorKind::OutOfRange`], [`ErrorKind::Unaligned`]: of the header at the end
    /// - [`ErrorKind::InvalidLength`]
    /// - [`ErrorKind::OutOfRange`], [`ErrorKind::Unaligned`]: of the table, or of the pairs
    /// - [`ErrorKind::InvalidValue`], [`ErrorKind::OutOfRange`]: of a key or a value
    /// - [`ErrorKind::WrongNumberOfElements`]
    /// - [`ErrorKind::UnwrappedControlByte`]
    /// - [`ErrorKind::PlaceOutOfRange`]: of an index map
    ///
    /// # Examples
    /// ```
    /// use hodkhaki::{Builder, ErrorKind, Map, Width};
    ///
    /// # fn main() -> Result<(), hodkhaki::Error> {
    /// let builder = Builder::<u32, u32>::from([(1, 2)]);
    /// let archive = builder.build_archive(Width::Narrow)?.into_bytes();
    /// assert_eq!(Map::<u32, u32>::open_archive(&archive, Width::Narrow)?.at(&1), 2);
    /// let error = Map::<u32, u32>::open_archive(&archive[1..], Width::Narrow).unwrap_err();
    /// assert_eq!(error.kind(), ErrorKind::Unaligned);
    /// # Ok(())
    /// # }
    /// ```
    pub fn open_archive(archive: &'a [u8], width: Width) -> Result<Self, Error> {
        Map::open_by(&ARCHIVE, archive, Some(width))
    }

    fn open_by(opener: &Opener, bytes: &'a [u8], width: Option<Width>) -> Result<Self, Error> {
        let raw = opener.open(bytes, types::<K, V, C>(code(width)))?;
        // SAFETY: the call has opened the map of this kind and of these types in the bytes, which are
        // borrowed for 'a.
        Ok(unsafe { Map::of(raw) })
    }

    /// The map of a handle.
    ///
    /// # Safety
    /// It is the handle of an open collection of this kind and of these types, whose bytes are borrowed
    /// for `'a`.
    pub(crate) unsafe fn of(raw: RawMap) -> Self {
        Map {
            raw,
            bytes: PhantomData,
            types: PhantomData,
        }
    }

    /// Returns the width of the archive.
    pub fn width(&self) -> Width {
        Width::of(self.raw.types().width)
    }

    /// Returns the number of pairs. Pairs with equal keys count separately.
    pub fn len(&self) -> usize {
        self.raw.len()
    }

    /// Returns `true` if the map has no pairs.
    pub fn is_empty(&self) -> bool {
        self.len() == 0
    }

    /// Returns the index and the value of a key, or `None` if the lookup doesn't find the key. The
    /// index has a meaning in an index map only.
    #[inline]
    pub(crate) fn find(&self, key: &K) -> Option<(usize, V::Ref<'a>)> {
        let mut looked = RawLookedUp::of(K::raw(key));
        // SAFETY: the map is open, of this kind and of these types, and borrows its bytes. The bytes of
        // the key are borrowed.
        unsafe { self.raw.get(slice::from_mut(&mut looked)) };
        let RawFound { index, value } = looked.found;
        // SAFETY: the value is one of the map, whose bytes are borrowed for 'a.
        found(looked.status).then(|| (index, unsafe { V::of(value) }))
    }

    /// Returns the first pair from a bucket or an index on, or `None` if there is none.
    pub(crate) fn pair_from(&self, from: u64) -> Option<(K::Ref<'a>, V::Ref<'a>)> {
        let mut items = [RawItem::NONE];
        // SAFETY: the map is open, of this kind and of these types, and borrows its bytes.
        let count = unsafe { self.raw.next(from, &mut items) };
        let [RawItem { key, value, .. }] = items;
        // SAFETY: an item that is stored is one of the map, whose bytes are borrowed for 'a.
        (count == 1).then(|| unsafe { (K::of(key), V::of(value)) })
    }

    /// Returns the value of a key, or `None` if the lookup doesn't find the key.
    ///
    /// In a map that a [`Builder`] has built, this is the value of the first pair with the key.
    #[inline]
    pub fn get(&self, key: &K) -> Option<V::Ref<'a>> {
        self.find(key).map(|(_, value)| value)
    }

    /// Returns the value of each key, as [`get`](Map::get) does, in the order of the keys.
    ///
    /// One call of the library looks up as many as 64 keys.
    ///
    /// # Examples
    /// ```
    /// use hodkhaki::Builder;
    ///
    /// # fn main() -> Result<(), hodkhaki::Error> {
    /// let map = Builder::<str, u32>::from([("tea", 3), ("cake", 4)]).build()?;
    /// assert_eq!(map.get_many(["cake", "milk", "tea"]), [Some(4), None, Some(3)]);
    /// # Ok(())
    /// # }
    /// ```
    pub fn get_many<'k>(&self, keys: impl IntoIterator<Item = &'k K>) -> Vec<Option<V::Ref<'a>>>
    where
        K: 'k,
    {
        let mut keys = keys.into_iter();
        let mut values = Vec::with_capacity(keys.size_hint().0);
        let mut chunk = [RawLookedUp::of(RawValue::NONE); AT_ONCE];
        loop {
            let mut count = 0;
            for (lookup, key) in chunk.iter_mut().zip(keys.by_ref()) {
                *lookup = RawLookedUp::of(K::raw(key));
                count += 1;
            }
            // SAFETY: the bytes of the keys are borrowed for 'k.
            unsafe { self.append_found(&mut chunk[..count], &mut values) };
            if count < AT_ONCE {
                return values;
            }
        }
    }

    /// Appends the values of at most `AT_ONCE` keys.
    ///
    /// # Safety
    /// The keys are of the type `K`, and their bytes are borrowed.
    unsafe fn append_found(
        &self,
        lookups: &mut [RawLookedUp],
        values: &mut Vec<Option<V::Ref<'a>>>,
    ) {
        // SAFETY: the map is open, of this kind and of these types, and borrows its bytes. The caller
        // ensures that the bytes of the keys are borrowed.
        unsafe { self.raw.get(lookups) };
        values.extend(lookups.iter().map(|lookup| {
            // SAFETY: the value is one of the map, whose bytes are borrowed for 'a.
            found(lookup.status).then(|| unsafe { V::of(lookup.found.value) })
        }));
    }

    /// Returns the value of a key.
    ///
    /// This takes the role of `Index`, whose result is a reference to the value. The bytes of a number
    /// needn't be aligned, so there is no such reference. Maps with values of type `str` or `[u8]` have
    /// `Index` too.
    ///
    /// # Panics
    /// If the lookup doesn't find the key.
    #[track_caller]
    pub fn at(&self, key: &K) -> V::Ref<'a> {
        self.get(key)
            .unwrap_or_else(|| panic!("no entry found for key {key:?}"))
    }

    /// Returns `true` if a lookup finds the key.
    pub fn contains_key(&self, key: &K) -> bool {
        self.find(key).is_some()
    }

    /// Returns the number of misplaced keys, or `None` at a limit on the work.
    ///
    /// A key is misplaced if a lookup of the key itself doesn't find its pair, but one with an equal
    /// key, or none. If no key is misplaced, lookups are complete: each finds the one pair with the
    /// key, or no pair has it. In a map that a [`Builder`] has built, the misplaced keys are those that
    /// an earlier pair has too. [`open`](Map::open) doesn't look up keys, so an untrusted archive may
    /// have others.
    ///
    /// Each key is looked up once. A lookup reads control bytes, sixteen at a time. The result is
    /// `None` if the lookups of all keys do so more often than `limit` times. The call then ends after
    /// the lookup that exceeds the limit.
    ///
    /// In a built map, the lookups do so one to two times for each key, if the hashes of the keys are
    /// spread evenly. So a limit of four times the number of pairs has room for such a map.
    ///
    /// # Examples
    /// ```
    /// use hodkhaki::{Builder, Map};
    ///
    /// // Whether the bytes are of a map whose lookups are complete.
    /// fn is_complete(container: &[u8]) -> bool {
    ///     Map::<str, u64>::open(container)
    ///         .is_ok_and(|map| map.misplaced_up_to(4 * map.len() as u64) == Some(0))
    /// }
    ///
    /// # fn main() -> Result<(), hodkhaki::Error> {
    /// let map = Builder::<str, u64>::from([("tea", 3), ("cake", 4)]).build()?;
    /// assert!(is_complete(map.as_bytes()));
    /// let repeated = Builder::<str, u64>::from([("tea", 3), ("tea", 4)]).build()?;
    /// assert!(!is_complete(repeated.as_bytes()));
    /// assert_eq!(repeated.misplaced_up_to(2), Some(1));
    /// assert_eq!(repeated.misplaced_up_to(1), None);
    /// # Ok(())
    /// # }
    /// ```
    pub fn misplaced_up_to(&self, limit: u64) -> Option<u64> {
        let mut count = 0;
        // SAFETY: the map is open and borrows its bytes. `count` has room for the number.
        let status = unsafe { raw::hk_misplaced_up_to(&self.raw, limit, &mut count) };
        within_limit(status).then_some(count)
    }

    /// Returns an iterator over the pairs, in the order of the archive. In an index map this is the
    /// insertion order.
    pub fn iter(&self) -> Iter<'a, K, V, C> {
        // SAFETY: the map is open, of this kind and of these types, and its bytes are borrowed for 'a.
        unsafe { Iter::new(self.raw) }
    }

    /// Returns an iterator over the keys, in the order of [`iter`](Map::iter).
    pub fn keys(&self) -> Keys<'a, K, V, C> {
        Keys::new(self.iter())
    }

    /// Returns an iterator over the values, in the order of [`iter`](Map::iter).
    pub fn values(&self) -> Values<'a, K, V, C> {
        Values::new(self.iter())
    }
}

impl<K: Key + ?Sized, V: Value + ?Sized, C: Kind> fmt::Debug for Map<'_, K, V, C> {
    fn fmt(&self, f: &mut fmt::Formatter<'_>) -> fmt::Result {
        f.debug_map().entries(self).finish()
    }
}

impl<'a, K: Key + ?Sized, V: Value + ?Sized, C: Kind> IntoIterator for Map<'a, K, V, C> {
    type Item = (K::Ref<'a>, V::Ref<'a>);
    type IntoIter = Iter<'a, K, V, C>;

    fn into_iter(self) -> Iter<'a, K, V, C> {
        self.iter()
    }
}

impl<'a, K: Key + ?Sized, V: Value + ?Sized, C: Kind> IntoIterator for &Map<'a, K, V, C> {
    type Item = (K::Ref<'a>, V::Ref<'a>);
    type IntoIter = Iter<'a, K, V, C>;

    fn into_iter(self) -> Iter<'a, K, V, C> {
        self.iter()
    }
}
