use std::borrow::Borrow;
use std::collections::{BTreeMap, HashMap};
use std::fmt;
use std::ptr;

use crate::container::header_of;
use crate::error::check;
use crate::indices::Indices;
use crate::item::from_collections;
use crate::open::types;
use crate::raw::{self, RawPair, RawTypes};
use crate::store::Store;
use crate::{AsItem, Checksum, Error, ErrorKind, IndexMapBuf, Key, Kind, MapBuf, Value, Width};
#[cfg(doc)]
use crate::{IndexMap, Map};

/// The pairs of a map that is to be archived.
///
/// [`build`](Builder::build) makes a [`Map`] of them, and [`build_index`](Builder::build_index) an
/// [`IndexMap`]. Each is in a container.
///
/// Pairs are kept in insertion order. [`insert`](Builder::insert) keeps one value of a key, as a std map
/// does. Of pairs with equal keys, which [`push`](Builder::push) and `extend` keep, lookups return the
/// value of the first one.
///
/// `From` converts a `HashMap`, a `BTreeMap`, a `Vec` or a slice of pairs. Keys and values may be
/// owned or borrowed, as [`AsItem`] says.
///
/// # Examples
/// ```
/// use hodkhaki::Builder;
///
/// # fn main() -> Result<(), hodkhaki::Error> {
/// let mut squares: Builder<u32, u64> = (0..1000).map(|n| (n, u64::from(n).pow(2))).collect();
/// squares.push(1000, 1_000_000);
/// assert_eq!(squares.build()?.get(&30), Some(900));
/// # Ok(())
/// # }
/// ```
///
/// Pairs of a std map:
///
/// ```
/// use hodkhaki::Builder;
/// use std::collections::HashMap;
///
/// # fn main() -> Result<(), hodkhaki::Error> {
/// let counts = HashMap::from([(String::from("tea"), 3_u64), (String::from("coffee"), 4)]);
/// assert_eq!(Builder::from(&counts).build()?.get("tea"), Some(3));
///
/// let long: Builder<str, u64> = counts.iter().filter(|(name, _)| name.len() > 3).collect();
/// assert_eq!(long.len(), 1);
/// # Ok(())
/// # }
/// ```
pub struct Builder<K: Key + ?Sized, V: Value + ?Sized> {
    keys: K::Store,
    values: V::Store,
    /// The indices of keys, for `insert`.
    indices: Indices,
}

impl<K: Key + ?Sized, V: Value + ?Sized> Builder<K, V> {
    /// Returns a builder without pairs.
    pub fn new() -> Self {
        Builder {
            keys: K::Store::default(),
            values: V::Store::default(),
            indices: Indices::default(),
        }
    }

    /// Returns a builder without pairs that has room for `capacity` of them.
    ///
    /// The bytes of strings and the table of [`insert`](Builder::insert) are not counted.
    pub fn with_capacity(capacity: usize) -> Self {
        let mut builder = Builder::new();
        builder.reserve(capacity);
        builder
    }

    /// Reserves room for at least `additional` more pairs.
    pub fn reserve(&mut self, additional: usize) {
        self.keys.reserve(additional);
        self.values.reserve(additional);
    }

    /// Returns the number of pairs that the builder has room for without allocating.
    ///
    /// The bytes of strings and the table of [`insert`](Builder::insert) are not counted.
    pub fn capacity(&self) -> usize {
        self.keys.capacity().min(self.values.capacity())
    }

    /// Returns the number of pairs. Pairs with equal keys count separately.
    pub fn len(&self) -> usize {
        self.keys.len()
    }

    /// Returns `true` if the builder has no pairs.
    pub fn is_empty(&self) -> bool {
        self.len() == 0
    }

    /// Sets the value of a key, and returns the old one, or `None` if the key is new.
    ///
    /// A new key is the last one. An existing key keeps its index, and only its value changes. If it
    /// was pushed several times, this is the value of the first pair, which lookups return.
    ///
    /// The key is owned or borrowed: `1` or `&1`, a `String`, a `&String` or a `&str`.
    ///
    /// # Examples
    /// ```
    /// use hodkhaki::Builder;
    ///
    /// # fn main() -> Result<(), hodkhaki::Error> {
    /// let mut builder = Builder::<str, u64>::new();
    /// for (position, word) in "to be or not to be".split(' ').enumerate() {
    ///     builder.insert(word, position as u64);
    /// }
    /// assert_eq!(builder.insert("be", 7), Some(5));
    /// let map = builder.build()?;
    /// assert_eq!((map.get("to"), map.len()), (Some(4), 4));
    /// # Ok(())
    /// # }
    /// ```
    pub fn insert(&mut self, key: impl AsItem<K>, value: V::Ref<'_>) -> Option<V::Owned> {
        let key = key.as_item();
        match self.indices.find(key, &self.keys) {
            Ok(index) => {
                let old = self.values.get(index).to_owned();
                self.values.replace(index, value.borrow());
                Some(old)
            }
            Err(slot) => {
                let index = self.len();
                self.keys.push(key);
                self.values.push(value.borrow());
                self.indices.fill(slot, index);
                None
            }
        }
    }

    /// Appends a pair, even if there is one with its key. Lookups then return the earlier value.
    ///
    /// If many pairs have one key, building takes quadratic time: [`insert`](Builder::insert) keeps one
    /// pair of each key. For keys that are known to differ, `push` is faster.
    pub fn push(&mut self, key: impl AsItem<K>, value: V::Ref<'_>) {
        let key = key.as_item();
        self.keys.push(key);
        self.values.push(value.borrow());
    }

    /// Builds the map of the pairs, in a narrow container without a checksum.
    ///
    /// This needs about 135 to 225 bytes more for each pair until it returns. The builder keeps its
    /// pairs, so that another map can be built.
    ///
    /// # Errors
    /// - [`ErrorKind::NoMemory`]
    /// - [`ErrorKind::CapacityTooLarge`]
    /// - [`ErrorKind::PositionTooLarge`]
    /// - [`ErrorKind::DistanceTooLarge`]
    /// - [`ErrorKind::TextTooLong`]
    ///
    /// # Examples
    /// ```
    /// use hodkhaki::{Builder, Map};
    ///
    /// # fn main() -> Result<(), hodkhaki::Error> {
    /// let map = Builder::<str, u64>::from([("main", 1), ("_init", 2)]).build()?;
    /// assert_eq!(map.get("main"), Some(1));
    ///
    /// let bytes: Vec<u8> = map.into_bytes();
    /// assert_eq!(Map::<str, u64>::open(&bytes)?.get("_init"), Some(2));
    /// # Ok(())
    /// # }
    /// ```
    pub fn build(&self) -> Result<MapBuf<K, V>, Error> {
        self.build_with(Width::Narrow, Checksum::None)
    }

    /// Builds the map of the pairs, in a container of a width, with a checksum or without.
    ///
    /// # Errors
    /// As [`build`](Builder::build).
    ///
    /// # Examples
    /// ```
    /// use hodkhaki::{Builder, Checksum, Error, ErrorKind, Map, Width};
    ///
    /// # fn main() -> Result<(), Error> {
    /// let builder = Builder::<str, u64>::from([("main", 1), ("_init", 2)]);
    /// let mut bytes = builder.build_with(Width::Wide, Checksum::Adler32)?.into_bytes();
    /// assert_eq!(Map::<str, u64>::open(&bytes)?.width(), Width::Wide);
    ///
    /// bytes[40] ^= 1;
    /// let error = Map::<str, u64>::open(&bytes).unwrap_err();
    /// assert_eq!(error.kind(), ErrorKind::WrongChecksum);
    /// # Ok(())
    /// # }
    /// ```
    pub fn build_with(&self, width: Width, checksum: Checksum) -> Result<MapBuf<K, V>, Error> {
        self.built(width, Some(checksum))
    }

    /// Builds the map of the pairs, without a container: its archive has the bytes of rkyv.
    ///
    /// An archive doesn't record its types and its width. [`Map::open_archive`] opens it.
    ///
    /// # Errors
    /// As [`build`](Builder::build).
    pub fn build_archive(&self, width: Width) -> Result<MapBuf<K, V>, Error> {
        self.built(width, None)
    }

    /// Builds the index map of the pairs, which keeps them in insertion order, as
    /// [`build`](Builder::build) does.
    ///
    /// # Errors
    /// As [`build`](Builder::build).
    ///
    /// # Examples
    /// ```
    /// use hodkhaki::Builder;
    ///
    /// # fn main() -> Result<(), hodkhaki::Error> {
    /// let map = Builder::<str, u32>::from([("tea", 3), ("coffee", 4)]).build_index()?;
    /// assert_eq!(map.get_index(1), Some(("coffee", 4)));
    /// # Ok(())
    /// # }
    /// ```
    pub fn build_index(&self) -> Result<IndexMapBuf<K, V>, Error> {
        self.build_index_with(Width::Narrow, Checksum::None)
    }

    /// Builds the index map of the pairs, as [`build_with`](Builder::build_with) does.
    ///
    /// # Errors
    /// As [`build`](Builder::build).
    pub fn build_index_with(
        &self,
        width: Width,
        checksum: Checksum,
    ) -> Result<IndexMapBuf<K, V>, Error> {
        self.built(width, Some(checksum))
    }

    /// Builds the index map of the pairs without a container, as
    /// [`build_archive`](Builder::build_archive) does.
    ///
    /// # Errors
    /// As [`build`](Builder::build).
    pub fn build_index_archive(&self, width: Width) -> Result<IndexMapBuf<K, V>, Error> {
        self.built(width, None)
    }

    /// Builds the map of the kind, in a container with this checksum or without a container.
    fn built<C: Kind>(
        &self,
        width: Width,
        checksum: Option<Checksum>,
    ) -> Result<MapBuf<K, V, Vec<u8>, C>, Error> {
        let types = types::<K, V, C>(width.code());
        let archive = self.archive(types)?;
        let header = checksum.map(|checksum| header_of(archive.as_bytes(), types, checksum));
        let header = header.as_ref().map_or(&[][..], |header| header);
        let mut bytes = with_room(header.len() + archive.length)?;
        bytes.extend_from_slice(header);
        bytes.extend_from_slice(archive.as_bytes());
        drop(archive);
        let opened = match checksum {
            Some(_) => MapBuf::open(bytes),
            None => MapBuf::open_archive(bytes, width),
        };
        Ok(opened.expect("a built archive is valid"))
    }

    /// Builds the archive of the pairs.
    fn archive(&self, types: RawTypes) -> Result<Built, Error> {
        let mut pairs = with_room(self.len())?;
        pairs.extend(self.pairs().map(|(key, value)| RawPair {
            key: K::raw(key),
            value: V::raw(value),
        }));
        Built::of(&pairs, types)
    }

    pub(crate) fn keys(&self) -> impl Iterator<Item = &K> {
        (0..self.len()).map(|index| self.keys.get(index))
    }

    fn pairs(&self) -> impl Iterator<Item = (&K, &V)> {
        (0..self.len()).map(|index| (self.keys.get(index), self.values.get(index)))
    }
}

/// A vector with room for exactly so many elements.
fn with_room<T>(count: usize) -> Result<Vec<T>, Error> {
    let mut vector = Vec::new();
    vector
        .try_reserve_exact(count)
        .map_err(|_| ErrorKind::NoMemory)?;
    Ok(vector)
}

/// The bytes of an archive that the C library has built, in its memory.
struct Built {
    bytes: *mut u8,
    length: usize,
}

impl Built {
    /// Builds the archive of pairs, whose keys and values are of these types.
    fn of(pairs: &[RawPair], types: RawTypes) -> Result<Self, Error> {
        let mut built = Built {
            bytes: ptr::null_mut(),
            length: 0,
        };
        // SAFETY: pointer and number are those of one slice. The bytes of the pairs are borrowed with
        // it. The outputs have room for what is stored.
        let status = unsafe {
            raw::hk_build(
                pairs.as_ptr(),
                pairs.len(),
                types,
                &mut built.bytes,
                &mut built.length,
            )
        };
        check(status).map(|()| built)
    }

    fn as_bytes(&self) -> &[u8] {
        // SAFETY: a call has built these bytes, which are not null, and nothing changes them. They are
        // freed when the struct is dropped.
        unsafe { std::slice::from_raw_parts(self.bytes, self.length) }
    }
}

impl Drop for Built {
    fn drop(&mut self) {
        // SAFETY: the bytes are null, or a call has built them, and they are freed only here.
        unsafe { raw::hk_bytes_free(self.bytes) }
    }
}

impl<K: Key + ?Sized, V: Value + ?Sized> Default for Builder<K, V> {
    fn default() -> Self {
        Builder::new()
    }
}

impl<K: Key + ?Sized, V: Value + ?Sized> Clone for Builder<K, V> {
    fn clone(&self) -> Self {
        Builder {
            keys: self.keys.clone(),
            values: self.values.clone(),
            indices: self.indices.clone(),
        }
    }
}

impl<K: Key + ?Sized, V: Value + ?Sized> fmt::Debug for Builder<K, V> {
    fn fmt(&self, f: &mut fmt::Formatter<'_>) -> fmt::Result {
        f.debug_map().entries(self.pairs()).finish()
    }
}

/// Appends the pairs, as [`push`](Builder::push) does.
impl<K, V, Q, R> Extend<(Q, R)> for Builder<K, V>
where
    K: Key + ?Sized,
    V: Value + ?Sized,
    Q: AsItem<K>,
    R: AsItem<V>,
{
    fn extend<I: IntoIterator<Item = (Q, R)>>(&mut self, pairs: I) {
        let pairs = pairs.into_iter();
        self.reserve(pairs.size_hint().0);
        for (key, value) in pairs {
            // Both are borrowed first: if `as_item` panics, no key is without its value.
            let (key, value) = (key.as_item(), value.as_item());
            self.keys.push(key);
            self.values.push(value);
        }
    }
}

/// Appends the pairs, as [`push`](Builder::push) does.
impl<'p, K, V, Q, R> Extend<&'p (Q, R)> for Builder<K, V>
where
    K: Key + ?Sized,
    V: Value + ?Sized,
    Q: AsItem<K>,
    R: AsItem<V>,
{
    fn extend<I: IntoIterator<Item = &'p (Q, R)>>(&mut self, pairs: I) {
        self.extend(pairs.into_iter().map(|(key, value)| (key, value)));
    }
}

/// Collects pairs in their order.
impl<K, V, Q, R> FromIterator<(Q, R)> for Builder<K, V>
where
    K: Key + ?Sized,
    V: Value + ?Sized,
    Q: AsItem<K>,
    R: AsItem<V>,
{
    fn from_iter<I: IntoIterator<Item = (Q, R)>>(pairs: I) -> Self {
        let mut builder = Builder::new();
        builder.extend(pairs);
        builder
    }
}

/// Collects pairs in their order.
impl<'p, K, V, Q, R> FromIterator<&'p (Q, R)> for Builder<K, V>
where
    K: Key + ?Sized,
    V: Value + ?Sized,
    Q: AsItem<K>,
    R: AsItem<V>,
{
    fn from_iter<I: IntoIterator<Item = &'p (Q, R)>>(pairs: I) -> Self {
        let mut builder = Builder::new();
        builder.extend(pairs);
        builder
    }
}

from_collections! {
    Builder<K, V>,
    [K: Key + ?Sized, V: Value + ?Sized, Q: AsItem<K>, R: AsItem<V>],
    (const N: usize,) [(Q, R); N],
    ('p, const N: usize,) &'p [(Q, R); N],
    ('p,) &'p [(Q, R)],
    () Vec<(Q, R)>,
    ('p,) &'p Vec<(Q, R)>,
    (S,) HashMap<Q, R, S>,
    ('p, S,) &'p HashMap<Q, R, S>,
    () BTreeMap<Q, R>,
    ('p,) &'p BTreeMap<Q, R>,
}
