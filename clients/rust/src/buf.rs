//! Maps and sets that own their bytes.

use std::borrow::Cow;
use std::fmt;
use std::io::{self, Write};
use std::marker::PhantomData;
use std::rc::Rc;
use std::sync::Arc;

use crate::as_map::reads_as_map;
use crate::container::header_of;
use crate::open::{code, types, Opener, ARCHIVE, CONTAINER};
use crate::raw::{Decoded, HEADER_LEN};
use crate::types::Unit;
#[cfg(doc)]
use crate::{Builder, IndexMap, IndexSet};
use crate::{
    Checksum, Error, HashKind, IndexKind, Key, Kind, Map, MapMut, Members, Number, Set, Value,
    Width,
};

/// Bytes that don't change while they are owned, as those of a [`MapBuf`].
///
/// `Vec<u8>`, `[u8]`, arrays of bytes and `Cow<[u8]>` have such bytes. So has a reference, a `Box`, an
/// `Rc` or an `Arc` of such a type: `Arc<[u8]>`, `&'static [u8]`.
///
/// # Safety
/// Each call of [`stable_bytes`](StableBytes::stable_bytes) of a value returns as many bytes, with the
/// same contents. The bytes need not keep their address. This is so
/// - while safe code uses the value by shared references, from any thread that may have one;
/// - after the value is moved;
/// - for a clone of the value, if the type is `Clone`.
///
/// A mapped file may change, as [bytes that change](crate#bytes-that-change-after-validation) says. The
/// function that makes the value is then `unsafe`, or ensures that the file doesn't change.
///
/// # Examples
/// ```
/// use hodkhaki::{Builder, MapBuf, StableBytes};
/// use std::ops::Range;
///
/// /// A part of a file that was read.
/// struct Part {
///     file: Box<[u8]>,
///     range: Range<usize>,
/// }
///
/// // SAFETY: the fields are private, and no function changes them.
/// unsafe impl StableBytes for Part {
///     fn stable_bytes(&self) -> &[u8] {
///         &self.file[self.range.clone()]
///     }
/// }
///
/// # fn main() -> Result<(), hodkhaki::Error> {
/// let container = Builder::from([("tea", 3_u64)]).build()?.into_bytes();
/// let file = [&b"a title"[..], &container].concat();
/// let part = Part { range: 7..file.len(), file: file.into() };
/// let map = MapBuf::<str, u64, Part>::open(part)?;
/// assert_eq!(map.get("tea"), Some(3));
/// # Ok(())
/// # }
/// ```
pub unsafe trait StableBytes {
    /// Returns the bytes.
    fn stable_bytes(&self) -> &[u8];
}

// SAFETY: safe code can't change a slice by a shared reference.
unsafe impl StableBytes for [u8] {
    fn stable_bytes(&self) -> &[u8] {
        self
    }
}

// SAFETY: safe code can't change an array by a shared reference. Moves and clones copy its bytes.
unsafe impl<const N: usize> StableBytes for [u8; N] {
    fn stable_bytes(&self) -> &[u8] {
        self
    }
}

// SAFETY: safe code can't change a vector by a shared reference. A move leaves its bytes where they
// are, and a clone copies them.
unsafe impl StableBytes for Vec<u8> {
    fn stable_bytes(&self) -> &[u8] {
        self
    }
}

// SAFETY: its bytes are those of a slice or of a vector. A clone refers to the slice, or copies it.
unsafe impl StableBytes for Cow<'_, [u8]> {
    fn stable_bytes(&self) -> &[u8] {
        self
    }
}

// SAFETY: while the reference exists, nothing but shared references gives access to the value. A move
// or a clone refers to the same value.
unsafe impl<T: StableBytes + ?Sized> StableBytes for &T {
    fn stable_bytes(&self) -> &[u8] {
        (**self).stable_bytes()
    }
}

// SAFETY: a shared reference to a box gives access to its value only by shared references. A move
// leaves the value where it is, and a clone is a box of a clone.
unsafe impl<T: StableBytes + ?Sized> StableBytes for Box<T> {
    fn stable_bytes(&self) -> &[u8] {
        (**self).stable_bytes()
    }
}

// SAFETY: while the pointer exists and isn't borrowed mutably, other pointers give access to the value
// only by shared references. A move or a clone refers to the same value.
unsafe impl<T: StableBytes + ?Sized> StableBytes for Rc<T> {
    fn stable_bytes(&self) -> &[u8] {
        (**self).stable_bytes()
    }
}

// SAFETY: as for `Rc`. Other threads have shared references too.
unsafe impl<T: StableBytes + ?Sized> StableBytes for Arc<T> {
    fn stable_bytes(&self) -> &[u8] {
        (**self).stable_bytes()
    }
}

/// A map that owns its bytes, which are a container or an archive, so that a struct can have it.
///
/// [`Builder::build`] returns one in a container, and [`open`](MapBuf::open) opens one. `B` has the
/// bytes: a `Vec<u8>`, an `Arc<[u8]>` or another type with [stable bytes](StableBytes). They are
/// validated once. [`as_map`](MapBuf::as_map) returns a [`Map`] that borrows them.
///
/// # Examples
/// ```
/// use hodkhaki::{Builder, MapBuf};
/// use std::sync::Arc;
///
/// struct Symbols {
///     addresses: MapBuf<str, u64>,
/// }
///
/// # fn main() -> Result<(), hodkhaki::Error> {
/// let symbols = Symbols { addresses: Builder::<str, u64>::from([("main", 0x1139)]).build()? };
/// assert_eq!(symbols.addresses.get("main"), Some(0x1139));
///
/// let shared: Arc<[u8]> = symbols.addresses.into_bytes().into();
/// let map = MapBuf::<str, u64, _>::open(Arc::clone(&shared))?;
/// assert!(map.keys().eq(["main"]));
/// # Ok(())
/// # }
/// ```
///
/// The `Map` can't outlive the bytes:
///
/// ```compile_fail,E0505
/// # use hodkhaki::Builder;
/// # fn main() -> Result<(), hodkhaki::Error> {
/// let owned = Builder::<str, u64>::new().build()?;
/// let map = owned.as_map();
/// drop(owned);
/// assert!(map.is_empty());
/// # Ok(())
/// # }
/// ```
pub struct MapBuf<K: ?Sized, V: ?Sized, B = Vec<u8>, C = HashKind> {
    bytes: B,
    /// The handle of the map in the bytes, without pointers, since the bytes may move.
    decoded: Decoded,
    is_in_container: bool,
    types: PhantomData<fn(&K, &V, C)>,
}

/// An index map that owns its bytes, as a [`MapBuf`] does.
///
/// It has the methods of an [`IndexMap`] too. [`Builder::build_index`] returns one.
///
/// # Examples
/// ```
/// use hodkhaki::{Builder, IndexMapBuf};
///
/// # fn main() -> Result<(), hodkhaki::Error> {
/// let builder = Builder::<str, u32>::from([("one", 1), ("two", 2)]);
/// let map: IndexMapBuf<str, u32> = builder.build_index()?;
/// assert_eq!((map.get("two"), map.get_index(0)), (Some(2), Some(("one", 1))));
/// # Ok(())
/// # }
/// ```
pub type IndexMapBuf<K, V, B = Vec<u8>> = MapBuf<K, V, B, IndexKind>;

impl<K: Key + ?Sized, V: Value + ?Sized, B: StableBytes, C: Kind> MapBuf<K, V, B, C> {
    /// Opens a container, as [`Map::open`] does, and keeps it.
    ///
    /// # Errors
    /// As [`Map::open`].
    pub fn open(container: B) -> Result<Self, Error> {
        MapBuf::open_by(&CONTAINER, container, None)
    }

    /// Opens a container of the given width, as [`Map::open_with_width`] does, and keeps it.
    ///
    /// # Errors
    /// As [`Map::open_with_width`].
    pub fn open_with_width(container: B, width: Width) -> Result<Self, Error> {
        MapBuf::open_by(&CONTAINER, container, Some(width))
    }

    /// Validates an archive, as [`Map::open_archive`] does, and keeps it.
    ///
    /// # Errors
    /// As [`Map::open_archive`].
    pub fn open_archive(archive: B, width: Width) -> Result<Self, Error> {
        MapBuf::open_by(&ARCHIVE, archive, Some(width))
    }

    fn open_by(opener: &Opener, bytes: B, width: Option<Width>) -> Result<Self, Error> {
        let types = types::<K, V, C>(code(width));
        let decoded = opener.open(bytes.stable_bytes(), types)?.decoded();
        Ok(MapBuf {
            bytes,
            decoded,
            is_in_container: opener.is_for_containers,
            types: PhantomData,
        })
    }

    /// Returns the map, which borrows the bytes. This takes constant time.
    pub fn as_map(&self) -> Map<'_, K, V, C> {
        let archive = self.as_archive().as_ptr();
        // SAFETY: a map of this kind and of these types was opened in these bytes: `StableBytes` ensures
        // that they are the same ones as then, but for values that were written in place, which leave
        // the archive valid and its header unchanged. They are borrowed with this map.
        unsafe { Map::of(self.decoded.at(archive)) }
    }

    /// Returns the bytes: those of the container that was opened or built, or those of the archive.
    pub fn as_bytes(&self) -> &[u8] {
        self.bytes.stable_bytes()
    }

    /// Returns the bytes of the archive, without those of the header of a container.
    pub fn as_archive(&self) -> &[u8] {
        let bytes = self.bytes.stable_bytes();
        // A container ends with its archive.
        &bytes[bytes.len() - self.decoded.length..]
    }

    /// Returns the bytes that the map was opened with, or those that were built.
    pub fn into_bytes(self) -> B {
        self.bytes
    }

    fn header(&self, checksum: Checksum) -> [u8; HEADER_LEN] {
        header_of(self.as_archive(), self.decoded.types, checksum)
    }

    /// Returns a container of the archive: a header of 32 bytes, and a copy of the archive.
    pub fn to_container(&self, checksum: Checksum) -> Vec<u8> {
        [&self.header(checksum), self.as_archive()].concat()
    }

    /// Writes a container of the archive, as [`to_container`](MapBuf::to_container) returns it, without
    /// a copy in memory, and flushes the writer.
    ///
    /// # Errors
    /// Those of the writer. It may then have taken a part of the container.
    ///
    /// # Examples
    /// ```no_run
    /// use hodkhaki::{Builder, Checksum, Map};
    /// use std::fs::{self, File};
    ///
    /// # fn main() -> Result<(), Box<dyn std::error::Error>> {
    /// let map = Builder::<str, u32>::from([("one", 1), ("two", 2)]).build()?;
    /// map.write_container(Checksum::Adler32, File::create("numbers.map")?)?;
    ///
    /// let bytes = fs::read("numbers.map")?;
    /// assert_eq!(Map::<str, u32>::open(&bytes)?.get("two"), Some(2));
    /// # Ok(())
    /// # }
    /// ```
    pub fn write_container<W: Write>(&self, checksum: Checksum, mut writer: W) -> io::Result<()> {
        writer.write_all(&self.header(checksum))?;
        writer.write_all(self.as_archive())?;
        writer.flush()
    }
}

impl<K: Key + ?Sized, V: Number, C: Kind> MapBuf<K, V, Vec<u8>, C> {
    /// Returns the map, which borrows the bytes mutably and writes values in place. This takes constant
    /// time.
    ///
    /// # Examples
    /// ```
    /// use hodkhaki::Builder;
    ///
    /// # fn main() -> Result<(), hodkhaki::Error> {
    /// let mut map = Builder::<u32, u32>::from([(1, 10), (2, 20)]).build()?;
    /// assert!(map.as_map_mut().set(&1, 11));
    /// assert_eq!(map.get(&1), Some(11));
    /// # Ok(())
    /// # }
    /// ```
    pub fn as_map_mut(&mut self) -> MapMut<'_, K, V, C> {
        let header_len = self.bytes.len() - self.decoded.length;
        // SAFETY: the archive begins there, which is in the vector or at its end.
        let archive = unsafe { self.bytes.as_mut_ptr().add(header_len) };
        // SAFETY: a map of this kind and of these types was opened in these bytes, which safe code
        // changes only by such a map. They are borrowed mutably with it, the header of a container too.
        unsafe { MapMut::of(self.decoded.at_writable(archive), self.is_in_container) }
    }
}

reads_as_map! { [K: Key + ?Sized, V: Value + ?Sized, B: StableBytes] MapBuf [K, V, B] }

impl<K: ?Sized, V: ?Sized, B: Clone, C> Clone for MapBuf<K, V, B, C> {
    fn clone(&self) -> Self {
        MapBuf {
            bytes: self.bytes.clone(),
            ..*self
        }
    }
}

/// The bytes of [`as_bytes`](MapBuf::as_bytes).
impl<K: ?Sized, V: ?Sized, B: StableBytes, C> AsRef<[u8]> for MapBuf<K, V, B, C> {
    fn as_ref(&self) -> &[u8] {
        self.bytes.stable_bytes()
    }
}

impl<K: ?Sized, V: ?Sized, C> From<MapBuf<K, V, Vec<u8>, C>> for Vec<u8> {
    fn from(map: MapBuf<K, V, Vec<u8>, C>) -> Vec<u8> {
        map.bytes
    }
}

/// A set that owns its bytes, as a [`MapBuf`] does.
///
/// # Examples
/// ```
/// use hodkhaki::{SetBuf, SetBuilder};
///
/// # fn main() -> Result<(), hodkhaki::Error> {
/// let set: SetBuf<str> = SetBuilder::from(["tea", "cake"]).build()?;
/// assert!(set.contains("tea") && !set.contains("coffee"));
/// # Ok(())
/// # }
/// ```
pub struct SetBuf<K: ?Sized, B = Vec<u8>, C = HashKind> {
    map: MapBuf<K, Unit, B, C>,
}

/// An index set that owns its bytes, as a [`MapBuf`] does. It has the methods of an [`IndexSet`] too.
pub type IndexSetBuf<K, B = Vec<u8>> = SetBuf<K, B, IndexKind>;

impl<K: Key + ?Sized, B: StableBytes, C: Kind> SetBuf<K, B, C> {
    /// The set of the keys of a map.
    pub(crate) fn of(map: MapBuf<K, Unit, B, C>) -> Self {
        SetBuf { map }
    }

    /// Opens a container, as [`Set::open`] does, and keeps it.
    ///
    /// # Errors
    /// As [`Set::open`].
    pub fn open(container: B) -> Result<Self, Error> {
        MapBuf::open(container).map(SetBuf::of)
    }

    /// Opens a container of the given width, as [`Set::open_with_width`] does, and keeps it.
    ///
    /// # Errors
    /// As [`Set::open_with_width`].
    pub fn open_with_width(container: B, width: Width) -> Result<Self, Error> {
        MapBuf::open_with_width(container, width).map(SetBuf::of)
    }

    /// Validates an archive, as [`Set::open_archive`] does, and keeps it.
    ///
    /// # Errors
    /// As [`Set::open_archive`].
    pub fn open_archive(archive: B, width: Width) -> Result<Self, Error> {
        MapBuf::open_archive(archive, width).map(SetBuf::of)
    }

    /// Returns the set, which borrows the bytes. This takes constant time.
    pub fn as_set(&self) -> Set<'_, K, C> {
        Set::of(self.map.as_map())
    }

    /// Returns the bytes: those of the container that was opened or built, or those of the archive.
    pub fn as_bytes(&self) -> &[u8] {
        self.map.as_bytes()
    }

    /// Returns the bytes of the archive, without those of the header of a container.
    pub fn as_archive(&self) -> &[u8] {
        self.map.as_archive()
    }

    /// Returns the bytes that the set was opened with, or those that were built.
    pub fn into_bytes(self) -> B {
        self.map.into_bytes()
    }

    /// Returns a container of the archive, as [`MapBuf::to_container`] does.
    pub fn to_container(&self, checksum: Checksum) -> Vec<u8> {
        self.map.to_container(checksum)
    }

    /// Writes a container of the archive, as [`MapBuf::write_container`] does.
    ///
    /// # Errors
    /// Those of the writer. It may then have taken a part of the container.
    pub fn write_container<W: Write>(&self, checksum: Checksum, writer: W) -> io::Result<()> {
        self.map.write_container(checksum, writer)
    }

    /// Returns the width of the archive.
    pub fn width(&self) -> Width {
        self.map.width()
    }

    /// Returns the number of items. Equal items count separately.
    pub fn len(&self) -> usize {
        self.map.len()
    }

    /// Returns `true` if the set has no items.
    pub fn is_empty(&self) -> bool {
        self.map.is_empty()
    }

    /// Returns `true` if a lookup finds the item.
    pub fn contains(&self, item: &K) -> bool {
        self.as_set().contains(item)
    }

    /// Returns the number of misplaced items, as [`Set::misplaced_up_to`] does.
    pub fn misplaced_up_to(&self, limit: u64) -> Option<u64> {
        self.map.misplaced_up_to(limit)
    }

    /// Returns an iterator over the items, as [`Set::iter`] does.
    pub fn iter(&self) -> Members<'_, K, C> {
        self.map.keys()
    }
}

/// The methods of index sets, which are those of [`IndexSet`].
impl<K: Key + ?Sized, B: StableBytes> SetBuf<K, B, IndexKind> {
    /// Returns the index of an item, or `None` if the lookup doesn't find the item.
    pub fn get_index_of(&self, item: &K) -> Option<usize> {
        self.as_set().get_index_of(item)
    }

    /// Returns the index of an item and the stored item, or `None` if the lookup doesn't find it.
    pub fn get_full(&self, item: &K) -> Option<(usize, K::Ref<'_>)> {
        self.as_set().get_full(item)
    }

    /// Returns the stored item that equals an item, or `None` if the lookup doesn't find it.
    pub fn get(&self, item: &K) -> Option<K::Ref<'_>> {
        self.as_set().get(item)
    }

    /// Returns the item at an index, in insertion order, or `None` if the index isn't less than the
    /// length.
    pub fn get_index(&self, index: usize) -> Option<K::Ref<'_>> {
        self.as_set().get_index(index)
    }

    /// Returns the first item, or `None` if the set has no items.
    pub fn first(&self) -> Option<K::Ref<'_>> {
        self.as_set().first()
    }

    /// Returns the last item, or `None` if the set has no items.
    pub fn last(&self) -> Option<K::Ref<'_>> {
        self.as_set().last()
    }
}

impl<K: ?Sized, B: Clone, C> Clone for SetBuf<K, B, C> {
    fn clone(&self) -> Self {
        SetBuf {
            map: self.map.clone(),
        }
    }
}

/// The bytes of [`as_bytes`](SetBuf::as_bytes).
impl<K: ?Sized, B: StableBytes, C> AsRef<[u8]> for SetBuf<K, B, C> {
    fn as_ref(&self) -> &[u8] {
        self.map.as_ref()
    }
}

impl<K: ?Sized, C> From<SetBuf<K, Vec<u8>, C>> for Vec<u8> {
    fn from(set: SetBuf<K, Vec<u8>, C>) -> Vec<u8> {
        set.map.into()
    }
}

impl<'s, K: Key + ?Sized, B: StableBytes, C: Kind> IntoIterator for &'s SetBuf<K, B, C> {
    type Item = K::Ref<'s>;
    type IntoIter = Members<'s, K, C>;

    fn into_iter(self) -> Members<'s, K, C> {
        self.iter()
    }
}

impl<K: Key + ?Sized, B: StableBytes, C: Kind> fmt::Debug for SetBuf<K, B, C> {
    fn fmt(&self, f: &mut fmt::Formatter<'_>) -> fmt::Result {
        self.as_set().fmt(f)
    }
}
