use std::marker::PhantomData;

use crate::as_map::reads_as_map;
use crate::error::found;
use crate::open::{code, types, Opener, Writable, ARCHIVE, CONTAINER};
use crate::raw::{self, RawMap};
use crate::{Error, HashKind, IndexKind, Key, Kind, Map, Number, Width};
#[cfg(doc)]
use crate::{IndexMap, MapBuf};

/// An index map whose values, which are numbers, can be written in place. It has all methods of a
/// [`MapMut`].
pub type IndexMapMut<'a, K, V> = MapMut<'a, K, V, IndexKind>;

/// A map whose values, which are numbers, can be written in place.
///
/// Keys can't be inserted or removed: the bytes keep their length. The map borrows them until it is
/// dropped. [`MapBuf::as_map_mut`] returns one that borrows a map which owns its bytes.
///
/// If the map is in a container with a checksum and [`set`](MapMut::set) has written a value, dropping
/// the map writes the checksum anew, which reads all bytes of the archive. If no value was written, it
/// costs nothing.
///
/// # Examples
/// ```
/// use hodkhaki::{Builder, Checksum, Map, MapMut, Width};
///
/// # fn main() -> Result<(), hodkhaki::Error> {
/// let builder = Builder::<str, u64>::from([("visits", 10)]);
/// let mut bytes = builder.build_with(Width::Narrow, Checksum::Adler32)?.into_bytes();
/// let mut map = MapMut::<str, u64>::open(&mut bytes)?;
/// assert!(map.set("visits", 11));
/// assert!(!map.set("clicks", 1));
/// assert_eq!(map.get("visits"), Some(11));
/// drop(map);
/// assert_eq!(Map::<str, u64>::open(&bytes)?.at("visits"), 11);
/// # Ok(())
/// # }
/// ```
pub struct MapMut<'a, K: ?Sized, V, C = HashKind> {
    map: Writable<'a>,
    types: PhantomData<fn(&K, V, C)>,
}

// SAFETY: a map is a mutable borrow of bytes, which may be sent to another thread. Its calls keep
// no state.
unsafe impl<K: ?Sized, V, C> Send for MapMut<'_, K, V, C> {}

// SAFETY: a shared reference to the map only reads the bytes. Writing takes a mutable one.
unsafe impl<K: ?Sized, V, C> Sync for MapMut<'_, K, V, C> {}

impl<'a, K: Key + ?Sized, V: Number, C: Kind> MapMut<'a, K, V, C> {
    /// Opens the map in a container, to read and to write.
    ///
    /// # Errors
    /// As [`Map::open`].
    pub fn open(container: &'a mut [u8]) -> Result<Self, Error> {
        MapMut::open_by(&CONTAINER, container, None)
    }

    /// Opens the map in a container that has an archive of the given width, to read and to write.
    ///
    /// # Errors
    /// As [`Map::open_with_width`].
    pub fn open_with_width(container: &'a mut [u8], width: Width) -> Result<Self, Error> {
        MapMut::open_by(&CONTAINER, container, Some(width))
    }

    /// Validates the bytes and opens the map whose archive they are, to read and to write.
    ///
    /// # Errors
    /// As [`Map::open_archive`].
    pub fn open_archive(archive: &'a mut [u8], width: Width) -> Result<Self, Error> {
        MapMut::open_by(&ARCHIVE, archive, Some(width))
    }

    fn open_by(opener: &Opener, bytes: &'a mut [u8], width: Option<Width>) -> Result<Self, Error> {
        let raw = opener.open_writable(bytes, types::<K, V, C>(code(width)))?;
        // SAFETY: the call has opened the map of this kind and of these types in the bytes, which are
        // borrowed mutably for 'a, and in a container if the opener is for containers.
        Ok(unsafe { MapMut::of(raw, opener.is_for_containers) })
    }

    /// The map of a handle.
    ///
    /// # Safety
    /// It is the handle of an open map of this kind and of these types, whose bytes are borrowed mutably
    /// for `'a`. If `is_in_container`, it is in a container, which is borrowed mutably too.
    pub(crate) unsafe fn of(raw: RawMap, is_in_container: bool) -> Self {
        MapMut {
            // SAFETY: the caller ensures this.
            map: unsafe { Writable::of(raw, is_in_container) },
            types: PhantomData,
        }
    }

    /// Reborrows the map, to read.
    pub fn as_map(&self) -> Map<'_, K, V, C> {
        // SAFETY: the handle is of an open map of this kind and of these types, whose bytes this map
        // borrows. The result borrows this map.
        unsafe { Map::of(self.map.raw()) }
    }

    /// Writes the value that [`get`](MapMut::get) returns, in place.
    ///
    /// Returns `false`, and changes nothing, if the lookup doesn't find the key.
    #[must_use = "the value is not written if the key is not found"]
    pub fn set(&mut self, key: &K, value: V) -> bool {
        let (key, value) = (K::raw(key), V::raw(&value));
        // SAFETY: the map is open and borrows its bytes mutably. So the key, which is borrowed, shares
        // no byte with them.
        let set = |raw: &mut RawMap| found(unsafe { raw::hk_set(raw, key, value) });
        self.map.write(set)
    }

    /// Writes the checksum of the container anew, if a value was written after it.
    ///
    /// Dropping the map does this too. If the map stays open for long, call this after writing: until
    /// then the container doesn't open elsewhere, nor after the program is aborted. Nothing is read or
    /// changed if no value was written, or if the map is not in a container with a checksum.
    ///
    /// # Panics
    /// If another program has changed the header.
    pub fn update_container(&mut self) {
        let updated = self.map.update_container();
        updated.expect("the header of an open container doesn't change");
    }
}

reads_as_map! { [K: Key + ?Sized, V: Number] MapMut ['_, K, V] }

impl<'a, K: Key + ?Sized, V: Number, C: Kind> From<MapMut<'a, K, V, C>> for Map<'a, K, V, C> {
    /// Ends writing, as dropping does: the map borrows the bytes for the same lifetime.
    fn from(map: MapMut<'a, K, V, C>) -> Self {
        let raw = map.map.raw();
        drop(map);
        // SAFETY: the handle is of an open map of this kind and of these types, whose bytes are borrowed
        // mutably for 'a, and the map that could write them is gone.
        unsafe { Map::of(raw) }
    }
}
