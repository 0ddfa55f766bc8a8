//! Opening collections, and writing their values in place.

use std::ffi::c_void;
use std::marker::PhantomData;

use crate::error::{check, check_open};
use crate::raw::{self, RawError, RawMap, RawTypes};
use crate::types::sealed::Stored;
use crate::types::Unit;
use crate::{Error, Key, Kind, Value, Width};

/// The codes of a collection of this kind and of these types, with a code of its width.
pub(crate) const fn types<K, V, C>(width: u8) -> RawTypes
where
    K: Key + ?Sized,
    V: Value + ?Sized,
    C: Kind,
{
    let is_set = V::CODE == Unit::CODE;
    RawTypes {
        kind: if is_set { C::SET } else { C::MAP },
        key: K::CODE,
        value: V::CODE,
        width,
    }
}

/// The code of a width, or that of either one.
pub(crate) fn code(width: Option<Width>) -> u8 {
    width.map_or(raw::ANY_WIDTH, Width::code)
}

/// A call that opens a collection at an address of type `P`.
type OpenCall<P> =
    unsafe extern "C" fn(bytes: P, length: usize, types: RawTypes, map: *mut RawMap) -> u32;

/// A call that explains an error.
type ExplainCall = unsafe extern "C" fn(
    bytes: *const c_void,
    length: usize,
    types: RawTypes,
    error: *mut RawError,
) -> u32;

/// The calls that open archives, or containers.
pub(crate) struct Opener {
    open: OpenCall<*const c_void>,
    open_writable: OpenCall<*mut c_void>,
    explain: ExplainCall,
    pub(crate) is_for_containers: bool,
}

/// Opens archives.
pub(crate) const ARCHIVE: Opener = Opener {
    open: raw::hk_open,
    open_writable: raw::hk_open_writable,
    explain: raw::hk_explain,
    is_for_containers: false,
};

/// Opens containers.
pub(crate) const CONTAINER: Opener = Opener {
    open: raw::hk_open_container,
    open_writable: raw::hk_open_container_writable,
    explain: raw::hk_container_explain,
    is_for_containers: true,
};

impl Opener {
    /// The handle of the collection with the codes, to read. The bytes have to be borrowed while it is
    /// used.
    pub(crate) fn open(&self, bytes: &[u8], types: RawTypes) -> Result<RawMap, Error> {
        let mut map = RawMap::CLOSED;
        // SAFETY: pointer and length are those of one slice. `map` has room for the handle.
        let status = unsafe { (self.open)(bytes.as_ptr().cast(), bytes.len(), types, &mut map) };
        self.check(status, bytes, types).map(|()| map)
    }

    /// The handle of the collection with the codes, to read and to write. The bytes have to be borrowed
    /// mutably while it is used.
    pub(crate) fn open_writable(&self, bytes: &mut [u8], types: RawTypes) -> Result<RawMap, Error> {
        let mut map = RawMap::CLOSED;
        let (pointer, length) = (bytes.as_mut_ptr().cast(), bytes.len());
        // SAFETY: pointer and length are those of one slice, which is borrowed mutably. `map` has room
        // for the handle.
        let status = unsafe { (self.open_writable)(pointer, length, types, &mut map) };
        if status == raw::OK {
            // The bytes are not borrowed again by their slice, so that the pointer of the handle stays
            // valid.
            return Ok(map);
        }
        self.check(status, bytes, types).map(|()| map)
    }

    /// `Ok` if the status of opening the bytes is that of success, else the error with its numbers.
    fn check(&self, status: u32, bytes: &[u8], types: RawTypes) -> Result<(), Error> {
        let (pointer, length) = (bytes.as_ptr().cast(), bytes.len());
        // SAFETY: pointer and length are those of one slice. `error` has room for the error.
        let explain = |error| unsafe { (self.explain)(pointer, length, types, error) };
        check_open(status, explain)
    }
}

/// An open collection whose values are written in place. It borrows its bytes mutably.
///
/// If it was opened in a container and has written a value, dropping it writes the checksum.
pub(crate) struct Writable<'a> {
    raw: RawMap,
    is_in_container: bool,
    /// Whether a value was written after the checksum.
    is_written: bool,
    bytes: PhantomData<&'a mut [u8]>,
}

impl Writable<'_> {
    /// The collection of a handle.
    ///
    /// # Safety
    /// It is the handle of an open collection whose bytes are borrowed mutably for the lifetime. If
    /// `is_in_container`, it was opened in a container, which is borrowed mutably too.
    pub(crate) unsafe fn of(raw: RawMap, is_in_container: bool) -> Self {
        Writable {
            raw,
            is_in_container,
            is_written: false,
            bytes: PhantomData,
        }
    }

    /// Returns the handle.
    pub(crate) fn raw(&self) -> RawMap {
        self.raw
    }

    /// Writes a value by a call that returns whether the lookup finds the key.
    pub(crate) fn write(&mut self, set: impl FnOnce(&mut RawMap) -> bool) -> bool {
        let is_found = set(&mut self.raw);
        self.is_written |= is_found;
        is_found
    }

    /// Writes the checksum of the container, if there is one and a value was written after it.
    pub(crate) fn update_container(&mut self) -> Result<(), Error> {
        if !self.is_in_container || !self.is_written {
            return Ok(());
        }
        self.is_written = false;
        // SAFETY: the collection was opened in a container, to write.
        let (pointer, length) = unsafe { self.raw.container() };
        // SAFETY: pointer and length are those of the container, which is borrowed mutably.
        check(unsafe { raw::hk_container_update(pointer.cast(), length) })
    }
}

impl Drop for Writable<'_> {
    fn drop(&mut self) {
        // The header was checked when the container was opened, and no call changes its other fields.
        let _ = self.update_container();
    }
}

#[cfg(test)]
mod tests {
    use super::{types, Writable};
    use crate::raw::{self, RawMap};
    use crate::{Builder, Checksum, HashKind, Width};

    #[test]
    fn the_checksum_is_written_if_and_only_if_a_value_was() {
        let builder = Builder::<u32, u32>::from([(1, 2)]);
        let built = builder.build_with(Width::Narrow, Checksum::Adler32);
        let mut container = built.unwrap().into_bytes();
        let (pointer, length) = (container.as_mut_ptr(), container.len());
        let (types, mut raw) = (types::<u32, u32, HashKind>(raw::ANY_WIDTH), RawMap::CLOSED);
        // SAFETY: pointer and length are those of the container. `raw` has room for the handle.
        let status =
            unsafe { raw::hk_open_container_writable(pointer.cast(), length, types, &mut raw) };
        assert_eq!(status, raw::OK);
        // SAFETY: the checksum begins at byte 24. All of this goes by the one pointer.
        let checksum = || unsafe { *pointer.add(24) };
        let right = checksum();
        for (is_in_container, is_written) in [(true, false), (false, true), (true, true)] {
            // SAFETY: as above.
            unsafe { *pointer.add(24) = !right };
            // SAFETY: the handle is of an open map, and its container is used by the pointer alone.
            let mut map = unsafe { Writable::of(raw, is_in_container) };
            assert_eq!(map.write(|_| is_written), is_written);
            assert_eq!(checksum(), !right);
            drop(map);
            let is_updated = checksum() == right;
            assert_eq!(is_updated, is_in_container && is_written);
        }
    }
}
