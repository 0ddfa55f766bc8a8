//! The declarations of `../c/hodkhaki.h`, and the calls of the proved library that look up and that
//! iterate.

use std::ffi::c_void;
use std::ptr;

/// The codes of a kind of collection, of its types and of its width in the header of a container: the
/// `hk_types` of the header.
#[repr(C)]
#[derive(Clone, Copy, Debug, PartialEq, Eq, Hash)]
pub struct RawTypes {
    pub kind: u8,
    pub key: u8,
    pub value: u8,
    pub width: u8,
}

/// The decoded header of a table: the `hk_table_header` of the header.
#[repr(C)]
#[derive(Clone, Copy)]
pub struct RawTableHeader {
    controls_position: usize,
    length: usize,
    capacity: usize,
    divisor: u64,
    inverse: u64,
}

/// What the library has decoded of a collection: the `hk_decoded` of the header.
#[repr(C)]
#[derive(Clone, Copy)]
pub struct RawDecoded {
    indexed: bool,
    wide: bool,
    key: u8,
    value: u8,
    header: RawTableHeader,
}

/// A handle: the `hk_map` of the header.
#[repr(C)]
#[derive(Clone, Copy)]
pub struct RawMap {
    bytes: *const u8,
    writable: *mut u8,
    length: usize,
    types: RawTypes,
    decoded: RawDecoded,
}

impl RawMap {
    /// A handle of no open collection, which the calls that open fill.
    pub const CLOSED: RawMap = RawMap {
        bytes: ptr::null(),
        writable: ptr::null_mut(),
        length: 0,
        types: RawTypes {
            kind: 0,
            key: 0,
            value: 0,
            width: 0,
        },
        decoded: RawDecoded {
            indexed: false,
            wide: false,
            key: 0,
            value: 0,
            header: RawTableHeader {
                controls_position: 0,
                length: 0,
                capacity: 0,
                divisor: 0,
                inverse: 0,
            },
        },
    };

    /// Returns the number of pairs of an open collection.
    #[inline]
    pub fn len(&self) -> usize {
        self.decoded.header.length
    }

    /// Returns the codes of an open collection.
    #[inline]
    pub fn types(&self) -> RawTypes {
        self.types
    }

    /// Returns the pointer to the container of an open collection, and its length.
    ///
    /// # Safety
    /// The collection was opened in a container, to write.
    pub unsafe fn container(&self) -> (*mut u8, usize) {
        // SAFETY: the caller ensures that the archive is behind the header of a container.
        let container = unsafe { self.writable.sub(HEADER_LEN) };
        (container, HEADER_LEN + self.length)
    }

    /// Looks up the keys, each the value of its lookup, and stores their results there. An index has no
    /// meaning in a hash map or a set.
    ///
    /// # Safety
    /// The collection is open, and its bytes are borrowed. The keys are of its type, and their bytes are
    /// borrowed.
    #[inline]
    pub unsafe fn get(&self, lookups: &mut [RawLookedUp]) {
        let (first, count) = (lookups.as_mut_ptr(), lookups.len());
        // SAFETY: the caller ensures that the collection is open. So the bytes are a valid archive, and
        // the handle is theirs. The lookups have the pointer and the length of one slice, and no bytes
        // of them are null.
        unsafe { hk_c_get(self.bytes, self.length, &self.decoded, first, count) };
    }

    /// Stores the next items from a bucket or an index on, and returns their number.
    ///
    /// # Safety
    /// The collection is open, and its bytes are borrowed.
    pub unsafe fn next(&self, from: u64, items: &mut [RawItem]) -> usize {
        let (first, room) = (items.as_mut_ptr(), items.len());
        // SAFETY: the caller ensures that the collection is open. So the bytes are a valid archive, and
        // the handle is theirs. The items have the pointer and the length of one slice, and no bytes of
        // them are null.
        unsafe { hk_c_next(self.bytes, self.length, &self.decoded, from, first, room) }
    }

    /// Returns the handle without its pointers.
    pub fn decoded(self) -> Decoded {
        Decoded {
            length: self.length,
            types: self.types,
            decoded: self.decoded,
        }
    }
}

/// A handle without its pointers, for an archive that may move.
#[derive(Clone, Copy)]
pub struct Decoded {
    /// The number of bytes of the archive.
    pub length: usize,
    pub types: RawTypes,
    decoded: RawDecoded,
}

impl Decoded {
    /// Returns the handle of the archive at this address, to read. The collection is open if the
    /// archive has the bytes with which it was opened.
    pub fn at(self, bytes: *const u8) -> RawMap {
        RawMap {
            bytes,
            writable: ptr::null_mut(),
            length: self.length,
            types: self.types,
            decoded: self.decoded,
        }
    }

    /// Returns the handle of the archive at this address as `at` does, to read and to write.
    pub fn at_writable(self, bytes: *mut u8) -> RawMap {
        RawMap {
            writable: bytes,
            ..self.at(bytes)
        }
    }
}

/// A key or a value of any type, a number or bytes: the `hk_value` of the header.
#[repr(C)]
#[derive(Clone, Copy)]
pub struct RawValue {
    pub number: u64,
    bytes: *const u8,
    length: usize,
}

impl RawValue {
    /// A value that a call overwrites. Its bytes aren't null, since the library takes no null pointers.
    pub const NONE: RawValue = RawValue {
        number: 0,
        bytes: ptr::NonNull::dangling().as_ptr(),
        length: 0,
    };

    #[inline]
    pub fn number(number: u64) -> RawValue {
        RawValue {
            number,
            ..RawValue::NONE
        }
    }

    #[inline]
    pub fn bytes(bytes: &[u8]) -> RawValue {
        RawValue {
            number: 0,
            bytes: bytes.as_ptr(),
            length: bytes.len(),
        }
    }

    /// Returns the bytes of a string or of a byte string.
    ///
    /// # Safety
    /// The value is one of an open collection, whose bytes are borrowed for `'a`.
    #[inline]
    pub unsafe fn as_bytes<'a>(self) -> &'a [u8] {
        // SAFETY: the caller ensures that the bytes are a part of the archive, which is borrowed for
        // 'a. They are never null. No value that is written in place shares a byte with them, since
        // the parts of a valid archive don't overlap.
        unsafe { std::slice::from_raw_parts(self.bytes, self.length) }
    }

    /// Returns a string.
    ///
    /// # Safety
    /// The value is a string of an open collection, whose bytes are borrowed for `'a`.
    #[inline]
    pub unsafe fn as_str<'a>(self) -> &'a str {
        // SAFETY: the caller ensures that the value is one of an open collection.
        let bytes = unsafe { self.as_bytes() };
        // SAFETY: opening the collection has validated each string as UTF-8, and no byte of a string was
        // written since.
        unsafe { std::str::from_utf8_unchecked(bytes) }
    }
}

/// A pair of any collection, and the bucket or the index at which iteration continues: the `hk_item` of
/// the header.
#[repr(C)]
#[derive(Clone, Copy)]
pub struct RawItem {
    pub next: u64,
    pub key: RawValue,
    pub value: RawValue,
}

impl RawItem {
    /// An item that a call overwrites.
    pub const NONE: RawItem = RawItem {
        next: 0,
        key: RawValue::NONE,
        value: RawValue::NONE,
    };
}

/// A pair that is archived: the `hk_pair` of the header.
#[repr(C)]
#[derive(Clone, Copy)]
pub struct RawPair {
    pub key: RawValue,
    pub value: RawValue,
}

/// The index of a pair that a lookup has found, and its value: the `hk_found` of the header.
#[repr(C)]
#[derive(Clone, Copy)]
pub struct RawFound {
    pub index: usize,
    pub value: RawValue,
}

/// A lookup, whose value is the key until it has a result: the `hk_looked_up` of the header.
#[repr(C)]
#[derive(Clone, Copy)]
pub struct RawLookedUp {
    pub status: u32,
    pub found: RawFound,
}

impl RawLookedUp {
    /// The lookup of a key.
    #[inline]
    pub const fn of(key: RawValue) -> RawLookedUp {
        RawLookedUp {
            status: OK,
            found: RawFound {
                index: 0,
                value: key,
            },
        }
    }
}

/// An error of opening, with its numbers: the `hk_error` of the header.
#[repr(C)]
#[derive(Clone, Copy, Debug, Default, PartialEq, Eq, Hash)]
pub struct RawError {
    pub status: u32,
    pub position: i64,
    pub first: u64,
    pub second: u64,
}

// The sizes of the structs of the header, which `../c/test.c` tests too.
const _: () = {
    assert!(size_of::<RawTableHeader>() == 40 && size_of::<RawMap>() == 80);
    assert!(size_of::<RawTypes>() == 4 && size_of::<RawError>() == 32);
    assert!(size_of::<RawValue>() == 24 && size_of::<RawItem>() == 56);
    assert!(size_of::<RawPair>() == 48 && size_of::<RawFound>() == 32);
    assert!(size_of::<RawLookedUp>() == 40);
};

pub const OK: u32 = 0;
pub const NOT_FOUND: u32 = 1;
pub const UNKNOWN_KIND: u32 = 7;
pub const LIMIT_REACHED: u32 = 15;

/// The number of bytes of a container's header.
pub const HEADER_LEN: usize = 32;

/// The width with which a container of either width is opened.
pub const ANY_WIDTH: u8 = 0;

unsafe extern "C" {
    fn hk_c_get(
        archive: *const u8,
        length: usize,
        handle: &RawDecoded,
        lookups: *mut RawLookedUp,
        count: usize,
    );
    fn hk_c_next(
        archive: *const u8,
        length: usize,
        handle: &RawDecoded,
        from: u64,
        items: *mut RawItem,
        room: usize,
    ) -> usize;
    pub fn hk_open(bytes: *const c_void, length: usize, types: RawTypes, map: *mut RawMap) -> u32;
    pub fn hk_open_writable(
        bytes: *mut c_void,
        length: usize,
        types: RawTypes,
        map: *mut RawMap,
    ) -> u32;
    pub fn hk_open_container(
        bytes: *const c_void,
        length: usize,
        types: RawTypes,
        map: *mut RawMap,
    ) -> u32;
    pub fn hk_open_container_writable(
        bytes: *mut c_void,
        length: usize,
        types: RawTypes,
        map: *mut RawMap,
    ) -> u32;
    pub fn hk_explain(
        bytes: *const c_void,
        length: usize,
        types: RawTypes,
        error: *mut RawError,
    ) -> u32;
    pub fn hk_container_explain(
        bytes: *const c_void,
        length: usize,
        types: RawTypes,
        error: *mut RawError,
    ) -> u32;
    pub fn hk_container_types(bytes: *const c_void, length: usize, types: *mut RawTypes) -> u32;
    pub fn hk_set(map: *mut RawMap, key: RawValue, value: RawValue) -> u32;
    pub fn hk_misplaced_up_to(map: *const RawMap, limit: u64, count: *mut u64) -> u32;
    pub fn hk_build(
        pairs: *const RawPair,
        count: usize,
        types: RawTypes,
        bytes: *mut *mut u8,
        length: *mut usize,
    ) -> u32;
    pub fn hk_bytes_free(bytes: *mut u8);
    pub fn hk_container_header(
        archive: *const c_void,
        length: usize,
        types: RawTypes,
        checksum: bool,
        header: *mut u8,
    ) -> u32;
    pub fn hk_container_update(bytes: *mut c_void, length: usize) -> u32;
}
