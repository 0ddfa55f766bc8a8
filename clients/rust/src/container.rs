use crate::error::{check, check_open};
use crate::kind::sealed::SealedKind;
use crate::open::types;
use crate::raw::{self, RawTypes, HEADER_LEN};
use crate::types::sealed::Stored;
use crate::{Error, ErrorKind, HashKind, IndexKind, Width};
#[cfg(doc)]
use crate::{IndexMap, IndexMapMut, IndexSet, Map, MapMut, Set};

/// Whether a container has a checksum of its archive.
///
/// A checksum detects accidental changes of an archive: each change of one byte, and most others.
/// It is no protection from an attacker, who can compute it too. Opening a container with a
/// checksum reads all bytes of its archive.
///
/// A program that matches on it needs an arm for others, which a later version may have:
///
/// ```compile_fail,E0004
/// # use hodkhaki::Checksum;
/// fn is_checked(checksum: Checksum) -> bool {
///     match checksum {
///         Checksum::None => false,
///         Checksum::Adler32 => true,
///     }
/// }
/// ```
#[derive(Clone, Copy, Debug, Default, PartialEq, Eq, Hash)]
#[non_exhaustive]
pub enum Checksum {
    /// No checksum.
    #[default]
    None,
    /// The checksum Adler-32 of zlib.
    Adler32,
}

/// The kind of collection in a container.
#[derive(Clone, Copy, Debug, PartialEq, Eq, Hash)]
#[non_exhaustive]
pub enum Collection {
    /// A [`Map`].
    Map,
    /// A [`Set`].
    Set,
    /// An [`IndexMap`].
    IndexMap,
    /// An [`IndexSet`].
    IndexSet,
}

/// Declares `ItemType`, and which type has a code.
macro_rules! item_types {
    ($($name:ident: $type:ty,)*) => {
        /// The type of the keys or of the values in a container, or of the items of a set.
        #[derive(Clone, Copy, Debug, PartialEq, Eq, Hash)]
        #[non_exhaustive]
        pub enum ItemType {
            $(
                #[doc = concat!("`", stringify!($type), "`")]
                $name,
            )*
        }

        impl ItemType {
            /// The type with a code, or `None` if no type has it.
            fn of(code: u8) -> Option<Self> {
                match code {
                    $(<$type as Stored>::CODE => Some(ItemType::$name),)*
                    _ => None,
                }
            }
        }
    };
}

item_types! {
    Bool: bool,
    Char: char,
    Str: str,
    Bytes: [u8],
    U8: u8,
    U16: u16,
    U32: u32,
    U64: u64,
    I8: i8,
    I16: i16,
    I32: i32,
    I64: i64,
    F32: f32,
    F64: f64,
}

/// What the header of a container records, as [`container_kind`] returns it.
#[derive(Clone, Copy, Debug, PartialEq, Eq, Hash)]
#[non_exhaustive]
pub struct ContainerKind {
    /// The kind of collection.
    pub collection: Collection,
    /// The type of the keys, or of the items of a set.
    pub key: ItemType,
    /// The type of the values, or `None` for a set.
    pub value: Option<ItemType>,
    /// The width of the archive.
    pub width: Width,
}

impl ContainerKind {
    /// The contents with codes, or `None` if this crate doesn't have them.
    fn of(types: RawTypes) -> Option<Self> {
        let (collection, is_set) = match types.kind {
            HashKind::MAP => (Collection::Map, false),
            HashKind::SET => (Collection::Set, true),
            IndexKind::MAP => (Collection::IndexMap, false),
            IndexKind::SET => (Collection::IndexSet, true),
            _ => return None,
        };
        let value = ItemType::of(types.value);
        if is_set == value.is_some() {
            return None;
        }
        Some(ContainerKind {
            collection,
            key: ItemType::of(types.key)?,
            value,
            width: Width::of(types.width),
        })
    }
}

/// Returns which collection a container has, of which types and of which width, as its header records
/// them.
///
/// Neither the length, the checksum nor the archive is checked: the calls that open do that.
///
/// # Errors
/// The first of these:
/// - an error of the header, from [`ErrorKind::ContainerTooShort`] to [`ErrorKind::NonzeroReserved`]
/// - [`ErrorKind::UnsupportedKind`]
///
/// # Examples
/// ```
/// use hodkhaki::{container_kind, Builder, Collection, ItemType, Map};
///
/// fn lookup(container: &[u8], name: &str) -> Result<Option<u64>, Box<dyn std::error::Error>> {
///     let kind = container_kind(container)?;
///     match (kind.collection, kind.key, kind.value) {
///         (Collection::Map, ItemType::Str, Some(ItemType::U64)) => {
///             Ok(Map::<str, u64>::open(container)?.get(name))
///         }
///         (Collection::Map, ItemType::Str, Some(ItemType::U32)) => {
///             Ok(Map::<str, u32>::open(container)?.get(name).map(u64::from))
///         }
///         _ => Err(format!("no map of names to numbers: {kind:?}").into()),
///     }
/// }
///
/// # fn main() -> Result<(), Box<dyn std::error::Error>> {
/// let container = Builder::<str, u32>::from([("main", 0x1139)]).build()?.into_bytes();
/// assert_eq!(lookup(&container, "main")?, Some(0x1139));
/// # Ok(())
/// # }
/// ```
pub fn container_kind(container: &[u8]) -> Result<ContainerKind, Error> {
    let (pointer, length) = (container.as_ptr().cast(), container.len());
    // The errors of the header are the same ones for each collection.
    let mut found = types::<u32, u32, HashKind>(raw::ANY_WIDTH);
    let any = found;
    // SAFETY: pointer and length are those of one slice. `found` has room for the codes.
    let status = unsafe { raw::hk_container_types(pointer, length, &mut found) };
    // SAFETY: pointer and length are those of one slice. `error` has room for the error.
    let explain = |error| unsafe { raw::hk_container_explain(pointer, length, any, error) };
    check_open(status, explain)?;
    ContainerKind::of(found).ok_or(ErrorKind::UnsupportedKind.into())
}

/// Writes the checksum of a container anew, after values were written in place.
///
/// Dropping a [`MapMut`] or an [`IndexMapMut`] that was opened in the container does this. The call is
/// for the other cases: the map was opened in the archive alone, or it was not dropped, as when the
/// program was aborted. It then takes the values as they are.
///
/// The container may be of any contents. If it has no checksum, nothing is changed.
///
/// # Errors
/// The first of these, after which nothing is changed:
/// - an error of the header, from [`ErrorKind::ContainerTooShort`] to [`ErrorKind::NonzeroReserved`]
/// - [`ErrorKind::WrongLength`]
///
/// # Examples
/// ```
/// use hodkhaki::{update_container, Builder, Checksum, Error, ErrorKind, Map, MapMut, Width};
///
/// # fn main() -> Result<(), Error> {
/// let builder = Builder::<str, u64>::from([("visits", 10)]);
/// let mut bytes = builder.build_with(Width::Narrow, Checksum::Adler32)?.into_bytes();
/// assert!(MapMut::<str, u64>::open_archive(&mut bytes[32..], Width::Narrow)?.set("visits", 11));
/// let error = Map::<str, u64>::open(&bytes).unwrap_err();
/// assert_eq!(error.kind(), ErrorKind::WrongChecksum);
/// update_container(&mut bytes)?;
/// assert_eq!(Map::<str, u64>::open(&bytes)?.at("visits"), 11);
/// # Ok(())
/// # }
/// ```
pub fn update_container(container: &mut [u8]) -> Result<(), Error> {
    let (pointer, length) = (container.as_mut_ptr().cast(), container.len());
    // SAFETY: pointer and length are those of one slice, which is borrowed mutably.
    check(unsafe { raw::hk_container_update(pointer, length) })
}

/// The header of the container of an archive with these codes.
pub(crate) fn header_of(archive: &[u8], types: RawTypes, checksum: Checksum) -> [u8; HEADER_LEN] {
    let mut header = [0; HEADER_LEN];
    let (pointer, length) = (archive.as_ptr().cast(), archive.len());
    let is_checked = checksum == Checksum::Adler32;
    // SAFETY: pointer and length are those of one slice. The header has the length that is written.
    let status = unsafe {
        raw::hk_container_header(pointer, length, types, is_checked, header.as_mut_ptr())
    };
    check(status).expect("each archive in memory has a header");
    header
}
