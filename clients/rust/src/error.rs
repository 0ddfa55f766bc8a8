use std::fmt;

use crate::raw::{self, RawError};

/// Why bytes are not an archive or a container of a map, or why no archive could be built.
///
/// Its text has the position and the numbers of the error. The numbers of a collection, a type or a
/// width are its codes in the header of a container:
///
/// | | Codes |
/// |---|---|
/// | collection | 1 hash map, 2 set, 3 index map, 4 index set |
/// | type | 1 none (the values of a set), 2 `bool`, 3 `char`, 4 `str`, 5 `[u8]` |
/// | | 17 `u8`, 18 `u16`, 20 `u32`, 24 `u64`, 33 `i8`, 34 `i16`, 36 `i32`, 40 `i64`, 52 `f32`, 56 `f64` |
/// | width | 4 [`Width::Narrow`](crate::Width::Narrow), 8 [`Width::Wide`](crate::Width::Wide) |
///
/// ```
/// use hodkhaki::{ErrorKind, Map, Width};
///
/// let error = Map::<u32, u32>::open_archive(&[0; 13], Width::Narrow).unwrap_err();
/// assert_eq!(error.kind(), ErrorKind::Unaligned);
/// assert_eq!(error.position(), Some(1));
/// assert_eq!(
///     error.to_string(),
///     "the map or a part of it is not at a multiple of its alignment \
///      (position 1, alignment 4)"
/// );
/// ```
#[derive(Clone, Copy, Debug, PartialEq, Eq, Hash)]
pub struct Error {
    kind: ErrorKind,
    numbers: Option<RawError>,
}

impl Error {
    /// Returns the kind of the error.
    pub fn kind(&self) -> ErrorKind {
        self.kind
    }

    /// Returns the position in the archive of the part that is not valid, if the error has one. It
    /// is negative if the part is before the archive.
    pub fn position(&self) -> Option<i64> {
        use ErrorKind::{InvalidValue, OutOfRange, Unaligned};
        match self.kind {
            OutOfRange | Unaligned | InvalidValue => self.numbers.map(|numbers| numbers.position),
            _ => None,
        }
    }

    /// Returns the numbers of the error, or `None` if it has none. If it has one number, the second
    /// is 0.
    ///
    /// | [`ErrorKind`] | Numbers |
    /// |---|---|
    /// | `OutOfRange` | size in bytes of the part at the position |
    /// | `Unaligned` | alignment of the part at the position |
    /// | `InvalidLength` | number of pairs, number of buckets |
    /// | `WrongNumberOfElements` | number of pairs, number of full buckets |
    /// | `UnwrappedControlByte` | index of a control byte |
    /// | `PlaceOutOfRange` | index in the table of an index map, number of pairs |
    /// | `ContainerTooShort` | number of bytes |
    /// | `UnsupportedVersion` to `NonzeroReserved` | the number in the header |
    /// | `WrongCollection` to `WrongWidth` | the expected code, the code in the header |
    /// | `WrongLength`, `WrongChecksum` | the number in the header, that of the archive |
    ///
    /// A number that does not fit in 64 bits is replaced by the nearest one that does. The errors of
    /// building and of [`update_container`](crate::update_container) have no numbers.
    ///
    /// ```
    /// use hodkhaki::{Map, Width};
    ///
    /// let error = Map::<u32, u32>::open_archive(&[0; 13], Width::Narrow).unwrap_err();
    /// assert_eq!(error.numbers(), Some((4, 0)));
    /// ```
    pub fn numbers(&self) -> Option<(u64, u64)> {
        use ErrorKind::{InvalidValue, IsContainer, WrongMagic};
        match self.kind {
            InvalidValue | IsContainer | WrongMagic => None,
            _ => self.numbers.map(|numbers| (numbers.first, numbers.second)),
        }
    }
}

impl From<ErrorKind> for Error {
    fn from(kind: ErrorKind) -> Self {
        Error {
            kind,
            numbers: None,
        }
    }
}

impl fmt::Display for Error {
    fn fmt(&self, f: &mut fmt::Formatter<'_>) -> fmt::Result {
        write!(f, "{}", self.kind)?;
        let Some(RawError {
            position,
            first,
            second,
            ..
        }) = self.numbers
        else {
            return Ok(());
        };
        match self.kind {
            ErrorKind::OutOfRange => write!(f, " (position {position}, {first} bytes)"),
            ErrorKind::Unaligned => write!(f, " (position {position}, alignment {first})"),
            ErrorKind::InvalidLength => write!(f, " ({first} pairs, {second} buckets)"),
            ErrorKind::WrongNumberOfElements => {
                write!(f, " ({first} pairs, {second} full buckets)")
            }
            ErrorKind::UnwrappedControlByte => write!(f, " (index {first})"),
            ErrorKind::PlaceOutOfRange => write!(f, " (index {first}, {second} pairs)"),
            ErrorKind::InvalidValue => write!(f, " (position {position})"),
            ErrorKind::ContainerTooShort => write!(f, " ({first} bytes)"),
            ErrorKind::UnsupportedVersion
            | ErrorKind::UnknownCollection
            | ErrorKind::UnknownKeyType
            | ErrorKind::UnknownValueType
            | ErrorKind::UnknownWidth
            | ErrorKind::UnknownFlags
            | ErrorKind::UnexpectedChecksum
            | ErrorKind::NonzeroReserved => write!(f, " ({first})"),
            ErrorKind::WrongCollection
            | ErrorKind::WrongKeyType
            | ErrorKind::WrongValueType
            | ErrorKind::WrongWidth
            | ErrorKind::WrongLength
            | ErrorKind::WrongChecksum => write!(f, " (expected {first}, found {second})"),
            _ => Ok(()),
        }
    }
}

impl std::error::Error for Error {}

/// Declares `ErrorKind`. The text of an error is the documentation of its kind. Each has its status.
macro_rules! error_kinds {
    ($(#[$of_enum:meta])* pub enum ErrorKind {
        $($(#[doc = $text:literal])+ $name:ident = $status:pat,)*
    }) => {
        $(#[$of_enum])*
        pub enum ErrorKind {
            $($(#[doc = $text])+ $name,)*

            /// A status of `hodkhaki.h` that the calls of this crate are not expected to return.
            Status(u32),
        }

        impl ErrorKind {
            /// The kind of the error with a status.
            fn of(status: u32) -> Self {
                match status {
                    $($status => ErrorKind::$name,)*
                    other => ErrorKind::Status(other),
                }
            }

            /// The documentation of the kind.
            fn text(self) -> &'static str {
                match self {
                    $(ErrorKind::$name => concat!($($text),+),)*
                    ErrorKind::Status(_) => "The C library returned an unexpected status.",
                }
            }
        }
    };
}

error_kinds! {
    /// The kind of an [`Error`].
    ///
    /// The calls that open an archive, as [`Map::open_archive`](crate::Map::open_archive), fail with the
    /// first group, [`Builder::build`](crate::Builder::build) with the second. The calls that open a
    /// container fail with the third group, or with the first one if its archive is not valid.
    #[derive(Clone, Copy, Debug, PartialEq, Eq, Hash)]
    #[non_exhaustive]
    pub enum ErrorKind {
        /// The map or a part of it is outside the bytes that it may use, or the archive exceeds the limit
        /// of its width.
        OutOfRange = 16,
        /// The map or a part of it is not at a multiple of its alignment.
        Unaligned = 17,
        /// The number of pairs is not less than the number of buckets, and they are not both 0.
        InvalidLength = 18,
        /// The number of full buckets differs from the number of pairs.
        WrongNumberOfElements = 19,
        /// A mirrored control byte differs from the one that it mirrors, or one after them is not empty.
        UnwrappedControlByte = 20,
        /// An index in the table of an index map is not less than the number of pairs.
        PlaceOutOfRange = 21,
        /// A string is not UTF-8, or its length is malformed, or a `bool` or a `char` is not valid.
        InvalidValue = 22,
        /// The bytes are a container, but the call opens an archive without one.
        IsContainer = 48,

        /// An allocation failed.
        NoMemory = 12,
        /// The map needs more buckets than the width can count.
        CapacityTooLarge = 24,
        /// The archive would be longer than the width allows.
        PositionTooLarge = 25,
        /// A distance between two parts of the archive does not fit the width.
        DistanceTooLarge = 26,
        /// A string is too long for the width.
        TextTooLong = 27,

        /// A container has fewer bytes than its header of 32 bytes.
        ContainerTooShort = 32,
        /// The first eight bytes are not those of a container.
        WrongMagic = 33,
        /// The version of a container is not 1.
        UnsupportedVersion = 34,
        /// No kind of collection has the code in the header of a container.
        UnknownCollection = 35,
        /// No type of keys has the code in the header of a container.
        UnknownKeyType = 36,
        /// No type of values has the code in the header of a container.
        UnknownValueType = 37,
        /// No width has the code in the header of a container.
        UnknownWidth = 38,
        /// A flag without a meaning is set in the header of a container.
        UnknownFlags = 39,
        /// The header of a container has a checksum, but no flag for one.
        UnexpectedChecksum = 40,
        /// The last four bytes of the header of a container are not 0.
        NonzeroReserved = 41,
        /// A container has another kind of collection.
        WrongCollection = 42,
        /// The keys in a container are of another type.
        WrongKeyType = 43,
        /// The values in a container are of another type.
        WrongValueType = 44,
        /// The archive in a container has another width.
        WrongWidth = 45,
        /// The number of bytes after the header of a container is not the length in the header.
        WrongLength = 46,
        /// The checksum in the header of a container is not that of the archive.
        WrongChecksum = 47,
        /// No map or set of this crate has the collection and the types in the header of a container.
        UnsupportedKind = raw::UNKNOWN_KIND,
    }
}

impl fmt::Display for ErrorKind {
    fn fmt(&self, f: &mut fmt::Formatter<'_>) -> fmt::Result {
        let text = self.text().trim().trim_end_matches('.');
        let (first, others) = text.split_at(1);
        write!(f, "{}{others}", first.to_lowercase())?;
        match self {
            ErrorKind::Status(status) => write!(f, " ({status})"),
            _ => Ok(()),
        }
    }
}

/// Whether a key is found, by the status of a call with an open map.
#[inline]
pub(crate) fn found(status: u32) -> bool {
    if status > raw::NOT_FOUND {
        unexpected(status);
    }
    status == raw::OK
}

/// Whether a count is within its limit, by the status of the call with an open map.
pub(crate) fn within_limit(status: u32) -> bool {
    if status != raw::OK && status != raw::LIMIT_REACHED {
        unexpected(status);
    }
    status == raw::OK
}

#[cold]
fn unexpected(status: u32) {
    check(status).expect("the map is open, and writable if it is written");
}

/// `Ok` if the status is that of success, else the error that it is.
pub(crate) fn check(status: u32) -> Result<(), Error> {
    match status {
        raw::OK => Ok(()),
        _ => Err(ErrorKind::of(status).into()),
    }
}

/// `Ok` if the status of a call that opens is that of success, else the error that it is. `explain`
/// is the call that explains it.
pub(crate) fn check_open(
    status: u32,
    explain: impl FnOnce(*mut RawError) -> u32,
) -> Result<(), Error> {
    let mut error = RawError::default();
    check(status).map_err(|plain| match explain(&mut error) {
        raw::OK if error.status == status => Error {
            numbers: Some(error),
            ..plain
        },
        _ => plain,
    })
}
