use std::borrow::Borrow;
use std::fmt::{Debug, Display, Formatter};
use std::hash::Hash;

use self::sealed::{SealedKey, SealedValue, Stored};
use crate::raw::RawValue;
use crate::store::{Parts, Store};
use crate::AsItem;

/// The width of an archive: the size of its counts, distances and positions.
///
/// A container records the width. An archive without one is opened with the width that it was built
/// with.
///
/// A program that matches on a width needs an arm for others, which a later version may have:
///
/// ```compile_fail,E0004
/// # use hodkhaki::Width;
/// fn bits(width: Width) -> u32 {
///     match width {
///         Width::Narrow => 32,
///         Width::Wide => 64,
///     }
/// }
/// ```
#[derive(Clone, Copy, Debug, Default, PartialEq, Eq, Hash)]
#[non_exhaustive]
pub enum Width {
    /// 32 bits: archives of up to 4,294,967,295 bytes. This is rkyv's default.
    ///
    /// Distances are signed. So the strings and the table of a map or a set with strings have about
    /// 2 GiB at most, and so have the strings, the pairs and the control bytes of an index map.
    #[default]
    Narrow,
    /// 64 bits.
    Wide,
}

impl Width {
    /// The code of the width in the header of a container: the size of a count.
    pub(crate) const fn code(self) -> u8 {
        match self {
            Width::Narrow => 4,
            Width::Wide => 8,
        }
    }

    /// The width with a code, which is one of the two.
    pub(crate) const fn of(code: u8) -> Self {
        match code {
            8 => Width::Wide,
            _ => Width::Narrow,
        }
    }
}

/// The type of a key: an integer of up to 64 bits, `char` or `str`.
///
/// The trait is sealed. It is public so that code can be generic over the type of the keys:
///
/// ```
/// use hodkhaki::{Key, Map};
///
/// fn names<K: Key + ?Sized>(map: Map<'_, K, u64>) -> Vec<String> {
///     map.keys().map(|key| key.to_string()).collect()
/// }
/// ```
#[diagnostic::on_unimplemented(
    message = "the keys of a map are integers of up to 64 bits, `char` or `str`, not `{Self}`"
)]
pub trait Key:
    SealedKey + AsItem<Self> + Ord + Hash + Debug + Display + Send + Sync + 'static
{
    /// A key as an iterator returns it: a number, a character, or a `&str` that borrows the archive.
    /// Generic code gets a `&Self` by `borrow`.
    type Ref<'a>: Copy + Ord + Hash + Debug + Display + Borrow<Self> + AsItem<Self> + Send + Sync;
}

/// The type of a value: that of a [`Key`], `bool`, `f32`, `f64` or `[u8]`.
///
/// The trait is sealed, as [`Key`] is. [`Number`] is that of the values that can be written in place.
///
/// ```
/// use hodkhaki::{Key, Map, Value};
///
/// fn longest<K: Key + ?Sized, V: Value + ?Sized>(map: Map<'_, K, V>) -> usize {
///     map.values().map(|value| format!("{value:?}").len()).max().unwrap_or(0)
/// }
/// ```
#[diagnostic::on_unimplemented(
    message = "the values of a map are numbers of up to 64 bits, `bool`, `char`, `str` or `[u8]`, \
               not `{Self}`"
)]
pub trait Value:
    SealedValue + AsItem<Self> + ToOwned + PartialEq + PartialOrd + Debug + Send + Sync + 'static
{
    /// A value as a lookup returns it: a number, a `bool`, a character, or a `&str` or a `&[u8]` that
    /// borrows the archive. Generic code gets a `&Self` by `borrow`, and compares values of two
    /// archives by it.
    type Ref<'a>: Copy + PartialEq + PartialOrd + Debug + Borrow<Self> + AsItem<Self> + Send + Sync;
}

/// The type of a value that is a number: an integer of up to 64 bits, `f32` or `f64`.
///
/// The trait is sealed, as [`Key`] is.
#[diagnostic::on_unimplemented(
    message = "the numbers of a map are integers of up to 64 bits, `f32` or `f64`, not `{Self}`"
)]
pub trait Number: for<'a> Value<Ref<'a> = Self, Owned = Self> + Copy + Default + Display {}

/// The value of a set's items: a set is the map of its items to this type.
#[derive(Clone, Copy, Debug, Default, PartialEq, Eq, PartialOrd, Ord, Hash)]
pub struct Unit;

pub(crate) mod sealed {
    use super::{Key, RawValue, Store, Value};

    /// A type of keys or of values.
    pub trait Stored: 'static {
        /// The code of this type in the header of a container.
        const CODE: u8;

        /// The keys or the values of a builder.
        type Store: Store<Self>;

        /// A key or a value as the library takes it. It points to the bytes of a string.
        fn raw(item: &Self) -> RawValue;
    }

    /// A type of keys.
    pub trait SealedKey: Stored {
        /// The key that the library stored.
        ///
        /// # Safety
        /// It is a key of an open collection with keys of this type, whose bytes are borrowed for `'a`.
        unsafe fn of<'a>(raw: RawValue) -> <Self as Key>::Ref<'a>
        where
            Self: Key;
    }

    /// A type of values.
    pub trait SealedValue: Stored {
        /// The value that the library stored.
        ///
        /// # Safety
        /// It is a value of an open collection with values of this type, whose bytes are borrowed for
        /// `'a`.
        unsafe fn of<'a>(raw: RawValue) -> <Self as Value>::Ref<'a>
        where
            Self: Value;
    }
}

/// Implements the traits of types that are copied. Each has its code, the number of a value, and the
/// value of a number.
macro_rules! copied {
    ($($type:ty: $code:literal, $to:expr, $of:expr;)*) => {
        $(impl Stored for $type {
            const CODE: u8 = $code;

            type Store = Vec<$type>;

            #[inline]

            fn raw(item: &$type) -> RawValue {
                let number: fn($type) -> u64 = $to;
                RawValue::number(number(*item))
            }
        }

        impl SealedValue for $type {
            #[inline]
            unsafe fn of<'a>(raw: RawValue) -> <$type as Value>::Ref<'a> {
                let value: fn(u64) -> $type = $of;
                value(raw.number)
            }
        }

        impl Value for $type {
            type Ref<'a> = $type;
        })*
    };
}

// The number of a value has no higher bits than its type.
copied! {
    u8: 0x11, |n| n.into(), |n| n as u8;
    u16: 0x12, |n| n.into(), |n| n as u16;
    u32: 0x14, |n| n.into(), |n| n as u32;
    u64: 0x18, |n| n, |n| n;
    i8: 0x21, |n| (n as u8).into(), |n| n as i8;
    i16: 0x22, |n| (n as u16).into(), |n| n as i16;
    i32: 0x24, |n| (n as u32).into(), |n| n as i32;
    i64: 0x28, |n| n as u64, |n| n as i64;
    f32: 0x34, |n| n.to_bits().into(), |n| f32::from_bits(n as u32);
    f64: 0x38, f64::to_bits, f64::from_bits;
    bool: 0x02, |bit| bit.into(), |n| n != 0;
    char: 0x03, |c| u32::from(c).into(), |n| {
        char::from_u32(n as u32).expect("a valid archive has characters only")
    };
    Unit: 0x01, |_| 0, |_| Unit;
}

/// Implements the traits of keys that are copied.
macro_rules! keys {
    ($($type:ty)*) => {
        $(impl SealedKey for $type {
            #[inline]
            unsafe fn of<'a>(raw: RawValue) -> <$type as Key>::Ref<'a> {
                // SAFETY: the caller ensures that the number is one of this type.
                unsafe { <$type as SealedValue>::of(raw) }
            }
        }

        impl Key for $type {
            type Ref<'a> = $type;
        })*
    };
}

keys! { u8 u16 u32 u64 i8 i16 i32 i64 char }

/// Implements `Number`.
macro_rules! numbers {
    ($($type:ty)*) => {
        $(impl Number for $type {})*
    };
}

numbers! { u8 u16 u32 u64 i8 i16 i32 i64 f32 f64 }

/// Implements the traits of types that borrow the archive. Each has its code, its buffer in a builder,
/// and the method of a stored value.
macro_rules! borrowed {
    ($($type:ty: $code:literal, $buffer:ty, $get:ident;)*) => {
        $(impl Stored for $type {
            const CODE: u8 = $code;

            type Store = Parts<$buffer>;

            #[inline]
            fn raw(item: &$type) -> RawValue {
                RawValue::bytes(item.as_ref())
            }
        }

        impl SealedValue for $type {
            #[inline]
            unsafe fn of<'a>(raw: RawValue) -> <$type as Value>::Ref<'a> {
                // SAFETY: the caller ensures that the value is one of this type, whose bytes are
                // borrowed for 'a.
                unsafe { raw.$get() }
            }
        }

        impl Value for $type {
            type Ref<'a> = &'a $type;
        })*
    };
}

borrowed! {
    str: 0x04, String, as_str;
    [u8]: 0x05, Vec<u8>, as_bytes;
}

impl SealedKey for str {
    #[inline]
    unsafe fn of<'a>(raw: RawValue) -> &'a str {
        // SAFETY: the caller ensures that the string is a key, whose bytes are borrowed for 'a.
        unsafe { raw.as_str() }
    }
}

impl Key for str {
    type Ref<'a> = &'a str;
}

impl Display for Unit {
    fn fmt(&self, f: &mut Formatter<'_>) -> std::fmt::Result {
        write!(f, "()")
    }
}
