use std::borrow::Cow;
use std::rc::Rc;
use std::sync::Arc;

use crate::types::Unit;

/// A key, a value or an item of type `T`, owned or borrowed.
///
/// Builders take keys, values and items of such types:
///
/// | `T` | Types |
/// |---|---|
/// | a number, `bool`, `char` | `T` |
/// | `str` | `str`, `String` |
/// | `[u8]` | `[u8]`, `Vec<u8>`, arrays of bytes |
///
/// A reference, a `Box`, an `Rc`, an `Arc` or a `Cow` of such a type is one too, as `&String`. A
/// program may implement the trait for its own types.
///
/// # Examples
/// ```
/// use hodkhaki::{AsItem, Builder};
///
/// #[derive(Clone, Copy)]
/// struct UserId(u32);
///
/// impl AsItem<u32> for UserId {
///     fn as_item(&self) -> &u32 {
///         &self.0
///     }
/// }
///
/// # fn main() -> Result<(), hodkhaki::Error> {
/// let names = vec![(UserId(7), String::from("Ada")), (UserId(9), String::from("Emmy"))];
/// let map = Builder::<u32, str>::from(&names).build()?;
/// assert_eq!(map.get(&9), Some("Emmy"));
/// # Ok(())
/// # }
/// ```
#[diagnostic::on_unimplemented(
    message = "`{Self}` is not a key, a value or an item of type `{T}`",
    note = "strings are `&str` or `String`, byte strings `&[u8]` or `Vec<u8>`, and numbers have \
            exactly the type of the map"
)]
pub trait AsItem<T: ?Sized> {
    /// Borrows the key, the value or the item.
    fn as_item(&self) -> &T;
}

macro_rules! itself {
    ($($type:ty)*) => {
        $(impl AsItem<$type> for $type {
            fn as_item(&self) -> &$type {
                self
            }
        })*
    };
}

itself! { u8 u16 u32 u64 i8 i16 i32 i64 f32 f64 bool char str [u8] Unit }

impl AsItem<str> for String {
    fn as_item(&self) -> &str {
        self
    }
}

impl AsItem<[u8]> for Vec<u8> {
    fn as_item(&self) -> &[u8] {
        self
    }
}

impl<const N: usize> AsItem<[u8]> for [u8; N] {
    fn as_item(&self) -> &[u8] {
        self
    }
}

macro_rules! pointers {
    ($($type:ty)*) => {
        $(impl<T: ?Sized, Q: AsItem<T> + ?Sized> AsItem<T> for $type {
            fn as_item(&self) -> &T {
                (**self).as_item()
            }
        })*
    };
}

pointers! { &Q &mut Q Box<Q> Rc<Q> Arc<Q> }

impl<T: ?Sized, Q: AsItem<T> + ToOwned + ?Sized> AsItem<T> for Cow<'_, Q> {
    fn as_item(&self) -> &T {
        (**self).as_item()
    }
}

/// Implements `From` of collections for a builder, which collects their elements. The parameters of a
/// collection are before it, and those of all collections in brackets.
macro_rules! from_collections {
    (one $builder:ty, [$($all:tt)*], ($($parameters:tt)*), $collection:ty) => {
        impl<$($parameters)* $($all)*> From<$collection> for $builder {
            fn from(collection: $collection) -> Self {
                collection.into_iter().collect()
            }
        }
    };
    ($builder:ty, $all:tt, $($parameters:tt $collection:ty,)*) => {
        $($crate::item::from_collections!(one $builder, $all, $parameters, $collection);)*
    };
}

pub(crate) use from_collections;
