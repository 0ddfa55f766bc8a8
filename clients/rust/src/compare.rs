//! Comparisons with the maps and sets of std, and lookups by `[]`.

use std::borrow::Borrow;
use std::collections::{BTreeMap, BTreeSet, HashMap, HashSet};
use std::ops::Index;

use crate::{AsItem, IndexMap, IndexSet, Key, Kind, Map, Set, Value};

/// Implements `PartialEq` of a map with a map of std.
macro_rules! equals_map {
    ($($(#[$doc:meta])* $std:ty, [$($parameters:tt)*];)*) => {
        $($(#[$doc])*
        impl<K, V, C, Q, R $($parameters)*> PartialEq<$std> for Map<'_, K, V, C>
        where
            K: Key + ?Sized,
            V: Value + ?Sized,
            C: Kind,
            Q: Borrow<K>,
            R: AsItem<V>,
        {
            fn eq(&self, other: &$std) -> bool {
                let is_value = |found: V::Ref<'_>, value: &R| found.borrow() == value.as_item();
                self.len() == other.len()
                    && other.iter().all(|(key, value)| {
                        self.get(key.borrow()).is_some_and(|found| is_value(found, value))
                    })
            }
        })*
    };
}

equals_map! {
    /// Returns `true` if both maps have the same number of pairs, and a lookup finds each key of the
    /// std map, with its value. The order is not compared.
    ///
    /// So each key of the archive is found, and they all differ. A map in which a key repeats equals
    /// no std map, and neither does one of an untrusted archive in which a lookup misses a key.
    ///
    /// # Examples
    /// ```
    /// use hodkhaki::Builder;
    /// use std::collections::HashMap;
    ///
    /// # fn main() -> Result<(), hodkhaki::Error> {
    /// let counts = HashMap::from([(String::from("tea"), 3_u64), (String::from("coffee"), 4)]);
    /// let mut builder = Builder::from(&counts);
    /// assert_eq!(builder.build()?.as_map(), counts);
    /// builder.push("tea", 3);
    /// assert_ne!(builder.build()?.as_map(), counts);
    /// # Ok(())
    /// # }
    /// ```
    HashMap<Q, R, S>, [, S];

    /// Compares as with a `HashMap`.
    BTreeMap<Q, R>, [];
}

/// Implements `PartialEq` of a set with a set of std.
macro_rules! equals_set {
    ($($(#[$doc:meta])* $std:ty, [$($parameters:tt)*];)*) => {
        $($(#[$doc])*
        impl<K, C, Q $($parameters)*> PartialEq<$std> for Set<'_, K, C>
        where
            K: Key + ?Sized,
            C: Kind,
            Q: Borrow<K>,
        {
            fn eq(&self, other: &$std) -> bool {
                self.len() == other.len() && other.iter().all(|item| self.contains(item.borrow()))
            }
        })*
    };
}

equals_set! {
    /// Returns `true` if both sets have the same number of items, and a lookup finds each item of the
    /// std set. The order is not compared.
    ///
    /// So each item of the archive is found, and they all differ. A set in which an item repeats
    /// equals no std set, and neither does one of an untrusted archive in which a lookup misses an
    /// item.
    HashSet<Q, S>, [, S];

    /// Compares as with a `HashSet`.
    BTreeSet<Q>, [];
}

/// Implements lookups by `[]` for types of which an archive has references.
macro_rules! index {
    ($($type:ty)*) => {
        $(
            /// Returns the value of a key, as [`at`](Map::at) does. Numbers have no `Index`: their bytes
            /// needn't be aligned, so that there is no reference to them.
            ///
            /// # Panics
            /// If the lookup doesn't find the key.
            ///
            /// # Examples
            /// ```
            /// use hodkhaki::Builder;
            ///
            /// # fn main() -> Result<(), hodkhaki::Error> {
            /// let map = Builder::<str, str>::from([("tea", "Tee")]).build()?;
            /// assert_eq!(&map.as_map()["tea"], "Tee");
            /// # Ok(())
            /// # }
            /// ```
            impl<K: Key + ?Sized, C: Kind> Index<&K> for Map<'_, K, $type, C> {
                type Output = $type;

                #[track_caller]
                fn index(&self, key: &K) -> &$type {
                    self.at(key)
                }
            }

            /// Returns the value at an index.
            ///
            /// # Panics
            /// If the index isn't less than the length.
            impl<K: Key + ?Sized> Index<usize> for IndexMap<'_, K, $type> {
                type Output = $type;

                #[track_caller]
                fn index(&self, index: usize) -> &$type {
                    let Some((_, value)) = self.get_index(index) else {
                        panic!("the index is {index}, but the map has {} pairs", self.len());
                    };
                    value
                }
            }
        )*
    };
}

index! { str [u8] }

/// Returns the item at an index.
///
/// # Panics
/// If the index isn't less than the length.
///
/// # Examples
/// ```
/// use hodkhaki::SetBuilder;
///
/// # fn main() -> Result<(), hodkhaki::Error> {
/// let set = SetBuilder::<str>::from(["tea", "cake"]).build_index()?;
/// assert_eq!(&set.as_set()[1], "cake");
/// # Ok(())
/// # }
/// ```
impl Index<usize> for IndexSet<'_, str> {
    type Output = str;

    #[track_caller]
    fn index(&self, index: usize) -> &str {
        let Some(item) = self.get_index(index) else {
            panic!("the index is {index}, but the set has {} items", self.len());
        };
        item
    }
}
