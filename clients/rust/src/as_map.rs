//! The methods of those types that have a `Map` by `as_map`.

/// Implements the methods that read by those of `as_map`, for the types of each kind. The parameters of
/// the type are declared in brackets before it, and given in brackets after it.
macro_rules! reads_as_map {
    ([$($declared:tt)*] $name:ident [$($given:tt)*]) => {
        impl<$($declared)*, C: $crate::Kind> $name<$($given)*, C> {
            /// Returns the width of the archive.
            pub fn width(&self) -> $crate::Width {
                self.as_map().width()
            }

            /// Returns the number of pairs. Pairs with equal keys count separately.
            pub fn len(&self) -> usize {
                self.as_map().len()
            }

            /// Returns `true` if the map has no pairs.
            pub fn is_empty(&self) -> bool {
                self.as_map().is_empty()
            }

            /// Returns the value of a key, as [`Map::get`](crate::Map::get) does.
            #[inline]
            pub fn get(&self, key: &K) -> Option<V::Ref<'_>> {
                self.as_map().get(key)
            }

            /// Returns the value of each key, as [`Map::get_many`](crate::Map::get_many) does.
            pub fn get_many<'k>(
                &self,
                keys: impl IntoIterator<Item = &'k K>,
            ) -> Vec<Option<V::Ref<'_>>>
            where
                K: 'k,
            {
                self.as_map().get_many(keys)
            }

            /// Returns the value of a key, as [`Map::at`](crate::Map::at) does.
            ///
            /// # Panics
            /// If the lookup doesn't find the key.
            #[track_caller]
            pub fn at(&self, key: &K) -> V::Ref<'_> {
                self.as_map().at(key)
            }

            /// Returns `true` if a lookup finds the key.
            pub fn contains_key(&self, key: &K) -> bool {
                self.as_map().contains_key(key)
            }

            /// Returns the number of misplaced keys, as
            /// [`Map::misplaced_up_to`](crate::Map::misplaced_up_to) does.
            pub fn misplaced_up_to(&self, limit: u64) -> Option<u64> {
                self.as_map().misplaced_up_to(limit)
            }

            /// Returns an iterator over the pairs, as [`Map::iter`](crate::Map::iter) does.
            pub fn iter(&self) -> $crate::Iter<'_, K, V, C> {
                self.as_map().iter()
            }

            /// Returns an iterator over the keys, in the order of the pairs.
            pub fn keys(&self) -> $crate::Keys<'_, K, V, C> {
                self.as_map().keys()
            }

            /// Returns an iterator over the values, in the order of the pairs.
            pub fn values(&self) -> $crate::Values<'_, K, V, C> {
                self.as_map().values()
            }
        }

        /// The methods of index maps, which are those of [`IndexMap`](crate::IndexMap).
        impl<$($declared)*> $name<$($given)*, $crate::IndexKind> {
            /// Returns the index of a key, or `None` if the lookup doesn't find the key.
            pub fn get_index_of(&self, key: &K) -> Option<usize> {
                self.as_map().get_index_of(key)
            }

            /// Returns the index, the key and the value of a pair, or `None` if the lookup doesn't find
            /// the key.
            pub fn get_full(&self, key: &K) -> Option<(usize, K::Ref<'_>, V::Ref<'_>)> {
                self.as_map().get_full(key)
            }

            /// Returns the key and the value of a pair, or `None` if the lookup doesn't find the key.
            pub fn get_key_value(&self, key: &K) -> Option<(K::Ref<'_>, V::Ref<'_>)> {
                self.as_map().get_key_value(key)
            }

            /// Returns the pair at an index, in insertion order, or `None` if the index isn't less than
            /// the length.
            pub fn get_index(&self, index: usize) -> Option<(K::Ref<'_>, V::Ref<'_>)> {
                self.as_map().get_index(index)
            }

            /// Returns the first pair, or `None` if the map has no pairs.
            pub fn first(&self) -> Option<(K::Ref<'_>, V::Ref<'_>)> {
                self.as_map().first()
            }

            /// Returns the last pair, or `None` if the map has no pairs.
            pub fn last(&self) -> Option<(K::Ref<'_>, V::Ref<'_>)> {
                self.as_map().last()
            }
        }

        impl<'m, $($declared)*, C: $crate::Kind> IntoIterator for &'m $name<$($given)*, C> {
            type Item = (K::Ref<'m>, V::Ref<'m>);
            type IntoIter = $crate::Iter<'m, K, V, C>;

            fn into_iter(self) -> Self::IntoIter {
                self.iter()
            }
        }

        impl<$($declared)*, C: $crate::Kind> std::fmt::Debug for $name<$($given)*, C> {
            fn fmt(&self, f: &mut std::fmt::Formatter<'_>) -> std::fmt::Result {
                self.as_map().fmt(f)
            }
        }
    };
}

pub(crate) use reads_as_map;
