//! Every type of keys with every type of values, in each kind of collection and in both widths, beside
//! collections of std.

mod common;

use std::borrow::Borrow;
use std::collections::HashMap;

use common::{kind_of, sorted, Built, Sample, CHECKSUMS, WIDTHS};
use hodkhaki::{
    container_kind, Builder, Collection, ErrorKind, HashKind, IndexKind, IndexMap, IndexSet, Key,
    Kind, Map, MapBuf, Number, Set, SetBuf, SetBuilder, Value, Width,
};

/// The pairs of a map by their bits, in insertion order, and the keys that it doesn't have.
struct Model<K: ToOwned + ?Sized, V: ToOwned + ?Sized> {
    pairs: Vec<(K::Owned, V::Owned)>,
    absent: Vec<K::Owned>,
}

/// A pair by its bits.
type Bits = (Vec<u8>, Vec<u8>);

fn bits<K: Sample + ?Sized, V: Sample + ?Sized>(key: &K, value: &V) -> Bits {
    (key.bits(), value.bits())
}

impl<K: Key + Sample + ?Sized, V: Value + Sample + ?Sized> Model<K, V> {
    /// The pairs of two thirds of the keys. The first keys repeat at the end, with other values.
    fn new() -> Self {
        let (mut keys, values) = (K::samples(), V::samples());
        assert!(keys.len() > 10 && values.len() > 1);
        let absent = keys.split_off(keys.len() * 2 / 3);
        keys.extend_from_within(..4);
        let mut values = values.into_iter().cycle();
        let mut pairs = Vec::new();
        for key in keys {
            pairs.push((key, values.next().unwrap()));
        }
        Model { pairs, absent }
    }

    fn pairs(&self) -> impl DoubleEndedIterator<Item = (&K, &V)> {
        self.pairs
            .iter()
            .map(|(key, value)| (key.borrow(), value.borrow()))
    }

    fn bits(&self) -> Vec<Bits> {
        self.pairs().map(|(key, value)| bits(key, value)).collect()
    }

    /// The index and the bits of the value of the first pair with each key.
    fn first(&self) -> HashMap<Vec<u8>, (usize, Vec<u8>)> {
        let mut first = HashMap::new();
        for (index, (key, value)) in self.bits().into_iter().enumerate() {
            first.entry(key).or_insert((index, value));
        }
        first
    }

    /// Tests a map of a kind, which is in a container or not.
    fn check<C: Kind>(&self, map: Map<'_, K, V, C>, width: Width) {
        let (length, is_empty) = (self.pairs.len(), self.pairs.is_empty());
        assert_eq!(
            (map.len(), map.is_empty(), map.width()),
            (length, is_empty, width)
        );
        let first = self.first();
        for (key, _) in self.pairs() {
            let found = map.get(key).map(|value| value.borrow().bits());
            assert_eq!(found.as_ref(), Some(&first[&key.bits()].1), "{key:?}");
            assert!(map.contains_key(key) && map.at(key).borrow().bits() == found.unwrap());
        }
        for key in &self.absent {
            assert!(map.get(key.borrow()).is_none() && !map.contains_key(key.borrow()));
        }
        let absent = self.absent.iter().map(|key| key.borrow());
        let keys: Vec<&K> = self.pairs().map(|(key, _)| key).chain(absent).collect();
        let of = |found: Option<V::Ref<'_>>| found.map(|value| value.borrow().bits());
        let several = map.get_many(keys.iter().copied()).into_iter().map(of);
        assert!(several.eq(keys.iter().map(|key| of(map.get(key)))));
        let pairs = map.iter().map(|(k, v)| bits(k.borrow(), v.borrow()));
        assert_eq!(sorted(pairs.clone()), sorted(self.bits()));
        let keys = map.keys().map(|key| key.borrow().bits());
        assert!(keys.eq(pairs.clone().map(|pair| pair.0)));
        let values = map.values().map(|value| value.borrow().bits());
        assert!(values.eq(pairs.map(|pair| pair.1)));
        let repeated = self.pairs.len() - first.len();
        assert_eq!(map.misplaced_up_to(u64::MAX), Some(repeated as u64));
    }

    /// Tests an index map, which is in a container or not.
    fn check_index(&self, map: IndexMap<'_, K, V>, width: Width) {
        self.check(map, width);
        let (first, all) = (self.first(), self.bits());
        for (key, _) in self.pairs() {
            let (index, value) = &first[&key.bits()];
            assert_eq!(map.get_index_of(key), Some(*index));
            let (found, stored, of_found) = map.get_full(key).unwrap();
            assert_eq!((found, stored.borrow()), (*index, key));
            assert_eq!(of_found.borrow().bits(), *value);
            let (stored, of_found) = map.get_key_value(key).unwrap();
            assert_eq!(
                (stored.borrow(), of_found.borrow().bits()),
                (key, value.clone())
            );
        }
        let absent = |key: &K::Owned| {
            let key = key.borrow();
            map.get_full(key).is_none()
                && map.get_index_of(key).is_none()
                && map.get_key_value(key).is_none()
        };
        assert!(self.absent.iter().all(absent) && map.get_index(usize::MAX).is_none());
        let pair = |(key, value): (K::Ref<'_>, V::Ref<'_>)| bits(key.borrow(), value.borrow());
        assert!((0..)
            .map_while(|index| map.get_index(index))
            .map(pair)
            .eq(all.iter().cloned()));
        assert_eq!(map.first().map(pair).as_ref(), all.first());
        assert_eq!(map.last().map(pair).as_ref(), all.last());
        assert!(map.iter().map(pair).eq(all.iter().cloned()));
        assert!(map.iter().rev().map(pair).eq(all.iter().rev().cloned()));
    }

    /// Tests a set of a kind of the keys, which is in a container or not.
    fn check_set<C: Kind>(&self, set: Set<'_, K, C>, width: Width) {
        let (length, is_empty) = (self.pairs.len(), self.pairs.is_empty());
        assert_eq!(
            (set.len(), set.is_empty(), set.width()),
            (length, is_empty, width)
        );
        assert!(self.pairs().all(|(item, _)| set.contains(item)));
        assert!(!self.absent.iter().any(|item| set.contains(item.borrow())));
        let items = set.iter().map(|item| item.borrow().bits());
        assert_eq!(
            sorted(items),
            sorted(self.pairs().map(|(item, _)| item.bits()))
        );
        let repeated = self.pairs.len() - self.first().len();
        assert_eq!(set.misplaced_up_to(u64::MAX), Some(repeated as u64));
    }

    /// Tests an index set of the keys, which is in a container or not.
    fn check_index_set(&self, set: IndexSet<'_, K>, width: Width) {
        self.check_set(set, width);
        let first = self.first();
        let items: Vec<&K> = self.pairs().map(|(item, _)| item).collect();
        for (index, item) in items.iter().enumerate() {
            let wanted = first[&item.bits()].0;
            assert_eq!(set.get_index_of(item), Some(wanted));
            assert_eq!(set.get_full(item).map(|(i, _)| i), Some(wanted));
            assert_eq!(set.get(item).unwrap().borrow(), *item);
            assert_eq!(set.get_index(index).unwrap().borrow(), *item);
        }
        for item in &self.absent {
            let item = item.borrow();
            assert!(set.get_full(item).is_none() && set.get_index_of(item).is_none());
            assert!(set.get(item).is_none());
        }
        assert!(set.get_index(items.len()).is_none());
        let end = |item: Option<K::Ref<'_>>| item.map(|item| item.borrow().bits());
        assert_eq!(end(set.first()), items.first().map(|item| item.bits()));
        assert_eq!(end(set.last()), items.last().map(|item| item.bits()));
        assert!(set.iter().zip(&items).all(|(a, b)| a.borrow() == *b));
        assert!(set
            .iter()
            .rev()
            .zip(items.iter().rev())
            .all(|(a, b)| a.borrow() == *b));
    }
}

/// Tests that a container opens as one of the four collections only, and records its contents.
fn check_container<K: Key + Sample + ?Sized, V: Value + Sample + ?Sized>(
    container: &[u8],
    collection: Collection,
    width: Width,
) {
    let errors = [
        kind_of(Map::<K, V>::open(container)),
        kind_of(Set::<K>::open(container)),
        kind_of(IndexMap::<K, V>::open(container)),
        kind_of(IndexSet::<K>::open(container)),
    ];
    use Collection::{IndexMap as AnIndexMap, IndexSet as AnIndexSet, Map as AMap, Set as ASet};
    let kinds = [AMap, ASet, AnIndexMap, AnIndexSet];
    let wrong = |kind| (kind != collection).then_some(ErrorKind::WrongCollection);
    assert_eq!(errors, kinds.map(wrong));
    let error = kind_of(Map::<K, V>::open_archive(container, width));
    assert_eq!(error, Some(ErrorKind::IsContainer));

    let is_set = matches!(collection, ASet | AnIndexSet);
    let (code, value) = if is_set {
        (1, None)
    } else {
        (V::TYPE, Some(V::ITEM))
    };
    let kind = 1 + kinds.iter().position(|kind| *kind == collection).unwrap() as u8;
    let word = if width == Width::Wide { 8 } else { 4 };
    assert_eq!(container[10..14], [kind, K::TYPE, code, word]);
    let found = container_kind(container).unwrap();
    let found = (found.collection, found.key, found.value, found.width);
    assert_eq!(found, (collection, K::ITEM, value, width));
}

/// Tests the map of a kind, in containers and without.
fn test_map<K: Key + Sample + ?Sized, V: Value + Sample + ?Sized, C: Built>(
    model: &Model<K, V>,
    collection: Collection,
    check: impl Fn(&Model<K, V>, Map<'_, K, V, C>, Width),
) {
    let builder: Builder<K, V> = model.pairs().collect();
    for width in WIDTHS {
        let archive = C::map(&builder, width, None);
        let opened = MapBuf::open_archive(archive.as_bytes(), width).unwrap();
        check(model, opened.as_map(), width);
        for checksum in CHECKSUMS {
            let map = C::map(&builder, width, Some(checksum));
            check(model, map.as_map(), width);
            check(model, Map::open(map.as_bytes()).unwrap(), width);
            check_container::<K, V>(map.as_bytes(), collection, width);
            assert_eq!(archive.to_container(checksum), map.as_bytes());
            assert_eq!(map.as_archive(), archive.as_bytes());
        }
    }
}

/// Tests the set of a kind, in containers and without.
fn test_set<K: Key + Sample + ?Sized, C: Built>(
    model: &Model<K, u8>,
    collection: Collection,
    check: impl Fn(&Model<K, u8>, Set<'_, K, C>, Width),
) {
    let mut builder = SetBuilder::<K>::new();
    model.pairs().for_each(|(item, _)| builder.push(item));
    for width in WIDTHS {
        let archive = C::set(&builder, width, None);
        let opened = SetBuf::open_archive(archive.as_bytes(), width).unwrap();
        check(model, opened.as_set(), width);
        for checksum in CHECKSUMS {
            let set = C::set(&builder, width, Some(checksum));
            check(model, set.as_set(), width);
            check(model, Set::open(set.as_bytes()).unwrap(), width);
            check_container::<K, u8>(set.as_bytes(), collection, width);
            assert_eq!(archive.to_container(checksum), set.as_bytes());
        }
    }
}

/// Writes each value of a type in place, in a container and in an archive.
fn test_writing<K: Key + Sample + ?Sized, V: Number + Sample>() {
    let model = Model::<K, V>::new();
    let builder: Builder<K, V> = model.pairs().collect();
    for width in WIDTHS {
        let mut map = builder.build_with(width, CHECKSUMS[1]).unwrap();
        let mut index_map = builder.build_index_archive(width).unwrap();
        let (first, absent) = (model.pairs[0].0.borrow(), model.absent[0].borrow());
        for value in V::samples() {
            assert!(map.as_map_mut().set(first, value) && !map.as_map_mut().set(absent, value));
            assert_eq!(map.at(first).bits(), value.bits());
            assert_eq!(
                Map::<K, V>::open(map.as_bytes()).unwrap().at(first).bits(),
                value.bits()
            );
            assert!(index_map.as_map_mut().set(first, value));
            assert!(!index_map.as_map_mut().set(absent, value));
            assert_eq!(index_map.get_index(0).unwrap().1.bits(), value.bits());
        }
        // The other pairs are unchanged.
        let value = V::samples().pop().unwrap();
        let wanted = model.pairs().skip(1).map(|(key, value)| bits(key, value));
        let mut wanted: Vec<Bits> = [bits(first, &value)].into_iter().chain(wanted).collect();
        let pair = |(key, value): (K::Ref<'_>, V)| bits(key.borrow(), &value);
        assert!(index_map.iter().map(pair).eq(wanted.iter().cloned()));
        wanted.sort();
        assert_eq!(sorted(map.iter().map(pair)), wanted);
    }
}

/// Tests the maps of each kind with these pairs.
fn test_maps<K: Key + Sample + ?Sized, V: Value + Sample + ?Sized>(model: &Model<K, V>) {
    test_map::<K, V, HashKind>(model, Collection::Map, Model::check);
    test_map::<K, V, IndexKind>(model, Collection::IndexMap, Model::check_index);
}

/// Tests the sets of each kind with these items.
fn test_sets<K: Key + Sample + ?Sized>(model: &Model<K, u8>) {
    test_set::<K, HashKind>(model, Collection::Set, Model::check_set);
    test_set::<K, IndexKind>(model, Collection::IndexSet, Model::check_index_set);
}

/// The results of an expression for each type of numbers, or of values, by a name.
macro_rules! each {
    (number $name:ident: $result:expr) => {
        each!($name: $result; u8 u16 u32 u64 i8 i16 i32 i64 f32 f64)
    };
    (value $name:ident: $result:expr) => {
        each!($name: $result; u8 u16 u32 u64 i8 i16 i32 i64 f32 f64 bool char str [u8])
    };
    ($name:ident: $result:expr; $($type:ty)*) => {
        [$({
            type $name = $type;
            $result
        }),*]
    };
}

/// Tests all collections with keys of a type, and writes the values that are numbers.
fn test_keys<K: Key + Sample + ?Sized>() {
    each!(value V: test_maps::<K, V>(&Model::new()));
    each!(number V: test_writing::<K, V>());
    test_sets::<K>(&Model::new());
}

macro_rules! tests {
    ($($name:ident: $type:ty,)*) => {
        $(#[test]
        fn $name() {
            test_keys::<$type>();
        })*
    };
}

tests! {
    keys_are_u8: u8,
    keys_are_u16: u16,
    keys_are_u32: u32,
    keys_are_u64: u64,
    keys_are_i8: i8,
    keys_are_i16: i16,
    keys_are_i32: i32,
    keys_are_i64: i64,
    keys_are_char: char,
    keys_are_str: str,
}

/// The number of types of values as which a container isn't opened. It has keys of type `u32`.
fn wrong_types<V: Value + Sample + ?Sized, C: Kind>(container: &[u8]) -> usize {
    let keys = [
        kind_of(Map::<u32, V, C>::open(container)),
        kind_of(Map::<i32, V, C>::open(container)),
        kind_of(Map::<char, V, C>::open(container)),
    ];
    let wrong = Some(ErrorKind::WrongKeyType);
    assert_eq!(keys, [None, wrong, wrong]);
    let values = each!(value W: kind_of(Map::<u32, W, C>::open(container)));
    let errors: Vec<_> = values.into_iter().flatten().collect();
    assert!(errors
        .iter()
        .all(|error| *error == ErrorKind::WrongValueType));
    errors.len()
}

/// A container of one type never opens as another, though both may have the same size.
#[test]
fn containers_of_each_type_open_as_it_alone() {
    fn wrong<V: Value + Sample + ?Sized>() -> usize {
        let values = V::samples();
        let builder: Builder<u32, V> = (0..).zip(values.iter().map(Borrow::borrow)).collect();
        let (map, index_map) = (builder.build().unwrap(), builder.build_index().unwrap());
        let wrong = wrong_types::<V, HashKind>(map.as_bytes());
        assert_eq!(wrong_types::<V, IndexKind>(index_map.as_bytes()), wrong);
        wrong
    }
    assert_eq!(each!(value V: wrong::<V>()), [13; 14]);
}

/// Maps and sets of pairs whose keys repeat, of lengths at which a stride or a group is full.
#[test]
fn collections_of_each_length_are_those_of_std() {
    fn test<K: Key + Sample + ?Sized>(keys: &[K::Owned], absent: &[K::Owned])
    where
        K::Owned: Clone,
    {
        let absent = absent.to_vec();
        let pairs = keys.iter().cloned().zip(1_u64 << 50..).collect();
        test_maps::<K, u64>(&Model {
            pairs,
            absent: absent.clone(),
        });
        let pairs = keys.iter().cloned().zip(-2_i32..).collect();
        test_maps::<K, i32>(&Model {
            pairs,
            absent: absent.clone(),
        });
        let pairs = keys.iter().map(|key| (key.clone(), 0)).collect();
        test_sets::<K>(&Model { pairs, absent });
    }
    for count in [0, 1, 2, 3, 6, 7, 8, 14, 15, 16, 50, 100, 3000] {
        let numbers: Vec<u32> = (0..count)
            .map(|n: u32| n.wrapping_mul(2_654_435_761) % 4000)
            .collect();
        test::<u32>(&numbers, &[4000, u32::MAX]);
        let texts: Vec<_> = numbers
            .iter()
            .map(|n| format!("{n}ö").repeat(*n as usize % 9))
            .collect();
        test::<str>(
            &texts,
            &["ö".into(), "?".into(), "a text that is out of line".into()],
        );
    }
}
