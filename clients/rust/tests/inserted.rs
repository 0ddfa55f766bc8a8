//! Builders into which pairs and items are inserted, beside maps and sets of std.

mod common;

use std::collections::{HashMap, HashSet};
use std::time::Instant;

use common::{random, WIDTHS};
use hodkhaki::{Builder, Key, Number, SetBuilder, Value, Width};

/// The pairs that a builder has, after pairs are inserted and pushed as a model does it.
struct Model<K, V> {
    pairs: Vec<(K, V)>,
}

impl<K: PartialEq, V> Model<K, V> {
    fn insert(&mut self, key: K, value: V) -> Option<V> {
        match self.pairs.iter_mut().find(|pair| pair.0 == key) {
            Some(pair) => Some(std::mem::replace(&mut pair.1, value)),
            None => {
                self.pairs.push((key, value));
                None
            }
        }
    }
}

/// Inserts and pushes random keys and values, and compares the builder, its clone and both of its maps
/// with the model.
fn compare<K, V, Q>(
    key: impl Fn(u64) -> Q,
    value: impl Fn(u64) -> V::Owned,
    as_ref: impl Fn(&V::Owned) -> V::Ref<'_>,
    pushes: u64,
) where
    K: Key + ?Sized,
    V: Value + ?Sized,
    V::Owned: Clone + PartialEq + std::fmt::Debug,
    Q: hodkhaki::AsItem<K> + Clone + PartialEq + std::fmt::Debug,
{
    let mut state = 88_172_645_463_325_252;
    for count in [0, 1, 2, 5, 60, 700] {
        let mut builder = Builder::<K, V>::new();
        let mut model = Model { pairs: Vec::new() };
        for step in 0..count {
            let (key, value) = (key(random(&mut state) % 50), value(random(&mut state)));
            if random(&mut state) % 10 < pushes {
                builder.push(&key, as_ref(&value));
                model.pairs.push((key, value));
            } else {
                let old = builder.insert(&key, as_ref(&value));
                assert_eq!(old, model.insert(key, value));
            }
            assert_eq!(builder.len(), model.pairs.len());
            if step % 100 == 99 {
                builder = builder.clone();
            }
        }
        let mut wanted = Builder::<K, V>::new();
        for (key, value) in &model.pairs {
            wanted.push(key, as_ref(value));
        }
        assert_eq!(format!("{builder:?}"), format!("{wanted:?}"));
        let archive =
            |builder: &Builder<K, V>, width| builder.build_archive(width).unwrap().into_bytes();
        for width in WIDTHS {
            assert_eq!(archive(&builder, width), archive(&wanted, width));
        }
        let index = |builder: &Builder<K, V>| {
            builder
                .build_index_archive(Width::Narrow)
                .unwrap()
                .into_bytes()
        };
        assert_eq!(index(&builder), index(&wanted));
    }
}

/// A text of some length.
fn text(n: u64) -> String {
    "ä日x".repeat(n as usize % 11) + &(n % 1000).to_string()
}

#[test]
fn inserted_and_pushed_pairs_are_those_of_a_model() {
    for pushes in [0, 1, 5] {
        compare::<u32, u64, u32>(|n| n as u32, |n| n, |n| *n, pushes);
        compare::<u64, u32, u64>(|n| n << 40, |n| n as u32, |n| *n, pushes);
        compare::<u32, str, u32>(|n| n as u32, text, |text| text, pushes);
        compare::<str, u64, String>(text, |n| n, |n| *n, pushes);
        compare::<str, str, String>(text, text, |text| text, pushes);
        compare::<i16, i8, i16>(|n| -(n as i16), |n| n as i8, |n| *n, pushes);
        compare::<char, bool, char>(|n| (b'A' + n as u8).into(), |n| n % 3 == 0, |n| *n, pushes);
        compare::<i64, f64, i64>(|n| -(n as i64) << 40, |n| n as f64 / 7.0, |n| *n, pushes);
        let bytes = |n| text(n).into_bytes();
        compare::<u8, [u8], u8>(|n| n as u8, bytes, |bytes| bytes, pushes);
    }
}

/// Inserts the pairs into a builder and into a map of std.
fn compare_with_std<K: Key + ?Sized, V: Number>(pairs: &[(&K, V)]) {
    let mut map = HashMap::new();
    let mut builder = Builder::<K, V>::new();
    for (key, value) in pairs {
        assert_eq!(builder.insert(*key, *value), map.insert(*key, *value));
    }
    assert_eq!(builder.len(), map.len());
    let archive = builder.build_archive(Width::Narrow).unwrap();
    let opened = archive.as_map();
    assert_eq!(opened.len(), map.len());
    assert!(map
        .iter()
        .all(|(key, value)| opened.get(key) == Some(*value)));
}

#[test]
fn builders_insert_as_maps_of_std() {
    let mut state = 3;
    let numbers: Vec<u32> = (0..20_000)
        .map(|_| random(&mut state) as u32 % 9000)
        .collect();
    let texts: Vec<String> = numbers
        .iter()
        .map(|n| text((*n).into()) + &n.to_string())
        .collect();
    let pairs: Vec<_> = numbers.iter().zip(0_u32..).collect();
    compare_with_std(&pairs);
    let pairs: Vec<_> = texts
        .iter()
        .map(String::as_str)
        .zip(1_u64 << 40..)
        .collect();
    compare_with_std(&pairs);
}

#[test]
fn sets_insert_as_sets_of_std() {
    let mut state = 5;
    let (mut set, mut builder) = (HashSet::new(), SetBuilder::<str>::new());
    for n in 0..3000 {
        let item = text(random(&mut state) % 300);
        if n % 7 == 0 {
            builder.push(&item);
            set.insert(item);
        } else {
            assert_eq!(builder.insert(&item), set.insert(item));
        }
    }
    let archive = builder.build_archive(Width::Wide).unwrap();
    let found: HashSet<String> = archive.iter().map(String::from).collect();
    assert_eq!(found, set);
    let mut numbers = SetBuilder::<u64>::new();
    assert!(numbers.insert(1) && numbers.insert(2) && !numbers.insert(1));
    assert_eq!(
        (numbers.len(), format!("{numbers:?}")),
        (2, "{1, 2}".into())
    );
}

/// One key 160,000 times is one pair.
#[test]
fn repeated_keys_cost_nothing() {
    let begin = Instant::now();
    let mut builder = Builder::<str, u64>::new();
    let mut texts = Builder::<u32, str>::new();
    let mut set = SetBuilder::<str>::new();
    let long = "a text that is long enough".repeat(40);
    for n in 0..160_000 {
        builder.insert("key", n);
        texts.insert(7, &long[n as usize % 1000..]);
        set.insert("item");
    }
    let archive = builder.build_archive(Width::Narrow).unwrap();
    assert_eq!(
        (archive.as_map().len(), archive.as_map().get("key")),
        (1, Some(159_999))
    );
    let archive = texts.build_index_archive(Width::Narrow).unwrap();
    assert_eq!(archive.as_map().get_index(0), Some((7, &long[999..])));
    assert_eq!(set.build_archive(Width::Narrow).unwrap().len(), 1);
    println!("{:?}", begin.elapsed());
}

/// Values of which each is longer than the one before, among many that are not replaced.
#[test]
fn texts_are_replaced_among_others() {
    let mut builder: Builder<u32, str> = (0..1000).map(|n| (n, text(n.into()))).collect();
    let long = "äöü日本".repeat(300);
    let ends: Vec<usize> = long.char_indices().map(|(end, _)| end).collect();
    let mut old = text(500);
    for end in ends.iter().chain(ends.iter().rev()) {
        assert_eq!(builder.insert(500, &long[..*end]), Some(old));
        old = long[..*end].into();
    }
    assert_eq!(builder.insert(500, "new"), Some(String::new()));
    let archive = builder.build_archive(Width::Narrow).unwrap();
    for n in 0..1000 {
        let wanted = if n == 500 {
            "new".into()
        } else {
            text(n.into())
        };
        assert_eq!(archive.as_map().get(&n), Some(&*wanted));
    }
}
