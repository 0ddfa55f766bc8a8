//! Comparisons with maps and sets of std, and lookups by `[]`.

mod common;

use std::collections::{BTreeMap, BTreeSet, HashMap, HashSet};
use std::panic::catch_unwind;

use common::{text, WIDTHS};
use hodkhaki::{Builder, Map, SetBuilder, Width};

/// Compares the maps of a std map with it, and with those that differ in one pair.
fn compare(map: &HashMap<String, u64>, width: Width) {
    let mut builder = Builder::from(map);
    let (archive, index_archive) = (
        builder.build_archive(width).unwrap(),
        builder.build_index_archive(width).unwrap(),
    );
    let (opened, index_map) = (archive.as_map(), index_archive.as_map());
    let sorted: BTreeMap<&str, &u64> = map.iter().map(|(key, value)| (&**key, value)).collect();
    assert_eq!(opened, *map);
    assert_eq!(opened, sorted);
    assert_eq!(index_map, *map);
    assert_eq!(index_map, sorted);

    let mut longer = map.clone();
    longer.insert("another".into(), 1);
    assert!(opened != longer && index_map != longer);
    for key in map.keys().take(3) {
        let mut other = map.clone();
        *other.get_mut(key).unwrap() += 1;
        assert!(opened != other && index_map != other);
        let value = other.remove(key).unwrap() - 1;
        assert!(opened != other && index_map != other);
        other.insert(key.clone() + ".", value);
        assert!(opened != other && index_map != other);
        let other: BTreeMap<String, u64> = other.into_iter().collect();
        assert!(opened != other && index_map != other);
    }

    // A key that repeats.
    if let Some((key, value)) = map.iter().next() {
        builder.push(key, *value);
        let (archive, index_archive) = (
            builder.build_archive(width).unwrap(),
            builder.build_index_archive(width).unwrap(),
        );
        assert!(archive.as_map() != *map && archive.as_map() != longer);
        assert!(index_archive.as_map() != *map && index_archive.as_map() != longer);
    }
}

#[test]
fn maps_equal_those_of_std() {
    for width in WIDTHS {
        for count in [0, 1, 2, 8, 100, 1000] {
            compare(&(0..count).map(|n| (text(n), n << 33)).collect(), width);
        }
        let names = BTreeMap::from([(7_u32, "tea"), (8, "cake")]);
        let archive = Builder::from(&names).build_archive(width).unwrap();
        assert_eq!(archive.as_map(), names);
        assert_eq!(archive.as_map(), HashMap::from([(7, "tea"), (8, "cake")]));
        assert_ne!(archive.as_map(), HashMap::from([(7, "cake"), (8, "tea")]));
        let owned = HashMap::from([(7, String::from("tea")), (8, String::from("cake"))]);
        assert_eq!(archive.as_map(), owned);

        let bytes = HashMap::from([('a', vec![0xff, 0]), ('ä', Vec::new())]);
        let map = Builder::from(&bytes).build_index_archive(width).unwrap();
        assert_eq!(map.as_map(), bytes);
        assert_ne!(
            map.as_map(),
            HashMap::from([('a', [0xff, 0]), ('ä', [0, 0])])
        );
        // A NaN equals no value.
        let numbers = BTreeMap::from([(-1_i8, 0.5_f32), (1, f32::NAN)]);
        let map = Builder::from(&numbers).build_archive(width).unwrap();
        assert!(map.as_map() != numbers && map.as_map() != BTreeMap::from([(-1, 0.5), (1, 0.5)]));
        let map = Builder::<i8, f32>::from([(-1, -0.0)])
            .build_archive(width)
            .unwrap();
        assert_eq!(map.as_map(), BTreeMap::from([(-1, 0.0)]));
    }
}

#[test]
fn sets_equal_those_of_std() {
    for width in WIDTHS {
        for count in [0, 1, 2, 8, 100, 1000] {
            let set: HashSet<String> = (0..count).map(text).collect();
            let mut builder = SetBuilder::from(&set);
            let archive = builder.build_archive(width).unwrap();
            let sorted: BTreeSet<&str> = set.iter().map(String::as_str).collect();
            let index_set = builder.build_index_archive(width).unwrap();
            assert_eq!(archive.as_set(), set);
            assert_eq!(archive.as_set(), sorted);
            assert_eq!(index_set.as_set(), set);
            assert_eq!(index_set.as_set(), sorted);
            let mut other = set.clone();
            other.insert("another".into());
            assert!(archive.as_set() != other && index_set.as_set() != other);
            if let Some(item) = set.iter().next() {
                other.remove(item);
                assert_ne!(archive.as_set(), other);
                builder.push(item);
                assert_ne!(builder.build_archive(width).unwrap().as_set(), set);
            }
        }
        let archive = SetBuilder::<u64>::from([1 << 40, 2])
            .build_archive(width)
            .unwrap();
        assert_eq!(archive.as_set(), BTreeSet::from([2, 1 << 40]));
        assert_ne!(archive.as_set(), BTreeSet::from([2, 1 << 41]));
    }
}

/// A map that an iterator shows, but in which a lookup misses its key.
#[test]
fn a_map_whose_key_is_not_found_equals_none() {
    let pairs = HashMap::from([(1_u32, 2_u32)]);
    let mut bytes = Vec::from(Builder::from(&pairs).build_archive(Width::Narrow).unwrap());
    let opened = Map::<u32, u32>::open_archive(&bytes, Width::Narrow).unwrap();
    assert_eq!(opened, pairs);
    let hashes = bytes.iter_mut().filter(|byte| **byte == 0x28);
    assert_eq!(hashes.map(|byte| *byte = 0x29).count(), 2);
    let opened = Map::<u32, u32>::open_archive(&bytes, Width::Narrow).unwrap();
    assert!(opened.iter().eq([(1, 2)]) && opened.get(&1).is_none());
    assert_ne!(opened, pairs);
    assert_ne!(opened, HashMap::<u32, u32>::new());
}

#[test]
fn texts_are_indexed() {
    for width in WIDTHS {
        let builder = Builder::<str, str>::from([("tea", "Tee"), ("cake", "a long text")]);
        let archive = builder.build_archive(width).unwrap();
        let index_archive = builder.build_index_archive(width).unwrap();
        let (map, index_map) = (archive.as_map(), index_archive.as_map());
        assert_eq!((&map["tea"], &map["cake"]), ("Tee", "a long text"));
        assert_eq!(
            (&index_map["tea"], &index_map["cake"]),
            ("Tee", "a long text")
        );
        assert_eq!((&index_map[0], &index_map[1]), ("Tee", "a long text"));
        assert_eq!(map[&String::from("tea")].len(), 3);

        let message = |panic: Box<dyn std::any::Any + Send>| *panic.downcast::<String>().unwrap();
        let panic = catch_unwind(|| map["coffee"].len()).unwrap_err();
        assert_eq!(message(panic), "no entry found for key \"coffee\"");
        let panic = catch_unwind(|| index_map["coffee"].len()).unwrap_err();
        assert_eq!(message(panic), "no entry found for key \"coffee\"");
        let panic = catch_unwind(|| index_map[2].len()).unwrap_err();
        assert_eq!(message(panic), "the index is 2, but the map has 2 pairs");

        let numbers = Builder::<u64, str>::from([(7, "tea")]);
        let archive = numbers.build_archive(width).unwrap();
        let index_archive = numbers.build_index_archive(width).unwrap();
        assert_eq!(
            (&archive.as_map()[&7], &index_archive.as_map()[&7]),
            ("tea", "tea")
        );
        assert!(catch_unwind(|| archive.as_map()[&8].len()).is_err());
        let bytes = Builder::<char, [u8]>::from([('a', b"a")])
            .build_index_archive(width)
            .unwrap();
        assert_eq!(
            (&bytes.as_map()[&'a'], &bytes.as_map()[0]),
            (&b"a"[..], &b"a"[..])
        );
    }
}
