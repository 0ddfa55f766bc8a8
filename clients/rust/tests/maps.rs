//! Maps and index maps: their methods, their builders, their iterators, and code that is generic over
//! them.

mod common;

use std::borrow::Borrow;
use std::collections::HashSet;
use std::iter::FusedIterator;
use std::panic::{catch_unwind, AssertUnwindSafe, RefUnwindSafe, UnwindSafe};

use common::kind_of;
use hodkhaki::{
    index_map, AsItem, Builder, Checksum, Error, ErrorKind, HashKind, IndexKind, IndexMap,
    IndexMapBuf, IndexMapMut, Iter, Key, Keys, Kind, Map, MapBuf, MapMut, Number, Value, Values,
    Width,
};

/// The pairs 1 and 2, 5 and 6, and 1 and 9.
const PAIRS: [(u32, u32); 3] = [(1, 2), (5, 6), (1, 9)];

#[test]
fn empty_maps_have_no_pairs() {
    let mut map = Builder::<u32, u32>::new().build_index().unwrap();
    let map = map.as_map_mut();
    assert_eq!(
        (map.get(&1), map.first(), map.last(), map.iter().next()),
        (None, None, None, None)
    );
}

#[test]
fn values_are_written_in_place() {
    let builder = Builder::<u32, u32>::from(PAIRS);
    let mut bytes = builder.build_archive(Width::Wide).unwrap().into_bytes();
    let mut map = MapMut::<u32, u32>::open_archive(&mut bytes, Width::Wide).unwrap();
    assert_eq!((map.set(&5, u32::MAX), map.set(&2, 3)), (true, false));
    assert_eq!(
        (map.get(&5), map.as_map().get(&5)),
        (Some(u32::MAX), Some(u32::MAX))
    );
    assert_eq!(
        (map.len(), map.is_empty(), map.width()),
        (3, false, Width::Wide)
    );
    assert!(map.contains_key(&5) && !map.contains_key(&2) && map.at(&1) == 2);
    assert!(map.iter().eq(&map) && map.keys().zip(map.values()).eq(&map));
    assert_eq!(format!("{map:?}"), format!("{:?}", map.as_map()));
    let map = Map::from(map);
    assert_eq!((map.get(&1), map.get(&5)), (Some(2), Some(u32::MAX)));
    let map = Map::<u32, u32>::open_archive(&bytes, Width::Wide).unwrap();
    assert_eq!(map.get(&5), Some(u32::MAX));

    let mut owned = builder.build_index().unwrap();
    let mut map: IndexMapMut<u32, u32> = owned.as_map_mut();
    assert_eq!((map.set(&1, u32::MAX), map.set(&2, 3)), (true, false));
    assert_eq!((map.get(&1), map.at(&5)), (Some(u32::MAX), 6));
    assert_eq!(map.get_full(&1), Some((0, 1, u32::MAX)));
    assert_eq!(
        (map.get_key_value(&5), map.get_key_value(&2)),
        (Some((5, 6)), None)
    );
    assert_eq!(
        (map.first(), map.last()),
        (Some((1, u32::MAX)), Some((1, 9)))
    );
    assert_eq!(
        (map.get_index_of(&5), map.get_index(2)),
        (Some(1), Some((1, 9)))
    );
    assert!(map.iter().eq(&map) && map.iter().eq([(1, u32::MAX), (5, 6), (1, 9)]));
    assert!(map.keys().eq([1, 5, 1]) && map.values().eq([u32::MAX, 6, 9]));
    assert_eq!(format!("{map:?}"), "{1: 4294967295, 5: 6, 1: 9}");
    let map = IndexMap::from(map);
    assert_eq!(
        (map.first(), map.last()),
        (Some((1, u32::MAX)), Some((1, 9)))
    );
    assert_eq!(owned.get(&1), Some(u32::MAX));
}

/// Compares iterators over as many pairs with those of a vector, from both sides.
#[test]
fn iterators_of_index_maps_are_those_of_vectors() {
    for count in [0, 1, 15, 16, 17, 33, 100] {
        let pairs: Vec<_> = (0..count).map(|n| (3 * n, u64::from(n) << 33)).collect();
        let owned = Builder::<u32, u64>::from(&pairs)
            .build_index_archive(Width::Wide)
            .unwrap();
        let map = owned.as_map();
        assert!(map.iter().eq(pairs.iter().copied()));
        assert!(map.iter().rev().eq(pairs.iter().copied().rev()));
        for n in 0..pairs.len() + 2 {
            let (mut iter, mut wanted) = (map.iter(), pairs.iter().copied());
            for step in 0..4 {
                let skipped = [n, 0, n / 2, 1][step];
                assert_eq!(iter.nth(skipped), wanted.nth(skipped));
                assert_eq!(iter.next_back(), wanted.next_back());
                assert_eq!(
                    (iter.len(), iter.clone().count()),
                    (wanted.len(), wanted.len())
                );
                let folded = iter.clone().fold(Vec::new(), |mut pairs, pair| {
                    pairs.push(pair);
                    pairs
                });
                assert!(wanted.clone().eq(folded) && iter.clone().rev().eq(wanted.clone().rev()));
            }
            assert!(iter.eq(wanted));
        }
        let (keys, values) = (map.keys(), map.values());
        assert!(keys.rev().eq(pairs.iter().rev().map(|pair| pair.0)));
        assert!(values.rev().eq(pairs.iter().rev().map(|pair| pair.1)));
    }
    let owned = Builder::<u32, u32>::from(PAIRS).build_index().unwrap();
    let map = owned.as_map();
    let mut iter = map.iter();
    assert_eq!(
        (iter.next_back(), iter.next(), iter.next()),
        (Some((1, 9)), Some((1, 2)), Some((5, 6)))
    );
    assert_eq!(
        (iter.next(), iter.next_back(), iter.next()),
        (None, None, None)
    );
    assert_eq!((map.keys().nth(1), map.values().nth(2)), (Some(5), Some(9)));
    let shown = format!("{:?} {:?} {:?}", map.iter(), map.keys(), map.values());
    assert_eq!(shown, "[(1, 2), (5, 6), (1, 9)] [1, 5, 1] [2, 6, 9]");
}

#[test]
fn iterators_of_maps_return_the_pairs_that_remain() {
    let pairs = || (0..40_u32).map(|n| (n, u64::from(n) << 33));
    let owned = pairs()
        .collect::<Builder<u32, u64>>()
        .build_archive(Width::Wide)
        .unwrap();
    let map = owned.as_map();
    let all: Vec<_> = map.iter().collect();
    for taken in [0, 1, 15, 16, 17, 39, 40] {
        let mut iter = map.iter();
        let before: Vec<_> = iter.by_ref().take(taken).collect();
        assert_eq!((iter.len(), iter.clone().count()), (40 - taken, 40 - taken));
        assert_eq!(map.iter().nth(taken), all.get(taken).copied());
        let folded = iter.fold(before, |mut pairs, pair| {
            pairs.push(pair);
            pairs
        });
        assert_eq!(folded, all);
    }
    assert!(common::sorted(all).into_iter().eq(pairs()));
    let mut iter = map.iter();
    assert_eq!(
        (iter.by_ref().count(), iter.len(), iter.next(), iter.next()),
        (40, 0, None, None)
    );
    assert_eq!((map.keys().len(), map.values().len()), (40, 40));
    assert_eq!(
        (map.keys().sum::<u32>(), map.values().sum::<u64>()),
        (780, 780 << 33)
    );
    assert!(map.keys().zip(map.values()).eq(&map) && map.into_iter().eq(&map));
}

#[test]
fn maps_are_shown_as_maps() {
    let owned = Builder::<str, u32>::from([("a", 1)]).build().unwrap();
    let map = owned.as_map();
    let (iter, keys, values) = (map.iter(), map.keys(), map.values());
    let shown = format!("{owned:?} {map:?} {iter:?} {keys:?} {values:?}");
    assert_eq!(shown, r#"{"a": 1} {"a": 1} [("a", 1)] ["a"] [1]"#);
    let owned = Builder::<u32, u32>::from(PAIRS).build_index().unwrap();
    let map = owned.as_map();
    assert_eq!(format!("{map:?}"), "{1: 2, 5: 6, 1: 9}");
    assert!(map.iter().eq(PAIRS) && map.into_iter().eq(&map));
    assert!(map.keys().eq([1, 5, 1]) && map.values().eq([2, 6, 9]));
}

#[test]
fn an_absent_key_panics_with_a_text() {
    let builder = Builder::<u32, u32>::from(PAIRS);
    let (map, index_map) = (builder.build().unwrap(), builder.build_index().unwrap());
    assert_eq!((map.at(&1), index_map.at(&1)), (2, 2));
    let panics = [
        catch_unwind(|| map.at(&3)),
        catch_unwind(|| index_map.at(&3)),
    ];
    for panic in panics.map(Result::unwrap_err) {
        let text = panic.downcast_ref::<String>().unwrap();
        assert_eq!(text, "no entry found for key 3");
    }
}

#[test]
fn errors_display_sentences() {
    use ErrorKind::*;
    #[rustfmt::skip]
    let errors = [
        OutOfRange, Unaligned, InvalidLength, WrongNumberOfElements, UnwrappedControlByte,
        PlaceOutOfRange, InvalidValue, IsContainer, NoMemory, CapacityTooLarge, PositionTooLarge,
        DistanceTooLarge, TextTooLong, ContainerTooShort, WrongMagic, UnsupportedVersion,
        UnknownCollection, UnknownKeyType, UnknownValueType, UnknownWidth, UnknownFlags,
        UnexpectedChecksum, NonzeroReserved, WrongCollection, WrongKeyType, WrongValueType,
        WrongWidth, WrongLength, WrongChecksum, UnsupportedKind,
    ];
    let mut texts = HashSet::from([Status(99).to_string()]);
    for error in errors {
        let text = error.to_string();
        assert!(
            text.contains(' ') && !text.contains(&format!("{error:?}")),
            "{text}"
        );
        assert!(texts.insert(text));
    }
    let boxed: Box<dyn std::error::Error + Send + Sync> = Error::from(ErrorKind::Unaligned).into();
    assert_eq!(
        boxed.to_string(),
        "the map or a part of it is not at a multiple of its alignment"
    );
    assert_eq!(Error::from(ErrorKind::NoMemory).numbers(), None);
}

#[test]
fn builders_keep_their_pairs() {
    let mut builder = Builder::<u32, u32>::with_capacity(3);
    assert!(builder.is_empty() && builder.capacity() >= 3);
    assert!(Builder::<str, u64>::with_capacity(30).capacity() >= 30);
    builder.reserve(30);
    assert!(builder.is_empty() && builder.capacity() >= 30);
    let empty = builder.build().unwrap();
    builder.push(1, 2);
    let map = builder.build().unwrap();
    builder.extend([(1, 3), (4, 5)]);
    let longer = builder.clone().build().unwrap();
    assert_eq!(
        (builder.len(), format!("{builder:?}")),
        (3, "{1: 2, 1: 3, 4: 5}".into())
    );
    drop(builder);
    assert_eq!((empty.len(), map.len(), map.get(&1)), (0, 1, Some(2)));
    assert_eq!(
        (longer.len(), longer.get(&1), longer.get(&4)),
        (3, Some(2), Some(5))
    );

    let mut builder = Builder::<str, str>::with_capacity(3);
    assert!(builder.capacity() >= 3);
    builder.push("a", "b");
    builder.extend([(String::from("c"), String::from("d"))]);
    builder.extend([("e", String::from("f"))]);
    assert_eq!(format!("{builder:?}"), r#"{"a": "b", "c": "d", "e": "f"}"#);
    assert_eq!(format!("{:?}", builder.clone()), format!("{builder:?}"));
    assert_eq!(builder.build().unwrap().get("e"), Some("f"));
    assert!(Builder::<u32, str>::default().is_empty());
}

#[test]
fn built_maps_own_their_bytes() {
    let builder = Builder::<u32, u32>::from(PAIRS);
    let (width, checksum) = (Width::default(), Checksum::default());
    let archive = builder.build_archive(width).unwrap();
    assert_eq!(
        (archive.as_bytes(), archive.as_ref()),
        (archive.as_archive(), archive.as_archive())
    );
    let map = builder.build().unwrap();
    assert_eq!(
        map.as_bytes(),
        builder.build_with(width, checksum).unwrap().as_bytes()
    );
    assert_eq!(Vec::from(map.clone()), map.into_bytes());
    let map = builder.build_index().unwrap();
    assert_eq!(
        map.as_bytes(),
        builder
            .build_index_with(width, checksum)
            .unwrap()
            .as_bytes()
    );
}

/// A number that panics if it is borrowed and is 0.
struct NotZero(u32);

impl AsItem<u32> for NotZero {
    fn as_item(&self) -> &u32 {
        assert_ne!(self.0, 0);
        &self.0
    }
}

#[test]
fn a_pair_that_panics_is_not_appended() {
    let pairs = |key, value| [(1, 2), (key, value), (5, 6)].map(|(k, v)| (NotZero(k), NotZero(v)));
    for (key, value) in [(0, 4), (3, 0)] {
        let mut builder = Builder::<u32, u32>::new();
        let extended = catch_unwind(AssertUnwindSafe(|| builder.extend(pairs(key, value))));
        assert!(extended.is_err());
        builder.push(7, 8);
        assert_eq!(
            (builder.len(), format!("{builder:?}")),
            (2, "{1: 2, 7: 8}".into())
        );
    }
}

#[test]
fn several_keys_have_the_values_that_each_has() {
    let pairs = (0..300).map(|key| (key * 3, key));
    let builder: Builder<u32, u32> = pairs.collect();
    let (map, index_map) = (builder.build().unwrap(), builder.build_index().unwrap());
    for count in [0, 1, 2, 63, 64, 65, 127, 128, 129, 900] {
        let keys: Vec<u32> = (0..count).rev().collect();
        let wanted: Vec<_> = keys
            .iter()
            .map(|key| (key % 3 == 0).then_some(key / 3))
            .collect();
        assert_eq!(map.get_many(&keys), wanted);
        assert_eq!(index_map.get_many(&keys), wanted);
        assert_eq!(map.as_map().get_many(keys.iter().filter(|_| true)), wanted);
    }
    let texts = Builder::<str, str>::from([("tea", "Tee"), ("cake", "Kuchen"), ("tea", "Thee")]);
    let texts = texts.build().unwrap();
    let words = ["cake", "", "tea", "cake"].map(String::from);
    assert_eq!(
        texts.get_many(words.iter().map(String::as_str)),
        [Some("Kuchen"), None, Some("Tee"), Some("Kuchen")]
    );
}

/// The sum of the values of a map of either kind, each found by its key.
fn total<K: Key + ?Sized, V: Number + Into<u64>, C: Kind>(map: Map<'_, K, V, C>) -> u64 {
    let values = map.keys().map(|key| map.at(key.borrow()));
    values.map(Into::into).sum()
}

/// The sum of the values of the maps of a list of pairs.
fn built_total<K: Key + ?Sized, V: Number + Into<u64>>(pairs: &[(&K, V)]) -> u64 {
    let builder: Builder<K, V> = pairs.iter().copied().collect();
    let (map, index_map) = (builder.build().unwrap(), builder.build_index().unwrap());
    assert_eq!(total(map.as_map()), total(index_map.as_map()));
    total(map.as_map())
}

/// Code over any type of values.
fn shown<K: Key + ?Sized, V: Value + ?Sized, C: Kind>(map: Map<'_, K, V, C>) -> String {
    map.iter()
        .map(|(key, value)| format!("{key}={value:?};"))
        .collect()
}

/// The values of a map, which outlive the map itself.
fn texts_of<'a, K: Key + ?Sized, C: Kind>(map: Map<'a, K, str, C>) -> Vec<&'a str> {
    map.values().collect()
}

#[test]
fn functions_are_generic_over_keys_values_and_kinds() {
    assert_eq!(built_total::<u32, u32>(&[(&1, 10), (&2, 20)]), 30);
    assert_eq!(
        built_total::<u32, u64>(&[(&1, 10), (&2, 1 << 40)]),
        10 + (1 << 40)
    );
    assert_eq!(
        built_total::<str, u8>(&[("one", 10), ("a longer text than fits", 20)]),
        30
    );
    assert_eq!(built_total::<str, u64>(&[]), 0);
    let words = Builder::<u64, str>::from([(7, "tea")]);
    let (map, index_map) = (words.build().unwrap(), words.build_index().unwrap());
    assert_eq!(
        (texts_of(map.as_map()), texts_of(index_map.as_map())),
        (vec!["tea"], vec!["tea"])
    );
    assert_eq!(shown(map.as_map()), r#"7="tea";"#);
    let bytes = Builder::<char, [u8]>::from([('a', b"b")])
        .build_index()
        .unwrap();
    assert_eq!(shown(bytes.as_map()), "a=[98];");
}

/// An archive of one type may be valid as another.
#[test]
fn types_are_not_recorded_without_a_container() {
    let archive = Builder::<str, u64>::from([("main", 0x1139)])
        .build_archive(Width::Narrow)
        .unwrap();
    let other = Map::<u32, u32>::open_archive(archive.as_ref(), Width::Narrow).unwrap();
    assert_eq!((other.len(), other.iter().count()), (1, 1));
    let empty = Builder::<u32, u32>::new()
        .build_archive(Width::Wide)
        .unwrap();
    assert!(Map::<str, u64>::open_archive(empty.as_ref(), Width::Wide).is_ok());
    let container = Builder::<str, u64>::from([("main", 0x1139)])
        .build()
        .unwrap();
    let error = kind_of(Map::<u32, u32>::open_archive(
        container.as_ref(),
        Width::Narrow,
    ));
    assert_eq!(error, Some(ErrorKind::IsContainer));
}

#[test]
fn results_outlive_the_handle() -> Result<(), Error> {
    let owned = Builder::<str, u32>::from([("one", 1)]).build_index()?;
    let (key, pair) = {
        let map = IndexMap::<str, u32>::open(owned.as_bytes())?;
        (map.keys().next(), map.get_full("one"))
    };
    assert_eq!((key, pair), (Some("one"), Some((0, "one", 1))));
    Ok(())
}

/// The auto traits hold in generic code, whose bounds are those of the traits alone.
#[allow(dead_code)]
const fn generic<K: Key + ?Sized, V: Number, C: Kind>() {
    const fn is_safe<T: Send + Sync + UnwindSafe + RefUnwindSafe>() {}
    is_safe::<Map<'static, K, V, C>>();
    is_safe::<Iter<'static, K, V, C>>();
    is_safe::<Keys<'static, K, V, C>>();
    is_safe::<MapBuf<K, V, Vec<u8>, C>>();
}

/// Asserted at compile time.
const _: () = {
    const fn is_shared<T: Send + Sync>() {}
    const fn is_copy<T: Copy>() {}
    const fn is_fused<T: ExactSizeIterator + FusedIterator + Clone>() {}
    const fn has_two_ends<T: ExactSizeIterator + DoubleEndedIterator + FusedIterator + Clone>() {}
    const fn is_error<T: std::error::Error + Send + Sync + 'static>() {}
    is_error::<Error>();
    is_copy::<Map<'static, u32, u64>>();
    is_copy::<IndexMap<'static, str, [u8]>>();
    is_shared::<Map<'static, str, str>>();
    is_shared::<MapMut<'static, str, u64>>();
    is_shared::<IndexMapMut<'static, u64, u32>>();
    is_shared::<Iter<'static, str, str>>();
    is_shared::<Values<'static, str, u64, IndexKind>>();
    is_shared::<Builder<str, [u8]>>();
    is_shared::<IndexMapBuf<str, u64>>();
    is_fused::<Iter<'static, str, u64, HashKind>>();
    is_fused::<Keys<'static, u32, u32>>();
    is_fused::<Values<'static, str, u32>>();
    has_two_ends::<index_map::Iter<'static, str, u64>>();
    has_two_ends::<index_map::Keys<'static, char, u64>>();
    has_two_ends::<index_map::Values<'static, u32, str>>();
    has_two_ends::<index_map::Members<'static, u32>>();
};
