//! Damaged archives, and archives that are opened as another type, are safe to use.

mod common;

use std::borrow::Borrow;

use common::{kind_of, Sample, WIDTHS};
use hodkhaki::{
    Builder, ErrorKind, HashKind, IndexKind, IndexMap, IndexSet, Key, Kind, Map, MapMut, Number,
    Set, SetBuilder, Value, Width,
};

/// Opens bytes as a map of a kind, and reads each pair. Returns whether the bytes are valid.
fn is_read<K: Key + ?Sized, V: Value + ?Sized, C: Kind>(bytes: &[u8], width: Width) -> bool {
    let Ok(map) = Map::<K, V, C>::open_archive(bytes, width) else {
        return false;
    };
    let found = |key: &K::Ref<'_>| map.get((*key).borrow()).is_some();
    let count = map.keys().filter(found).count();
    assert!(count <= map.len() && map.iter().count() == map.len());
    assert!(!format!("{map:?}").is_empty());
    true
}

/// Opens bytes as an index map, and reads each pair by its index too.
fn is_indexed<K: Key + ?Sized, V: Value + ?Sized>(bytes: &[u8], width: Width) -> bool {
    if !is_read::<K, V, IndexKind>(bytes, width) {
        return false;
    }
    let map = IndexMap::<K, V>::open_archive(bytes, width).unwrap();
    for (key, _) in map.iter() {
        // Of an archive that no builder has built, the found pair may be any pair.
        let index = map.get_index_of(key.borrow());
        assert_eq!(index.is_some(), map.get_full(key.borrow()).is_some());
        assert!(index.is_none_or(|index| index < map.len()));
    }
    assert!(map.iter().rev().count() == map.len() && map.get_index(map.len()).is_none());
    true
}

/// Opens bytes as a set of a kind, and reads each item. Returns whether the bytes are valid.
fn is_listed<K: Key + ?Sized, C: Kind>(bytes: &[u8], width: Width) -> bool {
    let Ok(set) = Set::<K, C>::open_archive(bytes, width) else {
        return false;
    };
    let found = |item: &K::Ref<'_>| set.contains((*item).borrow());
    assert!(set.iter().filter(found).count() <= set.len());
    true
}

/// Opens bytes as an index set, and reads each item by its index too.
fn is_listed_by_index<K: Key + ?Sized>(bytes: &[u8], width: Width) -> bool {
    if !is_listed::<K, IndexKind>(bytes, width) {
        return false;
    }
    let set = IndexSet::<K>::open_archive(bytes, width).unwrap();
    assert!((0..set.len()).all(|index| set.get_index(index).is_some()));
    assert!(set.iter().all(|item| set
        .get_full(item.borrow())
        .is_none_or(|full| full.0 < set.len())));
    true
}

/// Opens bytes as a map to numbers of a kind, and reads and writes each pair. Returns whether the bytes
/// are valid.
fn is_written<K: Key + ?Sized, V: Number, C: Kind>(bytes: &[u8], width: Width) -> bool {
    if !is_read::<K, V, C>(bytes, width) {
        return false;
    }
    let map = Map::<K, V, C>::open_archive(bytes, width).unwrap();
    let mut copy = bytes.to_vec();
    let mut written = MapMut::<K, V, C>::open_archive(&mut copy, width).unwrap();
    for key in map.keys() {
        let set = written.set(key.borrow(), V::default());
        assert_eq!(set, map.contains_key(key.borrow()));
    }
    assert_eq!(written.len(), map.len());
    true
}

/// The number of types and widths as which bytes are valid.
fn number_of_types(bytes: &[u8]) -> usize {
    let count = |width| {
        [
            is_written::<u32, u32, HashKind>(bytes, width),
            is_written::<i32, u64, HashKind>(bytes, width),
            is_written::<u64, f64, HashKind>(bytes, width),
            is_written::<str, u32, HashKind>(bytes, width),
            is_written::<str, i64, HashKind>(bytes, width),
            is_written::<char, u8, HashKind>(bytes, width),
            is_read::<u64, str, HashKind>(bytes, width),
            is_read::<str, str, HashKind>(bytes, width),
            is_read::<i16, bool, HashKind>(bytes, width),
            is_read::<str, [u8], HashKind>(bytes, width),
            is_listed::<u64, HashKind>(bytes, width),
            is_listed::<str, HashKind>(bytes, width),
            is_written::<u32, f32, IndexKind>(bytes, width),
            is_written::<u64, u64, IndexKind>(bytes, width),
            is_written::<str, i16, IndexKind>(bytes, width),
            is_indexed::<u32, str>(bytes, width),
            is_indexed::<str, str>(bytes, width),
            is_indexed::<u8, [u8]>(bytes, width),
            is_indexed::<char, char>(bytes, width),
            is_listed_by_index::<char>(bytes, width),
            is_listed_by_index::<str>(bytes, width),
        ]
        .map(usize::from)
        .iter()
        .sum::<usize>()
    };
    WIDTHS.map(count).iter().sum()
}

/// Archives of all kinds and both widths, each with its width.
fn archives() -> Vec<(Width, Vec<u8>)> {
    let texts = [
        "",
        "a",
        "12345678",
        "123456789",
        "日本語日本語",
        "a long text",
    ];
    let numbers: Builder<u32, u32> = (0..17).map(|key| (key * key, key)).collect();
    let few: Builder<u32, u64> = (0..3).map(|key| (key << 30, 1 << 50)).collect();
    let names: Builder<str, u32> = texts.into_iter().zip(1..).collect();
    let long_names: Builder<str, u64> = texts.into_iter().zip(1 << 40..).collect();
    let empty = Builder::<str, u64>::new();
    let translations: Builder<str, str> = texts.into_iter().zip(texts).collect();
    let great: Builder<u64, u64> = (0..3).map(|key| (key << 40, key)).collect();
    let bytes: Builder<u8, [u8]> = (0..).zip(<[u8]>::samples()).take(7).collect();
    let letters: Builder<char, char> = char::samples().into_iter().map(|c| (c, c)).collect();
    let bits: Builder<i16, bool> = (-2..2).map(|n| (n, n < 0)).collect();
    let (set, words) = (
        SetBuilder::<u64>::from([1, 1 << 40]),
        SetBuilder::<str>::from(texts),
    );
    let characters = SetBuilder::from(['a', '\u{10ffff}']);
    let mut archives: Vec<(Width, Vec<u8>)> = Vec::new();
    for width in WIDTHS {
        macro_rules! built {
            ($($builder:ident $build:ident,)*) => {
                archives.extend([$((width, $builder.$build(width).unwrap().into())),*])
            };
        }
        built! {
            numbers build_archive, few build_archive, names build_archive,
            long_names build_archive, empty build_archive, translations build_archive,
            translations build_index_archive, great build_archive, great build_index_archive,
            bytes build_index_archive, letters build_archive, letters build_index_archive,
            bits build_archive, set build_archive, words build_index_archive,
            characters build_index_archive,
        }
    }
    archives
}

#[test]
fn archives_are_safe_as_other_types() {
    for (_, bytes) in archives() {
        assert!(number_of_types(&bytes) >= 1);
        for length in 0..bytes.len() {
            number_of_types(&bytes[..length]);
            number_of_types(&bytes[length..]);
        }
    }
}

#[test]
fn damaged_bytes_are_safe() {
    let mut valid = 0;
    for (_, mut bytes) in archives() {
        for index in 0..bytes.len() {
            let byte = bytes[index];
            let others = [0, 1, 0x7f, 0x80, 0xff, byte ^ 1, byte ^ 0x10, byte ^ 0x80];
            for other in others.into_iter().filter(|other| *other != byte) {
                bytes[index] = other;
                valid += number_of_types(&bytes);
            }
            bytes[index] = byte;
        }
    }
    // For example where the byte is one of a value.
    assert!(valid > 0);
}

#[test]
fn damaged_headers_are_safe() {
    for (width, mut bytes) in archives() {
        let is_wide = width == Width::Wide;
        let word = if is_wide { 8 } else { 4 };
        let max = if is_wide { u64::MAX } else { u32::MAX.into() };
        for field in (bytes.len() - 3 * word..bytes.len()).step_by(word) {
            let kept = bytes[field..field + word].to_vec();
            for number in (0..40).chain([max / 2, max / 2 + 1, max / 8]) {
                for number in [number, number.wrapping_neg() & max] {
                    bytes[field..field + word].copy_from_slice(&number.to_le_bytes()[..word]);
                    number_of_types(&bytes);
                }
            }
            bytes[field..field + word].copy_from_slice(&kept);
        }
    }
}

/// A key shares no byte with a bucket, so that writing a value keeps each key UTF-8.
#[test]
fn keys_in_buckets_fail() {
    let archive = Builder::<str, u64>::from([("a key out of line", 7)])
        .build_archive(Width::Narrow)
        .unwrap();
    let mut bytes = Vec::from(archive);
    // The 17 bytes of the key, 7 of padding, and two buckets of 16 bytes. The length is in the
    // first byte of the full bucket. The distance to the key is in its second word.
    let bucket = if bytes[24] == 0x91 { 24 } else { 40 };
    assert_eq!(bytes[bucket], 0x91);
    for (begin, distance) in (-(bucket as i32)..40).enumerate() {
        bytes[bucket + 4..bucket + 8].copy_from_slice(&distance.to_le_bytes());
        let error = kind_of(Map::<str, u64>::open_archive(&bytes, Width::Narrow));
        let wanted = (begin + 17 > 24).then_some(ErrorKind::OutOfRange);
        assert_eq!(error, wanted, "at {begin}");
    }
}
