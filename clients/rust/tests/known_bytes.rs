//! Archives that are written out by hand, by the rules of `docs/FORMAT.md`: they are opened, built, and
//! damaged.

mod common;

use std::borrow::Borrow;

use common::{kind_of, Built};
use hodkhaki::{
    Builder, ErrorKind, HashKind, IndexKind, IndexMap, IndexMapMut, IndexSet, Key, Map, MapMut,
    Set, SetBuilder, Value, Width,
};

use ErrorKind::{
    InvalidLength, InvalidValue, OutOfRange, PlaceOutOfRange, Unaligned, UnwrappedControlByte,
    WrongNumberOfElements,
};

/// Control bytes of two buckets, of which the second one has this tag.
fn controls(tag: u8) -> Vec<u8> {
    let mut bytes = vec![0xff; 31];
    (bytes[1], bytes[3]) = (tag, tag);
    bytes
}

/// A zero, and the headers of hash maps of one pair in two buckets.
const NARROW: &[u8] = b"\0\xe0\xff\xff\xff\x01\0\0\0\x02\0\0\0";
const WIDE: &[u8] = b"\0\xe0\xff\xff\xff\xff\xff\xff\xff\x01\0\0\0\0\0\0\0\x02\0\0\0\0\0\0\0";

/// A number with more than 32 bits. Its hash is 789ecc4c27220a95, with the tag 3c.
const GREAT: u64 = (1 << 32) + 1;

/// Archives as functions of their names.
macro_rules! archives {
    ($($(#[$doc:meta])* $name:ident: $($piece:expr),+;)*) => {
        $($(#[$doc])*
        fn $name() -> Vec<u8> {
            [$(&$piece[..]),+].concat()
        })*
    };
}

archives! {
    /// The narrow archive of the map of 1 to 2.
    one_to_two: b"\x01\0\0\0\x02\0\0\0", [0; 8], controls(0x28), NARROW;
    /// The wide archive of the map of the empty string to 7, with 64-bit values.
    empty_to_seven: [0xff; 16], b"\x07\0\0\0\0\0\0\0", [0; 24], controls(0x15), WIDE;
    /// The narrow archive of the pairs 1 and "wonderful", and 1 and "x". The first string is out of line.
    one_to_texts: b"wonderful", [0; 15], b"\x01\0\0\0x\xff\xff\xff\xff\xff\xff\xff",
        b"\x01\0\0\0\x89\0\0\0\xd8\xff\xff\xff", b"\x28\x28\xff\x28\x28", [0xff; 26],
        b"\0\xe0\xff\xff\xff\x02\0\0\0\x03\0\0\0";
    /// The wide archive of the empty string to "wonderful".
    empty_to_wonderful: [0xff; 16], b"wonderful", [0xff; 7], [0; 32], controls(0x15), WIDE;
    /// The narrow archive of the set of 1.
    set_of_one: b"\x01\0\0\0", [0; 4], controls(0x28), NARROW;
    /// The wide archive of the set of the empty string.
    set_of_empty: [0xff; 16], [0; 16], controls(0x15), WIDE;
    /// The narrow archive of the index map of the pairs 1 and 2, 5 and 6, and 1 and 9: the indices 0, 1
    /// and 2 in four buckets, 31 control bytes, the three pairs, and the header.
    three_pairs: b"\x02\0\0\0\x01\0\0\0", [0; 8], b"\xff\x28\x4b\x28\xff\x28\x4b\x28", [0xff; 23],
        b"\0\x01\0\0\0\x02\0\0\0\x05\0\0\0\x06\0\0\0\x01\0\0\0\x09\0\0\0",
        b"\xc8\xff\xff\xff\x03\0\0\0\x04\0\0\0\xdc\xff\xff\xff";
    /// The wide archive of the index map of the empty string to 7.
    index_of_empty: [0; 16], controls(0x15), [0], [0xff; 16],
        b"\x07\0\0\0\0\0\0\0\xc8\xff\xff\xff\xff\xff\xff\xff\x01\0\0\0\0\0\0\0",
        b"\x02\0\0\0\0\0\0\0\xd0\xff\xff\xff\xff\xff\xff\xff";
    /// The narrow archive of the index map of 1 to "wonderful", which is out of line.
    index_to_text: [0; 8], controls(0x28), b"wonderful\x01\0\0\0\x89\0\0\0\xf3\xff\xff\xff",
        b"\xcc\xff\xff\xff\x01\0\0\0\x02\0\0\0\xe8\xff\xff\xff";
    /// The wide archive of the index map of the empty string to "wonderful".
    index_of_empty_to_text: [0; 16], controls(0x15), [0], [0xff; 16], b"wonderful", [0xff; 7],
        b"\xc0\xff\xff\xff\xff\xff\xff\xff\x01\0\0\0\0\0\0\0",
        b"\x02\0\0\0\0\0\0\0\xc8\xff\xff\xff\xff\xff\xff\xff";
    /// The narrow archive of the index map of the `i8` 1 to 2.
    index_of_i8: [0; 8], controls(0x28),
        b"\x01\x02\0\0\0\xdc\xff\xff\xff\x01\0\0\0\x02\0\0\0\xef\xff\xff\xff";
    /// The narrow archive of the index map of 1 to the byte string ff.
    index_to_bytes: [0; 8], controls(0x28),
        b"\xff\x01\0\0\0\xfb\xff\xff\xff\x01\0\0\0\xd4\xff\xff\xff",
        b"\x01\0\0\0\x02\0\0\0\xe8\xff\xff\xff";
    /// The narrow archive of the index set of 1.
    index_set_of_one: [0; 8], controls(0x28),
        b"\0\x01\0\0\0\xdc\xff\xff\xff\x01\0\0\0\x02\0\0\0\xf0\xff\xff\xff";
    /// The narrow archive of the map of the great number to 2, with values of 32 or of 64 bits.
    great_to_two: b"\x01\0\0\0\x01\0\0\0\x02\0\0\0\0\0\0\0", [0; 16], controls(0x3c), NARROW;
    /// The narrow archive of the map of the great number to "wonderful", which is out of line.
    great_to_text: b"wonderful", [0; 7], b"\x01\0\0\0\x01\0\0\0\x89\0\0\0\xe8\xff\xff\xff", [0; 16],
        controls(0x3c), NARROW;
    /// The narrow archive of the set of the great number.
    set_of_great: b"\x01\0\0\0\x01\0\0\0", [0; 8], controls(0x3c), NARROW;
    /// The narrow archive of the index map of the great number to 2.
    index_of_great: [0; 8], controls(0x3c), b"\0\x01\0\0\0\x01\0\0\0\x02\0\0\0\0\0\0\0",
        b"\xd0\xff\xff\xff\x01\0\0\0\x02\0\0\0\xe4\xff\xff\xff";
}

/// Builds the pairs of a map of a kind, opens the bytes, and looks up and iterates. The pairs are in this
/// order in the archive too.
fn test<K: Key + ?Sized, V: Value + ?Sized, C: Built>(
    bytes: &[u8],
    width: Width,
    pairs: &[(&K, &V)],
) {
    let builder: Builder<K, V> = pairs.iter().collect();
    assert_eq!(C::map(&builder, width, None).as_bytes(), bytes);
    let map = Map::<K, V, C>::open_archive(bytes, width).unwrap();
    assert!(map
        .iter()
        .zip(pairs)
        .all(|(a, b)| a.0.borrow() == b.0 && a.1.borrow() == b.1));
    assert_eq!((map.len(), map.iter().count()), (pairs.len(), pairs.len()));
    assert!(map.get(pairs[0].0).unwrap().borrow() == pairs[0].1);
}

#[test]
fn known_bytes_are_opened_and_built() {
    test::<u32, u32, HashKind>(&one_to_two(), Width::Narrow, &[(&1, &2)]);
    test::<i32, i32, HashKind>(&one_to_two(), Width::Narrow, &[(&1, &2)]);
    test::<str, u64, HashKind>(&empty_to_seven(), Width::Wide, &[("", &7)]);
    test::<str, i64, HashKind>(&empty_to_seven(), Width::Wide, &[("", &7)]);
    let pairs = [(&1, "wonderful"), (&1, "x")];
    test::<u32, str, HashKind>(&one_to_texts(), Width::Narrow, &pairs);
    test::<str, str, HashKind>(&empty_to_wonderful(), Width::Wide, &[("", "wonderful")]);
    test::<u64, u32, HashKind>(&great_to_two(), Width::Narrow, &[(&GREAT, &2)]);
    test::<u64, u64, HashKind>(&great_to_two(), Width::Narrow, &[(&GREAT, &2)]);
    test::<u64, str, HashKind>(&great_to_text(), Width::Narrow, &[(&GREAT, "wonderful")]);
    let pairs = [(&1, &2), (&5, &6), (&1, &9)];
    test::<u32, u32, IndexKind>(&three_pairs(), Width::Narrow, &pairs);
    test::<str, u64, IndexKind>(&index_of_empty(), Width::Wide, &[("", &7)]);
    test::<u32, str, IndexKind>(&index_to_text(), Width::Narrow, &[(&1, "wonderful")]);
    test::<str, str, IndexKind>(&index_of_empty_to_text(), Width::Wide, &[("", "wonderful")]);
    test::<i8, i8, IndexKind>(&index_of_i8(), Width::Narrow, &[(&1, &2)]);
    test::<u32, [u8], IndexKind>(&index_to_bytes(), Width::Narrow, &[(&1, &[0xff])]);
    test::<u64, u32, IndexKind>(&index_of_great(), Width::Narrow, &[(&GREAT, &2)]);

    fn test_set<K: Key + ?Sized>(bytes: &[u8], width: Width, item: &K) {
        let mut builder = SetBuilder::<K>::new();
        builder.push(item);
        assert_eq!(builder.build_archive(width).unwrap().as_bytes(), bytes);
        let set = Set::<K>::open_archive(bytes, width).unwrap();
        assert!(set.contains(item) && set.iter().all(|other| other.borrow() == item));
    }
    test_set::<u32>(&set_of_one(), Width::Narrow, &1);
    test_set::<str>(&set_of_empty(), Width::Wide, "");
    test_set::<u64>(&set_of_great(), Width::Narrow, &GREAT);
    let archive = SetBuilder::<u32>::from([1])
        .build_index_archive(Width::Narrow)
        .unwrap();
    assert_eq!(archive.as_bytes(), index_set_of_one());
}

#[test]
fn values_are_parts_of_the_archive() {
    let bytes = one_to_texts();
    let map = Map::<u32, str>::open_archive(&bytes, Width::Narrow).unwrap();
    assert_eq!(map.at(&1).as_ptr(), bytes.as_ptr());
    let bytes = index_to_text();
    let map = IndexMap::<u32, str>::open_archive(&bytes, Width::Narrow).unwrap();
    assert_eq!(map.at(&1).as_ptr(), bytes[39..].as_ptr());
    let bytes = index_to_bytes();
    let map = IndexMap::<u32, [u8]>::open_archive(&bytes, Width::Narrow).unwrap();
    assert_eq!(map.at(&1).as_ptr(), bytes[39..].as_ptr());
    let bytes = index_of_empty();
    let map = IndexMap::<str, u32>::open_archive(&bytes, Width::Wide).unwrap();
    assert_eq!(map.get_full(""), Some((0, "", 7)));
}

#[test]
fn empty_collections_have_known_bytes() {
    let narrow = [1, 0, 0, 0, 0, 0, 0, 0, 0, 0, 0, 0];
    let map = Builder::<u32, u32>::new()
        .build_archive(Width::Narrow)
        .unwrap();
    assert_eq!(map.as_bytes(), narrow);
    let set = SetBuilder::<str>::new()
        .build_archive(Width::Narrow)
        .unwrap();
    assert_eq!(set.as_bytes(), narrow);
    let index = [&narrow[..], &[0xf4, 0xff, 0xff, 0xff]].concat();
    let map = Builder::<char, f64>::new()
        .build_index_archive(Width::Narrow)
        .unwrap();
    assert_eq!(map.as_bytes(), index);
    let set = SetBuilder::<u8>::new()
        .build_index_archive(Width::Narrow)
        .unwrap();
    assert_eq!(set.as_bytes(), index);
}

/// An error by its kind, its position and its numbers.
type Parts = (ErrorKind, Option<i64>, Option<(u64, u64)>);

/// Opens bytes with one changed byte. The result is the error, and the last part of its text.
fn damaged<T>(
    mut bytes: Vec<u8>,
    index: usize,
    byte: u8,
    open: impl Fn(&[u8]) -> Result<T, hodkhaki::Error>,
) -> (Option<Parts>, String) {
    bytes[index] = byte;
    match open(&bytes) {
        Ok(_) => (None, String::new()),
        Err(error) => {
            let text = error.to_string();
            let numbers = text.rfind(" (").map_or("", |begin| &text[begin..]);
            let parts = (error.kind(), error.position(), error.numbers());
            (Some(parts), numbers.to_string())
        }
    }
}

#[test]
fn damaged_bytes_fail_with_position_and_numbers() {
    #[rustfmt::skip]
    let rows = [
        (48, 0, (OutOfRange, Some(-224), Some((47, 0))), " (position -224, 47 bytes)"),
        (48, 0xe1, (Unaligned, Some(1), Some((4, 0))), " (position 1, alignment 4)"),
        (52, 2, (InvalidLength, None, Some((2, 2))), " (2 pairs, 2 buckets)"),
        (17, 0xff, (WrongNumberOfElements, None, Some((1, 0))), " (1 pairs, 0 full buckets)"),
        (19, 0xff, (UnwrappedControlByte, None, Some((3, 0))), " (index 3)"),
    ];
    for (index, byte, parts, text) in rows {
        let open = |bytes: &[u8]| Map::<u32, u32>::open_archive(bytes, Width::Narrow).map(drop);
        let wanted = (Some(parts), text.to_string());
        assert_eq!(damaged(one_to_two(), index, byte, open), wanted, "{index}");
    }
    let open =
        |bytes: &[u8]| MapMut::<str, u64>::open_archive(&mut bytes.to_vec(), Width::Wide).map(drop);
    let wanted = (Some((InvalidValue, Some(0), None)), " (position 0)".into());
    assert_eq!(damaged(empty_to_seven(), 0, 0xc3, open), wanted);
    let open = |bytes: &[u8]| IndexMap::<u32, u32>::open_archive(bytes, Width::Narrow).map(drop);
    let wanted = (
        Some((PlaceOutOfRange, None, Some((3, 3)))),
        " (index 3, 3 pairs)".into(),
    );
    assert_eq!(damaged(three_pairs(), 0, 3, open), wanted);
    let empty = Map::<u32, u32>::open_archive(&[], Width::Narrow).unwrap_err();
    assert_eq!(
        (empty.position(), empty.numbers()),
        (Some(-12), Some((12, 0)))
    );
    assert!(empty.to_string().ends_with(" (position -12, 12 bytes)"));
    assert_eq!(
        kind_of(Map::<u32, u32>::open_archive(&one_to_two(), Width::Wide)),
        Some(Unaligned)
    );
}

/// The kind and the position of the error of bytes with one changed byte.
macro_rules! fails {
    ($open:expr, $bytes:expr, $width:expr, $($index:literal $byte:literal => $kind:expr, $position:expr;)*) => {
        $({
            let (parts, _) = damaged($bytes, $index, $byte, |bytes| $open(bytes, $width).map(drop));
            let found = parts.map(|(kind, position, _)| (kind, position));
            let wanted: Option<ErrorKind> = $kind;
            assert_eq!(found, wanted.map(|kind| (kind, $position)), "byte {}", $index);
        })*
    };
}

#[test]
fn each_part_is_validated() {
    fails! { Map::<u32, str>::open_archive, one_to_texts(), Width::Narrow,
        0 b'W' => None, None;
        8 0xc3 => Some(InvalidValue), Some(40);
        44 0xd7 => Some(OutOfRange), Some(-1);
        80 0xe1 => Some(Unaligned), Some(13);
        84 3 => Some(InvalidLength), None;
        84 1 => Some(WrongNumberOfElements), None;
        78 0 => Some(UnwrappedControlByte), None;
    }
    fails! { Map::<str, str>::open_archive, empty_to_wonderful(), Width::Wide,
        16 0xc3 => Some(InvalidValue), Some(16);
    }
    fails! { Set::<u32>::open_archive, set_of_one(), Width::Narrow,
        0 2 => None, None;
        40 0 => Some(OutOfRange), Some(-224);
        40 0xe1 => Some(Unaligned), Some(1);
        44 2 => Some(InvalidLength), None;
        9 0xff => Some(WrongNumberOfElements), None;
        11 0xff => Some(UnwrappedControlByte), None;
    }
    fails! { Set::<str>::open_archive, set_of_empty(), Width::Wide,
        0 0xc3 => Some(InvalidValue), Some(0);
    }
    fails! { IndexMap::<u32, u32>::open_archive, three_pairs(), Width::Narrow,
        72 0xc9 => Some(Unaligned), Some(1);
        76 4 => Some(InvalidLength), None;
        17 0xff => Some(WrongNumberOfElements), None;
        21 0x29 => Some(UnwrappedControlByte), None;
        84 0xe0 => Some(OutOfRange), Some(52);
    }
    fails! { IndexMap::<str, u64>::open_archive, index_of_empty(), Width::Wide,
        48 0xc3 => Some(InvalidValue), Some(48);
    }
    fails! { IndexMap::<u32, str>::open_archive, index_to_text(), Width::Narrow,
        39 b'W' => None, None;
        39 0xc3 => Some(InvalidValue), Some(52);
        4 1 => None, None;
        0 1 => Some(PlaceOutOfRange), None;
        64 2 => Some(InvalidLength), None;
    }
    fails! { IndexMap::<str, str>::open_archive, index_of_empty_to_text(), Width::Wide,
        64 0xc3 => Some(InvalidValue), Some(64);
    }
    fails! { IndexMap::<u32, [u8]>::open_archive, index_to_bytes(), Width::Narrow,
        39 0 => None, None;
        44 0xfc => Some(OutOfRange), Some(40);
        48 2 => Some(OutOfRange), Some(39);
    }
    fails! { IndexMap::<i8, bool>::open_archive, index_of_i8(), Width::Narrow,
        40 1 => None, None;
        40 2 => Some(InvalidValue), Some(40);
    }
    fails! { IndexSet::<char>::open_archive, index_set_of_one(), Width::Narrow,
        40 b'a' => None, None;
        42 0x10 => None, None;
        42 0x11 => Some(InvalidValue), Some(40);
        41 0xd8 => Some(InvalidValue), Some(40);
        0 1 => Some(PlaceOutOfRange), None;
    }
    let mut bytes = index_of_empty();
    (bytes[0], bytes[8]) = (1, 1);
    let error = kind_of(IndexMapMut::<str, u64>::open_archive(
        &mut bytes,
        Width::Wide,
    ));
    assert_eq!(error, Some(PlaceOutOfRange));
}
