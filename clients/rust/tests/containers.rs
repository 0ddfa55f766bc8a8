//! Containers: each opens as its own types alone, and each damaged header has the stated error.

mod common;

use common::{kind_of, Built, CHECKSUMS, WIDTHS};
use hodkhaki::{
    update_container, Builder, Checksum, Error, ErrorKind, HashKind, IndexKind, Key, Map, MapBuf,
    MapMut, Number, Width,
};
use std::io::{self, Write};

/// A type of values that has numbers of 32 bits.
trait Counted: Number + From<u32> {}

impl<V: Number + From<u32>> Counted for V {}

/// The archive of the numbers 1 to `count` as keys, each with itself as value.
fn numbers<V: Counted>(count: u32, width: Width) -> MapBuf<u32, V> {
    let builder: Builder<u32, V> = (1..=count).map(|n| (n, V::from(n))).collect();
    builder.build_archive(width).unwrap()
}

/// The archive of the texts of these numbers as keys.
fn texts<V: Counted>(count: u32, width: Width) -> MapBuf<str, V> {
    let pairs = (1..=count).map(|n| (n.to_string(), V::from(n)));
    pairs
        .collect::<Builder<str, V>>()
        .build_archive(width)
        .unwrap()
}

/// The error with which bytes are opened as a container of a type, to read and to write.
fn error_as<K: Key + ?Sized, V: Counted>(bytes: &[u8]) -> Option<ErrorKind> {
    let error = kind_of(Map::<K, V>::open(bytes));
    let mut copy = bytes.to_vec();
    assert_eq!(kind_of(MapMut::<K, V>::open(&mut copy)), error);
    for width in WIDTHS {
        let other = kind_of(Map::<K, V>::open_with_width(bytes, width));
        let written = kind_of(MapMut::<K, V>::open_with_width(&mut copy, width));
        assert_eq!(written, other);
        assert!(other == error || other == Some(ErrorKind::WrongWidth));
    }
    assert_eq!(copy, bytes);
    error
}

/// The errors with which bytes are opened as `u32` to `u32`, `u32` to `u64`, `str` to `u32`, and
/// `str` to `u64`.
fn errors(bytes: &[u8]) -> [Option<ErrorKind>; 4] {
    [
        error_as::<u32, u32>(bytes),
        error_as::<u32, u64>(bytes),
        error_as::<str, u32>(bytes),
        error_as::<str, u64>(bytes),
    ]
}

/// A container of each type, each with and without a checksum, and its number in `errors`.
fn containers(count: u32) -> Vec<(usize, Width, Checksum, Vec<u8>)> {
    let mut containers = Vec::new();
    for width in WIDTHS {
        for checksum in CHECKSUMS {
            let bytes = [
                numbers::<u32>(count, width).to_container(checksum),
                numbers::<u64>(count, width).to_container(checksum),
                texts::<u32>(count, width).to_container(checksum),
                texts::<u64>(count, width).to_container(checksum),
            ];
            for (number, bytes) in bytes.into_iter().enumerate() {
                containers.push((number, width, checksum, bytes));
            }
        }
    }
    containers
}

#[test]
fn containers_open_as_their_own_types_alone() {
    let (key, value) = (
        Some(ErrorKind::WrongKeyType),
        Some(ErrorKind::WrongValueType),
    );
    let wanted = [
        [None, value, key, key],
        [value, None, key, key],
        [key, key, None, value],
        [key, key, value, None],
    ];
    for count in [0, 1, 20] {
        for (number, _, _, bytes) in containers(count) {
            assert_eq!(
                errors(&bytes),
                wanted[number],
                "type {number}, {count} pairs"
            );
        }
    }
}

#[test]
fn containers_open_with_their_own_width_alone() {
    for width in WIDTHS {
        let bytes = texts::<u64>(3, width).to_container(Checksum::None);
        for other in WIDTHS {
            let map = Map::<str, u64>::open_with_width(&bytes, other);
            let wanted = (other != width).then_some(ErrorKind::WrongWidth);
            assert_eq!(kind_of(map), wanted, "{width:?} as {other:?}");
        }
        let wrong = Map::<str, u32>::open_with_width(&bytes, width);
        assert_eq!(kind_of(wrong), Some(ErrorKind::WrongValueType));
    }
}

/// A writer that takes all bytes and fails to flush them.
struct Unflushed;

impl Write for Unflushed {
    fn write(&mut self, bytes: &[u8]) -> io::Result<usize> {
        Ok(bytes.len())
    }

    fn flush(&mut self) -> io::Result<()> {
        Err(io::ErrorKind::WriteZero.into())
    }
}

#[test]
fn a_container_is_written_and_flushed() {
    let archive = numbers::<u32>(3, Width::Narrow);
    for checksum in CHECKSUMS {
        let mut written = Vec::new();
        archive.write_container(checksum, &mut written).unwrap();
        assert_eq!(written, archive.to_container(checksum));
    }
    let written = archive.write_container(Checksum::None, Unflushed);
    assert_eq!(written.unwrap_err().kind(), io::ErrorKind::WriteZero);
}

/// The container of the map of 1 to 2, whose bytes are those of the example in the format.
#[test]
fn container_has_the_bytes_of_the_format() {
    let archive = Builder::<u32, u32>::from([(1, 2)])
        .build_archive(Width::Narrow)
        .unwrap();
    let header = [
        0x89, b'R', b'K', b'Y', b'V', 0x0d, 0x0a, 0x1a, // magic
        1, 0, 1, 0x14, 0x14, 4, 0, 0, // version, hash map, u32, u32, narrow, no flags
        60, 0, 0, 0, 0, 0, 0, 0, // length
        0, 0, 0, 0, 0, 0, 0, 0, // no checksum, reserved
    ];
    let container = archive.to_container(Checksum::None);
    assert_eq!(container[..32], header);
    assert_eq!(&container[32..], archive.as_bytes());

    let container = archive.to_container(Checksum::Adler32);
    assert_eq!(container[14..16], [1, 0]);
    assert_eq!(container[24..28], adler32(archive.as_bytes()).to_le_bytes());
}

/// Adler-32 by its definition, in wide sums.
fn adler32(bytes: &[u8]) -> u32 {
    let low: u64 = 1 + bytes.iter().copied().map(u64::from).sum::<u64>();
    let weighted = bytes
        .iter()
        .rev()
        .zip(1..)
        .map(|(byte, n)| n * u64::from(*byte));
    let high = bytes.len() as u64 + weighted.sum::<u64>();
    (((high % 65521) << 16) | (low % 65521)) as u32
}

/// The error of a header of a map of `str` to `u64` with one wrong byte, as the format has it.
fn header_error(index: usize, byte: u8, checksum: Checksum, width: Width) -> Option<ErrorKind> {
    const ITEMS: [u8; 15] = [
        0x01, 0x02, 0x03, 0x04, 0x05, 0x11, 0x12, 0x14, 0x18, 0x21, 0x22, 0x24, 0x28, 0x34, 0x38,
    ];
    let checked = checksum == Checksum::Adler32;
    Some(match index {
        0..8 => ErrorKind::WrongMagic,
        8..10 => ErrorKind::UnsupportedVersion,
        10 if (1..=4).contains(&byte) => ErrorKind::WrongCollection,
        10 => ErrorKind::UnknownCollection,
        11 if ITEMS.contains(&byte) => ErrorKind::WrongKeyType,
        11 => ErrorKind::UnknownKeyType,
        12 if ITEMS.contains(&byte) => ErrorKind::WrongValueType,
        12 => ErrorKind::UnknownValueType,
        // The archive of the other width is not valid.
        13 if byte == 4 || byte == 8 => return other_width_error(width),
        13 => ErrorKind::UnknownWidth,
        // Without the flag the checksum is unexpected. With it, 0 is not the checksum.
        14 if byte == 0 => ErrorKind::UnexpectedChecksum,
        14 if byte == 1 => ErrorKind::WrongChecksum,
        14..16 => ErrorKind::UnknownFlags,
        16..24 => ErrorKind::WrongLength,
        24..28 if checked => ErrorKind::WrongChecksum,
        24..28 => ErrorKind::UnexpectedChecksum,
        _ => ErrorKind::NonzeroReserved,
    })
}

/// The error of the sample archive, without its container, as one of the other width.
fn other_width_error(width: Width) -> Option<ErrorKind> {
    let other = WIDTHS.into_iter().find(|other| *other != width).unwrap();
    Map::<str, u64>::open_archive(texts::<u64>(5, width).as_bytes(), other)
        .err()
        .map(|error| error.kind())
}

#[test]
fn damaged_headers_fail_byte_by_byte() {
    for width in WIDTHS {
        for checksum in CHECKSUMS {
            let mut bytes = texts::<u64>(5, width).to_container(checksum);
            for index in 0..32 {
                let kept = bytes[index];
                for byte in (0..=255).filter(|byte| *byte != kept) {
                    bytes[index] = byte;
                    let error = kind_of(Map::<str, u64>::open(&bytes));
                    let wanted = header_error(index, byte, checksum, width);
                    assert_eq!(error, wanted, "byte {index} is {byte}");
                    assert!(error.is_some(), "byte {index} is {byte}");
                }
                bytes[index] = kept;
            }
            assert_eq!(error_as::<str, u64>(&bytes), None);
        }
    }
}

#[test]
fn other_lengths_fail() {
    for (number, _, _, mut bytes) in containers(3) {
        let length = bytes.len();
        for cut in 0..length {
            let wanted = if cut < 32 {
                ErrorKind::ContainerTooShort
            } else {
                ErrorKind::WrongLength
            };
            assert_eq!(errors(&bytes[..cut])[number], Some(wanted), "{cut} bytes");
        }
        bytes.push(0);
        assert_eq!(errors(&bytes)[number], Some(ErrorKind::WrongLength));
    }
}

#[test]
fn archives_are_no_containers() {
    for width in WIDTHS {
        let archive = texts::<u64>(3, width);
        assert_eq!(
            errors(archive.as_bytes()),
            [Some(ErrorKind::WrongMagic); 4],
            "{width:?}"
        );
        let container = archive.to_container(Checksum::None);
        assert!(Map::<str, u64>::open_archive(&container[32..], width).is_ok());
    }
    assert_eq!(errors(&[]), [Some(ErrorKind::ContainerTooShort); 4]);
}

#[test]
fn checksums_detect_each_byte() {
    for (number, _, checksum, mut bytes) in containers(4) {
        if checksum == Checksum::None {
            continue;
        }
        for index in 32..bytes.len() {
            for bit in 0..8 {
                bytes[index] ^= 1 << bit;
                let error = errors(&bytes)[number];
                assert_eq!(error, Some(ErrorKind::WrongChecksum), "byte {index}");
                bytes[index] ^= 1 << bit;
            }
        }
        assert_eq!(errors(&bytes)[number], None);
    }
}

/// Without a checksum a damaged archive has its own error, that of the archive alone.
#[test]
fn damaged_archives_fail_as_without_a_container() {
    for width in WIDTHS {
        let mut bytes = texts::<u64>(4, width).to_container(Checksum::None);
        let mut damaged = 0;
        for index in 32..bytes.len() {
            for other in [0, 1, 0x7f, 0x80, 0xff] {
                let kept = std::mem::replace(&mut bytes[index], other);
                let wanted = kind_of(Map::<str, u64>::open_archive(&bytes[32..], width));
                assert_eq!(error_as::<str, u64>(&bytes), wanted, "byte {index}");
                damaged += usize::from(wanted.is_some());
                bytes[index] = kept;
            }
        }
        assert!(damaged > 0);
    }
}

/// Writes to maps of a kind in containers, which are then those of other values with another checksum.
fn test_writing<C: Built>() {
    for (width, checksum) in WIDTHS.into_iter().flat_map(|w| CHECKSUMS.map(|c| (w, c))) {
        let container = |fifth| {
            let value = |key| if key == 5 { fifth } else { u64::from(key) };
            let builder: Builder<u32, u64> = (1..10).map(|key| (key, value(key))).collect();
            C::map(&builder, width, Some(checksum)).into_bytes()
        };
        let (unwritten, written) = (container(5), container(500));
        // Dropping a map writes the checksum, if a value was written.
        let mut bytes = unwritten.clone();
        let mut map = MapMut::<u32, u64, C>::open(&mut bytes).unwrap();
        assert!(!map.set(&10, 1));
        map.update_container();
        drop(map);
        assert_eq!(bytes, unwritten);
        let mut map = MapMut::<u32, u64, C>::open(&mut bytes).unwrap();
        assert!(map.set(&5, 500) && !map.set(&10, 1));
        drop(map);
        assert_eq!(bytes, written);
        // So do an update of a map that stays open, and the end of the writing.
        let mut bytes = unwritten.clone();
        let mut map = MapMut::<u32, u64, C>::open_with_width(&mut bytes, width).unwrap();
        assert!(map.set(&5, 500));
        map.update_container();
        std::mem::forget(map);
        assert_eq!(bytes, written);
        let mut map = MapMut::<u32, u64, C>::open(&mut bytes).unwrap();
        assert!(map.set(&5, 5));
        assert_eq!(Map::from(map).at(&5), 5);
        assert_eq!(bytes, unwritten);
        // A map that isn't dropped leaves it to `update_container`.
        let mut map = MapMut::<u32, u64, C>::open(&mut bytes).unwrap();
        assert!(map.set(&5, 500));
        std::mem::forget(map);
        let wrong = (checksum == Checksum::Adler32).then_some(ErrorKind::WrongChecksum);
        assert_eq!(kind_of(Map::<u32, u64, C>::open(&bytes)), wrong);
        assert_eq!(update_container(&mut bytes), Ok(()));
        assert_eq!(bytes, written);
        let sum = if wrong.is_some() {
            adler32(&bytes[32..])
        } else {
            0
        };
        assert_eq!(bytes[24..28], sum.to_le_bytes());
        let other = WIDTHS.into_iter().find(|other| *other != width).unwrap();
        let error = kind_of(MapMut::<u32, u64, C>::open_with_width(&mut bytes, other));
        assert_eq!(error, Some(ErrorKind::WrongWidth));
        // A map of the archive writes no header.
        let mut map = MapMut::<u32, u64, C>::open_archive(&mut bytes[32..], width).unwrap();
        assert!(map.set(&5, 6));
        map.update_container();
        drop(map);
        assert_eq!(bytes[..32], written[..32]);
        assert_eq!(kind_of(Map::<u32, u64, C>::open(&bytes)), wrong);
    }
}

#[test]
fn writing_updates_the_checksum() {
    test_writing::<HashKind>();
    test_writing::<IndexKind>();
}

#[test]
fn updates_fail_for_no_container() {
    let container = texts::<u32>(2, Width::Narrow).to_container(Checksum::Adler32);
    let rejected = |change: fn(&mut Vec<u8>)| {
        let mut bytes = container.clone();
        change(&mut bytes);
        let kept = bytes.clone();
        let error = update_container(&mut bytes).err().map(|error| error.kind());
        assert_eq!(bytes, kept);
        error
    };
    let errors = [
        rejected(Vec::clear),
        rejected(|bytes| bytes[0] = 0),
        rejected(|bytes| bytes[8] = 2),
        rejected(|bytes| bytes[31] = 1),
        rejected(|bytes| bytes.push(0)),
        rejected(|bytes| bytes.truncate(40)),
    ];
    use ErrorKind::*;
    let wanted = [
        ContainerTooShort,
        WrongMagic,
        UnsupportedVersion,
        NonzeroReserved,
        WrongLength,
        WrongLength,
    ];
    assert_eq!(errors, wanted.map(Some));
}

#[test]
fn errors_of_containers_have_numbers() {
    let archive = Builder::<u32, u32>::from([(1, 2)])
        .build_archive(Width::Narrow)
        .unwrap();
    let container = archive.to_container(Checksum::None);
    let has = |error: Error, numbers: Option<(u64, u64)>, end: &str| {
        let text = error.to_string();
        assert!(text.ends_with(end), "{text}");
        assert_eq!((error.position(), error.numbers()), (None, numbers));
    };
    let types = Map::<u32, u64>::open(&container).unwrap_err();
    has(types, Some((24, 20)), " (expected 24, found 20)");
    let width = Map::<u32, u32>::open_with_width(&container, Width::Wide);
    has(width.unwrap_err(), Some((8, 4)), " (expected 8, found 4)");
    let cut = Map::<u32, u32>::open(&container[..31]).unwrap_err();
    has(cut, Some((31, 0)), " (31 bytes)");
    let mut damaged = container.clone();
    damaged[8] = 2;
    let version = Map::<u32, u32>::open(&damaged).unwrap_err();
    has(version, Some((2, 0)), " (2)");
    damaged[0] = 0;
    let magic = Map::<u32, u32>::open(&damaged).unwrap_err();
    has(magic, None, " are not those of a container");
    let mut longer = container.clone();
    longer.push(0);
    let length = MapMut::<u32, u32>::open(&mut longer).unwrap_err();
    has(length, Some((60, 61)), " (expected 60, found 61)");
    let update = update_container(&mut longer).unwrap_err();
    has(update, None, " is not the length in the header");
}
