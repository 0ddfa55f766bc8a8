//! The kinds of containers. `each_type` has those of each type.

mod common;

use hodkhaki::{
    container_kind, Checksum, Collection, ContainerKind, ErrorKind, ItemType, SetBuilder, Width,
};

fn parts(kind: ContainerKind) -> (Collection, ItemType, Option<ItemType>, Width) {
    (kind.collection, kind.key, kind.value, kind.width)
}

#[test]
fn only_the_header_is_checked() {
    let set = SetBuilder::<u32>::from([1, 2]).build().unwrap();
    let container = set.to_container(Checksum::Adler32);
    let kind_of = |length: usize, index: usize, byte| {
        let mut container = container[..length].to_vec();
        container[index] = byte;
        container_kind(&container).map(parts)
    };
    let kind = (Collection::Set, ItemType::U32, None, Width::Narrow);
    let length = container.len();
    assert_eq!(kind_of(length, length - 1, 0xff), Ok(kind));
    assert_eq!(kind_of(32, 31, 0), Ok(kind));
    let rows = [
        (31, 30, 0, ErrorKind::ContainerTooShort, Some((31, 0))),
        (length, 0, 0, ErrorKind::WrongMagic, None),
        (length, 10, 99, ErrorKind::UnknownCollection, Some((99, 0))),
        (length, 11, 99, ErrorKind::UnknownKeyType, Some((99, 0))),
        (
            length,
            31,
            1,
            ErrorKind::NonzeroReserved,
            Some((1 << 24, 0)),
        ),
        // Items of type `bool`, values in a set, and a map to units.
        (length, 11, 0x02, ErrorKind::UnsupportedKind, None),
        (length, 12, 0x14, ErrorKind::UnsupportedKind, None),
        (length, 10, 1, ErrorKind::UnsupportedKind, None),
    ];
    for (length, index, byte, kind, numbers) in rows {
        let error = kind_of(length, index, byte).unwrap_err();
        assert_eq!((error.kind(), error.numbers()), (kind, numbers));
    }
    let short = kind_of(31, 30, 0).unwrap_err();
    assert!(short.to_string().ends_with(" (31 bytes)"));
    assert_eq!(
        kind_of(length, 11, 0x02).unwrap_err().to_string(),
        "no map or set of this crate has the collection and the types in the header of a container"
    );
    let empty = container_kind(&[]).unwrap_err();
    assert_eq!(empty.kind(), ErrorKind::ContainerTooShort);
}
