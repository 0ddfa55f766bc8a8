//! Sets and index sets: their methods, their builders and their iterators.

mod common;

use std::collections::HashSet;
use std::panic::catch_unwind;

use common::{kind_of, CHECKSUMS};
use hodkhaki::{ErrorKind, IndexSet, IndexSetBuf, Kind, Members, Set, SetBuf, SetBuilder, Width};

#[test]
fn sets_are_shown_as_sets() {
    let owned = SetBuilder::<u32>::from([1]).build().unwrap();
    let set = owned.as_set();
    assert!(set.iter().eq([1]) && set.into_iter().eq(&set));
    assert_eq!(format!("{set:?} {:?}", set.iter()), "{1} [1]");
}

#[test]
fn items_of_index_sets_have_indices() {
    let words: SetBuilder<str> = "to be or not to be".split(' ').collect();
    let owned: IndexSetBuf<str> = words.build_index().unwrap();
    let set = IndexSet::<str>::open(owned.as_bytes()).unwrap();
    assert_eq!(
        (set.len(), set.get_index_of("be"), set.get_index_of("is")),
        (6, Some(1), None)
    );
    assert_eq!((set.get("or"), set.get("is")), (Some("or"), None));
    assert_eq!(
        (set.get_full("not"), set.get_full("is")),
        (Some((3, "not")), None)
    );
    assert_eq!((set.get_index(4), set.get_index(6)), (Some("to"), None));
    assert_eq!((set.first(), set.last()), (Some("to"), Some("be")));
    assert!(set.iter().eq("to be or not to be".split(' ')));
    assert!(set.iter().rev().eq("to be or not to be".rsplit(' ')));
    assert_eq!(
        (set.iter().nth(2), set.iter().nth_back(2)),
        (Some("or"), Some("not"))
    );
    assert_eq!((&set[0], &set[5]), ("to", "be"));
    let panic = catch_unwind(|| set[6].len()).unwrap_err();
    let text = panic.downcast_ref::<String>().unwrap();
    assert_eq!(text, "the index is 6, but the set has 6 items");
    assert_eq!(
        format!("{set:?}"),
        r#"{"to", "be", "or", "not", "to", "be"}"#
    );
    assert_ne!(set, HashSet::from(["to", "be", "or", "not"]));
    let once = SetBuilder::from(["to", "be"]).build_index().unwrap();
    assert_eq!(once.as_set(), HashSet::from(["be", "to"]));
}

#[test]
fn a_fold_returns_the_items_that_remain() {
    let set = (0..40).collect::<SetBuilder<u32>>().build().unwrap();
    for taken in [0, 1, 15, 16, 17, 39, 40] {
        let mut iter = set.iter();
        let before: Vec<_> = iter.by_ref().take(taken).collect();
        let folded = iter.fold(before, |mut items, item| {
            items.push(item);
            items
        });
        assert_eq!(folded.len(), 40);
        assert!(set.iter().eq(folded));
    }
    assert_eq!(set.iter().sum::<u32>(), 780);
}

#[test]
fn builders_take_owned_and_borrowed_items() {
    let mut builder = SetBuilder::<str>::with_capacity(3);
    assert!(builder.capacity() >= 3 && builder.is_empty());
    builder.push("a");
    builder.reserve(30);
    assert!(builder.capacity() >= 31 && builder.len() == 1);
    builder.extend([String::from("b")]);
    builder.extend(["a"]);
    assert_eq!(
        (builder.len(), format!("{builder:?}")),
        (3, r#"{"a", "b", "a"}"#.into())
    );
    assert_eq!(format!("{:?}", builder.clone()), format!("{builder:?}"));
    let set = builder.build().unwrap();
    assert_eq!(set.iter().filter(|item| *item == "a").count(), 2);
    assert!(SetBuilder::<u32>::default().is_empty());
}

#[test]
fn containers_open_as_their_own_types() {
    let builder = SetBuilder::<u32>::from([1]);
    for checksum in CHECKSUMS {
        let owned = builder.build_with(Width::Narrow, checksum).unwrap();
        let container = owned.as_bytes();
        let errors = [
            kind_of(Set::<u32>::open(container)),
            kind_of(Set::<str>::open(container)),
            kind_of(Set::<i32>::open(container)),
            kind_of(Set::<u32>::open_with_width(container, Width::Wide)),
        ];
        let wrong = Some(ErrorKind::WrongKeyType);
        assert_eq!(errors, [None, wrong, wrong, Some(ErrorKind::WrongWidth)]);
        assert!(SetBuf::<u32, _>::open_with_width(container, Width::Narrow).is_ok());
        let mut written = Vec::new();
        owned.write_container(checksum, &mut written).unwrap();
        assert_eq!(
            (&written[..], owned.to_container(checksum)),
            (container, written.clone())
        );
        assert_eq!(
            (owned.as_ref(), owned.as_archive()),
            (container, &container[32..])
        );
        assert_eq!(Vec::from(owned.clone()), written);
    }
}

/// Code over sets of either kind.
fn lengths<C: Kind>(set: Set<'_, str, C>) -> Vec<usize> {
    common::sorted(set.iter().map(str::len))
}

#[test]
fn functions_are_generic_over_kinds() {
    let builder = SetBuilder::from(["tea", "cake"]);
    let (set, index_set) = (builder.build().unwrap(), builder.build_index().unwrap());
    assert_eq!(
        (lengths(set.as_set()), lengths(index_set.as_set())),
        (vec![3, 4], vec![3, 4])
    );
}

const fn is_shared<T: Send + Sync>() {}

const fn is_copied<T: Copy>() {}

const _: () = {
    is_shared::<SetBuilder<str>>();
    is_shared::<SetBuf<str>>();
    is_shared::<Set<'_, str>>();
    is_shared::<Members<'_, u32>>();
    is_copied::<Set<'_, str>>();
    is_copied::<IndexSet<'_, char>>();
};
