//! Archives that the table code of rkyv 0.8.18 wrote. Of each whose types this crate has, the same
//! bytes are built, and the given bytes are opened, looked up and iterated.
//!
//! The file is that of `crates/test_against_rkyv`, or the one whose path is in `HODKHAKI_VECTORS`.
//! A line has seven fields, separated by tabs: the collection, the types of keys and of values, the
//! width, the number of entries, the entries in insertion order, and the bytes in hexadecimal.

mod common;

use std::borrow::Borrow;
use std::env;
use std::fmt::Debug;
use std::fs;
use std::path::PathBuf;

use common::{sorted, Built};
use hodkhaki::{
    Builder, Error, HashKind, IndexKind, IndexMap, IndexSet, Key, Map, Set, SetBuilder, Value,
    Width,
};

const FILE: &str = "../../crates/test_against_rkyv/data/rkyv-0.8.18.tsv";

/// The number of lines of the file.
const LINES: usize = 516;

/// The numbers of archives of each kind of collection whose types this crate has. The others are of maps
/// to maps.
const MAPS: usize = 182;
const SETS: usize = 66;
const INDEX_MAPS: usize = 178;
const INDEX_SETS: usize = 66;

/// A type of keys or of values.
trait Field: ToOwned + Ord + Debug {
    /// The value of a field of the file, or `None` if the field is malformed.
    fn read(field: &str) -> Option<Self::Owned>;

    /// A key that no archive of the file has.
    fn absent() -> Self::Owned;
}

macro_rules! fields {
    ($($type:ty: $absent:literal,)*) => {
        $(impl Field for $type {
            fn read(field: &str) -> Option<$type> {
                field.parse().ok()
            }

            fn absent() -> $type {
                $absent
            }
        })*
    };
}

// The types of values have no absent key.
fields! { u8: 0, i16: 12345, i32: 0, i64: -4_000_000_007, u32: 4_000_000_007, u64: 4_000_000_007, }

impl Field for str {
    fn read(field: &str) -> Option<String> {
        match field {
            "" => None,
            "\"\"" => Some(String::new()),
            _ => Some(field.into()),
        }
    }

    fn absent() -> String {
        "an absent key".into()
    }
}

/// A line of the file.
struct Line<'a> {
    number: usize,
    collection: &'a str,
    types: (&'a str, &'a str),
    width: Width,
    count: usize,
    entries: &'a str,
    bytes: Vec<u8>,
}

impl<'a> Line<'a> {
    fn read(number: usize, line: &'a str) -> Line<'a> {
        let fields: Vec<&str> = line.split('\t').collect();
        let [collection, key, value, width, count, entries, digits] = fields[..] else {
            panic!("line {number}: {} fields", fields.len());
        };
        Line {
            number,
            collection,
            types: (key, value),
            width: match width {
                "narrow" => Width::Narrow,
                "wide" => Width::Wide,
                _ => panic!("line {number}: the width {width}"),
            },
            count: count
                .parse()
                .unwrap_or_else(|_| panic!("line {number}: the count {count}")),
            entries,
            bytes: bytes_of(digits).unwrap_or_else(|| panic!("line {number}: the bytes {digits}")),
        }
    }

    /// Fails the test if the result of a step is not the expected one.
    #[track_caller]
    fn same<T: PartialEq + Debug>(&self, step: &str, got: T, wanted: T) {
        let number = self.number;
        assert!(
            got == wanted,
            "line {number}, {step}: {got:?}, not {wanted:?}"
        );
    }

    /// The value of a step that succeeds.
    #[track_caller]
    fn ok<T>(&self, step: &str, result: Result<T, Error>) -> T {
        result.unwrap_or_else(|error| panic!("line {}, {step}: {error}", self.number))
    }

    /// Fails the test if the bytes that were built are not those of the line.
    #[track_caller]
    fn same_bytes(&self, built: &[u8]) {
        let position = built.iter().zip(&self.bytes).position(|(a, b)| a != b);
        self.same("build, the first other byte", position, None);
        self.same("build, the length", built.len(), self.bytes.len());
    }

    /// The items of a set, in insertion order.
    fn items<K: Field + ?Sized>(&self) -> Vec<K::Owned> {
        let entries = self.entries.split_terminator(' ');
        let items: Vec<_> = entries.map(|entry| self.field::<K>(entry)).collect();
        self.same("the count", items.len(), self.count);
        items
    }

    /// The pairs of a map, in insertion order.
    fn pairs<K: Field + ?Sized, V: Field + ?Sized>(&self) -> Vec<(K::Owned, V::Owned)> {
        let pair = |entry: &str| {
            let (key, value) = entry.split_once('=').unwrap_or((entry, ""));
            (self.field::<K>(key), self.field::<V>(value))
        };
        let pairs: Vec<_> = self.entries.split_terminator(' ').map(pair).collect();
        self.same("the count", pairs.len(), self.count);
        pairs
    }

    fn field<T: Field + ?Sized>(&self, field: &str) -> T::Owned {
        T::read(field).unwrap_or_else(|| panic!("line {}: the entry {field}", self.number))
    }
}

/// The bytes of pairs of hexadecimal digits, or `None` if the digits are malformed.
fn bytes_of(digits: &str) -> Option<Vec<u8>> {
    let digit = |digit: Option<&u8>| char::from(*digit?).to_digit(16);
    let byte = |pair: &[u8]| u8::try_from(digit(pair.first())? * 16 + digit(pair.get(1))?).ok();
    digits.as_bytes().chunks(2).map(byte).collect()
}

/// Tests a line of a collection. Returns `false` if the crate doesn't have its types.
type Test = fn(&Line) -> bool;

/// The number of lines of the file, and of those of the collection that the test covers.
fn covered(collection: &str, test: Test) -> (usize, usize) {
    let default = || PathBuf::from(env!("CARGO_MANIFEST_DIR")).join(FILE);
    let path = env::var_os("HODKHAKI_VECTORS").map_or_else(default, PathBuf::from);
    let text = fs::read_to_string(&path).unwrap_or_else(|e| panic!("{}: {e}", path.display()));
    let (mut lines, mut tested) = (0, 0);
    for text in text.lines() {
        lines += 1;
        let line = Line::read(lines, text);
        if line.collection == collection && test(&line) {
            tested += 1;
        }
    }
    (lines, tested)
}

/// References to the keys and values.
fn borrowed<K: Field + ?Sized, V: Field + ?Sized>(pairs: &[(K::Owned, V::Owned)]) -> Vec<(&K, &V)> {
    let mut references = Vec::new();
    for (key, value) in pairs {
        references.push((key.borrow(), value.borrow()));
    }
    references
}

/// Builds a map of a kind, opens the bytes of the line, and looks up and iterates.
fn test_map<K, V, C: Built>(line: &Line) -> bool
where
    K: Key + Field + ?Sized,
    V: Value + Field + ?Sized,
{
    let owned = line.pairs::<K, V>();
    let pairs = borrowed::<K, V>(&owned);
    let builder: Builder<K, V> = pairs.iter().copied().collect();
    line.same_bytes(C::map(&builder, line.width, None).as_bytes());

    let map = Map::<K, V, C>::open_archive(&line.bytes, line.width);
    let map = line.ok("open", map);
    line.same("len", map.len(), pairs.len());
    for (key, value) in &pairs {
        let found = map.get(key);
        line.same("get", found.as_ref().map(Borrow::borrow), Some(*value));
    }
    let absent = K::absent();
    line.same("an absent key", map.contains_key(absent.borrow()), false);
    let listed: Vec<_> = map.iter().collect();
    let listed = listed
        .iter()
        .map(|(key, value)| (key.borrow(), value.borrow()));
    line.same("iter", sorted(listed), sorted(pairs.clone()));
    true
}

fn test_index_map<K, V>(line: &Line) -> bool
where
    K: Key + Field + ?Sized,
    V: Value + Field + ?Sized,
{
    test_map::<K, V, IndexKind>(line);
    let owned = line.pairs::<K, V>();
    let map = IndexMap::<K, V>::open_archive(&line.bytes, line.width);
    let map = line.ok("open", map);
    let indices = map.keys().map(|key| map.get_index_of(key.borrow()));
    line.same("get_index_of", indices.eq((0..owned.len()).map(Some)), true);
    for (index, (key, value)) in borrowed::<K, V>(&owned).into_iter().enumerate() {
        let pair = map.get_index(index);
        let pair = pair
            .as_ref()
            .map(|(key, value)| (key.borrow(), value.borrow()));
        line.same("get_index", pair, Some((key, value)));
    }
    line.same("the end", map.get_index(owned.len()).is_none(), true);
    true
}

/// Builds a set of a kind, opens the bytes of the line, and looks up and iterates.
fn test_set<K: Key + Field + ?Sized, C: Built>(line: &Line) -> bool {
    let owned = line.items::<K>();
    let items: Vec<&K> = owned.iter().map(Borrow::borrow).collect();
    let builder: SetBuilder<K> = items.iter().copied().collect();
    line.same_bytes(C::set(&builder, line.width, None).as_bytes());

    let set = Set::<K, C>::open_archive(&line.bytes, line.width);
    let set = line.ok("open", set);
    line.same("len", set.len(), items.len());
    for item in &items {
        line.same("contains", (*item, set.contains(item)), (*item, true));
    }
    let absent = K::absent();
    line.same("an absent item", set.contains(absent.borrow()), false);
    let listed: Vec<_> = set.iter().collect();
    let listed = listed.iter().map(Borrow::borrow);
    line.same("iter", sorted(listed), sorted(items.clone()));
    true
}

fn test_index_set<K: Key + Field + ?Sized>(line: &Line) -> bool {
    test_set::<K, IndexKind>(line);
    let set = IndexSet::<K>::open_archive(&line.bytes, line.width);
    let set = line.ok("open", set);
    for (index, item) in line.items::<K>().iter().enumerate() {
        line.same("get_index_of", set.get_index_of(item.borrow()), Some(index));
        let found = set.get_index(index);
        line.same(
            "get_index",
            found.as_ref().map(Borrow::borrow),
            Some(item.borrow()),
        );
    }
    true
}

/// Tests a line of a map. The result is `false` if the crate doesn't have its types.
macro_rules! test_of_maps {
    ($line:ident, $test:ident $(, $kind:ty)?) => {
        match $line.types {
            ("u32", "u32") => $test::<u32, u32 $(, $kind)?>($line),
            ("u32", "u64") => $test::<u32, u64 $(, $kind)?>($line),
            ("u64", "u64") => $test::<u64, u64 $(, $kind)?>($line),
            ("i16", "u8") => $test::<i16, u8 $(, $kind)?>($line),
            ("i64", "i32") => $test::<i64, i32 $(, $kind)?>($line),
            ("text", "u32") => $test::<str, u32 $(, $kind)?>($line),
            ("text", "u64") => $test::<str, u64 $(, $kind)?>($line),
            ("text", "text") => $test::<str, str $(, $kind)?>($line),
            _ => false,
        }
    };
}

/// The same of a set.
macro_rules! test_of_sets {
    ($line:ident, $test:ident $(, $kind:ty)?) => {
        match $line.types {
            ("u32", "-") => $test::<u32 $(, $kind)?>($line),
            ("u64", "-") => $test::<u64 $(, $kind)?>($line),
            ("text", "-") => $test::<str $(, $kind)?>($line),
            _ => false,
        }
    };
}

#[test]
fn maps_agree() {
    let test: Test = |line| test_of_maps!(line, test_map, HashKind);
    assert_eq!(covered("map", test), (LINES, MAPS));
}

#[test]
fn sets_agree() {
    let test: Test = |line| test_of_sets!(line, test_set, HashKind);
    assert_eq!(covered("set", test), (LINES, SETS));
}

#[test]
fn index_maps_agree() {
    let test: Test = |line| test_of_maps!(line, test_index_map);
    assert_eq!(covered("index map", test), (LINES, INDEX_MAPS));
}

#[test]
fn index_sets_agree() {
    let test: Test = |line| test_of_sets!(line, test_index_set);
    assert_eq!(covered("index set", test), (LINES, INDEX_SETS));
}
