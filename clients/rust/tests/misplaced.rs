//! Misplaced keys are counted as lookups miss them, and the limit is on what lookups read.

mod common;

use std::borrow::Borrow;
use std::collections::HashSet;

use common::{Built, WIDTHS};
use hodkhaki::{
    Builder, HashKind, IndexKind, Key, Kind, Map, MapBuf, MapMut, Set, SetBuilder, Width,
};

/// The least limit at which a count is not `None`.
fn least_limit(count: impl Fn(u64) -> Option<u64>) -> u64 {
    let (mut low, mut high) = (0, 1 << 20);
    assert!(count(high).is_some());
    while low < high {
        let middle = low + (high - low) / 2;
        if count(middle).is_some() {
            high = middle;
        } else {
            low = middle + 1;
        }
    }
    low
}

/// Tests that a count is this number, from a limit of at least one for each of the keys on.
fn expect(count: impl Fn(u64) -> Option<u64>, keys: usize, misplaced: usize) {
    let least = least_limit(&count);
    assert!(least >= keys as u64);
    for limit in [least, least + 1, 1 << 63, u64::MAX] {
        assert_eq!(count(limit), Some(misplaced as u64));
    }
    for limit in 0..least {
        assert_eq!(count(limit), None);
    }
}

/// The number of pairs of a map that a lookup of their key doesn't find. No value repeats.
fn missed<K: Key + ?Sized, C: Kind>(map: Map<'_, K, u64, C>) -> usize {
    let is_missed = |(key, value): &(K::Ref<'_>, u64)| map.get((*key).borrow()) != Some(*value);
    map.iter().filter(is_missed).count()
}

/// Counts the misplaced keys of maps and sets of a kind, whose keys repeat.
fn test_kind<K: Key + ?Sized, C: Built>(keys: &[&K], misplaced: usize) {
    let mut items = SetBuilder::<K>::new();
    let mut numbers = Builder::<K, u64>::new();
    let mut words = Builder::<K, str>::new();
    for (value, key) in keys.iter().enumerate() {
        items.push(*key);
        numbers.push(*key, value as u64);
        words.push(*key, "a text");
    }
    for width in WIDTHS {
        let set = C::set(&items, width, None);
        expect(|limit| set.misplaced_up_to(limit), keys.len(), misplaced);
        let map = C::map(&words, width, None);
        expect(|limit| map.misplaced_up_to(limit), keys.len(), misplaced);
        let map = C::map(&numbers, width, None);
        assert_eq!(missed(map.as_map()), misplaced);
        expect(|limit| map.misplaced_up_to(limit), keys.len(), misplaced);
    }
}

/// Counts the misplaced keys of maps and sets of these keys, which repeat.
fn test_keys<K: Key + ?Sized>(keys: &[&K]) {
    let mut texts = HashSet::new();
    let repeated = |key: &&&K| !texts.insert(key.to_string());
    let misplaced = keys.iter().filter(repeated).count();
    test_kind::<K, HashKind>(keys, misplaced);
    test_kind::<K, IndexKind>(keys, misplaced);
}

#[test]
fn repeated_keys_are_misplaced() {
    for length in [0, 1, 2, 3, 15, 16, 50, 200] {
        // Each seventh key is one of the first ones.
        let numbers: Vec<u32> = (0..length)
            .map(|n| if n % 7 == 6 { n / 7 } else { n * n })
            .collect();
        let long: Vec<u64> = numbers.iter().map(|n| u64::from(*n) << 30).collect();
        let texts: Vec<String> = numbers
            .iter()
            .map(|n| "a".repeat(*n as usize % 97))
            .collect();
        test_keys::<u32>(&numbers.iter().collect::<Vec<_>>());
        test_keys::<u64>(&long.iter().collect::<Vec<_>>());
        test_keys::<str>(&texts.iter().map(String::as_str).collect::<Vec<_>>());
        let signed: Vec<i16> = numbers.iter().map(|n| -(*n as i16)).collect();
        test_keys::<i16>(&signed.iter().collect::<Vec<_>>());
        let letters: Vec<char> = numbers.iter().filter_map(|n| char::from_u32(*n)).collect();
        test_keys::<char>(&letters.iter().collect::<Vec<_>>());
    }
}

/// Counts by each type of handle of a kind.
fn test_handles<C: Built>() {
    let pairs = Builder::<str, u64>::from([("tea", 3), ("cake", 4), ("tea", 5)]);
    let items = SetBuilder::<str>::from(["tea", "cake", "tea"]);
    for width in WIDTHS {
        let mut bytes = C::map(&pairs, width, None).into_bytes();
        let expect = |count: &dyn Fn(u64) -> Option<u64>| {
            assert_eq!([2, 3].map(count), [None, Some(1)]);
        };
        let map = MapMut::<str, u64, C>::open_archive(&mut bytes, width).unwrap();
        expect(&|limit| map.misplaced_up_to(limit));
        drop(map);
        let map = MapBuf::<str, u64, _, C>::open_archive(bytes, width).unwrap();
        expect(&|limit| map.misplaced_up_to(limit));
        expect(&|limit| map.as_map().misplaced_up_to(limit));
        let set = C::set(&items, width, None);
        expect(&|limit| set.misplaced_up_to(limit));
        expect(&|limit| set.as_set().misplaced_up_to(limit));
    }
}

#[test]
fn each_type_of_handle_counts() {
    test_handles::<HashKind>();
    test_handles::<IndexKind>();
}

/// The number of 32 bits at a position.
fn word(bytes: &[u8], pos: usize) -> u32 {
    u32::from_le_bytes(bytes[pos..pos + 4].try_into().unwrap())
}

/// A set of numbers in a narrow archive, by the rules of `docs/FORMAT.md`: the position of its control
/// bytes, and the number of its buckets.
struct Layout {
    controls: usize,
    capacity: usize,
}

impl Layout {
    /// The layout by the header at the end.
    fn of(bytes: &[u8]) -> Self {
        let header = bytes.len() - 12;
        Layout {
            controls: header.wrapping_add_signed(word(bytes, header) as i32 as isize),
            capacity: word(bytes, header + 8) as usize,
        }
    }

    /// The number of control bytes.
    fn control_count(&self) -> usize {
        self.capacity.next_multiple_of(16) + 15
    }

    /// The position of the item in a bucket.
    fn item_pos(&self, bucket: usize) -> usize {
        self.controls - 4 * (bucket + 1)
    }
}

/// What lookups find in such a set, by the rules of `docs/FORMAT.md`.
struct Model<'a> {
    items: Vec<u32>,
    controls: &'a [u8],
    capacity: usize,
}

impl<'a> Model<'a> {
    fn of(bytes: &'a [u8]) -> Self {
        let layout = Layout::of(bytes);
        let item = |bucket| word(bytes, layout.item_pos(bucket));
        Model {
            items: (0..layout.capacity).map(item).collect(),
            controls: &bytes[layout.controls..layout.controls + layout.control_count()],
            capacity: layout.capacity,
        }
    }

    /// The bucket that a lookup finds, and the number of strides that it reads.
    fn find(&self, item: u32) -> (Option<usize>, u64) {
        let hash = u64::from(item).wrapping_mul(0x517c_c1b7_2722_0a95);
        let (tag, start) = ((hash >> 57) as u8, (hash % self.capacity as u64) as usize);
        let probe_capacity = self.capacity.next_multiple_of(16);
        let modulus = (probe_capacity + 15).next_power_of_two();
        let indices = (0..modulus).map(|k| (start + 16 * (k * (k + 1) / 2)) % modulus);
        let mut strides = 0;
        for index in indices.filter(|index| *index < probe_capacity) {
            strides += 1;
            let stride = &self.controls[index..index + 16];
            let mut after_marked = false;
            for (position, control) in stride.iter().enumerate() {
                after_marked &= position != 8;
                after_marked = *control == tag || after_marked && *control == tag ^ 1;
                let bucket = (index + position) % self.capacity;
                if after_marked && self.items[bucket] == item {
                    return (Some(bucket), strides);
                }
            }
            if stride.iter().any(|control| *control >= 128) || strides == probe_capacity as u64 / 16
            {
                return (None, strides);
            }
        }
        unreachable!("the strides are those of all buckets");
    }

    /// The number of misplaced items, and that of the strides that their lookups read.
    fn misplaced(&self) -> (u64, u64) {
        let full = (0..self.capacity).filter(|bucket| self.controls[*bucket] < 128);
        full.fold((0, 0), |(misplaced, all), bucket| {
            let (found, strides) = self.find(self.items[bucket]);
            (misplaced + u64::from(found != Some(bucket)), all + strides)
        })
    }
}

/// The next number of a generator.
fn random(state: &mut u64) -> usize {
    (common::random(state) >> 11) as usize
}

/// Changes tags and items of a set, which stays valid.
fn damage(bytes: &mut [u8], state: &mut u64, changes: usize) {
    let layout = Layout::of(bytes);
    for _ in 0..changes {
        let (bucket, other) = (
            random(state) % layout.capacity,
            random(state) % layout.capacity,
        );
        let (control, other_control) = (layout.controls + bucket, layout.controls + other);
        if bytes[control] >= 128 || bytes[other_control] >= 128 {
            continue;
        }
        let tag = match random(state) % 3 {
            0 => bytes[control] ^ 1 << (random(state) % 7),
            1 => bytes[other_control],
            _ => {
                let item = word(bytes, layout.item_pos(other));
                let pos = layout.item_pos(bucket);
                bytes[pos..pos + 4].copy_from_slice(&item.to_le_bytes());
                bytes[control]
            }
        };
        bytes[control] = tag;
        if bucket + layout.capacity < layout.control_count() {
            bytes[control + layout.capacity] = tag;
        }
    }
}

#[test]
fn counts_of_damaged_sets_are_those_of_the_format() {
    let mut state = 0x2545_f491_4f6c_dd1d;
    let (mut nonzero, mut above_one) = (0, 0);
    for round in 0..600 {
        let length = 1 + random(&mut state) % 120;
        let items = (0..length).map(|_| (random(&mut state) % 4096) as u32);
        let builder: SetBuilder<u32> = items.collect();
        let mut bytes: Vec<u8> = builder.build_archive(Width::Narrow).unwrap().into();
        damage(&mut bytes, &mut state, round % 200);
        let set = Set::<u32>::open_archive(&bytes, Width::Narrow).unwrap();
        let (misplaced, strides) = Model::of(&bytes).misplaced();
        assert_eq!(set.misplaced_up_to(strides), Some(misplaced), "{round}");
        assert_eq!(set.misplaced_up_to(u64::MAX), Some(misplaced), "{round}");
        for limit in (0..strides).rev().step_by(7) {
            assert_eq!(set.misplaced_up_to(limit), None, "{round}");
        }
        nonzero += u64::from(misplaced > 0);
        above_one += u64::from(strides > length as u64);
    }
    assert!(nonzero > 300 && above_one > 100);
}

/// A byte of a map is changed. If no value repeats, the count is that of the keys that lookups miss.
/// Returns the counts.
fn test_damaged<C: Built>() -> HashSet<usize> {
    let builder: Builder<u32, u64> = (0..20)
        .map(|key| (key * 3 % 19, 1000 + u64::from(key)))
        .collect();
    let mut different = HashSet::new();
    for width in WIDTHS {
        let mut bytes = C::map(&builder, width, None).into_bytes();
        for index in 0..bytes.len() {
            let byte = bytes[index];
            for other in [byte ^ 1, byte ^ 2, byte.wrapping_add(19)] {
                bytes[index] = other;
                let map = Map::<u32, u64, C>::open_archive(&bytes, width).ok();
                let has_no_equal_values = |map: &Map<'_, u32, u64, C>| {
                    map.values().collect::<HashSet<_>>().len() == map.len()
                };
                if let Some(map) = map.filter(has_no_equal_values) {
                    assert_eq!(map.misplaced_up_to(1000), Some(missed(map) as u64));
                    different.insert(missed(map));
                }
            }
            bytes[index] = byte;
        }
    }
    different
}

#[test]
fn keys_of_damaged_maps_are_misplaced() {
    assert!(test_damaged::<HashKind>().len() > 1);
    assert!(test_damaged::<IndexKind>().len() > 1);
}
