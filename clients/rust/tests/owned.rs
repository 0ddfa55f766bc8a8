//! Maps and sets that own their bytes: opened, moved, cloned, shared by threads and written in place.

mod common;

use std::borrow::Cow;
use std::cell::Cell;
use std::collections::{HashMap, HashSet};
use std::panic::{RefUnwindSafe, UnwindSafe};
use std::rc::Rc;
use std::sync::Arc;
use std::time::{Duration, Instant};

use common::{kind_of, random, text, WIDTHS};
use hodkhaki::{
    Builder, Checksum, ErrorKind, IndexMap, IndexMapBuf, IndexSetBuf, Map, MapBuf, SetBuf,
    SetBuilder, StableBytes, Width,
};

/// A map of std, and the bytes of its archives and containers.
struct Modelled {
    values: HashMap<String, u64>,
    bytes: Vec<u8>,
    container: Vec<u8>,
    index_container: Vec<u8>,
    width: Width,
}

impl Modelled {
    fn new(count: u64, width: Width) -> Self {
        let values: HashMap<String, u64> = (0..count).map(|n| (text(n), n << 33)).collect();
        let builder = Builder::from(&values);
        let archive = builder.build_archive(width).unwrap();
        let container = archive.to_container(Checksum::Adler32);
        let index_archive = builder.build_index_archive(width).unwrap();
        Modelled {
            values,
            bytes: archive.into(),
            container,
            index_container: index_archive.to_container(Checksum::None),
            width,
        }
    }

    /// Opens the bytes in values that own them, moves the maps and compares them.
    fn compare<B: StableBytes>(&self, owned: impl Fn(Vec<u8>) -> B) {
        let map =
            MapBuf::<str, u64, B>::open_archive(owned(self.bytes.clone()), self.width).unwrap();
        self.check(&map);
        // The vector moves the maps when it grows.
        let mut maps = vec![map];
        for _ in 0..5 {
            maps.push(MapBuf::open(owned(self.container.clone())).unwrap());
            maps.iter().for_each(|map| self.check(map));
        }
        maps.swap(0, 3);
        let boxed = Box::new(maps.remove(3));
        self.check(&boxed);
        assert_eq!(boxed.as_bytes(), self.bytes);
        assert_eq!(boxed.into_bytes().stable_bytes(), self.bytes);
        assert_eq!(maps[0].as_bytes(), self.container);

        let index_map = IndexMapBuf::<str, u64, B>::open(owned(self.index_container.clone()));
        let index_map = Box::new(index_map.unwrap());
        assert_eq!(index_map.as_map(), self.values);
        assert!(index_map.iter().eq(&*index_map));
        assert!(self.values.keys().all(|key| index_map.contains_key(key)));
        assert_eq!(index_map.as_bytes(), self.index_container);
    }

    fn check<B: StableBytes>(&self, map: &MapBuf<str, u64, B>) {
        assert_eq!(map.as_map(), self.values);
        assert_eq!((map.len(), map.width()), (self.values.len(), self.width));
        assert_eq!(map.is_empty(), self.values.is_empty());
        for (key, value) in &self.values {
            assert_eq!((map.get(key), map.at(key)), (Some(*value), *value));
        }
        assert!(map.get("another").is_none() && !map.contains_key("another"));
        assert!(map.iter().eq(map) && map.iter().eq(map.as_map()));
        assert_eq!(format!("{map:?}"), format!("{:?}", map.as_map()));
    }
}

/// Bytes in two places, which are returned by turns.
struct Alternating {
    copies: [Vec<u8>; 2],
    next: Cell<usize>,
}

// SAFETY: both copies have the same bytes, and nothing changes them.
unsafe impl StableBytes for Alternating {
    fn stable_bytes(&self) -> &[u8] {
        self.next.set(1 - self.next.get());
        &self.copies[self.next.get()]
    }
}

#[test]
fn owned_maps_are_those_of_std() {
    for width in WIDTHS {
        for count in [0, 1, 2, 8, 100] {
            let modelled = Modelled::new(count, width);
            modelled.compare(|bytes| bytes);
            modelled.compare(Vec::into_boxed_slice);
            modelled.compare(Rc::<[u8]>::from);
            modelled.compare(Arc::<[u8]>::from);
            modelled.compare(Box::new);
            modelled.compare(Arc::new);
            modelled.compare(Cow::<[u8]>::Owned);
            modelled.compare(|bytes| -> &'static [u8] { bytes.leak() });
            modelled.compare(|bytes| Alternating {
                copies: [bytes.clone(), bytes],
                next: Cell::new(0),
            });
        }
    }
}

#[test]
fn bytes_are_in_the_map_itself() {
    let archive = Builder::<u32, u32>::from([(1, 2)]).build_archive(Width::Narrow);
    let bytes: [u8; 60] = Vec::from(archive.unwrap()).try_into().unwrap();
    let mut maps = vec![MapBuf::<u32, u32, _>::open_archive(bytes, Width::Narrow).unwrap()];
    for _ in 0..5 {
        maps.push(maps[0].clone());
        assert!(maps.iter().all(|map| map.get(&1) == Some(2)));
    }
}

#[test]
fn clones_own_their_bytes() {
    let modelled = Modelled::new(100, Width::Narrow);
    let map = MapBuf::<str, u64>::open_archive(modelled.bytes.clone(), Width::Narrow).unwrap();
    let clone = map.clone();
    drop(map);
    modelled.check(&clone);
    let shared: Arc<[u8]> = modelled.container.clone().into();
    let map = MapBuf::<str, u64, Arc<[u8]>>::open(shared).unwrap();
    let threads = [map.clone(), map.clone()].map(|map| {
        std::thread::spawn(move || {
            assert_eq!(map.at(&text(7)), 7 << 33);
            map.iter().count()
        })
    });
    assert_eq!(threads.map(|thread| thread.join().unwrap()), [100, 100]);
    std::thread::scope(|scope| {
        scope.spawn(|| modelled.check(&map));
        modelled.check(&map);
    });
    assert_eq!(Arc::strong_count(&map.into_bytes()), 1);
}

/// Maps that are written, and the values that they have to have.
struct Written {
    map: MapBuf<str, u64>,
    index_map: IndexMapBuf<u32, u32>,
    values: HashMap<String, u64>,
    index_values: Vec<u32>,
}

impl Written {
    /// The map is in a container, and the index map isn't.
    fn new(count: u32, width: Width) -> Self {
        let values = (0..count).map(|n| (text(n.into()), u64::from(n)));
        let values: HashMap<String, u64> = values.collect();
        let index_values: Vec<u32> = (0..count).map(|n| n ^ 5).collect();
        let index_map: Builder<u32, u32> = (0..).zip(&index_values).collect();
        let builder = Builder::from(&values);
        Written {
            map: builder.build_with(width, Checksum::Adler32).unwrap(),
            index_map: index_map.build_index_archive(width).unwrap(),
            values,
            index_values,
        }
    }

    fn check(&self) {
        assert_eq!(self.map.as_map(), self.values);
        assert_eq!(
            Map::<str, u64>::open(self.map.as_bytes()).unwrap(),
            self.values
        );
        assert!(self
            .index_map
            .values()
            .eq(self.index_values.iter().copied()));
        assert!(self.index_map.keys().eq(0..self.index_values.len() as u32));
        let (bytes, width) = (self.index_map.as_bytes(), self.index_map.width());
        let opened = IndexMap::<u32, u32>::open_archive(bytes, width).unwrap();
        assert!(opened.iter().eq(&self.index_map));
    }

    fn write(&mut self, random: u64) {
        if let Some(key) = self.values.keys().next().cloned() {
            assert!(self.map.as_map_mut().set(&key, random));
            self.values.insert(key, random);
        }
        if !self.index_values.is_empty() {
            let index = random as usize % self.index_values.len();
            let (key, value) = (index as u32, (random >> 32) as u32);
            assert!(self.index_map.as_map_mut().set(&key, value));
            self.index_values[index] = value;
        }
        assert!(!self.map.as_map_mut().set("another", 1));
    }
}

/// Maps that move, are swapped, replaced and written keep their own values.
#[test]
fn maps_that_move_are_those_of_std() {
    let mut state = 0x5bd1_e995;
    for width in WIDTHS {
        let mut maps: Vec<Written> = Vec::new();
        for count in [0, 1, 2, 7, 40, 300] {
            // The vector moves its elements when it grows.
            maps.push(Written::new(count, width));
            maps.iter().for_each(Written::check);
        }
        for _ in 0..100 {
            let first = random(&mut state) as usize % maps.len();
            let second = random(&mut state) as usize % maps.len();
            maps.swap(first, second);
            maps[first].write(random(&mut state));
            maps[first].check();
            maps[second].check();
        }
        let old = std::mem::replace(&mut maps[3], Written::new(9, width));
        old.check();
        let boxed: Vec<Box<Written>> = maps.into_iter().map(Box::new).collect();
        let joined = std::thread::spawn(move || {
            boxed.iter().for_each(|map| map.check());
            boxed
        });
        joined.join().unwrap().iter().for_each(|map| map.check());
    }
}

#[test]
fn owned_sets_are_those_of_std() {
    for width in WIDTHS {
        let items: HashSet<String> = (0..100).map(text).collect();
        let builder = SetBuilder::from(&items);
        let set = builder.build_archive(width).unwrap();
        let container = set.to_container(Checksum::Adler32);
        let in_container = SetBuf::<str, Arc<[u8]>>::open(container.clone().into());
        let in_container = in_container.unwrap().clone();
        let index_set = builder.build_index_with(width, Checksum::None).unwrap();
        let index_set = IndexSetBuf::<str>::open(index_set.into_bytes()).unwrap();
        assert_eq!(set.as_set(), items);
        assert_eq!(in_container.as_set(), items);
        assert_eq!(index_set.as_set(), items);
        assert!(set.iter().eq(&set) && in_container.iter().all(|item| set.contains(item)));
        assert!(index_set.iter().eq(items.iter()));
        assert_eq!(
            (set.len(), set.is_empty(), set.width()),
            (100, false, width)
        );
        assert!(!set.contains("another") && !index_set.contains("another"));
        assert_eq!(format!("{index_set:?}"), format!("{items:?}"));
        assert_eq!(in_container.as_bytes(), container);
        assert_eq!(&*in_container.into_bytes(), container);
    }
}

#[test]
fn invalid_bytes_fail() {
    let modelled = Modelled::new(3, Width::Narrow);
    let bytes = &modelled.bytes[..];
    let open = |bytes| {
        kind_of(MapBuf::<str, u64, &[u8]>::open_archive(
            bytes,
            Width::Narrow,
        ))
    };
    assert_eq!(
        (open(bytes), open(&[])),
        (None, Some(ErrorKind::OutOfRange))
    );
    let shorter = Map::<str, u64>::open_archive(&bytes[1..], Width::Narrow);
    assert_eq!(open(&bytes[1..]), kind_of(shorter));
    let container = |bytes: &[u8]| kind_of(MapBuf::<str, u64, Box<[u8]>>::open(bytes.into()));
    assert_eq!(container(&modelled.container), None);
    assert_eq!(container(bytes), Some(ErrorKind::WrongMagic));
    assert_eq!(
        container(&modelled.container[..40]),
        Some(ErrorKind::WrongLength)
    );
    assert_eq!(
        container(&modelled.index_container),
        Some(ErrorKind::WrongCollection)
    );
    let other = MapBuf::<u32, u64, &[u8]>::open(&modelled.container);
    assert_eq!(kind_of(other), Some(ErrorKind::WrongKeyType));
    let index_map = IndexMapBuf::<str, u64, &[u8]>::open_archive(&[0; 17], Width::Narrow);
    assert_eq!(kind_of(index_map), Some(ErrorKind::Unaligned));
    let set = SetBuf::<str, &[u8]>::open(&modelled.container);
    assert_eq!(kind_of(set), Some(ErrorKind::WrongCollection));
    let wide = MapBuf::<str, u64, &[u8]>::open_with_width(&modelled.container, Width::Wide);
    assert_eq!(kind_of(wide), Some(ErrorKind::WrongWidth));
}

/// The shortest of three measured times.
fn shortest(mut measured: impl FnMut()) -> Duration {
    let time = |_| {
        let begin = Instant::now();
        measured();
        begin.elapsed()
    };
    (0..3).map(time).min().unwrap()
}

/// A thousand calls of `as_map` and `as_set` take less time than a hundred validations.
#[test]
fn as_map_validates_nothing() {
    let texts: Vec<String> = (0..20_000).map(text).collect();
    let builder: Builder<str, str> = texts.iter().map(|text| (text, text)).collect();
    let map = builder.build_archive(Width::Narrow).unwrap();
    let (index_map, set) = (
        builder.build_index().unwrap(),
        SetBuilder::from(&texts).build().unwrap(),
    );
    let validation = shortest(|| {
        Map::<str, str>::open_archive(map.as_bytes(), Width::Narrow).unwrap();
    });
    let lookups = shortest(|| {
        for text in texts.iter().take(1000) {
            assert_eq!(map.as_map().get(text), Some(&**text));
            assert_eq!(index_map.as_map().get(text), Some(&**text));
            assert!(set.as_set().contains(text));
        }
    });
    assert!(lookups < 100 * validation, "{lookups:?} {validation:?}");
}

/// Asserted at compile time.
const _: () = {
    const fn is_safe<T: Send + Sync + UnwindSafe + RefUnwindSafe + Clone>() {}
    is_safe::<MapBuf<str, u64>>();
    is_safe::<IndexMapBuf<u32, str, Arc<[u8]>>>();
    is_safe::<SetBuf<u64, &'static [u8]>>();
};
