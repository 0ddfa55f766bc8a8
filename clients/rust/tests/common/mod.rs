//! What several tests use.

// Each test uses a part of it.
#![allow(dead_code)]

use std::fmt::Debug;

use hodkhaki::{
    Builder, Checksum, Error, ErrorKind, HashKind, IndexKind, ItemType, Key, Kind, MapBuf, SetBuf,
    SetBuilder, Value, Width,
};

pub const WIDTHS: [Width; 2] = [Width::Narrow, Width::Wide];

pub const CHECKSUMS: [Checksum; 2] = [Checksum::None, Checksum::Adler32];

/// The next number of a generator.
pub fn random(state: &mut u64) -> u64 {
    *state ^= *state << 13;
    *state ^= *state >> 7;
    *state ^= *state << 17;
    *state
}

/// A string of some length, which ends with the number.
pub fn text(n: u64) -> String {
    "ä日x".repeat(n as usize % 7) + &n.to_string()
}

/// A string of this number of characters, which have one, two and three bytes.
pub fn text_of_length(length: usize) -> String {
    "ä日x".chars().cycle().take(length).collect()
}

/// The kind of the error of a call, or `None` if it didn't fail.
pub fn kind_of<T>(result: Result<T, Error>) -> Option<ErrorKind> {
    result.err().map(|error| error.kind())
}

pub fn sorted<T: Ord>(items: impl IntoIterator<Item = T>) -> Vec<T> {
    let mut items: Vec<T> = items.into_iter().collect();
    items.sort();
    items
}

/// A kind of collection, as builders build it: in a container with a checksum, or without a container.
pub trait Built: Kind + Sized {
    fn map<K, V>(
        builder: &Builder<K, V>,
        width: Width,
        checksum: Option<Checksum>,
    ) -> MapBuf<K, V, Vec<u8>, Self>
    where
        K: Key + ?Sized,
        V: Value + ?Sized;

    fn set<K: Key + ?Sized>(
        builder: &SetBuilder<K>,
        width: Width,
        checksum: Option<Checksum>,
    ) -> SetBuf<K, Vec<u8>, Self>;
}

macro_rules! built {
    ($($kind:ty: $with:ident, $archive:ident;)*) => {
        $(impl Built for $kind {
            fn map<K, V>(
                builder: &Builder<K, V>,
                width: Width,
                checksum: Option<Checksum>,
            ) -> MapBuf<K, V, Vec<u8>, Self>
            where
                K: Key + ?Sized,
                V: Value + ?Sized,
            {
                let with = |checksum| builder.$with(width, checksum);
                checksum.map_or_else(|| builder.$archive(width), with).unwrap()
            }

            fn set<K: Key + ?Sized>(
                builder: &SetBuilder<K>,
                width: Width,
                checksum: Option<Checksum>,
            ) -> SetBuf<K, Vec<u8>, Self> {
                let with = |checksum| builder.$with(width, checksum);
                checksum.map_or_else(|| builder.$archive(width), with).unwrap()
            }
        })*
    };
}

built! {
    HashKind: build_with, build_archive;
    IndexKind: build_index_with, build_index_archive;
}

/// A type of keys or of values, with some of its values.
pub trait Sample: ToOwned<Owned: Clone> + Debug {
    /// The code of the type in the header of a container.
    const TYPE: u8;

    /// The type as `container_kind` returns it.
    const ITEM: ItemType;

    /// Some values, of which no two are equal.
    fn samples() -> Vec<Self::Owned>;

    /// The bits of a value, by which values are compared: a NaN equals itself.
    fn bits(&self) -> Vec<u8>;
}

macro_rules! integers {
    ($($type:ident = $code:literal $item:ident,)*) => {
        $(impl Sample for $type {
            const TYPE: u8 = $code;

            const ITEM: ItemType = ItemType::$item;

            fn samples() -> Vec<$type> {
                let high = [<$type>::MIN, <$type>::MIN + 1, <$type>::MAX / 2, <$type>::MAX];
                let mut samples: Vec<$type> = (1..40).map(|n| n * 3).chain(high).collect();
                samples.sort();
                samples.dedup();
                samples.reverse();
                samples
            }

            fn bits(&self) -> Vec<u8> {
                self.to_le_bytes().to_vec()
            }
        })*
    };
}

integers! {
    u8 = 0x11 U8, u16 = 0x12 U16, u32 = 0x14 U32, u64 = 0x18 U64,
    i8 = 0x21 I8, i16 = 0x22 I16, i32 = 0x24 I32, i64 = 0x28 I64,
}

macro_rules! samples {
    ($($type:ty = $code:literal $item:ident, $samples:expr, $bits:expr;)*) => {
        $(impl Sample for $type {
            const TYPE: u8 = $code;

            const ITEM: ItemType = ItemType::$item;

            fn samples() -> Vec<<$type as ToOwned>::Owned> {
                $samples
            }

            fn bits(&self) -> Vec<u8> {
                let bits: fn(&$type) -> Vec<u8> = $bits;
                bits(self)
            }
        })*
    };
}

/// Lengths of strings that are inline and out of line, in both widths.
const LENGTHS: [usize; 13] = [100, 17, 16, 15, 9, 8, 7, 5, 4, 3, 2, 1, 0];

samples! {
    char = 0x03 Char,
        "a\0äz日\u{7f}\u{80}\u{7ff}\u{800}\u{d7ff}\u{e000}\u{ffff}\u{10000}\u{10ffff}".chars().collect(),
        |c| u32::from(*c).to_le_bytes().to_vec();
    str = 0x04 Str,
        LENGTHS.map(text_of_length).into_iter().chain((0..20).map(text)).collect(),
        |text| text.as_bytes().to_vec();
    [u8] = 0x05 Bytes,
        LENGTHS.map(|length| [0xff, 0, 0x80].into_iter().cycle().take(length).collect()).to_vec(),
        |bytes| bytes.to_vec();
    bool = 0x02 Bool, vec![true, false], |bit| vec![u8::from(*bit)];
    f32 = 0x34 F32,
        vec![0.0, -0.0, 1.5, f32::MAX, -f32::MIN_POSITIVE, f32::NEG_INFINITY, -f32::NAN, 1e-45],
        |number| number.to_bits().to_le_bytes().to_vec();
    f64 = 0x38 F64,
        vec![0.0, -0.0, 0.1, f64::MIN, f64::EPSILON, f64::INFINITY, f64::from_bits(!0), 5e-324],
        |number| number.to_bits().to_le_bytes().to_vec();
}
