//! Hash maps, hash sets, index maps and index sets with [the bytes of rkyv 0.8.18](#archives-of-rkyv),
//! over the proved static library `ffi_rkyv`.
//!
//! A [`Builder`] collects pairs and builds a map: a [`MapBuf`], which owns its bytes. They can be written
//! to a file, and opened where they are: [`Map::open`] validates bytes once and borrows them, and
//! lookups and iteration then read them in place. A [`MapMut`] also writes values that are numbers in
//! place. A [`SetBuilder`] and a [`Set`] are the same for sets.
//!
//! Keys and items are integers of up to 64 bits, `char` or `str`. Values are these, `bool`, `f32`, `f64`
//! or `[u8]`.
//!
//! An [`IndexMap`] keeps its pairs in insertion order. It is looked up by key or by index, as a
//! table of interned strings is. [`Builder::build_index`] builds it. An [`IndexSet`] is the same for
//! sets.
//!
//! ```
//! use hodkhaki::{Builder, Map};
//!
//! fn main() -> Result<(), hodkhaki::Error> {
//!     let mut builder = Builder::<str, u64>::new();
//!     builder.insert("main", 0x1139);
//!     builder.insert("_start", 0x1040);
//!     let bytes: Vec<u8> = builder.build()?.into_bytes();
//!
//!     let map = Map::<str, u64>::open(&bytes)?;
//!     assert_eq!(map.get("main"), Some(0x1139));
//!     for (name, address) in map {
//!         println!("{address:08x} {name}");
//!     }
//!     Ok(())
//! }
//! ```
//!
//! # Containers
//!
//! Neither the types of a map nor its [`Width`] are in the bytes of an archive. An archive of one
//! type may be valid as another: a map of `str` to `u64` also opens as a map of `u32` to `u32`, with
//! meaningless pairs. That is safe, but wrong.
//!
//! A container records them: it is a header of 32 bytes and the archive behind it. It has the length
//! of the archive too, and a [`Checksum`] if asked for. [`Builder::build`] builds containers, and
//! [`Map::open`] opens them: it fails with an [`ErrorKind`] of its own if a type, the length or the
//! checksum is wrong. [`Builder::build_archive`] and [`Map::open_archive`] are for archives without a
//! container, as rkyv has them.
//!
//! A container detects a wrong type and an accident, not an attacker. So its archive is validated as
//! any other. A map of [`MapMut::open`] writes values in place, and the checksum when it is dropped.
//!
//! # Untrusted bytes
//!
//! The calls that open a container or an archive take any bytes, and fail with an [`Error`] if they
//! are not valid. The keys of an untrusted archive may repeat, and may be in buckets where lookups
//! don't find them: [`Map::misplaced_up_to`] counts these keys. A lookup there may read all control
//! bytes, since the hash has no random seed. The bytes may be at any address.
//!
//! # Bytes that change after validation
//!
//! A map borrows its bytes, so that safe code can't change them while it is in use. Who opens a
//! memory-mapped file has to ensure that nobody changes the file. If the bytes change, the next call
//! has undefined behaviour. A copy in the memory of the process helps, and so does a sealed memfd. A
//! mapping with `MAP_PRIVATE` doesn't: it may have later changes of the file.
//!
//! # Archives of rkyv
//!
//! Collections have the same archives, byte for byte, as in rkyv 0.8.18: little endian, aligned, with
//! 32-bit or 64-bit pointers. This is tested on 492 archives that its table code wrote.
//! Relative pointers, archived numbers, the zeros of padding and the layout of strings and of byte
//! strings follow rkyv's documentation. That code of rkyv was not run. The README has the types of rkyv
//! that correspond to those of this crate.
//!
//! # Linking
//!
//! The build script links `libffi_rkyv.a`, by the path in the environment variable `HODKHAKI_LIBRARY`
//! or from where `rt lib` leaves it. `cargo check` and `cargo doc` work without it.

#![warn(missing_docs)]
#![warn(unsafe_op_in_unsafe_fn)]
#![warn(clippy::undocumented_unsafe_blocks)]

mod as_map;
mod buf;
mod builder;
mod compare;
mod container;
mod error;
pub mod index_map;
mod indices;
mod item;
mod iter;
mod kind;
mod map;
mod map_mut;
mod open;
mod raw;
mod set;
mod set_builder;
mod store;
mod types;

pub use buf::{IndexMapBuf, IndexSetBuf, MapBuf, SetBuf, StableBytes};
pub use builder::Builder;
pub use container::{
    container_kind, update_container, Checksum, Collection, ContainerKind, ItemType,
};
pub use error::{Error, ErrorKind};
pub use index_map::{IndexMap, IndexSet};
pub use item::AsItem;
pub use iter::{Iter, Keys, Members, Values};
pub use kind::{HashKind, IndexKind, Kind};
pub use map::Map;
pub use map_mut::{IndexMapMut, MapMut};
pub use set::Set;
pub use set_builder::SetBuilder;
pub use types::{Key, Number, Value, Width};

/// The program of the README, which is tested as an example.
#[cfg(doctest)]
#[doc = include_str!("../README.md")]
struct Readme;
