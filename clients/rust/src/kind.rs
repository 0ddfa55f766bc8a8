#[cfg(doc)]
use crate::{IndexMap, IndexSet, Map, Set};

use self::sealed::SealedKind;

/// The kind of a collection, which determines the order of its pairs: [`HashKind`] or [`IndexKind`].
///
/// The trait is sealed. It is public so that code can be generic over the kind:
///
/// ```
/// use hodkhaki::{Key, Kind, Map, Number};
///
/// fn total<K, V, C>(map: Map<'_, K, V, C>) -> u64
/// where
///     K: Key + ?Sized,
///     V: Number + Into<u64>,
///     C: Kind,
/// {
///     map.values().map(Into::into).sum()
/// }
/// ```
#[diagnostic::on_unimplemented(
    message = "the kind of a collection is `HashKind` or `IndexKind`, not `{Self}`"
)]
pub trait Kind: SealedKind + 'static {}

/// The kind of a [`Map`] and of a [`Set`], whose order is that of the archive.
#[derive(Clone, Copy, Debug, PartialEq, Eq, Hash)]
pub enum HashKind {}

/// The kind of an [`IndexMap`] and of an [`IndexSet`], whose order is that of insertion.
#[derive(Clone, Copy, Debug, PartialEq, Eq, Hash)]
pub enum IndexKind {}

impl Kind for HashKind {}

impl Kind for IndexKind {}

pub(crate) mod sealed {
    use super::{HashKind, IndexKind};

    /// A kind of collection, with its codes in the header of a container.
    pub trait SealedKind {
        /// The code of a map.
        const MAP: u8;

        /// The code of a set.
        const SET: u8;

        /// Whether iteration continues at an index, in place of a bucket.
        const IS_INDEXED: bool;
    }

    impl SealedKind for HashKind {
        const MAP: u8 = 1;
        const SET: u8 = 2;
        const IS_INDEXED: bool = false;
    }

    impl SealedKind for IndexKind {
        const MAP: u8 = 3;
        const SET: u8 = 4;
        const IS_INDEXED: bool = true;
    }
}
