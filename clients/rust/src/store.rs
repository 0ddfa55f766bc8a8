//! The keys or the values of a builder.

use std::ops::{Index, Range};

use crate::types::Unit;

/// The keys or the values of a builder, in insertion order.
pub trait Store<T: ?Sized>: Clone + Default + Send + Sync {
    fn reserve(&mut self, additional: usize);

    fn capacity(&self) -> usize;

    fn push(&mut self, item: &T);

    fn len(&self) -> usize;

    fn get(&self, index: usize) -> &T;

    fn replace(&mut self, index: usize, item: &T);
}

/// A buffer of strings or of byte strings, one behind the other.
pub trait Buffer<T: ?Sized>:
    Clone + Default + Send + Sync + Index<Range<usize>, Output = T>
{
    fn len(&self) -> usize;

    fn append(&mut self, part: &T);
}

impl Buffer<str> for String {
    fn len(&self) -> usize {
        self.len()
    }

    fn append(&mut self, part: &str) {
        self.push_str(part);
    }
}

impl Buffer<[u8]> for Vec<u8> {
    fn len(&self) -> usize {
        self.len()
    }

    fn append(&mut self, part: &[u8]) {
        self.extend_from_slice(part);
    }
}

/// The strings or the byte strings of a builder, in a buffer of type `B`.
#[derive(Clone, Default)]
pub struct Parts<B> {
    buffer: B,
    /// The positions of the begin and of the end of each part.
    ranges: Vec<(usize, usize)>,
    /// The number of bytes of parts that were replaced.
    unused: usize,
}

impl<B: Clone + Default> Parts<B> {
    /// Appends the bytes of a part to a buffer, and returns its range.
    fn append<T: ?Sized>(buffer: &mut B, part: &T) -> (usize, usize)
    where
        B: Buffer<T>,
    {
        let begin = buffer.len();
        buffer.append(part);
        (begin, buffer.len())
    }

    /// Removes the bytes that are not used, once they are more than the parts and the used bytes. So
    /// a replaced byte costs constant time on average.
    fn compact<T: ?Sized>(&mut self)
    where
        B: Buffer<T>,
    {
        let used = self.buffer.len() - self.unused;
        if self.unused <= used + self.ranges.len() {
            return;
        }
        let mut buffer = B::default();
        for range in &mut self.ranges {
            *range = Self::append(&mut buffer, &self.buffer[range.0..range.1]);
        }
        self.buffer = buffer;
        self.unused = 0;
    }
}

impl<T: ?Sized, B: Buffer<T>> Store<T> for Parts<B> {
    fn reserve(&mut self, additional: usize) {
        self.ranges.reserve(additional);
    }

    fn capacity(&self) -> usize {
        self.ranges.capacity()
    }

    fn push(&mut self, part: &T) {
        self.ranges.push(Self::append(&mut self.buffer, part));
    }

    fn len(&self) -> usize {
        self.ranges.len()
    }

    fn get(&self, index: usize) -> &T {
        let (begin, end) = self.ranges[index];
        &self.buffer[begin..end]
    }

    fn replace(&mut self, index: usize, part: &T) {
        let (begin, end) = self.ranges[index];
        self.ranges[index] = Self::append(&mut self.buffer, part);
        self.unused += end - begin;
        self.compact();
    }
}

impl<N: Copy + Send + Sync> Store<N> for Vec<N> {
    fn reserve(&mut self, additional: usize) {
        self.reserve(additional);
    }

    fn capacity(&self) -> usize {
        self.capacity()
    }

    fn push(&mut self, item: &N) {
        self.push(*item);
    }

    fn len(&self) -> usize {
        self.len()
    }

    fn get(&self, index: usize) -> &N {
        &self[index]
    }

    fn replace(&mut self, index: usize, item: &N) {
        self[index] = *item;
    }
}

/// The units of a builder take no memory.
const _: () = assert!(size_of::<Unit>() == 0);
