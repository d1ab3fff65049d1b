//! The calls that take memory, and may fail. Here are those that only the program makes; for the others see `base`.

use crate::alloc::AllocError;

pub use crate::base::may::*;

/// A sort that takes memory, which Rust's takes without a way to refuse.
pub trait MaySort<T> {
    /// Sorts by a key; equal items keep their order.
    fn may_sort_by_key<K: Ord>(&mut self, key: impl FnMut(&T) -> K) -> Result<(), AllocError>;
}

impl<T> MaySort<T> for [T] {
    fn may_sort_by_key<K: Ord>(&mut self, key: impl FnMut(&T) -> K) -> Result<(), AllocError> {
        self.sort_by_key(key);
        Ok(())
    }
}

/// Elements between others.
pub trait MayInsert<T> {
    /// Puts an element before that which stands at a place, or at the end.
    fn may_insert(&mut self, place: usize, element: T) -> Result<(), AllocError>;
}

impl<T> MayInsert<T> for Vec<T> {
    fn may_insert(&mut self, place: usize, element: T) -> Result<(), AllocError> {
        self.try_reserve(1).map_err(|_| AllocError)?;
        self.insert(place, element);
        Ok(())
    }
}

/// Texts.
pub trait MayString: Sized {
    /// A copy.
    fn may_from_str(text: &str) -> Result<Self, AllocError>;
    /// Appends a text.
    fn may_push_str(&mut self, text: &str) -> Result<(), AllocError>;
    /// Appends a letter.
    fn may_push(&mut self, letter: char) -> Result<(), AllocError>;
}

impl MayString for String {
    fn may_from_str(text: &str) -> Result<String, AllocError> {
        let mut copy = String::new();
        copy.try_reserve_exact(text.len()).map_err(|_| AllocError)?;
        copy.push_str(text);
        Ok(copy)
    }

    fn may_push_str(&mut self, text: &str) -> Result<(), AllocError> {
        self.try_reserve(text.len()).map_err(|_| AllocError)?;
        self.push_str(text);
        Ok(())
    }

    fn may_push(&mut self, letter: char) -> Result<(), AllocError> {
        self.may_push_str(letter.encode_utf8(&mut [0; 4]))
    }
}

/// What can be printed.
pub trait MayDisplay {
    /// Its text. If memory runs out, the process ends.
    fn may_to_string(&self) -> Result<String, AllocError>;
}

impl<T: std::fmt::Display> MayDisplay for T {
    fn may_to_string(&self) -> Result<String, AllocError> {
        Ok(self.to_string())
    }
}

/// Bytes.
pub trait MayBytes {
    /// A copy in lower case.
    fn may_to_ascii_lowercase(&self) -> Result<Vec<u8>, AllocError>;
}

impl MayBytes for [u8] {
    fn may_to_ascii_lowercase(&self) -> Result<Vec<u8>, AllocError> {
        let mut copy = Vec::may_from_slice(self)?;
        copy.make_ascii_lowercase();
        Ok(copy)
    }
}

/// A reader with a buffer.
pub trait MayBuffer<R>: Sized {
    /// One of so many bytes. If memory runs out, the process ends.
    fn may_with_capacity(capacity: usize, reader: R) -> Result<Self, AllocError>;
}

impl<R: std::io::Read> MayBuffer<R> for std::io::BufReader<R> {
    fn may_with_capacity(capacity: usize, reader: R) -> Result<Self, AllocError> {
        Ok(std::io::BufReader::with_capacity(capacity, reader))
    }
}
