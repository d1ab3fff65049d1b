//! What stands for Rattle's `std` and its ports. The modules have the names that the sources use, with what Rust has
//! alike; the rest is written by hand.

pub use std::{cmp, error, fmt, hash, mem, ptr, str};

pub mod alloc {
    use std::error::Error;
    use std::fmt;

    /// Memory ran out.
    #[derive(Clone, Copy, Debug, PartialEq, Eq)]
    pub struct AllocError;

    impl fmt::Display for AllocError {
        fn fmt(&self, f: &mut fmt::Formatter<'_>) -> fmt::Result {
            f.write_str("memory ran out")
        }
    }

    impl Error for AllocError {}

    /// Memory ran out for a value, which Rattle hands back. Here it is dropped, so that nothing makes one.
    pub struct AllocFailed<T>(#[allow(dead_code)] T);

    /// The allocator, which the sources name and Rust does not.
    pub struct Global;

    /// Those who have it, in the sources.
    pub trait AllocGlobal {}
}

pub mod cell {
    pub use std::cell::Cell;
}

pub mod collections {
    pub use super::hash_map::{self, HashMap};
}

/// Maps as in Rattle: the entries stand in the order in which they came, and a table finds each by its hash. The seed of
/// the hashes is fixed, so whoever chooses the keys can make them collide: those here are the arrangements that follow
/// from one board, 3,060 at most.
pub mod hash_map {
    use super::alloc::AllocError;
    use super::may::{MayVec, may_from_elem};
    use std::hash::{Hash, Hasher};

    /// A map.
    pub struct HashMap<K, V> {
        entries: Vec<(K, V)>,
        /// A power of two of them, at least twice as many as entries. A slot has 0, or the upper half of a hash with the
        /// place of its entry, which is counted from 1: the first free one from that of the hash on.
        slots: Vec<u64>,
    }

    impl<K: Eq + Hash, V> HashMap<K, V> {
        /// A map with room for so many entries.
        pub fn may_with_capacity(capacity: usize) -> Result<Self, AllocError> {
            let count = (2 * capacity).next_power_of_two().max(2);
            Ok(HashMap { entries: Vec::may_with_capacity(capacity)?, slots: may_from_elem(0, count)? })
        }

        /// The entry of a key, with room for it if there is none.
        pub fn may_entry(&mut self, key: K) -> Result<Entry<'_, K, V>, AllocError> {
            if 2 * (self.entries.len() + 1) > self.slots.len() {
                self.grow()?;
            }
            self.entries.may_reserve(1)?;
            let hash = hash_of(&key);
            let is_it = |entry: &(K, V)| entry.0 == key;
            Ok(match find(&self.entries, &self.slots, hash, is_it) {
                (_, Some(place)) => Entry::Occupied(OccupiedEntry(&mut self.entries[place].1)),
                (slot, None) => Entry::Vacant(VacantEntry { map: self, key, hash, slot }),
            })
        }

        /// The values, in the order in which their keys came.
        pub fn values(&self) -> impl Iterator<Item = &V> {
            self.entries.iter().map(|entry| &entry.1)
        }

        /// Makes twice as many slots.
        fn grow(&mut self) -> Result<(), AllocError> {
            let mut slots = may_from_elem(0, 2 * self.slots.len())?;
            for (place, (key, _)) in self.entries.iter().enumerate() {
                let hash = hash_of(key);
                let (slot, _) = find(&self.entries, &slots, hash, |_| false);
                slots[slot] = mark(hash, place);
            }
            self.slots = slots;
            Ok(())
        }
    }

    /// What a slot has of the entry at a place.
    fn mark(hash: u64, place: usize) -> u64 {
        hash >> 32 << 32 | (place as u64 + 1)
    }

    /// Looks for an entry by its hash: the slot at which the search ends, and the place of the entry if it is there.
    #[inline]
    fn find<E>(entries: &[E], slots: &[u64], hash: u64, is_it: impl Fn(&E) -> bool) -> (usize, Option<usize>) {
        let mut slot = hash as usize & (slots.len() - 1);
        while slots[slot] != 0 {
            let place = slots[slot] as u32 as usize - 1;
            if slots[slot] >> 32 == hash >> 32 && is_it(&entries[place]) {
                return (slot, Some(place));
            }
            slot = (slot + 1) & (slots.len() - 1);
        }
        (slot, None)
    }

    /// The place of a key.
    pub enum Entry<'a, K, V> {
        /// It has a value.
        Occupied(OccupiedEntry<'a, V>),
        /// It has none.
        Vacant(VacantEntry<'a, K, V>),
    }

    /// The value of a key.
    pub struct OccupiedEntry<'a, V>(&'a mut V);

    impl<'a, V> OccupiedEntry<'a, V> {
        pub fn into_mut(self) -> &'a mut V {
            self.0
        }
    }

    /// A key without a value.
    pub struct VacantEntry<'a, K, V> {
        map: &'a mut HashMap<K, V>,
        key: K,
        hash: u64,
        slot: usize,
    }

    impl<'a, K, V> VacantEntry<'a, K, V> {
        pub fn insert(self, value: V) -> &'a mut V {
            let place = self.map.entries.len();
            self.map.slots[self.slot] = mark(self.hash, place);
            self.map.entries.push((self.key, value));
            &mut self.map.entries[place].1
        }
    }

    /// A hasher that is quick for short keys, much as Rattle's: it multiplies up to 16 bytes at once, and joins the two
    /// halves.
    struct FoldHasher(u64);

    const MULTIPLIER: u64 = 0x9e37_79b9_7f4a_7c15;

    impl FoldHasher {
        #[inline]
        fn fold(&mut self, low: u64, high: u64) {
            let product = u128::from(self.0 ^ low) * u128::from(MULTIPLIER ^ high);
            self.0 = product as u64 ^ (product >> 64) as u64;
        }
    }

    impl Hasher for FoldHasher {
        fn finish(&self) -> u64 {
            self.0
        }

        #[inline]
        fn write(&mut self, bytes: &[u8]) {
            let (pairs, rest) = bytes.as_chunks::<16>();
            for pair in pairs {
                let number = u128::from_le_bytes(*pair);
                self.fold(number as u64, (number >> 64) as u64);
            }
            if !rest.is_empty() {
                let mut last = [0; 16];
                last[..rest.len()].copy_from_slice(rest);
                let number = u128::from_le_bytes(last);
                self.fold(number as u64, (number >> 64) as u64);
            }
        }
    }

    fn hash_of<K: Hash>(key: &K) -> u64 {
        let mut hasher = FoldHasher(0x243f_6a88_85a3_08d3);
        key.hash(&mut hasher);
        hasher.finish()
    }

    #[cfg(test)]
    mod tests {
        use super::*;
        use std::collections;

        /// A key whose hash is the same for many.
        #[derive(Clone, Copy, PartialEq, Eq)]
        struct Crowded(u32);

        impl Hash for Crowded {
            fn hash<H: Hasher>(&self, state: &mut H) {
                state.write(&[(self.0 % 3) as u8]);
            }
        }

        /// A key of as many bytes as a side of a board has.
        fn bytes_of(number: u32) -> [u8; 26] {
            std::array::from_fn(|place| number.to_le_bytes()[place % 4])
        }

        /// Counts how often each key comes: by this map, and by Rust's.
        fn counts_as_rusts<K: Copy + Eq + Hash>(room: usize, key: impl Fn(u32) -> K) {
            let mut map = HashMap::may_with_capacity(room).unwrap();
            let mut wanted = collections::HashMap::new();
            let mut order = Vec::new();
            for round in 0..3000 {
                let number = round * round % 701;
                match map.may_entry(key(number)).unwrap() {
                    Entry::Occupied(spot) => *spot.into_mut() += 1,
                    Entry::Vacant(spot) => {
                        order.push(number);
                        *spot.insert(0) += 1;
                    }
                }
                *wanted.entry(number).or_insert(0) += 1;
            }
            assert!(map.values().copied().eq(order.iter().map(|number| wanted[number])));
            assert_eq!(order.len(), wanted.len());
        }

        #[test]
        fn a_map_has_a_value_for_each_key_in_the_order_in_which_they_came() {
            for room in [0, 1, 36, 1000] {
                counts_as_rusts(room, |number| number);
                counts_as_rusts(room, bytes_of);
                counts_as_rusts(room, Crowded);
            }
        }

        #[test]
        fn a_hash_depends_on_each_byte() {
            let mut seen = collections::HashSet::new();
            for place in 0..52 {
                for byte in 0..16 {
                    let mut counts = [0u8; 52];
                    counts[place] = byte;
                    seen.insert(hash_of(&counts));
                }
            }
            assert_eq!(seen.len(), 52 * 15 + 1);
        }
    }
}

pub mod io {
    pub use std::io::{BufRead, BufReader, Error, ErrorKind, Read, Result, Write};
}

pub mod marker {
    /// What a type is in Rattle's contracts: nothing is left of it.
    pub trait Model {}
}

pub mod time {
    pub use std::time::Duration;
}

pub mod itoa {
    pub use itoa::{Buffer, Integer};

    /// Writes the digits so that they end before `end`, and gives where they start.
    pub fn write_digits(number: u64, text: &mut [u8], end: usize) -> usize {
        let mut digits = Buffer::new();
        let digits = digits.format(number).as_bytes();
        let start = end - digits.len();
        text[start..end].copy_from_slice(digits);
        start
    }
}

/// The calls that take memory, and may fail.
pub mod may {
    use super::alloc::AllocError;
    use indexmap::IndexMap;
    use std::hash::{BuildHasher, Hash};

    pub trait MayVec<T>: Sized {
        fn may_push(&mut self, item: T) -> Result<(), AllocError>;
        fn may_reserve(&mut self, more: usize) -> Result<(), AllocError>;
        fn may_reserve_exact(&mut self, more: usize) -> Result<(), AllocError>;
        fn may_with_capacity(capacity: usize) -> Result<Self, AllocError>;
        fn may_push_reserved(&mut self, item: T);
    }

    impl<T> MayVec<T> for Vec<T> {
        #[inline]
        fn may_push(&mut self, item: T) -> Result<(), AllocError> {
            if self.len() == self.capacity() {
                self.may_reserve(1)?;
            }
            self.push(item);
            Ok(())
        }

        #[inline]
        fn may_reserve(&mut self, more: usize) -> Result<(), AllocError> {
            self.try_reserve(more).map_err(|_| AllocError)
        }

        fn may_reserve_exact(&mut self, more: usize) -> Result<(), AllocError> {
            self.try_reserve_exact(more).map_err(|_| AllocError)
        }

        fn may_with_capacity(capacity: usize) -> Result<Vec<T>, AllocError> {
            let mut items = Vec::new();
            items.may_reserve_exact(capacity)?;
            Ok(items)
        }

        #[inline]
        fn may_push_reserved(&mut self, item: T) {
            self.push(item);
        }
    }

    /// Vectors of values that are copied.
    pub trait MayCopies<T>: Sized {
        fn may_extend_from_slice(&mut self, items: &[T]) -> Result<(), AllocError>;
        fn may_from_slice(items: &[T]) -> Result<Self, AllocError>;
    }

    impl<T: Copy> MayCopies<T> for Vec<T> {
        #[inline]
        fn may_extend_from_slice(&mut self, items: &[T]) -> Result<(), AllocError> {
            self.may_reserve(items.len())?;
            self.extend_from_slice(items);
            Ok(())
        }

        fn may_from_slice(items: &[T]) -> Result<Vec<T>, AllocError> {
            let mut copy = Vec::may_with_capacity(items.len())?;
            copy.extend_from_slice(items);
            Ok(copy)
        }
    }

    pub trait MaySlice<T> {
        fn may_to_vec(&self) -> Result<Vec<T>, AllocError>;
    }

    impl<T: Copy> MaySlice<T> for [T] {
        fn may_to_vec(&self) -> Result<Vec<T>, AllocError> {
            Vec::may_from_slice(self)
        }
    }

    pub trait MayIterator: Iterator + Sized {
        fn may_collect(self) -> Result<Vec<Self::Item>, AllocError> {
            let mut items = Vec::may_with_capacity(self.size_hint().0)?;
            for item in self {
                items.may_push(item)?;
            }
            Ok(items)
        }
    }

    impl<I: Iterator> MayIterator for I {}

    pub trait MayIndexMap<K, V> {
        fn may_insert(&mut self, key: K, value: V) -> Result<Option<V>, AllocError>;
    }

    impl<K: Eq + Hash, V, S: BuildHasher> MayIndexMap<K, V> for IndexMap<K, V, S> {
        /// Version 1 of the crate can't refuse: it ends the process if memory runs out, as `may_box` does.
        fn may_insert(&mut self, key: K, value: V) -> Result<Option<V>, AllocError> {
            Ok(self.insert(key, value))
        }
    }

    /// So many copies of a value.
    pub fn may_from_elem<T: Clone>(item: T, count: usize) -> Result<Vec<T>, AllocError> {
        let mut items = Vec::may_with_capacity(count)?;
        items.resize(count, item);
        Ok(items)
    }

    /// Stable Rust has no box that may fail: this one ends the process if memory runs out.
    pub fn may_box<T>(value: T) -> Result<Box<T>, AllocError> {
        Ok(Box::new(value))
    }
}

/// The part of `std::simd` that is used, which stable Rust has not. The compiler makes lanes of it.
#[allow(non_camel_case_types, clippy::needless_range_loop)]
pub mod simd {
    pub mod prelude {
        pub use super::{Simd, u8x16, u8x32, u8x64};
    }

    use std::ops::BitOr;

    #[derive(Clone, Copy)]
    pub struct Simd<T, const N: usize>([T; N]);

    pub type u8x16 = Simd<u8, 16>;
    pub type u8x32 = Simd<u8, 32>;
    pub type u8x64 = Simd<u8, 64>;

    /// 255 or 0 for each lane.
    #[derive(Clone, Copy)]
    pub struct Mask<const N: usize>([u8; N]);

    impl<T: Copy, const N: usize> Simd<T, N> {
        #[inline(always)]
        pub fn splat(value: T) -> Self {
            Simd([value; N])
        }

        #[inline(always)]
        pub fn from_slice(items: &[T]) -> Self {
            Simd(*items.first_chunk::<N>().unwrap())
        }

        /// The items from a place on: `from_slice(&items[at..])` by one comparison.
        #[inline(always)]
        pub fn from_place(items: &[T], at: usize) -> Self {
            assert!(items.len() >= N && at <= items.len() - N);
            Simd(*items[at..].first_chunk::<N>().unwrap())
        }

        #[inline(always)]
        pub fn to_array(self) -> [T; N] {
            self.0
        }
    }

    impl Simd<u16, 1> {
        #[inline(always)]
        pub fn from_le_bytes(bytes: Simd<u8, 2>) -> Self {
            Simd([u16::from_le_bytes(bytes.0)])
        }
    }

    impl<const N: usize> Simd<u8, N> {
        #[inline(always)]
        fn compared(self, other: Self, holds: impl Fn(u8, u8) -> bool) -> Mask<N> {
            let mut lanes = [0; N];
            for i in 0..N {
                lanes[i] = if holds(self.0[i], other.0[i]) { 255 } else { 0 };
            }
            Mask(lanes)
        }

        #[inline(always)]
        pub fn simd_lt(self, other: Self) -> Mask<N> {
            self.compared(other, |a, b| a < b)
        }

        #[inline(always)]
        pub fn simd_gt(self, other: Self) -> Mask<N> {
            self.compared(other, |a, b| a > b)
        }

        #[inline(always)]
        pub fn simd_eq(self, other: Self) -> Mask<N> {
            self.compared(other, |a, b| a == b)
        }
    }

    /// The place of the first of two bytes in a window: what `memchr2` of the crate `memchr` gives.
    #[inline(always)]
    pub fn first_of(one: u8, other: u8, window: &[u8; 32]) -> Option<usize> {
        let lanes = Simd(*window);
        let found = (lanes.simd_eq(u8x32::splat(one)) | lanes.simd_eq(u8x32::splat(other))).to_bitmask();
        (found != 0).then(|| found.trailing_zeros() as usize)
    }

    impl<const N: usize> BitOr for Mask<N> {
        type Output = Self;

        #[inline(always)]
        fn bitor(self, other: Self) -> Self {
            let mut lanes = self.0;
            for i in 0..N {
                lanes[i] |= other.0[i];
            }
            Mask(lanes)
        }
    }

    impl<const N: usize> Mask<N> {
        /// Bit k is set if lane k is.
        #[inline(always)]
        pub fn to_bitmask(self) -> u64 {
            let mut mask = 0;
            for (i, lanes) in self.0.chunks_exact(16).enumerate() {
                mask |= bits_of(lanes.first_chunk().unwrap()) << (16 * i);
            }
            mask
        }
    }

    /// The highest bit of each of 16 bytes.
    #[cfg(target_arch = "x86_64")]
    #[inline(always)]
    #[allow(unsafe_code)]
    fn bits_of(lanes: &[u8; 16]) -> u64 {
        use std::arch::x86_64::{_mm_loadu_si128, _mm_movemask_epi8};
        // SAFETY: each processor of this architecture has SSE2, and the pointer is to 16 bytes.
        unsafe { _mm_movemask_epi8(_mm_loadu_si128(lanes.as_ptr().cast())) as u16 as u64 }
    }

    /// The lowest bit of each of 16 bytes.
    #[cfg(not(target_arch = "x86_64"))]
    #[inline(always)]
    fn bits_of(lanes: &[u8; 16]) -> u64 {
        let byte = |lanes: &[u8]| {
            let ones = u64::from_le_bytes(*lanes.first_chunk().unwrap()) & 0x0101_0101_0101_0101;
            ones.wrapping_mul(0x0102_0408_1020_4080) >> 56
        };
        byte(lanes) | byte(&lanes[8..]) << 8
    }

    #[cfg(test)]
    mod tests {
        use super::*;

        #[test]
        fn a_mask_has_a_bit_for_each_lane() {
            for lane in 0..32 {
                let mut bytes = [7; 32];
                bytes[lane] = 200;
                let window = u8x32::from_slice(&bytes);
                assert_eq!(window.simd_gt(u8x32::splat(7)).to_bitmask(), 1 << lane);
                assert_eq!(window.simd_lt(u8x32::splat(8)).to_bitmask(), 0xffff_ffff ^ (1 << lane));
                assert_eq!(window.simd_eq(u8x32::splat(200)).to_bitmask(), 1 << lane);
            }
        }

        #[test]
        fn the_first_of_two_bytes_is_found() {
            let mut window = [7; 32];
            assert_eq!(first_of(10, 255, &window), None);
            for lane in (0..32).rev() {
                window[lane] = [10, 255][lane % 2];
                assert_eq!(first_of(10, 255, &window), Some(lane));
            }
        }
    }
}
