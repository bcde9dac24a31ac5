//! What the sources take from Rattle's library: collections that report a failed allocation.
//!
//! With the feature `alloc` they are those of the crate `alloc`. Without it there is no memory, so each allocation fails.

#[cfg(feature = "alloc")]
use alloc::{collections, vec};
use core::hash::{Hash, Hasher};
use core::ops::{Deref, DerefMut};
#[cfg(not(feature = "alloc"))]
use no_heap as collections;
#[cfg(not(feature = "alloc"))]
use no_heap as vec;

/// The error for a failed allocation of memory.
#[derive(Clone, Copy, Debug, PartialEq, Eq)]
pub struct AllocError;

impl core::fmt::Display for AllocError {
    fn fmt(&self, f: &mut core::fmt::Formatter<'_>) -> core::fmt::Result {
        f.write_str("memory allocation failed")
    }
}

/// Returns the text that bytes are. They are proved to be one, so this test of it never fails.
#[inline]
pub(crate) fn from_utf8_unchecked(bytes: &[u8]) -> &str {
    core::str::from_utf8(bytes).unwrap_or("")
}

impl From<collections::TryReserveError> for AllocError {
    fn from(_: collections::TryReserveError) -> AllocError {
        AllocError
    }
}

/// A `Vec` of the crate `alloc`, whose methods return an error if memory allocation fails.
#[derive(Debug, PartialEq)]
pub struct Vec<T>(vec::Vec<T>);

impl<T> From<vec::Vec<T>> for Vec<T> {
    fn from(items: vec::Vec<T>) -> Vec<T> {
        Vec(items)
    }
}

impl<T> From<Vec<T>> for vec::Vec<T> {
    fn from(items: Vec<T>) -> vec::Vec<T> {
        items.0
    }
}

impl<T> Default for Vec<T> {
    fn default() -> Vec<T> {
        Vec::new()
    }
}

impl<T> Deref for Vec<T> {
    type Target = [T];

    #[inline]
    fn deref(&self) -> &[T] {
        &self.0
    }
}

impl<T> DerefMut for Vec<T> {
    #[inline]
    fn deref_mut(&mut self) -> &mut [T] {
        &mut self.0
    }
}

impl<T> IntoIterator for Vec<T> {
    type Item = T;
    type IntoIter = vec::IntoIter<T>;

    fn into_iter(self) -> vec::IntoIter<T> {
        self.0.into_iter()
    }
}

impl<'a, T> IntoIterator for &'a Vec<T> {
    type Item = &'a T;
    type IntoIter = core::slice::Iter<'a, T>;

    fn into_iter(self) -> core::slice::Iter<'a, T> {
        self.0.iter()
    }
}

impl<T> Vec<T> {
    /// Returns an empty vector, which has no memory.
    pub const fn new() -> Vec<T> {
        Vec(vec::Vec::new())
    }

    /// Returns an empty vector with room for `n` items.
    pub fn with_capacity(n: usize) -> Result<Vec<T>, AllocError> {
        let mut items = vec::Vec::new();
        items.try_reserve_exact(n)?;
        Ok(Vec(items))
    }

    /// Returns a vector with copies of items.
    pub fn from_slice(items: &[T]) -> Result<Vec<T>, AllocError>
    where
        T: Copy,
    {
        let mut copies = Vec::with_capacity(items.len())?;
        copies.extend_from_slice(items)?;
        Ok(copies)
    }

    /// Appends an item.
    #[inline]
    pub fn push(&mut self, item: T) -> Result<(), AllocError> {
        self.0.try_reserve(1)?;
        self.0.push(item);
        Ok(())
    }

    /// Appends an item, for which there is room.
    #[inline]
    pub fn push_reserved(&mut self, item: T) {
        self.0.push(item);
    }

    /// Returns how many items there is room for, with those that are there.
    pub fn capacity(&self) -> usize {
        self.0.capacity()
    }

    /// Appends the items of another vector, which has none afterwards.
    pub fn append(&mut self, other: &mut Vec<T>) -> Result<(), AllocError> {
        self.0.try_reserve(other.0.len())?;
        self.0.append(&mut other.0);
        Ok(())
    }

    /// Makes room for `n` more items.
    pub fn reserve(&mut self, n: usize) -> Result<(), AllocError> {
        Ok(self.0.try_reserve(n)?)
    }

    /// Shortens the vector, or lengthens it by copies of an item.
    pub fn resize(&mut self, n: usize, item: T) -> Result<(), AllocError>
    where
        T: Clone,
    {
        self.0.try_reserve(n.saturating_sub(self.0.len()))?;
        self.0.resize(n, item);
        Ok(())
    }

    /// Appends copies of items.
    pub fn extend_from_slice(&mut self, items: &[T]) -> Result<(), AllocError>
    where
        T: Copy,
    {
        self.0.try_reserve(items.len())?;
        self.0.extend_from_slice(items);
        Ok(())
    }

    /// Removes the last item.
    pub fn pop(&mut self) -> Option<T> {
        self.0.pop()
    }

    /// Removes all items.
    pub fn clear(&mut self) {
        self.0.clear();
    }

    /// Returns the items.
    #[inline]
    pub fn as_slice(&self) -> &[T] {
        &self.0
    }

    /// Returns the items.
    #[inline]
    pub fn as_mut_slice(&mut self) -> &mut [T] {
        &mut self.0
    }
}

/// A `VecDeque` of the crate `alloc`.
#[derive(Debug, PartialEq)]
pub struct VecDeque<T>(collections::VecDeque<T>);

impl<T> VecDeque<T> {
    /// Returns an empty queue with room for `n` items.
    pub fn with_capacity(n: usize) -> Result<VecDeque<T>, AllocError> {
        let mut items = collections::VecDeque::new();
        items.try_reserve_exact(n)?;
        Ok(VecDeque(items))
    }

    /// Appends an item.
    pub fn push_back(&mut self, item: T) -> Result<(), AllocError> {
        self.0.try_reserve(1)?;
        self.0.push_back(item);
        Ok(())
    }

    /// Puts an item first.
    pub fn push_front(&mut self, item: T) -> Result<(), AllocError> {
        self.0.try_reserve(1)?;
        self.0.push_front(item);
        Ok(())
    }

    /// Removes the first item.
    pub fn pop_front(&mut self) -> Option<T> {
        self.0.pop_front()
    }

    /// Returns the number of items.
    pub fn len(&self) -> usize {
        self.0.len()
    }

    /// Returns an item.
    pub fn get(&self, i: usize) -> Option<&T> {
        self.0.get(i)
    }
}

/// A map by keys: a `Vec` of the crate `alloc`, in the order of the keys.
pub struct HashMap<K, V>(vec::Vec<(K, V)>);

impl<K: Ord, V> HashMap<K, V> {
    /// Returns an empty map with room for `n` keys.
    pub fn with_capacity(n: usize) -> Result<HashMap<K, V>, AllocError> {
        Ok(HashMap(Vec::with_capacity(n)?.0))
    }

    /// Puts a value under a key, and returns the one that was there.
    pub fn insert(&mut self, key: K, value: V) -> Result<Option<V>, AllocError> {
        match self.find(&key) {
            Ok(n) => Ok(Some(core::mem::replace(&mut self.0[n].1, value))),
            Err(n) => {
                self.0.try_reserve(1)?;
                self.0.insert(n, (key, value));
                Ok(None)
            }
        }
    }

    /// Returns the value under a key.
    pub fn get(&self, key: &K) -> Option<&V> {
        self.find(key).ok().map(|n| &self.0[n].1)
    }

    /// Returns where a key is, or where it would be as an error.
    fn find(&self, key: &K) -> Result<usize, usize> {
        self.0.binary_search_by(|(other, _)| other.cmp(key))
    }
}

/// A set: a table of places, each for one key. A key is at the place of its hash, or at the first free one behind that.
pub struct HashSet<K> {
    places: vec::Vec<Option<K>>,
    len: usize,
}

impl<K: Eq + Hash> HashSet<K> {
    /// Returns an empty set.
    #[allow(clippy::new_without_default)]
    pub fn new() -> HashSet<K> {
        HashSet { places: vec::Vec::new(), len: 0 }
    }

    /// Adds a key. Returns true if the set didn't have it.
    pub fn insert(&mut self, key: K) -> Result<bool, AllocError> {
        if 2 * self.len >= self.places.len() {
            self.grow()?;
        }
        let place = self.place(&key);
        let is_new = self.places[place].is_none();
        if is_new {
            self.places[place] = Some(key);
            self.len += 1;
        }
        Ok(is_new)
    }

    /// Returns true if the set has a key.
    pub fn contains(&self, key: &K) -> bool {
        self.len > 0 && self.places[self.place(key)].is_some()
    }

    /// Returns where a key is, or where it would be. Less than all places are taken.
    fn place(&self, key: &K) -> usize {
        let mut hasher = KeyHasher(0);
        key.hash(&mut hasher);
        let mut place = hasher.finish() as usize % self.places.len();
        while self.places[place].as_ref().is_some_and(|other| other != key) {
            place = (place + 1) % self.places.len();
        }
        place
    }

    /// Gives the set at least twice as many places.
    fn grow(&mut self) -> Result<(), AllocError> {
        let count = 2 * self.places.len() + 8;
        let mut places = vec::Vec::new();
        places.try_reserve_exact(count)?;
        for _ in 0..count {
            places.push(None);
        }
        for key in core::mem::replace(&mut self.places, places).into_iter().flatten() {
            let place = self.place(&key);
            self.places[place] = Some(key);
        }
        Ok(())
    }
}

/// Hashes keys by products with an odd number.
struct KeyHasher(u64);

impl Hasher for KeyHasher {
    fn write(&mut self, bytes: &[u8]) {
        for byte in bytes {
            self.write_u64(u64::from(*byte));
        }
    }

    fn write_u64(&mut self, number: u64) {
        self.0 = (self.0.rotate_left(29) ^ number).wrapping_mul(0x9e37_79b9_7f4a_7c15);
    }

    fn finish(&self) -> u64 {
        self.0 ^ (self.0 >> 32)
    }
}

/// Stands for the crate `alloc` without its feature: collections that stay empty.
#[cfg(not(feature = "alloc"))]
mod no_heap {
    use core::marker::PhantomData;

    pub struct TryReserveError;

    pub type IntoIter<T> = core::iter::Empty<T>;

    pub type VecDeque<T> = Vec<T>;

    #[derive(Debug, PartialEq)]
    pub struct Vec<T>(PhantomData<T>);

    impl<T> core::ops::Deref for Vec<T> {
        type Target = [T];

        fn deref(&self) -> &[T] {
            &[]
        }
    }

    impl<T> core::ops::DerefMut for Vec<T> {
        fn deref_mut(&mut self) -> &mut [T] {
            &mut []
        }
    }

    impl<T> Vec<T> {
        pub const fn new() -> Vec<T> {
            Vec(PhantomData)
        }

        pub fn try_reserve(&mut self, n: usize) -> Result<(), TryReserveError> {
            if n == 0 {
                Ok(())
            } else {
                Err(TryReserveError)
            }
        }

        pub fn try_reserve_exact(&mut self, n: usize) -> Result<(), TryReserveError> {
            self.try_reserve(n)
        }

        pub fn push(&mut self, _: T) {
            unreachable!()
        }

        pub fn push_back(&mut self, _: T) {
            unreachable!()
        }

        pub fn push_front(&mut self, _: T) {
            unreachable!()
        }

        pub fn insert(&mut self, _: usize, _: T) {
            unreachable!()
        }

        pub fn pop(&mut self) -> Option<T> {
            None
        }

        pub fn pop_front(&mut self) -> Option<T> {
            None
        }

        pub fn clear(&mut self) {}

        pub fn capacity(&self) -> usize {
            0
        }

        pub fn append(&mut self, _: &mut Vec<T>) {}

        pub fn resize(&mut self, _: usize, _: T) {}

        pub fn extend_from_slice(&mut self, _: &[T]) {}

        pub fn into_iter(self) -> IntoIter<T> {
            core::iter::empty()
        }
    }
}
