//! Lists, boxes and maps that take an allocator, and whose growth may fail.

use core::marker::PhantomData;
use core::ops::{Deref, DerefMut, RangeBounds};

/// The global allocator.
#[derive(Clone, Copy, Debug, Default)]
pub struct Global;

pub trait Allocator {}

impl Allocator for Global {}

/// A growth that was refused.
#[derive(Clone, Copy, Debug, PartialEq, Eq)]
pub struct AllocError;

/// A growth that was refused, with what was to be put there.
pub struct AllocFailed<T>(pub T);

/// Copies of what may hold memory.
pub trait TryClone: Clone {
    fn try_clone(&self) -> Result<Self, AllocError> {
        Ok(self.clone())
    }
}

impl<T: Clone> TryClone for T {}

/// A list.
#[derive(Clone, Debug, PartialEq, Eq, PartialOrd, Ord, Hash)]
pub struct Vec<T, A = Global>(alloc::vec::Vec<T>, PhantomData<A>);

impl<T, A> Vec<T, A> {
    pub fn new(_: A) -> Self {
        Vec(alloc::vec::Vec::new(), PhantomData)
    }

    pub fn with_capacity(alloc: A, most: usize) -> Result<Self, AllocError> {
        let mut made = Vec::new(alloc);
        made.reserve_exact(most)?;
        Ok(made)
    }

    #[inline]
    pub fn push(&mut self, item: T) -> Result<(), AllocError> {
        self.reserve(1)?;
        self.0.push(item);
        Ok(())
    }

    /// Appends where there is room.
    pub fn push_reserved(&mut self, item: T) {
        self.0.push(item);
    }

    pub fn insert(&mut self, at: usize, item: T) -> Result<(), AllocError> {
        self.reserve(1)?;
        self.0.insert(at, item);
        Ok(())
    }

    pub fn remove(&mut self, at: usize) -> T {
        self.0.remove(at)
    }

    pub fn pop(&mut self) -> Option<T> {
        self.0.pop()
    }

    pub fn drain(&mut self, range: impl RangeBounds<usize>) -> alloc::vec::Drain<'_, T> {
        self.0.drain(range)
    }

    pub fn capacity(&self) -> usize {
        self.0.capacity()
    }

    #[inline]
    pub fn reserve(&mut self, more: usize) -> Result<(), AllocError> {
        self.0.try_reserve(more).map_err(|_| AllocError)
    }

    pub fn reserve_exact(&mut self, more: usize) -> Result<(), AllocError> {
        self.0.try_reserve_exact(more).map_err(|_| AllocError)
    }

    pub fn shrink_to_fit(&mut self) {
        self.0.shrink_to_fit();
    }

    pub fn truncate(&mut self, len: usize) {
        self.0.truncate(len);
    }

    pub fn clear(&mut self) {
        self.0.clear();
    }

    pub fn as_slice(&self) -> &[T] {
        &self.0
    }

    pub fn as_mut_slice(&mut self) -> &mut [T] {
        &mut self.0
    }

    pub fn sort_by_key<K: Ord>(&mut self, key: impl FnMut(&T) -> K) -> Result<(), AllocError> {
        self.0.sort_by_key(key);
        Ok(())
    }
}

impl<T: Clone, A> Vec<T, A> {
    pub fn from_elem(alloc: A, item: T, count: usize) -> Result<Self, AllocError> {
        let mut made = Vec::with_capacity(alloc, count)?;
        made.0.resize(count, item);
        Ok(made)
    }

    pub fn from_slice(alloc: A, from: &[T]) -> Result<Self, AllocError> {
        let mut made = Vec::with_capacity(alloc, from.len())?;
        made.0.extend_from_slice(from);
        Ok(made)
    }

    #[inline]
    pub fn extend_from_slice(&mut self, more: &[T]) -> Result<(), AllocError> {
        self.reserve(more.len())?;
        self.0.extend_from_slice(more);
        Ok(())
    }

    pub fn resize(&mut self, size: usize, item: T) -> Result<(), AllocError> {
        self.reserve(size.saturating_sub(self.0.len()))?;
        self.0.resize(size, item);
        Ok(())
    }
}

impl<T, A> Deref for Vec<T, A> {
    type Target = [T];

    #[inline(always)]
    fn deref(&self) -> &[T] {
        &self.0
    }
}

impl<T, A> DerefMut for Vec<T, A> {
    #[inline(always)]
    fn deref_mut(&mut self) -> &mut [T] {
        &mut self.0
    }
}

impl<T, A> IntoIterator for Vec<T, A> {
    type Item = T;
    type IntoIter = alloc::vec::IntoIter<T>;

    fn into_iter(self) -> Self::IntoIter {
        self.0.into_iter()
    }
}

impl<'a, T, A> IntoIterator for &'a Vec<T, A> {
    type Item = &'a T;
    type IntoIter = core::slice::Iter<'a, T>;

    fn into_iter(self) -> Self::IntoIter {
        self.0.iter()
    }
}

impl<'a, T, A> IntoIterator for &'a mut Vec<T, A> {
    type Item = &'a mut T;
    type IntoIter = core::slice::IterMut<'a, T>;

    fn into_iter(self) -> Self::IntoIter {
        self.0.iter_mut()
    }
}

/// What an iterator gives, in a list.
pub trait CollectIn: Iterator + Sized {
    fn collect_in<A>(self, alloc: A) -> Result<Vec<Self::Item, A>, AllocError> {
        let mut made = Vec::new(alloc);
        for item in self {
            made.push(item)?;
        }
        Ok(made)
    }
}

impl<I: Iterator> CollectIn for I {}

/// A value on the heap. (Rust ends the process where memory runs out for one.)
#[derive(Clone, Debug, PartialEq, Eq)]
pub struct Box<T>(alloc::boxed::Box<T>);

impl<T> Box<T> {
    pub fn new(_: Global, it: T) -> Result<Self, AllocFailed<T>> {
        Ok(Box(alloc::boxed::Box::new(it)))
    }

    pub fn into_inner(it: Self) -> T {
        *it.0
    }
}

impl<T> Deref for Box<T> {
    type Target = T;

    fn deref(&self) -> &T {
        &self.0
    }
}

impl<T> DerefMut for Box<T> {
    fn deref_mut(&mut self) -> &mut T {
        &mut self.0
    }
}

pub mod collections {
    use super::{AllocError, Global};

    /// A map. (Rust ends the process where memory runs out for one.)
    pub struct BTreeMap<K, V>(alloc::collections::BTreeMap<K, V>);

    impl<K: Ord, V> BTreeMap<K, V> {
        pub fn new(_: Global) -> Self {
            BTreeMap(alloc::collections::BTreeMap::new())
        }

        pub fn insert(&mut self, key: K, value: V) -> Result<Option<V>, AllocError> {
            Ok(self.0.insert(key, value))
        }
    }

    impl<'a, K, V> IntoIterator for &'a BTreeMap<K, V> {
        type Item = (&'a K, &'a V);
        type IntoIter = alloc::collections::btree_map::Iter<'a, K, V>;

        fn into_iter(self) -> Self::IntoIter {
            self.0.iter()
        }
    }
}
