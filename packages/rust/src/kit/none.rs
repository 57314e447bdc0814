//! Lists where there is no memory: they are empty, and stay so.

use core::ops::{Deref, DerefMut};

/// No allocator.
#[derive(Clone, Copy, Debug)]
pub struct Global;

/// A growth that was refused.
#[derive(Clone, Copy, Debug, PartialEq, Eq)]
pub struct AllocError;

/// A list without items.
#[derive(Clone, Debug)]
pub struct Vec<T>([T; 0]);

impl<T> Vec<T> {
    pub fn new(_: Global) -> Self {
        Vec([])
    }

    pub fn with_capacity(_: Global, _: usize) -> Result<Self, AllocError> {
        Err(AllocError)
    }

    pub fn from_slice(_: Global, _: &[T]) -> Result<Self, AllocError> {
        Err(AllocError)
    }

    pub fn push(&mut self, _: T) -> Result<(), AllocError> {
        Err(AllocError)
    }

    pub fn reserve(&mut self, _: usize) -> Result<(), AllocError> {
        Err(AllocError)
    }

    pub fn resize(&mut self, _: usize, _: T) -> Result<(), AllocError> {
        Err(AllocError)
    }

    pub fn shrink_to_fit(&mut self) {}

    pub fn sort_by_key<K: Ord>(&mut self, _: impl FnMut(&T) -> K) -> Result<(), AllocError> {
        Err(AllocError)
    }
}

impl<T> Deref for Vec<T> {
    type Target = [T];

    fn deref(&self) -> &[T] {
        &self.0
    }
}

impl<T> DerefMut for Vec<T> {
    fn deref_mut(&mut self) -> &mut [T] {
        &mut self.0
    }
}
