//! A vector whose calls answer a failed allocation.

use super::alloc::{AllocError, Allocator, Global};
use std::marker::PhantomData;
use std::ops::{Deref, DerefMut};

/// A vector.
#[derive(Debug)]
pub struct Vec<T, A: Allocator = Global> {
    items: std::vec::Vec<T>,
    alloc: PhantomData<A>,
}

impl<T, A: Allocator> Vec<T, A> {
    #[inline]
    pub fn new(_: A) -> Self {
        Vec { items: std::vec::Vec::new(), alloc: PhantomData }
    }

    #[inline]
    pub fn push(&mut self, item: T) -> Result<(), AllocError> {
        self.items.try_reserve(1)?;
        self.items.push(item);
        Ok(())
    }

    pub fn pop(&mut self) -> Option<T> {
        self.items.pop()
    }

    #[inline]
    pub fn clear(&mut self) {
        self.items.clear();
    }

    #[inline]
    pub fn truncate(&mut self, len: usize) {
        self.items.truncate(len);
    }

    #[inline]
    pub fn as_slice(&self) -> &[T] {
        &self.items
    }
}

impl<T: Copy, A: Allocator> Vec<T, A> {
    #[inline]
    pub fn extend_from_slice(&mut self, items: &[T]) -> Result<(), AllocError> {
        self.items.try_reserve(items.len())?;
        self.items.extend_from_slice(items);
        Ok(())
    }

    /// Makes the vector as long as `len`, with copies of `item` if it was shorter.
    pub fn resize(&mut self, len: usize, item: T) -> Result<(), AllocError> {
        self.items.try_reserve(len.saturating_sub(self.items.len()))?;
        self.items.resize(len, item);
        Ok(())
    }
}

impl<T, A: Allocator> Deref for Vec<T, A> {
    type Target = [T];

    #[inline]
    fn deref(&self) -> &[T] {
        &self.items
    }
}

impl<T, A: Allocator> DerefMut for Vec<T, A> {
    #[inline]
    fn deref_mut(&mut self) -> &mut [T] {
        &mut self.items
    }
}

impl<'a, T, A: Allocator> IntoIterator for &'a Vec<T, A> {
    type Item = &'a T;
    type IntoIter = std::slice::Iter<'a, T>;

    fn into_iter(self) -> Self::IntoIter {
        self.items.iter()
    }
}
