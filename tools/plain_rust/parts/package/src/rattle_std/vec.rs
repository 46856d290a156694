//! Vectors whose calls say whether there was memory.

use super::alloc::{AllocError, Global};
use std::ops::{Deref, DerefMut};

/// A vector of which each call that takes memory says whether there was some.
#[derive(Debug, PartialEq, Eq)]
pub struct Vec<T>(std::vec::Vec<T>);

impl<T> Vec<T> {
    #[inline]
    pub fn new(_: Global) -> Vec<T> {
        Vec(std::vec::Vec::new())
    }

    pub fn with_capacity(_: Global, n: usize) -> Result<Vec<T>, AllocError> {
        let mut items = std::vec::Vec::new();
        items.try_reserve_exact(n).map_err(|_| AllocError)?;
        Ok(Vec(items))
    }

    pub fn filled(alloc: Global, x: T, n: usize) -> Result<Vec<T>, AllocError>
    where
        T: Clone,
    {
        let mut out = Vec::with_capacity(alloc, n)?;
        out.0.resize(n, x);
        Ok(out)
    }

    pub fn from_slice(alloc: Global, items: &[T]) -> Result<Vec<T>, AllocError>
    where
        T: Clone,
    {
        let mut out = Vec::with_capacity(alloc, items.len())?;
        out.0.extend_from_slice(items);
        Ok(out)
    }

    #[inline]
    pub fn push(&mut self, x: T) -> Result<(), AllocError> {
        if self.0.len() == self.0.capacity() {
            self.grow(1)?;
        }
        self.0.push(x);
        Ok(())
    }

    #[cold]
    fn grow(&mut self, more: usize) -> Result<(), AllocError> {
        self.0.try_reserve(more).map_err(|_| AllocError)
    }

    #[inline]
    pub fn extend_from_slice(&mut self, items: &[T]) -> Result<(), AllocError>
    where
        T: Clone,
    {
        if items.len() > self.0.capacity() - self.0.len() {
            self.grow(items.len())?;
        }
        self.0.extend_from_slice(items);
        Ok(())
    }

    pub fn resize(&mut self, n: usize, x: T) -> Result<(), AllocError>
    where
        T: Clone,
    {
        if n > self.0.len() {
            self.0.try_reserve(n - self.0.len()).map_err(|_| AllocError)?;
        }
        self.0.resize(n, x);
        Ok(())
    }

    pub fn reserve(&mut self, more: usize) -> Result<(), AllocError> {
        self.0.try_reserve(more).map_err(|_| AllocError)
    }

    #[inline]
    pub fn capacity(&self) -> usize {
        self.0.capacity()
    }

    #[inline]
    pub fn pop(&mut self) -> Option<T> {
        self.0.pop()
    }

    #[inline]
    pub fn clear(&mut self) {
        self.0.clear()
    }

    #[inline]
    pub fn truncate(&mut self, n: usize) {
        self.0.truncate(n)
    }

    pub fn insert(&mut self, at: usize, x: T) -> Result<(), AllocError> {
        self.reserve(1)?;
        self.0.insert(at, x);
        Ok(())
    }

    pub fn retain(&mut self, keep: impl FnMut(&T) -> bool) {
        self.0.retain(keep)
    }

    pub fn remove(&mut self, at: usize) -> T {
        self.0.remove(at)
    }

    #[inline]
    pub fn swap_remove(&mut self, at: usize) -> T {
        self.0.swap_remove(at)
    }

    #[inline]
    pub fn as_slice(&self) -> &[T] {
        &self.0
    }

    #[inline]
    pub fn as_mut_slice(&mut self) -> &mut [T] {
        &mut self.0
    }
}

impl std::io::Write for Vec<u8> {
    fn write(&mut self, piece: &[u8]) -> std::io::Result<usize> {
        match self.extend_from_slice(piece) {
            Ok(()) => Ok(piece.len()),
            Err(_) => Err(std::io::ErrorKind::OutOfMemory.into()),
        }
    }

    fn flush(&mut self) -> std::io::Result<()> {
        Ok(())
    }
}

impl<T> Deref for Vec<T> {
    type Target = [T];

    #[inline]
    fn deref(&self) -> &[T] {
        &self.0
    }
}

impl<T> DerefMut for Vec<T> {
    #[inline]
    fn deref_mut(&mut self) -> &mut [T] {
        &mut self.0
    }
}

impl<T> IntoIterator for Vec<T> {
    type Item = T;
    type IntoIter = std::vec::IntoIter<T>;

    fn into_iter(self) -> std::vec::IntoIter<T> {
        self.0.into_iter()
    }
}

impl<'a, T> IntoIterator for &'a Vec<T> {
    type Item = &'a T;
    type IntoIter = std::slice::Iter<'a, T>;

    fn into_iter(self) -> std::slice::Iter<'a, T> {
        self.0.iter()
    }
}

impl<'a, T> IntoIterator for &'a mut Vec<T> {
    type Item = &'a mut T;
    type IntoIter = std::slice::IterMut<'a, T>;

    fn into_iter(self) -> std::slice::IterMut<'a, T> {
        self.0.iter_mut()
    }
}
