//! The functions of the crate `arrayvec` that are used.

use std::ops::{Deref, DerefMut};

/// There was no room.
#[derive(Clone, Copy, Debug, PartialEq, Eq)]
pub struct CapacityError;

/// At most `N` items, within the value itself.
#[derive(Clone, Copy, Debug)]
pub struct ArrayVec<T, const N: usize> {
    // None before the first item came.
    items: Option<[T; N]>,
    len: usize,
}

impl<T: Copy, const N: usize> Default for ArrayVec<T, N> {
    #[inline]
    fn default() -> ArrayVec<T, N> {
        ArrayVec { items: None, len: 0 }
    }
}

impl<T: Copy, const N: usize> ArrayVec<T, N> {
    #[inline]
    pub fn new() -> ArrayVec<T, N> {
        ArrayVec::default()
    }

    #[inline]
    pub fn is_full(&self) -> bool {
        self.len == N
    }

    #[inline]
    pub fn remaining_capacity(&self) -> usize {
        N - self.len
    }

    #[inline]
    pub fn push(&mut self, x: T) {
        assert!(self.len < N);
        let _ = self.try_push(x);
    }

    #[inline]
    pub fn try_push(&mut self, x: T) -> Result<(), CapacityError> {
        if self.len == N {
            return Err(CapacityError);
        }
        let items = self.items.get_or_insert([x; N]);
        items[self.len] = x;
        self.len += 1;
        Ok(())
    }

    #[inline]
    pub fn try_extend_from_slice(&mut self, more: &[T]) -> Result<(), CapacityError> {
        if more.len() > N - self.len {
            return Err(CapacityError);
        }
        if more.is_empty() {
            return Ok(());
        }
        let items = self.items.get_or_insert([more[0]; N]);
        items[self.len..self.len + more.len()].copy_from_slice(more);
        self.len += more.len();
        Ok(())
    }

    #[inline]
    pub fn clear(&mut self) {
        self.len = 0;
    }

    #[inline]
    pub fn as_slice(&self) -> &[T] {
        match &self.items {
            Some(items) => &items[..self.len],
            None => &[],
        }
    }
}

impl<T: Copy, const N: usize> Deref for ArrayVec<T, N> {
    type Target = [T];

    #[inline]
    fn deref(&self) -> &[T] {
        self.as_slice()
    }
}

impl<T: Copy, const N: usize> DerefMut for ArrayVec<T, N> {
    #[inline]
    fn deref_mut(&mut self) -> &mut [T] {
        match &mut self.items {
            Some(items) => &mut items[..self.len],
            None => &mut [],
        }
    }
}
