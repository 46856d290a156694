//! Boxes whose making says whether there was memory.

use super::alloc::{AllocError, Global};
use std::ops::{Deref, DerefMut};

/// A box, whose making says whether there was memory: a slice of one item, since std has no
/// other such call that is stable.
#[derive(Debug)]
pub struct Box<T>(std::boxed::Box<[T]>);

impl<T> Box<T> {
    pub fn new(_: Global, x: T) -> Result<Box<T>, AllocError> {
        let mut one = std::vec::Vec::new();
        one.try_reserve_exact(1).map_err(|_| AllocError)?;
        one.push(x);
        Ok(Box(one.into_boxed_slice()))
    }

    pub fn into_raw(b: Box<T>) -> *mut T {
        std::boxed::Box::into_raw(b.0) as *mut T
    }

    /// # Safety
    ///
    /// The pointer comes from `into_raw`, and is given back once.
    #[cfg(feature = "c")]
    pub unsafe fn from_raw(at: *mut T) -> Box<T> {
        Box(unsafe { std::boxed::Box::from_raw(std::ptr::slice_from_raw_parts_mut(at, 1)) })
    }

    pub fn into_inner(b: Box<T>) -> T {
        match b.0.into_vec().pop() {
            Some(x) => x,
            None => unreachable!(),
        }
    }
}

impl<T> Deref for Box<T> {
    type Target = T;

    #[inline]
    fn deref(&self) -> &T {
        &self.0[0]
    }
}

impl<T> DerefMut for Box<T> {
    #[inline]
    fn deref_mut(&mut self) -> &mut T {
        &mut self.0[0]
    }
}
