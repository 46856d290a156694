//! The functions of C, each over one that takes slices and references.

use super::tables::{
    BufferHandle, ChangeCounts, Counts, ExtentTold, FaultTold, Handle, LevelTold, Look, MadeHandle,
    Moved, ProgressTold, RunHandle, ScaleTold, SlotSizes,
};
use crate::rattle_std::alloc::Global;

// An array of no items may stand nowhere.
unsafe fn array<'a, T>(at: *const T, n: usize) -> &'a [T] {
    if n == 0 {
        return &[];
    }
    unsafe { std::slice::from_raw_parts(at, n) }
}

unsafe fn array_mut<'a, T>(at: *mut T, n: usize) -> &'a mut [T] {
    if n == 0 {
        return &mut [];
    }
    unsafe { std::slice::from_raw_parts_mut(at, n) }
}

/// Room for the arrays of a page: so many words of 8 bytes, or null where memory is wanting.
#[cfg(target_family = "wasm")]
#[no_mangle]
pub extern "C" fn vdpm_take(words: usize) -> *mut u64 {
    let mut room = std::vec::Vec::new();
    if words == 0 || room.try_reserve_exact(words).is_err() {
        return std::ptr::null_mut();
    }
    room.resize(words, 0u64);
    std::boxed::Box::into_raw(room.into_boxed_slice()) as *mut u64
}

/// Gives the room of so many words back.
///
/// # Safety
///
/// The room is one that `vdpm_take` gave for so many words, and is given back once.
#[cfg(target_family = "wasm")]
#[no_mangle]
pub unsafe extern "C" fn vdpm_give(at: *mut u64, words: usize) {
    if !at.is_null() {
        drop(unsafe { std::boxed::Box::from_raw(std::ptr::slice_from_raw_parts_mut(at, words)) });
    }
}
