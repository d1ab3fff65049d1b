//! What C holds: pointers to what the library made, and slices that C gives. Written by hand.
#![allow(unsafe_code)]

use std::{ptr, slice};

/// A pointer to a value of the library, or null for none. C keeps it, and gives it to the library's functions.
#[repr(C)]
pub struct Handle<T> {
    at: *mut T,
}

impl<T> Handle<T> {
    pub fn of(held: Box<T>) -> Handle<T> {
        Handle { at: Box::into_raw(held) }
    }

    /// Takes what is held.
    pub fn take(&mut self) -> Option<Box<T>> {
        let at = std::mem::replace(&mut self.at, ptr::null_mut());
        // SAFETY: what is not null came from `of`, and is held once: the header asks this of C.
        (!at.is_null()).then(|| unsafe { Box::from_raw(at) })
    }
}

/// The items that C has at a place.
///
/// # Safety
/// There are so many, and nothing writes to them meanwhile.
pub unsafe fn slice<'a, T>(at: *const T, len: usize) -> &'a [T] {
    if len == 0 { &[] } else { unsafe { slice::from_raw_parts(at, len) } }
}

/// The room that C has at a place.
///
/// # Safety
/// There is room for so many, and nothing else reads or writes there meanwhile.
pub unsafe fn slice_mut<'a, T>(at: *mut T, len: usize) -> &'a mut [T] {
    if len == 0 { &mut [] } else { unsafe { slice::from_raw_parts_mut(at, len) } }
}
