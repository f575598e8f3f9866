//! What stands in erased source in place of things of the Rattle kit's std and ports that stable
//! Rust does not have in the same form.
#![no_std]

extern crate alloc;
#[cfg(test)]
extern crate std;

pub mod ascii;
pub mod base64;
#[cfg(feature = "c_library")]
mod c_heap;
#[cfg(feature = "c_library")]
mod c_library;
mod grow;
pub mod io;
#[cfg(feature = "js_module")]
mod js_module;
pub mod level;
pub mod simd;

use alloc::boxed::Box;

/// The traits of calls that allocate.
pub mod growth {
    pub use crate::grow::{Allocate, Grow, GrowText, Texts, ToText, ToVec};
}

pub use grow::filled;

/// `vec!`, but with an error if memory is exhausted.
#[macro_export]
macro_rules! checked_vec {
    ($item:expr; $len:expr) => {
        $crate::filled($item, $len)
    };
}

/// An allocation failed. `std::alloc::AllocError` is not stable.
#[derive(Clone, Copy, Debug, PartialEq, Eq)]
pub struct AllocError;

impl core::fmt::Display for AllocError {
    fn fmt(&self, f: &mut core::fmt::Formatter<'_>) -> core::fmt::Result {
        f.write_str("out of memory")
    }
}

impl core::error::Error for AllocError {}

impl From<alloc::collections::TryReserveError> for AllocError {
    fn from(_: alloc::collections::TryReserveError) -> AllocError {
        AllocError
    }
}

/// Why a test failed.
pub type Fail = Box<dyn core::error::Error>;

/// Writes zeros, which a compiler does not leave out if the memory is freed next, as it may those of `fill`: for what it
/// knows, they are read.
pub fn wipe<T: Copy + Default>(places: &mut [T]) {
    places.fill(T::default());
    core::hint::black_box(places);
}

/// `&words[at..at + len]`, which the source proves to be in bounds. Where a row of scrypt's table begins is secret, so
/// the C library takes it without a check, which would be a branch; other callers of the crates may break their
/// clauses.
#[inline(always)]
pub fn row(words: &[u32], at: usize, len: usize) -> &[u32] {
    // SAFETY: whoever sets this says that no caller breaks a clause: rust/build.sh does, for the C library and the program.
    #[cfg(unchecked_rows)]
    return unsafe { words.get_unchecked(at..at + len) };
    #[cfg(not(unchecked_rows))]
    &words[at..at + len]
}

/// The slice that C passes as a pointer and a length. The pointer of an empty one may be null.
///
/// # Safety
/// The `len` elements at the pointer are initialized, and borrowed for `'a`.
pub unsafe fn slice<'a, T>(at: *const T, len: usize) -> &'a [T] {
    if len == 0 {
        return &[];
    }
    // SAFETY: the caller's.
    unsafe { core::slice::from_raw_parts(at, len) }
}

/// The same, to write to.
///
/// # Safety
/// The `len` elements at the pointer are initialized, and borrowed alone for `'a`.
pub unsafe fn slice_mut<'a, T>(at: *mut T, len: usize) -> &'a mut [T] {
    if len == 0 {
        return &mut [];
    }
    // SAFETY: the caller's.
    unsafe { core::slice::from_raw_parts_mut(at, len) }
}
