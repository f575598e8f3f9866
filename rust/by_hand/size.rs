//! Numbers that parameters ask for, whether or not a memory has room for so many. Written by hand in place of the
//! source's file: the proofs are of a `usize` of 64 bits.

use support::AllocError;

#[cfg(not(any(target_pointer_width = "64", target_arch = "wasm32")))]
compile_error!("the proofs are of a usize of 64 bits");

/// A number of bytes or words that parameters ask for. It has 64 bits, also where addresses have
/// fewer.
#[cfg(target_pointer_width = "64")]
pub type Size = usize;
/// A number of bytes or words that parameters ask for. It has 64 bits, also where addresses have
/// fewer.
#[cfg(target_pointer_width = "32")]
pub type Size = u64;

/// Returns a number of elements that a slice has, as an index.
#[inline(always)]
#[allow(clippy::useless_conversion)]
pub(crate) fn index(size: Size) -> usize {
    usize::try_from(size).unwrap()
}

/// Returns a number of elements to allocate, or an error if no memory can have so many.
#[inline(always)]
#[allow(clippy::useless_conversion)]
pub(crate) fn room(size: Size) -> Result<usize, AllocError> {
    usize::try_from(size).map_err(|_| AllocError)
}
