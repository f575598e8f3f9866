//! What the exports for JavaScript take: addresses, lengths and numbers of 64 bits, in a memory of at most 2^32 bytes.
//! An address or a length that no memory of 32 bits has ends the module.

use scrypt::Progress;

/// The addresses of `len` elements, all in a memory of 32 bits. No slice has 2^31 bytes.
fn checked<T>(at: u64, len: u64) -> (usize, usize) {
    let bytes = u128::from(len) * size_of::<T>() as u128;
    assert!(bytes < 1 << 31 && u128::from(at) + bytes <= 1 << 32 && at % align_of::<T>() as u64 == 0);
    (at as usize, len as usize)
}

pub(crate) unsafe fn slice<'a, T>(at: u64, len: u64) -> &'a [T] {
    let (at, len) = checked::<T>(at, len);
    unsafe { support::slice(at as *const T, len) }
}

pub(crate) unsafe fn slice_mut<'a, T>(at: u64, len: u64) -> &'a mut [T] {
    let (at, len) = checked::<T>(at, len);
    unsafe { support::slice_mut(at as *mut T, len) }
}

pub(crate) unsafe fn place<'a, T>(at: u64) -> &'a mut T {
    let (at, _) = checked::<T>(at, 1);
    assert!(at != 0);
    unsafe { &mut *(at as *mut T) }
}

/// A number that is compared with lengths of slices, or is the least of itself and one of them.
pub(crate) fn limited(number: u64) -> usize {
    number.min(u64::from(u32::MAX)) as usize
}

/// A copy, which is written back when it ends, if it was changed.
pub(crate) struct Written<'a> {
    words: &'a mut [u64; 3],
    before: Progress,
    at: Progress,
}

pub(crate) unsafe fn progress<'a>(at: u64) -> Written<'a> {
    let words: &mut [u64; 3] = unsafe { place(at) };
    let [chunks, interleaved, mixes] = words.map(limited);
    let at = Progress { chunks, interleaved, mixes };
    Written { words, before: at, at }
}

impl core::ops::Deref for Written<'_> {
    type Target = Progress;

    fn deref(&self) -> &Progress {
        &self.at
    }
}

impl core::ops::DerefMut for Written<'_> {
    fn deref_mut(&mut self) -> &mut Progress {
        &mut self.at
    }
}

impl Drop for Written<'_> {
    fn drop(&mut self) {
        if self.at != self.before {
            *self.words = [self.at.chunks, self.at.interleaved, self.at.mixes].map(|it| it as u64);
        }
    }
}
