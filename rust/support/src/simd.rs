//! Vectors of four words and of eight, in place of `std::simd`, which is not stable, for each [`level`](crate::level).
//!
//! A value of [`Four`] or [`Eight`] for a level exists only where the processor has it: those of level 0 are made of
//! words, all others by [`Four::load`], whose caller says so. This is why the methods may use the level's instructions.

use crate::level::AtLevel;
use core::marker::PhantomData;
use core::ops::{BitOr, BitXor};

// Arrays, but for these. Miri sees arrays.
#[cfg_attr(all(target_arch = "x86_64", not(miri)), path = "simd/x86.rs")]
#[cfg_attr(all(target_arch = "aarch64", target_endian = "little", not(miri)), path = "simd/neon.rs")]
#[cfg_attr(all(target_arch = "wasm32", target_feature = "simd128", not(miri)), path = "simd/wasm.rs")]
pub(crate) mod arch;
#[cfg(test)]
mod tests;

pub use arch::Quad;
#[cfg(all(target_arch = "x86_64", not(miri)))]
pub use arch::avx::{Avx2, Avx512};

/// The operations of a level: on eight words, and on four where it has an instruction more.
///
/// # Safety
/// The processor has the level, for each call.
#[allow(clippy::missing_safety_doc)] // as above
pub trait Level: Copy + 'static {
    const LEVEL: u8;

    /// Eight words.
    type Wide: Copy;

    unsafe fn xor_rotated_four(x: Quad, y: Quad, bits: u32) -> Quad;
    unsafe fn join(x: Quad, y: Quad) -> Self::Wide;
    unsafe fn half(x: Self::Wide, k: usize) -> Quad;
    unsafe fn plus(x: Self::Wide, y: Self::Wide) -> Self::Wide;
    unsafe fn xor(x: Self::Wide, y: Self::Wide) -> Self::Wide;
    unsafe fn xor_rotated(x: Self::Wide, y: Self::Wide, bits: u32) -> Self::Wide;
    unsafe fn turned<const K: usize>(x: Self::Wide) -> Self::Wide;
    fn raw(x: &mut Self::Wide) -> Raw<'_>;
}

/// The least level.
#[derive(Clone, Copy)]
pub struct Base;

#[rustfmt::skip] // a line for each operation
impl Level for Base {
    const LEVEL: u8 = 0;
    type Wide = [Quad; 2];

    #[inline(always)]
    unsafe fn xor_rotated_four(x: Quad, y: Quad, bits: u32) -> Quad { arch::xor_rotated(x, y, bits) }
    #[inline(always)]
    unsafe fn join(x: Quad, y: Quad) -> [Quad; 2] { [x, y] }
    #[inline(always)]
    unsafe fn half(x: [Quad; 2], k: usize) -> Quad { x[k] }
    #[inline(always)]
    unsafe fn plus([a, b]: [Quad; 2], [c, d]: [Quad; 2]) -> [Quad; 2] { [arch::plus(a, c), arch::plus(b, d)] }
    #[inline(always)]
    unsafe fn xor([a, b]: [Quad; 2], [c, d]: [Quad; 2]) -> [Quad; 2] { [arch::xor(a, c), arch::xor(b, d)] }
    #[inline(always)]
    unsafe fn xor_rotated([a, b]: [Quad; 2], [c, d]: [Quad; 2], bits: u32) -> [Quad; 2] {
        [arch::xor_rotated(a, c, bits), arch::xor_rotated(b, d, bits)]
    }
    #[inline(always)]
    unsafe fn turned<const K: usize>([a, b]: [Quad; 2]) -> [Quad; 2] { [arch::turned::<K>(a), arch::turned::<K>(b)] }
    #[inline(always)]
    fn raw(x: &mut [Quad; 2]) -> Raw<'_> { Raw::Pair(x) }
}

/// Four words.
#[derive(Clone, Copy)]
#[repr(transparent)]
pub struct Four<L>(Quad, PhantomData<L>);

#[allow(non_camel_case_types)]
pub type u32x4 = Four<Base>;

/// Eight words.
#[derive(Clone, Copy)]
#[repr(transparent)]
pub struct Eight<L: Level>(L::Wide);

impl u32x4 {
    #[inline(always)]
    pub fn splat(x: u32) -> Self {
        Self::from_array([x; 4])
    }

    #[inline(always)]
    pub fn from_array(x: [u32; 4]) -> Self {
        Four::of(arch::load(&x))
    }

    #[inline(always)]
    pub fn from_slice(x: &[u32]) -> Self {
        Four::of(arch::load(x[..4].try_into().unwrap()))
    }
}

impl<L: Level> Four<L> {
    #[inline(always)]
    fn of(x: Quad) -> Self {
        Four(x, PhantomData)
    }

    /// The same words for the least level.
    #[inline(always)]
    pub fn base(self) -> u32x4 {
        Four::of(self.0)
    }

    #[inline(always)]
    pub fn to_array(self) -> [u32; 4] {
        let mut x = [0; 4];
        arch::store(self.0, &mut x);
        x
    }

    #[inline(always)]
    pub fn copy_to_slice(self, x: &mut [u32]) {
        arch::store(self.0, (&mut x[..4]).try_into().unwrap());
    }

    /// The four words of `x` from `at` on.
    ///
    /// # Safety
    /// `at + 4` is at most the length of `x`, and the processor has the level.
    #[inline(always)]
    pub unsafe fn load(x: &[u32], at: usize) -> Self {
        debug_assert!(at + 4 <= x.len(), "unchecked load: this is a bug of the kernel");
        // SAFETY: the caller's; four words have no padding, and are aligned as one.
        Four::of(arch::load(unsafe { &*x.as_ptr().add(at).cast() }))
    }

    /// Writes the words to the four of `x` from `at` on.
    ///
    /// # Safety
    /// `at + 4` is at most the length of `x`.
    #[inline(always)]
    pub unsafe fn store(self, x: &mut [u32], at: usize) {
        debug_assert!(at + 4 <= x.len(), "unchecked store: this is a bug of the kernel");
        // SAFETY: the same as for `load`.
        arch::store(self.0, unsafe { &mut *x.as_mut_ptr().add(at).cast() });
    }

    #[inline(always)]
    pub fn plus(self, y: Self) -> Self {
        Four::of(arch::plus(self.0, y.0))
    }

    #[inline(always)]
    pub fn xor(self, y: Self) -> Self {
        Four::of(arch::xor(self.0, y.0))
    }

    /// The exclusive or of each word with the word of `y` rotated to the left.
    #[inline(always)]
    pub fn xor_rotated(self, y: Self, bits: u32) -> Self {
        // SAFETY: a value of this level exists, as for all of `Eight`.
        Four::of(unsafe { L::xor_rotated_four(self.0, y.0, bits) })
    }

    /// The words rotated to the left by `K` places.
    #[inline(always)]
    pub fn turned<const K: usize>(self) -> Self {
        Four::of(arch::turned::<K>(self.0))
    }
}

// SAFETY: it is no type of the kernel's traits by itself; and see the module.
unsafe impl<L: Level> AtLevel for Four<L> {
    const LEVEL: u8 = L::LEVEL;

    #[inline(always)]
    fn kept(self) -> Self {
        Four::of(arch::kept(self.0))
    }
}

// SAFETY: the same.
unsafe impl<L: Level> AtLevel for Eight<L> {
    const LEVEL: u8 = L::LEVEL;
}

impl<L: Level> BitXor for Four<L> {
    type Output = Self;

    #[inline(always)]
    fn bitxor(self, y: Self) -> Self {
        self.xor(y)
    }
}

impl<L: Level> BitOr for Four<L> {
    type Output = Self;

    #[inline(always)]
    fn bitor(self, y: Self) -> Self {
        Four::of(arch::or(self.0, y.0))
    }
}

// SAFETY, of each call here: a value of the level exists.
impl<L: Level> Eight<L> {
    #[inline(always)]
    pub fn join(x: Four<L>, y: Four<L>) -> Self {
        Eight(unsafe { L::join(x.0, y.0) })
    }

    #[inline(always)]
    pub fn half(self, k: usize) -> u32x4 {
        Four::of(unsafe { L::half(self.0, k) })
    }

    #[inline(always)]
    pub fn plus(self, y: Self) -> Self {
        Eight(unsafe { L::plus(self.0, y.0) })
    }

    #[inline(always)]
    pub fn xor(self, y: Self) -> Self {
        Eight(unsafe { L::xor(self.0, y.0) })
    }

    #[inline(always)]
    pub fn xor_rotated(self, y: Self, bits: u32) -> Self {
        Eight(unsafe { L::xor_rotated(self.0, y.0, bits) })
    }

    /// The words of each half rotated to the left by `K` places.
    #[inline(always)]
    pub fn turned<const K: usize>(self) -> Self {
        Eight(unsafe { L::turned::<K>(self.0) })
    }
}

/// Panics unless the words have a part of `len` at each of these starts. The C library has no such branch: where a row
/// of the table starts is secret, and its callers keep the clauses of `Parts`.
#[inline(always)]
#[cfg_attr(unchecked_rows, allow(unused_variables))]
pub fn inside(words: &[u32], len: usize, starts: &[usize; 4]) {
    #[cfg(not(unchecked_rows))]
    for start in starts {
        assert!(len <= words.len() && *start <= words.len() - len);
    }
}

/// The register of a vector.
pub enum Raw<'a> {
    Quad(&'a mut Quad),
    #[cfg(all(target_arch = "x86_64", not(miri)))]
    Wide(&'a mut core::arch::x86_64::__m256i),
    Pair(&'a mut [Quad; 2]),
}

/// Vectors that can be tied.
pub trait Tie {
    fn raw(&mut self) -> Raw<'_>;
}

impl<L: Level> Tie for Four<L> {
    #[inline(always)]
    fn raw(&mut self) -> Raw<'_> {
        Raw::Quad(&mut self.0)
    }
}

impl<L: Level> Tie for Eight<L> {
    #[inline(always)]
    fn raw(&mut self) -> Raw<'_> {
        L::raw(&mut self.0)
    }
}

/// Does nothing at run time. But the compiler computes both vectors before it uses either: otherwise it orders the
/// instructions of two vectors so that the processor sees one long chain after the other, which takes 1.15 of the time.
#[inline(always)]
pub fn tie<A: Tie, B: Tie>(x: &mut A, y: &mut B) {
    match (x.raw(), y.raw()) {
        // SAFETY: a vector of eight words in one register exists, so the processor has AVX2.
        #[cfg(all(target_arch = "x86_64", not(miri)))]
        (Raw::Wide(x), Raw::Wide(y)) => (*x, *y) = unsafe { arch::avx::tied(*x, *y) },
        // SAFETY: the same.
        #[cfg(all(target_arch = "x86_64", not(miri)))]
        (Raw::Wide(x), Raw::Quad(y)) => (*x, *y) = unsafe { arch::avx::tied_four(*x, *y) },
        (Raw::Pair(x), Raw::Pair(y)) => (x[0], y[0]) = arch::tied(x[0], y[0]),
        (Raw::Pair(x), Raw::Quad(y)) => (x[0], *y) = arch::tied(x[0], *y),
        _ => {}
    }
}

/// The same, for the two halves of one, which have a register each on the least level.
#[inline(always)]
pub fn tie_halves<L: Level>(x: &mut Eight<L>) {
    if let Raw::Pair(x) = x.raw() {
        (x[0], x[1]) = arch::tied(x[0], x[1]);
    }
}
