//! simd128, which the compiler of this module has: so all intrinsics here may be called.

use core::arch::wasm32::*;

pub type Quad = v128;

#[inline(always)]
pub fn load(x: &[u32; 4]) -> Quad {
    // SAFETY: four words are there.
    unsafe { v128_load(x.as_ptr().cast()) }
}

#[inline(always)]
pub fn store(x: Quad, to: &mut [u32; 4]) {
    // SAFETY: the same.
    unsafe { v128_store(to.as_mut_ptr().cast(), x) }
}

#[inline(always)]
pub fn plus(x: Quad, y: Quad) -> Quad {
    u32x4_add(x, y)
}

#[inline(always)]
pub fn xor(x: Quad, y: Quad) -> Quad {
    v128_xor(x, y)
}

#[inline(always)]
pub fn or(x: Quad, y: Quad) -> Quad {
    v128_or(x, y)
}

#[inline(always)]
pub fn xor_rotated(x: Quad, y: Quad, bits: u32) -> Quad {
    xor(xor(x, u32x4_shl(y, bits)), u32x4_shr(y, 32 - bits))
}

#[inline(always)]
pub fn turned<const K: usize>(x: Quad) -> Quad {
    match K {
        1 => u32x4_shuffle::<1, 2, 3, 0>(x, x),
        2 => u32x4_shuffle::<2, 3, 0, 1>(x, x),
        _ => u32x4_shuffle::<3, 0, 1, 2>(x, x),
    }
}

#[inline(always)]
pub fn kept(x: Quad) -> Quad {
    x
}

#[inline(always)]
pub fn tied(x: Quad, y: Quad) -> (Quad, Quad) {
    (x, y)
}

pub fn level() -> u8 {
    0
}
