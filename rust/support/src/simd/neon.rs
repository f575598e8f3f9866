//! NEON, which is part of aarch64: so all intrinsics here may be called.

use core::arch::aarch64::*;

pub type Quad = uint32x4_t;

#[inline(always)]
pub fn load(x: &[u32; 4]) -> Quad {
    // SAFETY: four words are there.
    unsafe { vld1q_u32(x.as_ptr()) }
}

#[inline(always)]
pub fn store(x: Quad, to: &mut [u32; 4]) {
    // SAFETY: the same.
    unsafe { vst1q_u32(to.as_mut_ptr(), x) }
}

#[inline(always)]
pub fn plus(x: Quad, y: Quad) -> Quad {
    // SAFETY, here and below: NEON.
    unsafe { vaddq_u32(x, y) }
}

#[inline(always)]
pub fn xor(x: Quad, y: Quad) -> Quad {
    unsafe { veorq_u32(x, y) }
}

#[inline(always)]
pub fn or(x: Quad, y: Quad) -> Quad {
    unsafe { vorrq_u32(x, y) }
}

#[inline(always)]
pub fn xor_rotated(x: Quad, y: Quad, bits: u32) -> Quad {
    let left = unsafe { vshlq_u32(y, vdupq_n_s32(bits as i32)) };
    let right = unsafe { vshlq_u32(y, vdupq_n_s32(bits as i32 - 32)) };
    xor(xor(x, left), right)
}

#[inline(always)]
pub fn turned<const K: usize>(x: Quad) -> Quad {
    unsafe {
        match K {
            1 => vextq_u32::<1>(x, x),
            2 => vextq_u32::<2>(x, x),
            _ => vextq_u32::<3>(x, x),
        }
    }
}

#[inline(always)]
pub fn kept(x: Quad) -> Quad {
    x
}

#[inline(always)]
pub fn tied(x: Quad, y: Quad) -> (Quad, Quad) {
    (x, y)
}

pub fn level() -> u8 {
    0
}
