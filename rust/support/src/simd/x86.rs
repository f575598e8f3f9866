//! x86-64: SSE2 is part of it, so all intrinsics outside of `avx` may be called.

use core::arch::x86_64::*;

pub type Quad = __m128i;

#[inline(always)]
pub fn load(x: &[u32; 4]) -> Quad {
    // SAFETY: four words are there.
    unsafe { _mm_loadu_si128(x.as_ptr().cast()) }
}

#[inline(always)]
pub fn store(x: Quad, to: &mut [u32; 4]) {
    // SAFETY: the same.
    unsafe { _mm_storeu_si128(to.as_mut_ptr().cast(), x) }
}

#[inline(always)]
pub fn plus(x: Quad, y: Quad) -> Quad {
    // SAFETY, here and below: SSE2.
    unsafe { _mm_add_epi32(x, y) }
}

#[inline(always)]
pub fn xor(x: Quad, y: Quad) -> Quad {
    unsafe { _mm_xor_si128(x, y) }
}

#[inline(always)]
pub fn or(x: Quad, y: Quad) -> Quad {
    unsafe { _mm_or_si128(x, y) }
}

// The two parts of a rotation share no bit, so two exclusive ors can combine them with `x`.
#[inline(always)]
pub fn xor_rotated(x: Quad, y: Quad, bits: u32) -> Quad {
    let left = unsafe { _mm_sll_epi32(y, _mm_cvtsi32_si128(bits as i32)) };
    let right = unsafe { _mm_srl_epi32(y, _mm_cvtsi32_si128(32 - bits as i32)) };
    xor(xor(x, left), right)
}

#[inline(always)]
pub fn turned<const K: usize>(x: Quad) -> Quad {
    unsafe {
        match K {
            1 => _mm_shuffle_epi32::<0x39>(x),
            2 => _mm_shuffle_epi32::<0x4e>(x),
            _ => _mm_shuffle_epi32::<0x93>(x),
        }
    }
}

// An `asm!` of this module has no instruction: it only names registers.
macro_rules! named {
    ($($register:ident $x:ident),*) => {
        // SAFETY: nothing is executed.
        unsafe {
            core::arch::asm!($(concat!("/* {", stringify!($x), "} */"),)* $($x = inout($register) $x,)*
                options(pure, nomem, nostack, preserves_flags));
        }
    };
}

/// See `AtLevel::kept`.
#[inline(always)]
pub fn kept(mut x: Quad) -> Quad {
    named!(xmm_reg x);
    x
}

/// See `tie`.
#[inline(always)]
pub fn tied(mut x: Quad, mut y: Quad) -> (Quad, Quad) {
    named!(xmm_reg x, xmm_reg y);
    (x, y)
}

/// What the processor and the system have: 2 is AVX-512F and VL, 1 is AVX2, both with BMI 1 and 2.
#[allow(unused_unsafe)] // CPUID became safe to call after Rust 1.89
pub fn level() -> u8 {
    // SAFETY: each x86-64 has CPUID.
    let (most, one) = unsafe { (__get_cpuid_max(0).0, __cpuid(1)) };
    if most < 7 || one.ecx >> 27 & 3 != 3 {
        return 0; // the system does not save AVX's registers, or there are none
    }
    // SAFETY: leaf 7 is there, and the system has enabled XGETBV, as bit 27 says.
    let (seven, saved) = unsafe { (__cpuid_count(7, 0).ebx, saved_registers()) };
    let has = |bits: &[u32]| bits.iter().all(|bit| seven >> bit & 1 == 1);
    if saved & 6 != 6 || one.ecx >> 28 & 1 == 0 || !has(&[3, 5, 8]) {
        0
    } else if saved & 0xe6 != 0xe6 || !has(&[16, 31]) {
        1
    } else {
        2
    }
}

#[target_feature(enable = "xsave")]
fn saved_registers() -> u64 {
    // SAFETY: register 0 is there.
    unsafe { _xgetbv(0) }
}

pub mod avx {
    //! AVX2 and AVX-512VL. The processor has them, as `Level` says, for each call here.
    use super::Quad;
    use crate::simd::{Level, Raw};
    use core::arch::x86_64::*;

    /// AVX2.
    #[derive(Clone, Copy)]
    pub struct Avx2;

    /// AVX-512VL: AVX2 with an instruction that rotates.
    #[derive(Clone, Copy)]
    pub struct Avx512;

    #[inline]
    #[target_feature(enable = "avx2")]
    pub fn tied(mut x: __m256i, mut y: __m256i) -> (__m256i, __m256i) {
        named!(ymm_reg x, ymm_reg y);
        (x, y)
    }

    #[inline]
    #[target_feature(enable = "avx2")]
    pub fn tied_four(mut x: __m256i, mut y: __m128i) -> (__m256i, __m128i) {
        named!(ymm_reg x, xmm_reg y);
        (x, y)
    }

    // All that the two levels have in common.
    macro_rules! wide {
        () => {
            type Wide = __m256i;

            #[inline(always)]
            unsafe fn join(x: Quad, y: Quad) -> __m256i {
                unsafe { _mm256_inserti128_si256::<1>(_mm256_castsi128_si256(x), y) }
            }

            #[inline(always)]
            unsafe fn half(x: __m256i, k: usize) -> Quad {
                unsafe {
                    if k == 0 { _mm256_castsi256_si128(x) } else { _mm256_extracti128_si256::<1>(x) }
                }
            }

            #[inline(always)]
            unsafe fn plus(x: __m256i, y: __m256i) -> __m256i {
                unsafe { _mm256_add_epi32(x, y) }
            }

            #[inline(always)]
            unsafe fn xor(x: __m256i, y: __m256i) -> __m256i {
                unsafe { _mm256_xor_si256(x, y) }
            }

            #[inline(always)]
            unsafe fn turned<const K: usize>(x: __m256i) -> __m256i {
                unsafe {
                    match K {
                        1 => _mm256_shuffle_epi32::<0x39>(x),
                        2 => _mm256_shuffle_epi32::<0x4e>(x),
                        _ => _mm256_shuffle_epi32::<0x93>(x),
                    }
                }
            }

            #[inline(always)]
            fn raw(x: &mut __m256i) -> Raw<'_> {
                Raw::Wide(x)
            }
        };
    }

    impl Level for Avx2 {
        const LEVEL: u8 = 1;
        wide!();

        #[inline(always)]
        unsafe fn xor_rotated_four(x: Quad, y: Quad, bits: u32) -> Quad {
            super::xor_rotated(x, y, bits)
        }

        #[inline(always)]
        unsafe fn xor_rotated(x: __m256i, y: __m256i, bits: u32) -> __m256i {
            unsafe {
                let left = _mm256_sll_epi32(y, _mm_cvtsi32_si128(bits as i32));
                let right = _mm256_srl_epi32(y, _mm_cvtsi32_si128(32 - bits as i32));
                _mm256_xor_si256(_mm256_xor_si256(x, left), right)
            }
        }
    }

    impl Level for Avx512 {
        const LEVEL: u8 = 2;
        wide!();

        #[inline(always)]
        unsafe fn xor_rotated_four(x: Quad, y: Quad, bits: u32) -> Quad {
            unsafe { _mm_xor_si128(x, _mm_rolv_epi32(y, _mm_set1_epi32(bits as i32))) }
        }

        #[inline(always)]
        unsafe fn xor_rotated(x: __m256i, y: __m256i, bits: u32) -> __m256i {
            unsafe { _mm256_xor_si256(x, _mm256_rolv_epi32(y, _mm256_set1_epi32(bits as i32))) }
        }
    }
}
