//! The lanes of one block and of two as vectors, at a level of the processor. Written by hand in place of the source's
//! items, whose vectors are those of one level.
//!
//! Here and in `words::put_in_part` are the two accesses without a check of bounds, which no plain Rust caller can make
//! go wrong, whatever lengths and counts it passes:
//! - `read` loads the words `4 * j` to `4 * j + 3` of a part. `mix` and `Allocated::mix_next` assert that r = len / 32
//!   is not 0, and `take_turn` that `i < r`: so each block that they ask for is one of the 2 r of `len` words, and
//!   `Parts` asserts for all four starts that `len` words are there. Each of the six callers makes its `Parts` of the
//!   `len` that it passes on.
//! - `put_in_part` stores to the same words of part `k` of the output, with `k` below the count of blocks: `take_turn`
//!   asserts that the output has so many parts of `len` words. The other caller, `permute_block`, asks for block `k` of
//!   `x.len() / 16`.
//! - Only this crate makes `Parts` and vectors, so that nobody else can ask for a block: a type that another crate
//!   gives to a function as an `OrderedBlocks` has to be an `AtLevel`, which is unsafe to implement.
//! - The vectors of a level that the processor lacks: `mix_chunks`, `step_chunks` and both `mix_next` of memory, which
//!   are all public functions that make vectors of their type parameter, ask for the level first.
//!
//! `tests/wrong_calls.rs` tries to break this.

use crate::cores::simd::both::{Both, Half};
use crate::cores::simd::scalars::Scalars;
use crate::cores::simd::{FourVectors, Lanes};
use crate::order::standard::Standard;
use crate::parts::Parts;
use support::level::AtLevel;
use support::simd::{Eight, Four, Level, tie_halves, u32x4};

// SAFETY, of all these: they make vectors of their level only from others and by `read`, and read and write the blocks
// that they are asked for.
unsafe impl<A: AtLevel, B: AtLevel> AtLevel for Both<A, B> {
    const LEVEL: u8 = if A::LEVEL > B::LEVEL { A::LEVEL } else { B::LEVEL };
}

unsafe impl<V: AtLevel> AtLevel for FourVectors<V> {
    const LEVEL: u8 = V::LEVEL;

    #[inline(always)]
    fn kept(self) -> Self {
        FourVectors {
            a: self.a.kept(),
            b: self.b.kept(),
            c: self.c.kept(),
            d: self.d.kept(),
        }
    }
}

unsafe impl AtLevel for Scalars {}

unsafe impl AtLevel for Standard {}

impl<L: Level> Half for Four<L> {}

impl<L: Level> Half for Eight<L> {}

impl<L: Level> Lanes for Four<L> {
    #[inline(always)]
    fn count() -> usize {
        1
    }

    #[inline(always)]
    fn read(parts: &Parts<'_>, first: usize, j: usize) -> Self {
        // SAFETY: the clause `inside` of `Lanes::read`, which is kept also without proof, as above.
        unsafe { Four::load(parts.part(first), 4 * j) }
    }

    #[inline(always)]
    fn plus(self, y: Self) -> Self {
        self.plus(y)
    }

    #[inline(always)]
    fn xor(self, y: Self) -> Self {
        self.xor(y)
    }

    #[inline(always)]
    fn xor_rotated(self, y: Self, bits: u32) -> Self {
        self.xor_rotated(y, bits)
    }

    #[inline(always)]
    fn turned(b: Self, c: Self, d: Self) -> (Self, Self, Self) {
        (d.turned::<1>(), c.turned::<2>(), b.turned::<3>())
    }

    #[inline(always)]
    fn four(self, _k: usize) -> u32x4 {
        self.base()
    }
}

impl<L: Level> Lanes for Eight<L> {
    #[inline(always)]
    fn count() -> usize {
        2
    }

    #[inline(always)]
    fn read(parts: &Parts<'_>, first: usize, j: usize) -> Self {
        Eight::join(Four::read(parts, first, j), Four::read(parts, first + 1, j))
    }

    #[inline(always)]
    fn plus(self, y: Self) -> Self {
        self.plus(y)
    }

    #[inline(always)]
    fn xor(self, y: Self) -> Self {
        self.xor(y)
    }

    #[inline(always)]
    fn xor_rotated(self, y: Self, bits: u32) -> Self {
        self.xor_rotated(y, bits)
    }

    #[inline(always)]
    fn turned(b: Self, c: Self, d: Self) -> (Self, Self, Self) {
        let mut d = d.turned::<1>();
        tie_halves(&mut d);
        (d, c.turned::<2>(), b.turned::<3>())
    }

    #[inline(always)]
    fn four(self, k: usize) -> u32x4 {
        self.half(k)
    }
}
