//! Calls of the public functions with wrong lengths, counts and types, by safe Rust alone: each returns or panics, and
//! none reads or writes outside of a slice. With debug assertions the two accesses that have no check in release builds
//! say so. Without them AddressSanitizer sees it, since every slice is an allocation of its own; no debug assertion and
//! no overflow check is on then:
//!
//!     RUSTC_BOOTSTRAP=1 RUSTFLAGS=-Zsanitizer=address CARGO_PROFILE_DEV_OPT_LEVEL=0 \
//!     CARGO_PROFILE_DEV_DEBUG_ASSERTIONS=false CARGO_PROFILE_DEV_OVERFLOW_CHECKS=false \
//!     cargo test --target x86_64-unknown-linux-gnu -p proved-scrypt-kernel --test wrong_calls
#![forbid(unsafe_code)]

use scrypt_kernel::block_mix::{lanes, plain};
use scrypt_kernel::memory::{Allocated, Buffer, TableMemory};
use scrypt_kernel::order::OrderedBlocks;
use scrypt_kernel::order::diagonal::{Both, Diagonal, integerify_diagonal, shuffle_in, shuffle_out};
use scrypt_kernel::order::standard::{Standard, integerify_plain};
use scrypt_kernel::romix::{mix_chunks, plain_ro_mix, scrypt_ro_mix, thin_ro_mix};
use scrypt_kernel::steps::{begin_chunks, end_chunks, step_chunks};
use scrypt_kernel::{CoreCount, pbkdf2};
use std::panic::{AssertUnwindSafe, catch_unwind};
use std::sync::atomic::{AtomicUsize, Ordering};
use support::simd::{Base, Eight, Four};

const ROUNDS: usize = if cfg!(miri) { 20 } else { 1000 };

/// How many calls returned, and how many panicked.
static ENDS: [AtomicUsize; 2] = [AtomicUsize::new(0), AtomicUsize::new(0)];
static BUGS: AtomicUsize = AtomicUsize::new(0);

struct Random(u64);

impl Random {
    fn below(&mut self, end: usize) -> usize {
        self.0 ^= self.0 << 13;
        self.0 ^= self.0 >> 7;
        self.0 ^= self.0 << 17;
        (self.0 >> 11) as usize % end
    }

    /// The right length, or another: near it, 0, or one that overflows when it is multiplied.
    fn near(&mut self, right: usize) -> usize {
        match self.below(12) {
            0 => 0,
            1 => right.saturating_sub(1),
            2 => right + 1,
            3 => right.saturating_sub(16),
            4 => right.saturating_sub(32),
            5 => right / 2,
            6 => right + 32,
            _ => right,
        }
    }

    /// The right number, or another, also one that is much too large.
    fn number(&mut self, right: usize) -> usize {
        match self.below(16) {
            0 => usize::MAX / 32,
            1 => usize::MAX / 128 + 2,
            2 => usize::MAX,
            _ => self.near(right),
        }
    }

    fn words(&mut self, right: usize) -> Box<[u32]> {
        let len = self.near(right);
        (0..len).map(|_| self.below(1 << 32) as u32).collect()
    }

    fn bytes(&mut self, right: usize) -> Box<[u8]> {
        let len = self.near(right);
        (0..len).map(|_| self.below(256) as u8).collect()
    }
}

fn tried(call: impl FnOnce(&mut CoreCount)) {
    let panicked = catch_unwind(AssertUnwindSafe(|| call(&mut CoreCount::new()))).is_err();
    ENDS[usize::from(panicked)].fetch_add(1, Ordering::Relaxed);
}

/// A table whose slices are others at each call, and which mixes nothing.
struct Changing(Vec<Box<[u32]>>, usize);

impl TableMemory for Changing {
    fn words(&self) -> &[u32] {
        &self.0[self.1 % self.0.len()]
    }

    fn write(&mut self, _at: usize, _row: &[u32]) {
        self.1 += 1;
    }

    fn mix_next<O: OrderedBlocks>(&mut self, i: usize, _len: usize, _cores: &mut CoreCount) {
        self.1 += i;
        O::integerify(&[7; 16], 3);
    }
}

/// All functions with such a type parameter.
fn typed<O: OrderedBlocks>(random: &mut Random) {
    let n = O::count();
    for _ in 0..ROUNDS {
        let (r, log_n) = (random.below(3), random.below(4));
        let s = random.below(log_n + 1);
        let (row, given_r) = (n * 32 * r, if random.below(8) == 0 { random.number(r) } else { r });
        let (log_n, rows) = (if random.below(20) == 0 { 64 } else { log_n as u8 }, 1 << log_n);
        let (mut b, mut scratch) = (random.bytes(4 * row), random.words(3 * row));
        let mut table = random.words(row * rows);
        let (i, len) = (random.number(rows / 2), random.number(32 * r));
        tried(|cores| Buffer::new(&mut table).mix_next::<O>(i, len, cores));
        let rows_of = &mut Buffer::new(&mut table);
        tried(|cores| mix_chunks::<O, _>(&mut b, given_r, rows_of, &mut scratch, log_n, s as u8, cores));
        let mut own = Allocated::new(table.to_vec());
        if i < 4 && len < 100 {
            tried(|cores| own.mix_next::<O>(i, len, cores));
        }
        // A table that grows, and one that takes every row, would take them without an end.
        if given_r < 100 && log_n < 64 {
            tried(|cores| mix_chunks::<O, _>(&mut b, given_r, &mut own, &mut scratch, log_n, s as u8, cores));
        }
        let mut changing = Changing((0..3).map(|_| random.words(row * rows)).collect(), 0);
        if log_n < 64 {
            tried(|cores| mix_chunks::<O, _>(&mut b, given_r, &mut changing, &mut scratch, log_n, s as u8, cores));
        }
        let (count, done) = (random.number(n), random.number(rows));
        tried(|_| begin_chunks::<O>(count, &b, given_r, &mut table, &mut scratch));
        tried(|cores| _ = step_chunks::<O>(given_r, &mut table, &mut scratch, log_n, done, rows, cores));
        tried(|_| end_chunks::<O>(count, &mut b, given_r, &mut scratch));
        tried(|_| _ = O::integerify(&scratch, log_n));
    }
}

/// The other functions.
fn plain_calls(random: &mut Random) {
    for _ in 0..ROUNDS {
        let (r, log_n, s) = (random.below(3), random.below(4) as u8, random.below(5) as u8);
        let (mut b, mut v, mut t) = (random.bytes(128 * r), random.words((32 * r) << log_n), random.words(96 * r));
        let (x, mut y) = (random.words(32 * r), random.words(32 * r));
        tried(|cores| lanes::scrypt_block_mix(&x, &mut y, cores));
        tried(|cores| plain::scrypt_block_mix(&x, &mut y, cores));
        tried(|_| shuffle_in(&mut y));
        tried(|_| shuffle_out(&mut y));
        tried(|_| _ = integerify_diagonal(&x, s));
        tried(|_| _ = integerify_plain(&x, s));
        tried(|cores| scrypt_ro_mix(&mut b, &mut v, &mut t, log_n, cores));
        tried(|cores| plain_ro_mix(&mut b, &mut v, &mut t, log_n, cores));
        tried(|cores| thin_ro_mix(&mut b, &mut v, &mut t, log_n, s, cores));
        tried(|_| pbkdf2::pbkdf2_one(&b, &b, &mut [0; 70]));
        tried(|cores| pbkdf2::Blocks::new(&b, &b, cores).write(u32::MAX - u32::from(s), &mut [0; 70], cores));
    }
}

#[test]
fn wrong_calls_return_or_panic() {
    std::panic::set_hook(Box::new(|info| {
        if info.to_string().contains("a bug of the kernel") {
            BUGS.fetch_add(1, Ordering::Relaxed);
        }
    }));
    let random = &mut Random(7914);
    plain_calls(random);
    typed::<Standard>(random);
    typed::<Diagonal<Four<Base>>>(random);
    typed::<Diagonal<Both<Eight<Base>, Four<Base>>>>(random); // three chunks, in two vectors
    let _ = std::panic::take_hook();
    assert_eq!(BUGS.load(Ordering::Relaxed), 0);
    assert!(ENDS.iter().all(|count| count.load(Ordering::Relaxed) > ROUNDS), "{ENDS:?}");
    println!("returned, panicked: {ENDS:?}");
}
