//! The level of the processor that the code is for: SSE2 is part of x86-64; AVX2 and AVX-512VL are detected when the
//! program runs. Elsewhere there is one level.
//!
//! A level is a type, [`Base`](crate::simd::Base), `Avx2` or `Avx512`, of the vectors that are computed with.
//! [`at_level!`](crate::at_level) takes the type once for a whole fill and walk, and [`levels!`](crate::levels)
//! compiles the functions in which all of these are inlined for each level. The crate cpufeatures has no AVX-512 in the
//! version that Debian 12 has, 0.2.4, so detection is here.

use crate::simd::arch;
use core::sync::atomic::{AtomicU8, Ordering};

/// The level that code of the type is for: 0 is the least one.
///
/// # Safety
/// The kernel's traits `Lanes` and `OrderedBlocks`, which have this one, read and write words without a check
/// of bounds. A type that implements them reads and writes only blocks that it was asked for; and if its level is not
/// 0, its values exist only where the processor has that level.
///
/// Other types do not implement them by accident:
/// ```compile_fail
/// struct Mine;
/// impl support::level::AtLevel for Mine {}
/// ```
pub unsafe trait AtLevel: Sized {
    const LEVEL: u8 = 0;

    /// Does nothing at run time. But the compiler computes it before what it is used for: otherwise it joins the rows
    /// that a block mix reads to its block one after the other, which the next core waits for.
    #[inline(always)]
    fn kept(self) -> Self {
        self
    }
}

const UNKNOWN: u8 = 255;
static FOUND: AtomicU8 = AtomicU8::new(UNKNOWN);
static TAKEN: AtomicU8 = AtomicU8::new(UNKNOWN);

fn found_level() -> u8 {
    match FOUND.load(Ordering::Relaxed) {
        UNKNOWN => find_level(),
        found => found,
    }
}

#[cold]
fn find_level() -> u8 {
    let found = arch::level();
    FOUND.store(found, Ordering::Relaxed);
    found
}

/// The level that this processor has, or the one that [`force_level`] set.
#[inline]
pub fn level() -> u8 {
    match TAKEN.load(Ordering::Relaxed) {
        UNKNOWN => found_level(),
        level => level,
    }
}

/// For tests: takes the code of a level that this processor has, or of the highest one below it.
pub fn force_level(level: u8) -> u8 {
    let level = level.min(found_level());
    TAKEN.store(level, Ordering::Relaxed);
    level
}

/// Panics unless this processor has the level, which only a caller who chose the type can get wrong.
#[inline(always)]
pub fn require<T: AtLevel>() {
    assert!(T::LEVEL == 0 || T::LEVEL <= found_level());
}

/// The expression for the type `L` that is the level of this processor.
#[cfg(all(target_arch = "x86_64", not(miri)))]
#[macro_export]
macro_rules! at_level {
    ($level:ident => $call:expr) => {
        match $crate::level::level() {
            2 => {
                type $level = $crate::simd::Avx512;
                $call
            }
            1 => {
                type $level = $crate::simd::Avx2;
                $call
            }
            _ => {
                type $level = $crate::simd::Base;
                $call
            }
        }
    };
}

#[cfg(not(all(target_arch = "x86_64", not(miri))))]
#[macro_export]
macro_rules! at_level {
    ($level:ident => $call:expr) => {{
        type $level = $crate::simd::Base;
        $call
    }};
}

/// The function, compiled for the level of its first type parameter. All that it calls and that is for this level is
/// inlined, or is such a function too. It is `unsafe` to write: whoever calls the function has a value of the type, or
/// has asked for the level by [`require`].
#[macro_export]
macro_rules! levels {
    (unsafe $(#[$about:meta])* $visible:vis fn $name:ident<$O:ident: $bound:ident $(, $M:ident: $other:ident)*>(
        $($a:ident: $t:ty),* $(,)?
    ) $(-> $r:ty)? $body:block) => {
        $(#[$about])*
        $visible fn $name<$O: $bound $(, $M: $other)*>($($a: $t),*) $(-> $r)? {
            #[inline(always)]
            fn inlined<$O: $bound $(, $M: $other)*>($($a: $t),*) $(-> $r)? $body

            fn least<$O: $bound $(, $M: $other)*>($($a: $t),*) $(-> $r)? {
                inlined::<$O $(, $M)*>($($a),*)
            }

            #[cfg(all(target_arch = "x86_64", not(miri)))]
            #[target_feature(enable = "avx2,bmi1,bmi2")]
            fn avx2<$O: $bound $(, $M: $other)*>($($a: $t),*) $(-> $r)? {
                inlined::<$O $(, $M)*>($($a),*)
            }

            #[cfg(all(target_arch = "x86_64", not(miri)))]
            #[target_feature(enable = "avx2,bmi1,bmi2,avx512f,avx512vl")]
            fn avx512<$O: $bound $(, $M: $other)*>($($a: $t),*) $(-> $r)? {
                inlined::<$O $(, $M)*>($($a),*)
            }

            match <$O as $crate::level::AtLevel>::LEVEL {
                // SAFETY: the processor has the level, as the caller of the macro says.
                #[cfg(all(target_arch = "x86_64", not(miri)))]
                1 => unsafe { avx2::<$O $(, $M)*>($($a),*) },
                // SAFETY: the same.
                #[cfg(all(target_arch = "x86_64", not(miri)))]
                2 => unsafe { avx512::<$O $(, $M)*>($($a),*) },
                _ => least::<$O $(, $M)*>($($a),*),
            }
        }
    };
}
