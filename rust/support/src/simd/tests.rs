//! Each operation of each level that this processor has, compared with its definition.

use super::*;

const X: [u32; 8] = [1, 0x8000_0001, 3, u32::MAX, 5, 6, 0xdead_beef, 8];
const Y: [u32; 8] = [u32::MAX, 7, 0x8000_0000, 2, 9, 0xcafe_f00d, 11, 12];

fn each(f: impl Fn(u32, u32) -> u32) -> [u32; 8] {
    core::array::from_fn(|k| f(X[k], Y[k]))
}

fn four<L: Level>(x: &[u32]) -> Four<L> {
    assert!(x.len() >= 4);
    // SAFETY: there are four words, and `levels_agree` takes the levels that the processor has.
    unsafe { Four::load(x, 0) }
}

fn eight<L: Level>(x: &[u32; 8]) -> Eight<L> {
    Eight::join(four(&x[..4]), four(&x[4..]))
}

fn words<L: Level>(x: Eight<L>) -> [u32; 8] {
    let (a, b) = (x.half(0).to_array(), x.half(1).to_array());
    core::array::from_fn(|k| if k < 4 { a[k] } else { b[k - 4] })
}

fn turned(by: usize) -> [u32; 8] {
    core::array::from_fn(|k| X[k / 4 * 4 + (k + by) % 4])
}

fn operations<L: Level>() {
    let (x, y) = (eight::<L>(&X), eight::<L>(&Y));
    assert_eq!(words(x.plus(y)), each(u32::wrapping_add));
    assert_eq!(words(x.xor(y)), each(|a, b| a ^ b));
    assert_eq!(words(x.turned::<1>()), turned(1));
    assert_eq!(words(x.turned::<2>()), turned(2));
    assert_eq!(words(x.turned::<3>()), turned(3));
    let (mut a, mut b) = (x, y);
    tie(&mut a, &mut b);
    tie_halves(&mut a);
    assert_eq!((words(a), words(b)), (X, Y));
    let (x, y) = (four::<L>(&X), four::<L>(&Y));
    assert_eq!(x.plus(y).to_array(), each(u32::wrapping_add)[..4]);
    assert_eq!(x.xor(y).to_array(), each(|a, b| a ^ b)[..4]);
    assert_eq!((x | y).to_array(), each(|a, b| a | b)[..4]);
    assert_eq!(x.turned::<1>().to_array(), turned(1)[..4]);
    assert_eq!(x.turned::<2>().to_array(), turned(2)[..4]);
    assert_eq!(x.turned::<3>().to_array(), turned(3)[..4]);
    let (mut a, mut b) = (eight::<L>(&Y), x);
    tie(&mut a, &mut b);
    assert_eq!((words(a), b.to_array()), (Y, X[..4].try_into().unwrap()));
    for k in 1..32 {
        let rotated = each(|a, b| a ^ b.rotate_left(k));
        assert_eq!(x.xor_rotated(y, k).to_array(), rotated[..4]);
        assert_eq!(words(eight::<L>(&X).xor_rotated(eight(&Y), k)), rotated);
    }
    let mut out = [0; 7];
    // SAFETY: 4 + 4 of 8 words, and 2 + 4 of 7.
    unsafe { Four::<L>::load(&X, 4).store(&mut out, 2) };
    assert_eq!(out, [0, 0, X[4], X[5], X[6], X[7], 0]);
    let mut out = [0; 6];
    x.copy_to_slice(&mut out[..5]);
    assert_eq!(out, [X[0], X[1], X[2], X[3], 0, 0]);
}

// As the level functions: for the types of a level that this processor has.
#[test]
fn levels_agree() {
    operations::<Base>();
    #[cfg(all(target_arch = "x86_64", not(miri)))]
    {
        assert_eq!(arch::level() > 0, std::is_x86_feature_detected!("avx2"));
        assert_eq!(arch::level() > 1, std::is_x86_feature_detected!("avx512vl"));
        if arch::level() > 0 {
            operations::<Avx2>();
        }
        if arch::level() > 1 {
            operations::<Avx512>();
        }
    }
}
