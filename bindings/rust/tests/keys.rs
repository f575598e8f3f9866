//! Derives keys in steps, and tests each error.

use scrypt_c::*;
use std::ops::ControlFlow;
use std::time::{Duration, Instant};

/// Keys are hashlib's.
#[test]
fn keys() {
    for (password, salt, log_n, r, p, wanted) in [
        ("", "", 4, 1, 1, 0x77d6_5762_3865_7b20),
        ("pass\0word", "saltsalt", 5, 3, 2, 0x24a7_9dcb_7fe9_3c46),
        ("pleaseletmein", "SodiumChloride", 14, 8, 1, 0x7023_bdcb_3afd_7348),
    ] {
        let (password, salt, params) =
            (password.as_bytes(), salt.as_bytes(), Params::new(log_n, r, p).unwrap());
        let (mut key, mut last) = ([0; 8], 0.0);
        let progress = |done| {
            assert!(done > last && done <= 1.0, "{done} after {last}");
            last = done;
            ControlFlow::Continue(())
        };
        scrypt_in_steps(password, salt, &params, &mut key, progress).unwrap();
        assert_eq!(u64::from_be_bytes(key), wanted, "{params:?}");
        assert_eq!(last, 1.0);
    }
}

/// An error leaves the output unchanged.
#[test]
fn rejected_keys() {
    let params = [4, 56].map(|log_n| Params::new(log_n, 1, 1).unwrap()); // the last: 2^63 bytes
    let mut key = [7; 4];
    let in_steps =
        |of, key: &mut [u8]| scrypt_in_steps(b"", b"", of, key, |_| ControlFlow::Break(()));
    assert_eq!(in_steps(&params[0], &mut []), Err(DeriveError::InvalidOutputLen));
    assert_eq!(in_steps(&params[1], &mut key), Err(DeriveError::OutOfMemory));
    assert_eq!(in_steps(&params[0], &mut key), Err(DeriveError::Cancelled));
    assert_eq!(key, [7; 4]);
}

/// A derivation that takes seconds is cancelled between two steps of about 10 ms, also by a panic.
#[test]
fn cancelled_between_steps() {
    let (mut key, begun, mut steps, mut last) = ([0; 32], Instant::now(), 0, 0.0);
    let params = Params::new(20, 8, 1).unwrap();
    let progress = |done| {
        (steps, last) = (steps + 1, done);
        match begun.elapsed() < Duration::from_millis(100) {
            true => ControlFlow::Continue(()),
            false => ControlFlow::Break(()),
        }
    };
    let left = scrypt_in_steps(b"", b"", &params, &mut key, progress);
    assert_eq!((left, key), (Err(DeriveError::Cancelled), [0; 32]));
    assert!(steps < 100 && last < 0.9, "{steps} steps in 100 ms, of {last}");
    let panics = || scrypt_in_steps(b"", b"", &params, &mut [0; 32], |_| panic!("on purpose"));
    assert!(std::panic::catch_unwind(panics).is_err());
}

/// The library checks the limits; no number is truncated before.
#[test]
fn params() {
    let params = Params::new(17, 8, 1).unwrap();
    assert_eq!(params, Params::RECOMMENDED);
    assert_eq!((params.log_n(), params.n(), params.r(), params.p()), (17, 131_072, 8, 1));
    for (log_n, r, p) in [(57, 1, 1), (68, 8, 1), (4, 0, 1), (4, 1, 0), (4, 8, (1 << 29) + 1)] {
        assert_eq!(Params::new(log_n, r, p), Err(InvalidParams), "{log_n}, {r}, {p}");
        assert_eq!(Params::new_with_output_len(log_n, r, p, 32), Err(InvalidParams));
    }
    for len in [0, 9, 65, 32 + (1 << 8), 32 + (1 << 32), usize::MAX] {
        assert_eq!(Params::new_with_output_len(4, 8, 1, len), Err(InvalidParams), "{len}");
    }
    assert_eq!(Params::new_with_output_len(4, 1, 1, 64).unwrap().key_len(), 64);
    assert_eq!(params.key_len(), Params::RECOMMENDED_LEN);
    let largest = Params::new(56, 1, (1 << 30) - 1).unwrap();
    assert!(largest.memory() > 1 << 63, "memory above 63 bits");
    assert_eq!(largest.cores(), (4 * ((1 << 30) - 1)) << 56, "cores above 64 bits");
}

#[test]
fn random_salts() {
    let mut salts = [[0; 16]; 2];
    salts.iter_mut().for_each(|salt| generate_salt(salt).unwrap());
    assert!(salts[0] != salts[1] && salts[0] != [0; 16], "{salts:?}");
}

#[test]
fn calibrated() {
    let found = calibrate(Duration::from_millis(50), 32 << 20).unwrap();
    assert!((10..=15).contains(&found.log_n()) && found.r() == 8, "{found:?}");
    for (target, bytes) in [(Duration::from_micros(1), 32 << 20), (Duration::from_secs(1), 1000)] {
        assert_eq!(calibrate(target, bytes), Err(Error::NoParams), "{target:?}, {bytes} bytes");
    }
}

/// Each error converts to the `Error` of its name, which has its message.
#[test]
fn errors() {
    assert_eq!(Error::from(InvalidParams), Error::InvalidParams);
    assert_eq!(Error::from(DeriveError::InvalidOutputLen), Error::InvalidOutputLen);
    assert_eq!(Error::from(DeriveError::OutOfMemory), Error::OutOfMemory);
    assert_eq!(DeriveError::Cancelled.to_string(), "the derivation was cancelled");
}
