//! A hasher makes and verifies hashes, within limits and for several threads.

use scrypt_c::*;
use std::ops::ControlFlow;
use std::panic::{RefUnwindSafe, UnwindSafe};
use std::thread;
use std::time::{Duration, Instant};

fn small() -> Options {
    Options { params: Params::new(4, 8, 1).unwrap(), ..Options::default() }
}

// The keys are from Python's hashlib.
const PHC: &str = "$scrypt$ln=4,r=8,p=1$c2FsdHNhbHQ$yOVfN10vCbapyacuiMl8thX8XXJctr2I/8vR9ni8ehI";
const MCF: &str = "$7$26..../....$fQQtT8CamUzif3mWSfaXAN/SUnYR6iHSdkE.XUbEX/7";

#[test]
fn hashes() {
    for (format, salt, wanted, len) in
        [(Format::Phc, &b"saltsalt"[..], PHC, 151), (Format::Mcf, b"", MCF, 144)]
    {
        let hasher = Hasher::new(Options { format, salt_len: 64, ..small() }).unwrap();
        assert_eq!(hasher.hash_with_salt(b"pass\0word", salt).as_deref(), Ok(wanted));
        assert_eq!(hasher.verify(b"pass\0word", wanted), Ok(()));
        assert_eq!(hasher.verify(b"pass", wanted), Err(Error::PasswordInvalid));
        assert_eq!(hasher.needs_rehash(wanted), Ok(false));
        let [drawn, other] = [hasher.hash(b"pw").unwrap(), hasher.hash(b"pw").unwrap()];
        assert!(drawn != other && drawn.len() == len, "{drawn} {other}");
        assert_eq!(hasher.verify_optional(b"pw", Some(&drawn)), Ok(()));
        let long = hasher.hash_with_salt(b"", &[1; 1000]);
        assert_eq!(long.and_then(|it| hasher.verify(b"", &it)).is_ok(), format == Format::Mcf);
    }
    let params = Params::new_with_output_len(4, 8, 1, 33).unwrap();
    let longer = Hasher::new(Options { params, ..small() }).unwrap();
    assert_eq!(longer.hash_with_salt(b"", b""), Err(Error::SaltInvalid), "not a random one");
    assert_eq!(longer.needs_rehash(PHC), Ok(true));
    let new = longer.verify_and_update(b"pass\0word", Some(PHC)).unwrap().unwrap();
    assert_eq!(longer.verify_and_update(b"pass\0word", Some(&new)), Ok(None), "not weaker: {new}");
    for (text, wanted) in [
        (Some(PHC), Error::PasswordInvalid),
        (None, Error::PasswordInvalid),
        (Some("$7$"), Error::EncodingInvalid),
    ] {
        assert_eq!(longer.verify_and_update(b"pw", text), Err(wanted), "{text:?}");
    }
    let (mut key, mut wanted) = ([0; 100], [0; 100]);
    let progress = |_| ControlFlow::Continue(());
    scrypt_in_steps(b"pw", b"salt", &params, &mut wanted, progress).unwrap();
    assert_eq!((longer.key(b"pw", b"salt", &mut key), key), (Ok(()), wanted));
    assert_eq!(longer.key(b"pw", b"", &mut []), Err(Error::InvalidOutputLen));
}

/// Each default is replaced by its value.
#[test]
fn options() {
    let usual = Hasher::default().options();
    let Options { max_tables, processors, .. } = usual;
    assert!(Some(1) <= max_tables && max_tables <= processors.map(|it| 2 * it), "{usual:?}");
    let (limits, min_key_len) = (Some(Limits::DEFAULT), Some(Limits::DEFAULT_MIN_KEY_LEN));
    let max_waiting = Some(1000);
    let values =
        Options { max_tables, processors, max_waiting, limits, min_key_len, ..Options::default() };
    assert_eq!((usual, usual.salt_len), (values, 16));
    let (limits, min_key_len) = (Some(Limits { max_mem: 1 << 20, max_work: 1 << 16 }), Some(32));
    let given = Options {
        max_tables: Some(3),
        processors: Some(2),
        max_waiting: Some(0),
        limits,
        min_key_len,
        ..small()
    };
    assert_eq!(Hasher::new(given).unwrap().options(), given);
    for salt_len in [0, 16 + (1 << 32)] {
        assert_eq!(Hasher::new(Options { salt_len, ..small() }).err(), Some(Error::SaltInvalid));
    }
    for rejected in [
        Options { min_key_len: Some(33), ..small() }, // above that of new keys
        Options { max_tables: Some(0), ..small() },
        Options { processors: Some(0), ..small() },
    ] {
        assert_eq!(Hasher::new(rejected).err(), Some(Error::InvalidParams), "{rejected:?}");
    }
    let large = Options { params: Params::new(56, 1, 1).unwrap(), ..small() };
    assert_eq!(Hasher::new(large).unwrap().hash(b"").err(), Some(Error::OutOfMemory));
}

/// Each limit is passed on unchanged, and 0 does not mean the default. The error has the numbers.
#[test]
fn limits() {
    let params = Params::new_with_output_len(6, 3, 5, 15).unwrap();
    let (max_mem, max_work) = (128 * 3 * (64 + 5 + 2), 4 * (64 + 32) * 3 * 5);
    let (memory, work) = (max_mem as u64, max_work);
    assert_eq!((params.memory(), params.work(), params.cores()), (memory, work, 4 * 64 * 3 * 5));
    let hasher = |params, limits| Hasher::new(Options { params, limits, ..small() });
    let text = hasher(params, None).unwrap().hash(b"pw").unwrap();
    let (plain, exact) = (Params::new(6, 3, 5).unwrap(), Limits { max_mem, max_work });
    assert_eq!(params_of(&text), Ok((plain, 15)));
    let less = Params::new_with_output_len(4, 1, 1, 15).unwrap();
    for limits in [
        exact,
        Limits { max_mem: max_mem - 1, ..exact },
        Limits { max_work: max_work - 1, ..exact },
        Limits { max_mem: 0, ..exact },
    ] {
        let costly = |params| Err(Error::TooCostly(Cost { params, memory, work, limits }));
        let wanted = |params| if limits == exact { Ok(()) } else { costly(params) };
        assert_eq!(limits.allow(&params), limits == exact, "{limits:?}");
        assert_eq!(hasher(params, Some(limits)).map(drop), wanted(params), "{limits:?}");
        if limits.max_mem > 0 {
            let hasher = hasher(less, Some(limits)).unwrap();
            assert_eq!(hasher.verify(b"pw", &text), wanted(plain), "{limits:?}");
        }
    }
    let params = Params::new(19, 8, 1).unwrap();
    assert!(hasher(params, None).is_ok(), "new hashes above the default limits");
    for (min_key_len, wanted) in [
        (Some(0), Ok(())),
        (Some(17), Err(Error::KeyTooShort { len: 15, min: 17 })),
        (None, Err(Error::KeyTooShort { len: 15, min: 16 })),
    ] {
        let hasher = Hasher::new(Options { min_key_len, ..small() }).unwrap();
        assert_eq!(hasher.verify(b"pw", &text), wanted, "{min_key_len:?}");
    }
}

#[test]
fn types() {
    fn anywhere<T: Send + Sync + UnwindSafe + RefUnwindSafe + Unpin + 'static>() {}
    anywhere::<(Hasher, Options, Params, Error, DeriveError, InvalidParams)>();
}

/// Dropping a hasher does not affect its clones, also in other threads; closing one closes all.
#[test]
fn clones() {
    let [hasher, other] = [(); 2].map(|()| Hasher::new(small()).unwrap());
    let clone = hasher.clone();
    let text = thread::spawn(move || hasher.hash(b"pw")).join().unwrap().unwrap();
    assert_eq!(clone.verify(b"pw", &text), Ok(()));
    clone.clone().close();
    assert_eq!(clone.verify(b"pw", &text), Err(Error::Closed));
    assert_eq!(clone.key(b"pw", b"", &mut [0]), Err(Error::Closed));
    assert_eq!(clone.verify(b"pw", ""), Err(Error::EncodingInvalid), "the text is checked first");
    assert_eq!((clone.needs_rehash(&text), other.verify(b"pw", &text)), (Ok(false), Ok(())));
}

/// While another call derives, a full queue rejects a call, for an unknown user too.
#[test]
fn a_full_queue() {
    let costly = format!("$scrypt$ln=17,r=8,p=4$c2FsdHNhbHQ${}", "A".repeat(43));
    let options = Options { max_tables: Some(1), max_waiting: Some(0), ..small() };
    let hasher = Hasher::new(options).unwrap();
    thread::scope(|scope| {
        let deriving = scope.spawn(|| hasher.verify(b"pw", &costly));
        while hasher.stats().deriving == 0 {
            thread::yield_now();
        }
        assert_eq!(hasher.verify_optional(b"pw", None), Err(Error::Busy));
        assert_eq!(deriving.join().unwrap(), Err(Error::PasswordInvalid));
    });
}

/// While another call derives, a call waits until its timeout, or that of the options.
#[test]
fn timeouts() {
    let costly = format!("$scrypt$ln=17,r=8,p=4$c2FsdHNhbHQ${}", "A".repeat(43));
    const NOW: Option<Duration> = Some(Duration::ZERO);
    const LONG: Option<Duration> = Some(Duration::MAX);
    for (of_options, of_call, min_ms) in [
        (NOW, None, 0),
        (Some(Duration::from_nanos(1)), None, 1),
        (Some(Duration::from_millis(50)), None, 50),
        (LONG, None, u128::MAX),
        (LONG, Some(NOW), 0),
        (None, Some(Some(Duration::from_millis(50))), 50),
        (NOW, Some(LONG), u128::MAX),
        (NOW, Some(None), u128::MAX),
    ] {
        let options = Options { max_tables: Some(1), timeout: of_options, ..small() };
        let of_all = Hasher::new(options).unwrap();
        let hasher = of_call.map_or(of_all.clone(), |timeout| of_all.with_timeout(timeout));
        assert_eq!(hasher.options().timeout, of_call.unwrap_or(of_options));
        assert_eq!(of_all.options().timeout, of_options);
        thread::scope(|scope| {
            let deriving = scope.spawn(|| hasher.verify(b"pw", &costly));
            while hasher.stats().deriving == 0 {
                thread::yield_now();
            }
            let begun = Instant::now();
            let status = hasher.key(b"pw", b"", &mut [0]);
            if min_ms == u128::MAX {
                assert_eq!(status, Ok(()), "it got the slot");
            } else {
                assert_eq!(status, Err(Error::Timeout));
                let (late, now) = (begun.elapsed().as_millis() >= min_ms, hasher.stats());
                assert_eq!((late, now.waiting, now.deriving, now.failed), (true, 0, 1, 1));
            }
            assert_eq!(deriving.join().unwrap(), Err(Error::PasswordInvalid));
        });
    }
}
