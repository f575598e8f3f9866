//! The memory of hashers and derivations, in a separate process, because threads of other tests map
//! tables too.
#![cfg(target_os = "linux")]

use scrypt_c::{scrypt_in_steps, Hasher, Options, Params};
use std::ops::ControlFlow;

/// The resident memory of this process in KiB.
fn resident() -> usize {
    let status = std::fs::read_to_string("/proc/self/status").unwrap();
    let line = status.lines().find(|it| it.starts_with("VmRSS")).unwrap();
    line.split_whitespace().nth(1).unwrap().parse().unwrap()
}

/// A hasher has `max_tables` tables, whatever p and the processors are, and frees them when its
/// last clone is dropped. A derivation in steps frees its tables too.
#[test]
fn memory() {
    let params = Params::new(16, 8, 4).unwrap();
    let options =
        Options { params, max_tables: Some(1), processors: Some(4), ..Options::default() };
    let before = resident();
    let hashers: Vec<_> = (0..4).map(|_| Hasher::new(options).unwrap()).collect();
    for hasher in &hashers {
        hasher.clone().hash(b"pw").unwrap();
    }
    let held = resident().saturating_sub(before);
    drop(hashers);
    let progress = |_| ControlFlow::Continue(());
    scrypt_in_steps(b"", b"", &params, &mut [0], progress).unwrap();
    let left = resident().saturating_sub(before);
    let (most, few) = (260 << 10, 4 << 10);
    assert!(held < most && held > most - 2 * few && left < few, "{held} KiB, then {left}");
}
