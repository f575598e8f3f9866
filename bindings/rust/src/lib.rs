//! scrypt (RFC 7914) and its password hashes, on top of the library libscrypt_c. The source of the
//! library's calls that derive keys and read and verify hashes is proved. Its hasher, which is C,
//! and this crate are tested, not proved.
//!
//! ```
//! use scrypt_c::{Error, Hasher};
//!
//! # fn main() -> Result<(), Error> {
//! let hasher = Hasher::default();
//! let text = hasher.hash(b"hunter42")?; // store this
//! hasher.verify(b"hunter42", &text)?;
//! assert_eq!(hasher.verify(b"hunter2", &text), Err(Error::PasswordInvalid));
//! assert!(!hasher.needs_rehash(&text)?);
//! # Ok(())
//! # }
//! ```
//!
//! The calls of the crate `scrypt` are in the package `proved-scrypt`, which needs no library.
#![warn(missing_docs)]

// The examples of README are tested too.
#[cfg(doctest)]
#[doc = include_str!("../README.md")]
struct Readme;

mod calls;
pub mod errors;
mod hasher;
mod limits;
pub mod migration;
mod params;
mod steps;

pub use errors::{DeriveError, Error, InvalidParams};
pub use hasher::{Format, Hasher, Options, Stats};
pub use limits::{Cost, Limits};
pub use params::{calibrate, params_of, Params};
pub use steps::scrypt_in_steps;

use calls::scrypt_generate_salt;

/// Fills `salt` with random bytes from the system; 16 bytes are enough for a key or a hash.
///
/// # Errors
///
/// `NoRandomBytes` if the system has none; do not use the salt then.
pub fn generate_salt(salt: &mut [u8]) -> Result<(), Error> {
    // SAFETY: the pointer and the length are from one slice.
    Error::check(unsafe { scrypt_generate_salt(salt.as_mut_ptr(), salt.len()) })
}
