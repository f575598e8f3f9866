//! Converts hashes of other programs to hashes that a [`Hasher`](crate::Hasher) verifies, without
//! the passwords.

use crate::calls::{scrypt_stored_text, PHC_OR_MCF};
use crate::hasher::text_by;
use crate::{Error, Params};
use std::os::raw::c_int;

/// Returns a hash from a salt and a key: a PHC string if the lengths allow it, otherwise a `$7$`
/// hash. A PHC string keeps only the first 64 bytes of the key, which are the key of that length.
/// The key length in `params` is ignored.
///
/// # Errors
///
/// `SaltInvalid` if neither format can store the salt, and `InvalidOutputLen` if there is no key.
pub fn stored_text(salt: &[u8], key: &[u8], params: &Params) -> Result<String, Error> {
    let (log_n, r, p) = (params.log_n().into(), params.r(), params.p());
    let (salt_at, salt_len) = (salt.as_ptr().cast(), salt.len());
    let (key_at, key_len, mcf) = (key.as_ptr().cast(), key.len(), PHC_OR_MCF as c_int);
    // SAFETY: each pointer and its length are from one slice.
    #[rustfmt::skip]
    let write = |text: &mut [u8]| unsafe {
        scrypt_stored_text(salt_at, salt_len, key_at, key_len, log_n, r, p, mcf, text.as_mut_ptr().cast(), text.len())
    };
    text_by(write, salt_len + key_len)
}
