//! A derivation in steps: it reports its progress after each, and can be cancelled.

use crate::calls::*;
use crate::{DeriveError, Params};
use std::ops::ControlFlow;
use std::ptr::null_mut;

/// Derives a key from `password` and `salt`, and writes it to `output`, in steps of about 10 ms. After
/// each step it calls `progress` with the fraction that is done, from 0 to 1; `ControlFlow::Break`
/// cancels the derivation. PBKDF2 at the beginning and at the end, of `128 * r * p` bytes, is one step
/// each. The key length in `params` is ignored.
///
/// ```
/// use std::ops::ControlFlow;
///
/// # fn main() -> Result<(), scrypt_c::DeriveError> {
/// let (mut key, params) = ([0; 32], scrypt_c::Params::RECOMMENDED);
/// scrypt_c::scrypt_in_steps(b"hunter42", b"16 random bytes ", &params, &mut key, |done| {
///     eprint!("\r{:.0} %", 100.0 * done);
///     ControlFlow::Continue(())
/// })?;
/// # Ok(())
/// # }
/// ```
///
/// # Errors
///
/// `InvalidOutputLen` if the output is empty or longer than scrypt allows, `OutOfMemory` if the memory
/// is not available, and `Cancelled` if `progress` returned `Break`. All leave the output unchanged.
pub fn scrypt_in_steps(
    password: &[u8],
    salt: &[u8],
    params: &Params,
    output: &mut [u8],
    mut progress: impl FnMut(f64) -> ControlFlow<()>,
) -> Result<(), DeriveError> {
    let (mut derivation, mut done) = (Derivation(null_mut()), 0.0);
    let Params { log_n, r, p, .. } = *params;
    let (password_at, salt_at) = (password.as_ptr().cast(), salt.as_ptr().cast());
    let (at, len, auto) = (output.as_mut_ptr(), output.len(), AUTO as usize);
    // SAFETY: here and below each pointer and the length after it are from one slice, and the
    // others are those of local variables.
    #[rustfmt::skip]
    DeriveError::check(unsafe {
        scrypt_derivation_new(password_at, password.len(), salt_at, salt.len(), log_n.into(), r, p,
            auto, len, &mut derivation.0)
    })?;
    while done < 1.0 {
        // SAFETY: as above; only this thread has the derivation.
        let status = unsafe { scrypt_derivation_run(derivation.0, STEP_MS as u32, &mut done) };
        DeriveError::check(status)?;
        if progress(done).is_break() {
            return Err(DeriveError::Cancelled);
        }
    }
    // SAFETY: as above.
    DeriveError::check(unsafe { scrypt_derivation_finish(derivation.0, at, len) })
}

// Dropping it wipes and frees what the library keeps of a derivation.
struct Derivation(*mut RawDerivation);

impl Drop for Derivation {
    fn drop(&mut self) {
        // SAFETY: it is NULL, or a derivation of the library's that is not freed yet.
        unsafe { scrypt_derivation_free(&mut self.0) };
    }
}
