//! The parameters of a derivation.

use crate::calls::{self, *};
use crate::{Error, InvalidParams};
use std::time::Duration;

/// Accepted parameters, and the length of a hash's key if one is given.
#[derive(Clone, Copy, Debug, PartialEq, Eq)]
pub struct Params {
    pub(crate) log_n: u8,
    pub(crate) r: u32,
    pub(crate) p: u32,
    len: Option<usize>,
}

impl Params {
    /// The recommended logarithm of N.
    pub const RECOMMENDED_LOG_N: u8 = calls::RECOMMENDED_LOG_N as u8;
    /// The recommended block size.
    pub const RECOMMENDED_R: u32 = calls::RECOMMENDED_R as u32;
    /// The recommended parallelization.
    pub const RECOMMENDED_P: u32 = calls::RECOMMENDED_P as u32;
    /// The recommended length of a hash's key in bytes.
    pub const RECOMMENDED_LEN: usize = calls::KEY_LEN as usize;

    /// The recommended parameters, which take 128 MiB.
    pub const RECOMMENDED: Params = Params {
        log_n: Params::RECOMMENDED_LOG_N,
        r: Params::RECOMMENDED_R,
        p: Params::RECOMMENDED_P,
        len: None,
    };

    /// Creates parameters, with N = `2^log_n`.
    ///
    /// # Errors
    ///
    /// `InvalidParams` unless `r` and `p` are positive, `128 * r * 2^log_n` is below `2^64` and `r
    /// * p` below `2^30`.
    pub fn new(log_n: u8, r: u32, p: u32) -> Result<Params, InvalidParams> {
        let params = Params { log_n, r, p, len: None };
        params.cost().map(|_| params)
    }

    // The cost of a derivation, without limits.
    fn cost(&self) -> Result<RawCost, InvalidParams> {
        let (log_n, r, p) = (self.log_n.into(), self.r, self.p);
        let mut cost = RawCost::default();
        // SAFETY: `cost` is a local variable.
        match unsafe { scrypt_params_cost(log_n, r, p, usize::MAX, u64::MAX, &mut cost) } {
            INVALID_PARAMS => Err(InvalidParams),
            _ => Ok(cost),
        }
    }

    pub(crate) fn of_library(log_n: u32, r: u32, p: u32) -> Result<Params, InvalidParams> {
        Params::new(u8::try_from(log_n).map_err(|_| InvalidParams)?, r, p)
    }

    /// Creates parameters like [`Params::new`], with the length of a hash's key.
    ///
    /// # Errors
    ///
    /// `InvalidParams` as for `new`, and unless `len` is 10 to 64.
    pub fn new_with_output_len(
        log_n: u8,
        r: u32,
        p: u32,
        len: usize,
    ) -> Result<Params, InvalidParams> {
        let params = Params::new(log_n, r, p)?;
        if (MIN_KEY_LEN as usize..=MAX_KEY_LEN as usize).contains(&len) {
            Ok(Params { len: Some(len), ..params })
        } else {
            Err(InvalidParams)
        }
    }

    /// The logarithm of N.
    pub const fn log_n(&self) -> u8 {
        self.log_n
    }

    /// N, the number of rows of the table.
    pub const fn n(&self) -> u64 {
        1 << self.log_n
    }

    /// The block size: a block has `128 * r` bytes.
    pub const fn r(&self) -> u32 {
        self.r
    }

    /// The parallelization: the number of chunks that are mixed.
    pub const fn p(&self) -> u32 {
        self.p
    }

    /// The size of the buffers of a derivation in bytes, up to `u64::MAX`.
    pub fn memory(&self) -> u64 {
        self.cost().map_or(u64::MAX, |it| it.bytes)
    }

    /// The number of Salsa20/8 cores of a derivation.
    pub fn cores(&self) -> u128 {
        (4 * u128::from(self.r) * u128::from(self.p)) << self.log_n
    }

    /// The work, which [`Limits`](crate::Limits) limit: `4 * (N + 32) * r * p` Salsa20/8 cores,
    /// where 32 accounts for PBKDF2, up to `u64::MAX`.
    pub fn work(&self) -> u64 {
        self.cost().map_or(u64::MAX, |it| it.work)
    }

    /// The length of a hash's key in bytes.
    pub const fn key_len(&self) -> usize {
        match self.len {
            Some(len) => len,
            None => Params::RECOMMENDED_LEN,
        }
    }
}

impl Default for Params {
    fn default() -> Params {
        Params::RECOMMENDED
    }
}

/// Returns the parameters of a hash of either format, and the length of its key in bytes, which is
/// 0 if it has no key.
///
/// # Errors
///
/// The errors of [`Error::is_invalid_hash`].
pub fn params_of(text: &str) -> Result<(Params, usize), Error> {
    let (mut log_n, mut r, mut p, mut key_len) = (0, 0, 0, 0);
    // SAFETY: the pointer and the length are from one `str`, and the four references are to local
    // variables.
    let status = unsafe {
        let text_at = text.as_ptr().cast();
        scrypt_hash_params(text_at, text.len(), &mut log_n, &mut r, &mut p, &mut key_len)
    };
    Error::check(status)?;
    Ok((Params::of_library(log_n, r, p)?, key_len))
}

/// Measures this machine, and returns the most costly parameters whose derivation takes no more
/// time than the target: first the largest `log_n` whose table does not exceed `max_mem`, and
/// then the largest `p`; `r` is 8. It takes about four times the target.
///
/// # Errors
///
/// `NoParams` if even a `log_n` of 10 takes more time or memory; `OutOfMemory`.
pub fn calibrate(target: Duration, max_mem: usize) -> Result<Params, Error> {
    let (mut log_n, mut r, mut p) = (0, 0, 0);
    // SAFETY: the three references are to local variables.
    let status =
        unsafe { scrypt_calibrate(target.as_secs_f64(), max_mem, &mut log_n, &mut r, &mut p) };
    if status == TOO_COSTLY {
        return Err(Error::NoParams);
    }
    Error::check(status)?;
    Ok(Params::of_library(log_n, r, p)?)
}
