//! Limits on the cost of a hash.

use crate::calls::{self, scrypt_params_cost, RawCost, OK, TOO_COSTLY};
use crate::errors::explained;
use crate::Params;
use std::fmt;

/// The limits above which a derivation is rejected. Without limits an untrusted hash, which chooses
/// its own cost, can demand days of work.
#[derive(Clone, Copy, Debug, PartialEq, Eq)]
pub struct Limits {
    /// The maximum size of its buffers in bytes, as [`Params::memory`] counts them.
    pub max_mem: usize,
    /// The maximum work, as [`Params::work`] counts it.
    pub max_work: u64,
}

impl Limits {
    /// The default limits of the library, which allow four times the work of the recommended
    /// parameters.
    pub const DEFAULT: Limits =
        Limits { max_mem: calls::DEFAULT_MAX_MEM as usize, max_work: calls::DEFAULT_MAX_WORK };

    /// The minimum key length in a hash that a [`Hasher`](crate::Hasher) verifies, in bytes, unless
    /// new keys are shorter.
    pub const DEFAULT_MIN_KEY_LEN: usize = calls::DEFAULT_MIN_KEY_LEN as usize;

    /// Returns whether a derivation with these parameters is within the limits.
    pub fn allow(&self, params: &Params) -> bool {
        let (log_n, r, p) = (params.log_n(), params.r(), params.p());
        let (bytes, work, mut cost) = (self.max_mem, self.max_work, RawCost::default());
        // SAFETY: `cost` is a local variable.
        unsafe { scrypt_params_cost(log_n.into(), r, p, bytes, work, &mut cost) == OK }
    }
}

/// The cost of a derivation, and the limits that it exceeds.
#[derive(Clone, Copy, Debug, PartialEq, Eq)]
pub struct Cost {
    /// Its parameters.
    pub params: Params,
    /// The size of its buffers in bytes, as [`Params::memory`] counts them.
    pub memory: u64,
    /// Its work, as [`Params::work`] counts it.
    pub work: u64,
    /// The limits.
    pub limits: Limits,
}

impl Cost {
    pub(crate) fn of(params: Params, limits: Limits) -> Cost {
        Cost { params, memory: params.memory(), work: params.work(), limits }
    }
}

impl fmt::Display for Cost {
    fn fmt(&self, f: &mut fmt::Formatter<'_>) -> fmt::Result {
        let Cost { params, memory: bytes, work, limits: Limits { max_mem, max_work } } = *self;
        let (log_n, r, p) = (params.log_n().into(), params.r(), params.p());
        let cost = RawCost { log_n, r, p, bytes, work, ..RawCost::default() };
        f.write_str(&explained(TOO_COSTLY, &cost, max_mem, max_work, 0))
    }
}

impl Default for Limits {
    fn default() -> Limits {
        Limits::DEFAULT
    }
}
