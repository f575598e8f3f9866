//! The errors of this crate.

use crate::calls::*;
use crate::Cost;
use std::ffi::CStr;
use std::fmt;
use std::os::raw::c_int;

/// The parameters are not accepted.
#[derive(Clone, Copy, Debug, PartialEq, Eq)]
pub struct InvalidParams;

/// The errors of deriving a key.
#[derive(Clone, Copy, Debug, PartialEq, Eq)]
#[non_exhaustive]
pub enum DeriveError {
    /// The output is empty, or longer than scrypt allows.
    InvalidOutputLen,
    /// The memory is not available.
    OutOfMemory,
    /// The derivation was cancelled.
    Cancelled,
    /// A status of a newer library.
    Status(i32),
}

/// The errors of hashing and of verifying passwords.
#[derive(Clone, Copy, Debug, PartialEq, Eq)]
#[non_exhaustive]
pub enum Error {
    /// The password does not match the hash.
    PasswordInvalid,
    /// The parameters, or the length of the key, are not accepted.
    InvalidParams,
    /// The output is empty, or longer than scrypt allows.
    InvalidOutputLen,
    /// The memory is not available.
    OutOfMemory,
    /// The hash is of another algorithm.
    Algorithm,
    /// The text does not have the grammar of its format.
    EncodingInvalid,
    /// The text has no key, or one that is too long.
    OutputSize,
    /// A parameter in the text is not a decimal in its range.
    ParamInvalid,
    /// The parameters in the text are not accepted, or are not scrypt's.
    ParamsInvalid,
    /// The salt is not one that the format allows.
    SaltInvalid,
    /// The hash has a version field, which scrypt does not define.
    Version,
    /// The hash or parameters exceed the limits on memory or work. Nothing was derived.
    TooCostly(Cost),
    /// The key in the hash is shorter than the limits allow, so that too many wrong passwords match
    /// it. Nothing was derived.
    KeyTooShort {
        /// The length of the key in bytes.
        len: usize,
        /// The minimum length in bytes.
        min: usize,
    },
    /// No parameters take as little time and memory as [`calibrate`](crate::calibrate()) was given.
    NoParams,
    /// The system has no random bytes for a salt.
    NoRandomBytes,
    /// The hasher is closed.
    Closed,
    /// The call did not get a slot of the hasher before its timeout expired.
    Timeout,
    /// As many calls as may wait for a slot of the hasher wait already. Nothing was derived.
    Busy,
    /// The derivation was cancelled.
    Cancelled,
    /// A status of a newer library.
    Status(i32),
}

// The errors without numbers, and their statuses.
const BY_STATUS: [(c_int, Error); 15] = [
    (MISMATCH, Error::PasswordInvalid),
    (INVALID_PARAMS, Error::InvalidParams),
    (INVALID_OUTPUT_LEN, Error::InvalidOutputLen),
    (OUT_OF_MEMORY, Error::OutOfMemory),
    (ALGORITHM, Error::Algorithm),
    (ENCODING_INVALID, Error::EncodingInvalid),
    (OUTPUT_SIZE, Error::OutputSize),
    (HASH_PARAM_INVALID, Error::ParamInvalid),
    (HASH_PARAMS_INVALID, Error::ParamsInvalid),
    (SALT_INVALID, Error::SaltInvalid),
    (VERSION, Error::Version),
    (NO_RANDOM_BYTES, Error::NoRandomBytes),
    (CLOSED, Error::Closed),
    (TIMEOUT, Error::Timeout),
    (BUSY, Error::Busy),
];

impl DeriveError {
    // The result of a derivation with accepted parameters, from its status.
    pub(crate) fn check(status: i32) -> Result<(), DeriveError> {
        match status {
            OK => Ok(()),
            INVALID_OUTPUT_LEN => Err(DeriveError::InvalidOutputLen),
            OUT_OF_MEMORY => Err(DeriveError::OutOfMemory),
            other => Err(DeriveError::Status(other)),
        }
    }
}

impl Error {
    // The result of a call, from its status.
    pub(crate) fn check(status: i32) -> Result<(), Error> {
        match status {
            OK => Ok(()),
            other => Err(Error::of(other)),
        }
    }

    // The error of a call, from its status, which is not OK.
    pub(crate) fn of(status: i32) -> Error {
        let found = BY_STATUS.iter().find(|it| it.0 == status);
        found.map_or(Error::Status(status), |it| it.1)
    }

    // The status whose message the error has.
    fn status(&self) -> c_int {
        match self {
            Error::TooCostly(_) => TOO_COSTLY,
            Error::KeyTooShort { .. } => KEY_TOO_SHORT,
            Error::Status(status) => *status,
            plain => BY_STATUS.iter().find(|it| it.1 == *plain).map_or(OK, |it| it.0),
        }
    }

    /// Returns whether the text is not a hash that this crate can read, whatever the password and
    /// the available memory are.
    pub fn is_invalid_hash(&self) -> bool {
        // SAFETY: the function takes any number.
        unsafe { scrypt_status_is_invalid_hash(self.status()) != 0 }
    }

    /// Returns whether the stored hash is rejected, whatever the password is: `TooCostly`,
    /// `KeyTooShort`, and the errors of [`Error::is_invalid_hash`]. A login should log it, and
    /// respond as to a wrong password.
    pub fn is_rejected(&self) -> bool {
        self.is_invalid_hash() || matches!(self.status(), TOO_COSTLY | KEY_TOO_SHORT)
    }
}

// The library's message for a status.
fn words_of(status: c_int) -> &'static str {
    // SAFETY: the library returns a NUL-terminated string that is never freed.
    unsafe { CStr::from_ptr(scrypt_strerror(status)) }.to_str().unwrap_or_default()
}

// The numbers of a status, in words.
pub(crate) fn explained(
    status: c_int,
    cost: &RawCost,
    max_mem: usize,
    max_work: u64,
    min_key_len: usize,
) -> String {
    let mut text = [0u8; EXPLANATION_CAPACITY as usize];
    let (at, capacity) = (text.as_mut_ptr().cast(), text.len());
    // SAFETY: the pointers are to local variables, and the library ends the text with a NUL.
    unsafe { scrypt_explain(status, cost, max_mem, max_work, min_key_len, at, capacity) };
    // SAFETY: as above.
    unsafe { CStr::from_ptr(text.as_ptr().cast()) }.to_string_lossy().into_owned()
}

impl From<InvalidParams> for Error {
    fn from(_: InvalidParams) -> Error {
        Error::InvalidParams
    }
}

impl From<DeriveError> for Error {
    fn from(error: DeriveError) -> Error {
        match error {
            DeriveError::InvalidOutputLen => Error::InvalidOutputLen,
            DeriveError::OutOfMemory => Error::OutOfMemory,
            DeriveError::Cancelled => Error::Cancelled,
            DeriveError::Status(status) => Error::Status(status),
        }
    }
}

impl fmt::Display for InvalidParams {
    fn fmt(&self, f: &mut fmt::Formatter<'_>) -> fmt::Result {
        fmt::Display::fmt(&Error::from(*self), f)
    }
}

impl fmt::Display for DeriveError {
    fn fmt(&self, f: &mut fmt::Formatter<'_>) -> fmt::Result {
        fmt::Display::fmt(&Error::from(*self), f)
    }
}

impl fmt::Display for Error {
    fn fmt(&self, f: &mut fmt::Formatter<'_>) -> fmt::Result {
        let words = words_of(self.status());
        match self {
            Error::NoParams => {
                f.write_str("even log_n=10, r=8, p=1 exceeds the time or memory limit")
            }
            Error::Cancelled => f.write_str("the derivation was cancelled"),
            Error::Status(status) => write!(f, "status {status}: {words}"),
            Error::TooCostly(cost) => write!(f, "{words}: {cost}"),
            Error::KeyTooShort { len, min } => {
                let cost = RawCost { key_len: *len, ..RawCost::default() };
                write!(f, "{words}: {}", explained(KEY_TOO_SHORT, &cost, 0, 0, *min))
            }
            _ => f.write_str(words),
        }
    }
}

impl std::error::Error for InvalidParams {}
impl std::error::Error for DeriveError {}
impl std::error::Error for Error {}

#[cfg(test)]
mod tests {
    use super::*;

    /// Each status of the header has an error with a message, unless no call returns it.
    #[test]
    fn statuses_of_the_header() {
        for status in (0..256).filter(|it| !unsafe { scrypt_status_name(*it) }.is_null()) {
            let cannot_come = [
                OK,
                BUFFER_SIZE,
                NULL_POINTER,
                OPTIONS_SIZE,
                UNFINISHED,
                INVALID_PROGRESS,
                NEEDS_REHASH,
            ]
            .contains(&status);
            let has_numbers = [TOO_COSTLY, KEY_TOO_SHORT].contains(&status);
            let (error, words) = (Error::of(status), words_of(status));
            let has_none = cannot_come || has_numbers || error.is_invalid_hash();
            assert!(!matches!(error, Error::Status(_)) || has_none, "{words}");
            assert!(cannot_come || has_numbers || error.to_string().ends_with(words), "{error}");
        }
        assert_eq!(Error::Status(99).to_string(), "status 99: unknown status");
    }
}
