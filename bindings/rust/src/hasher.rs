//! Password hashes.

use crate::calls::*;
use crate::{Cost, Error, Limits, Params};
use std::os::raw::c_int;
use std::ptr::{null, null_mut, NonNull};
use std::sync::Arc;
use std::time::Duration;

/// The format of a hash.
#[derive(Clone, Copy, Debug, Default, PartialEq, Eq)]
pub enum Format {
    /// `$scrypt$ln=..,r=..,p=..$..`, of the Password Hashing Competition.
    #[default]
    Phc,
    /// `$7$..`, of crypt(5).
    Mcf,
}

/// The options of a [`Hasher`], with recommended defaults. End them by `..Options::default()`: later
/// versions can add fields.
#[derive(Clone, Copy, Debug, PartialEq, Eq)]
pub struct Options {
    /// The parameters of new hashes.
    pub params: Params,
    /// The format of new hashes.
    pub format: Format,
    /// The length of the salt of a new hash, 1 to 64 bytes.
    pub salt_len: usize,
    /// The maximum number of tables. `None`, the default, means two for each CPU, or the
    /// number of tables of `max_mem` that fit in 7/8 of the memory, if that is less.
    pub max_tables: Option<usize>,
    /// The number of slots, that is, of concurrent derivations. `None`, the default, means the
    /// number of CPUs that the affinity and the CPU quota of the process allow.
    pub processors: Option<usize>,
    /// The maximum number of calls that wait for a slot; the next one returns `Busy` immediately.
    /// `None`, the default, means 1000.
    pub max_waiting: Option<usize>,
    /// How long a call waits for a slot before it returns `Timeout`, rounded up to milliseconds.
    /// The time of the derivation does not count. `None`, the default, means no timeout. The calls of
    /// [`Hasher::with_timeout`] have another.
    pub timeout: Option<Duration>,
    /// The limits above which a hash is rejected: by default [`Limits::DEFAULT`], with 7/8 of the
    /// memory if that is less, or the cost of new hashes if that is more.
    pub limits: Option<Limits>,
    /// The minimum key length of a hash that is verified, in bytes, up to that of new keys. `None`,
    /// the default, means [`Limits::DEFAULT_MIN_KEY_LEN`], or the length of new keys if that is less.
    pub min_key_len: Option<usize>,
}

impl Default for Options {
    fn default() -> Options {
        Options {
            params: Params::RECOMMENDED,
            format: Format::Phc,
            salt_len: SALT_LEN as usize,
            max_tables: None,
            processors: None,
            max_waiting: None,
            timeout: None,
            limits: None,
            min_key_len: None,
        }
    }
}

/// Statistics of a [`Hasher`]. In a child process they begin at the fork.
#[derive(Clone, Copy, Debug, PartialEq, Eq)]
#[non_exhaustive]
pub struct Stats {
    /// The number of calls that wait for a slot.
    pub waiting: usize,
    /// The number of calls that derive.
    pub deriving: usize,
    /// The number of calls that have returned `OutOfMemory`, `Timeout` or `Busy`.
    pub failed: u64,
}

/// Makes password hashes, and verifies passwords against hashes of either format.
///
/// A hasher is thread-safe, and a clone is the same hasher. Calls wait in FIFO order for one of
/// [`Options::processors`] slots, and return `Timeout` after [`Options::timeout`] or that of
/// [`Hasher::with_timeout`], or `Busy` if [`Options::max_waiting`] calls wait already. Waiting
/// verifications with the same N, r and p are derived in one batch if there are tables for them,
/// which takes less time on some CPUs. An error of one call does not affect the others.
///
/// A hasher holds at most [`Options::max_tables`] tables, whatever p is, and keeps their memory for
/// later calls until it is closed or dropped. It rejects, without waiting, a hash that exceeds the
/// limits, and a hash whose key has fewer than [`Options::min_key_len`] bytes.
///
/// A hasher is fork-safe: the child can use it, without the calls and the memory of the parent.
#[derive(Clone, Debug)]
pub struct Hasher {
    inner: Arc<Inner>,
    timeout: Option<Duration>, // of its calls
}

#[derive(Debug)]
struct Inner {
    raw: NonNull<RawHasher>,
    options: Options,
}

// SAFETY: all calls of the library on a hasher are thread-safe, except that it must not be freed
// during another call.
unsafe impl Send for Inner {}
unsafe impl Sync for Inner {}

impl Drop for Inner {
    fn drop(&mut self) {
        // SAFETY: no clone is left, so no call is running, and no call follows.
        unsafe { scrypt_hasher_free(&mut self.raw.as_ptr()) }
    }
}

impl Default for Hasher {
    /// Creates a hasher with the default options.
    ///
    /// # Panics
    ///
    /// Panics if [`Hasher::new`] returns `OutOfMemory`, the only error for these options.
    fn default() -> Hasher {
        Hasher::new(Options::default()).expect("a hasher with the default options")
    }
}

impl Hasher {
    /// Creates a hasher with these options.
    ///
    /// # Errors
    ///
    /// `InvalidParams` if the minimum key length exceeds the length of new keys, or without a table
    /// or a slot; `SaltInvalid` unless the salt has 1 to 64 bytes; `TooCostly` if new hashes
    /// exceed the limits; and `OutOfMemory`.
    pub fn new(options: Options) -> Result<Hasher, Error> {
        let params = options.params;
        let mut raw = RawOptions::default();
        // SAFETY: the pointer is to a local variable.
        unsafe { scrypt_options_init(&mut raw) };
        raw.log_n = params.log_n().into();
        (raw.r, raw.p, raw.key_len) = (params.r(), params.p(), params.key_len());
        raw.mcf = (options.format == Format::Mcf).into();
        raw.salt_len = options.salt_len;
        if let Some(Limits { max_mem, max_work }) = options.limits {
            (raw.max_mem, raw.max_work) = (max_mem, max_work);
        }
        raw.min_key_len = options.min_key_len.unwrap_or(raw.min_key_len);
        raw.max_tables = options.max_tables.unwrap_or(raw.max_tables);
        raw.processors = options.processors.unwrap_or(raw.processors);
        raw.max_waiting = options.max_waiting.unwrap_or(raw.max_waiting);
        let mut hasher = null_mut();
        // SAFETY: both pointers are to local variables.
        let status = unsafe { scrypt_hasher_new(&raw, &mut hasher) };
        match NonNull::new(hasher) {
            Some(raw) => {
                let inner = Arc::new(Inner { raw, options });
                Ok(Hasher { inner, timeout: options.timeout })
            }
            None if status == TOO_COSTLY => {
                let limits = options.limits.unwrap_or_default();
                Err(Error::TooCostly(Cost::of(params, limits)))
            }
            None => Err(Error::of(status)),
        }
    }

    /// Returns the same hasher, whose calls wait for up to this time, whatever [`Options::timeout`]
    /// is; `None` means no timeout.
    ///
    /// ```
    /// # fn main() -> Result<(), scrypt_c::Error> {
    /// # let (hasher, text) = (scrypt_c::Hasher::default(), "$scrypt$ln=4,r=8,p=1$c2FsdA$fM2nCXqY+gxR4Ec9eLkeHw");
    /// let login = hasher.with_timeout(Some(std::time::Duration::from_secs(10)));
    /// let status = login.verify(b"hunter42", text);
    /// # assert!(status.is_err());
    /// # Ok(())
    /// # }
    /// ```
    pub fn with_timeout(&self, timeout: Option<Duration>) -> Hasher {
        Hasher { inner: self.inner.clone(), timeout }
    }

    fn raw(&self) -> *mut RawHasher {
        self.inner.raw.as_ptr()
    }

    // The timeout in milliseconds; -1 means no timeout.
    fn timeout_ms(&self) -> i64 {
        let ms = |time: Duration| (time.as_nanos() + 999_999) / 1_000_000;
        self.timeout.map_or(-1, |time| i64::try_from(ms(time)).unwrap_or(i64::MAX))
    }

    /// Returns the options, with each default replaced by its value.
    pub fn options(&self) -> Options {
        // SAFETY: the hasher lives until this returns, and its options do not change.
        let raw = unsafe { &*scrypt_hasher_options(self.raw()) };
        Options {
            max_tables: Some(raw.max_tables),
            processors: Some(raw.processors),
            max_waiting: Some(raw.max_waiting),
            limits: Some(Limits { max_mem: raw.max_mem, max_work: raw.max_work }),
            min_key_len: Some(raw.min_key_len),
            timeout: self.timeout,
            ..self.inner.options
        }
    }

    /// Returns the current statistics, for metrics.
    pub fn stats(&self) -> Stats {
        let mut now = RawStats { size: size_of::<RawStats>(), ..RawStats::default() };
        // SAFETY: the hasher lives until this returns, and `now` is a local variable; so the status
        // is OK.
        unsafe { scrypt_hasher_stats(self.raw(), &mut now) };
        Stats { waiting: now.waiting, deriving: now.deriving, failed: now.failed }
    }

    /// Returns a new hash, with a random salt from the system.
    ///
    /// # Errors
    ///
    /// `NoRandomBytes`, `Closed`, `Busy`, `Timeout` and `OutOfMemory`.
    pub fn hash(&self, password: &[u8]) -> Result<String, Error> {
        self.text(password, None)
    }

    /// Returns a new hash, with the caller's salt.
    ///
    /// # Errors
    ///
    /// `SaltInvalid` unless the salt of a PHC hash has 1 to 64 bytes, `Closed`, `Busy`, `Timeout` and
    /// `OutOfMemory`.
    pub fn hash_with_salt(&self, password: &[u8], salt: &[u8]) -> Result<String, Error> {
        self.text(password, Some(salt))
    }

    fn text(&self, password: &[u8], salt: Option<&[u8]>) -> Result<String, Error> {
        // NULL means a random salt, of up to 64 bytes. The pointer of a slice is never NULL.
        let (salt, salt_len) = salt.map_or((null(), 0), |it| (it.as_ptr(), it.len()));
        // SAFETY: the hasher lives until this returns, and each pointer and the length after it are
        // from one slice.
        #[rustfmt::skip]
        let write = |text: &mut [u8]| unsafe {
            scrypt_hasher_hash(self.raw(), password.as_ptr().cast(), password.len(),
                salt.cast(), salt_len, text.as_mut_ptr().cast(), text.len(), self.timeout_ms())
        };
        text_by(write, salt_len.max(MAX_SALT_LEN as usize))
    }

    /// Writes the key of a password and a salt, with the parameters of new hashes, to `output`.
    ///
    /// # Errors
    ///
    /// `InvalidOutputLen` if the output is empty or longer than scrypt allows, `Closed`, `Timeout`
    /// and `OutOfMemory`, which leave the output unchanged.
    pub fn key(&self, password: &[u8], salt: &[u8], output: &mut [u8]) -> Result<(), Error> {
        // SAFETY: the hasher lives until this returns, and each pointer and the length after it are
        // from one slice.
        #[rustfmt::skip]
        let status = unsafe {
            scrypt_hasher_key(self.raw(), password.as_ptr().cast(), password.len(),
                salt.as_ptr().cast(), salt.len(), output.as_mut_ptr(), output.len(), self.timeout_ms())
        };
        Error::check(status)
    }

    /// Verifies a password against a hash of either format. Swapped, they do not compile:
    ///
    /// ```compile_fail
    /// # fn log_in(hasher: scrypt_c::Hasher, text: &str) -> Result<(), scrypt_c::Error> {
    /// hasher.verify(text, b"hunter42")
    /// # }
    /// ```
    ///
    /// # Errors
    ///
    /// `PasswordInvalid` for a wrong password. If the hash is rejected ([`Error::is_rejected`]),
    /// without waiting: `TooCostly` if it exceeds the limits, `KeyTooShort` if its key is too short,
    /// and other errors if the text is not a hash, or has no key. `Closed`, `Busy`, `Timeout` and
    /// `OutOfMemory`.
    pub fn verify(&self, password: &[u8], text: &str) -> Result<(), Error> {
        self.verify_optional(password, Some(text))
    }

    /// Like [`Hasher::verify`], with `None` for an unknown user: this takes the time of a wrong
    /// password for a new hash, and returns `PasswordInvalid`. While hashes of older parameters are
    /// stored, their time tells who exists: see docs/HASHER.md of the repository.
    ///
    /// # Errors
    ///
    /// The errors of [`Hasher::verify`].
    pub fn verify_optional(&self, password: &[u8], text: Option<&str>) -> Result<(), Error> {
        self.verified(password, text).map(drop)
    }

    // Verifies, and returns whether the hash is weaker than new ones.
    fn verified(&self, password: &[u8], text: Option<&str>) -> Result<bool, Error> {
        let mut is_weak = 0;
        // NULL means no hash. The pointer of a `str` is never NULL.
        let (at, len) = text.map_or((null(), 0), |it| (it.as_ptr(), it.len()));
        // SAFETY: the hasher lives until this returns, each pointer and the length after it are from
        // one slice, and the other is to a local variable.
        #[rustfmt::skip]
        let status = unsafe {
            scrypt_hasher_verify(self.raw(), password.as_ptr().cast(), password.len(),
                at.cast(), len, &mut is_weak, self.timeout_ms())
        };
        match (status, text) {
            (TOO_COSTLY | KEY_TOO_SHORT, Some(text)) => Err(self.refusal(status, text)),
            _ => Error::check(status).map(|()| is_weak == 1),
        }
    }

    /// Verifies like [`Hasher::verify_optional`], and returns a new hash to store in place of one
    /// that is weaker than new hashes, or otherwise `None`: a login in one call.
    ///
    /// # Errors
    ///
    /// The errors of [`Hasher::verify`], and those of [`Hasher::hash`] for the new hash.
    pub fn verify_and_update(
        &self,
        password: &[u8],
        text: Option<&str>,
    ) -> Result<Option<String>, Error> {
        match self.verified(password, text)? {
            true => self.hash(password).map(Some),
            false => Ok(None),
        }
    }

    // The error of `TOO_COSTLY` or `KEY_TOO_SHORT`, with its numbers.
    fn refusal(&self, status: c_int, text: &str) -> Error {
        let (mut cost, Options { limits, min_key_len, .. }) = (RawCost::default(), self.options());
        let (limits, min) = (limits.unwrap_or_default(), min_key_len.unwrap_or_default());
        let (at, max_mem, max_work) = (text.as_ptr().cast(), limits.max_mem, limits.max_work);
        // SAFETY: the pointer and the length are from one `str`, and `cost` is a local variable.
        unsafe { scrypt_hash_cost(at, text.len(), max_mem, max_work, min, &mut cost) };
        match Params::of_library(cost.log_n, cost.r, cost.p) {
            Ok(params) if status == TOO_COSTLY => Error::TooCostly(Cost::of(params, limits)),
            Ok(_) => Error::KeyTooShort { len: cost.key_len, min },
            Err(why) => why.into(),
        }
    }

    /// Returns whether a parameter of the hash, or the length of its key, is smaller than in new
    /// hashes. This also works on a closed hasher.
    ///
    /// # Errors
    ///
    /// The errors of [`Error::is_invalid_hash`].
    pub fn needs_rehash(&self, text: &str) -> Result<bool, Error> {
        let (hasher, text, len) = (self.raw(), text.as_ptr().cast(), text.len());
        // SAFETY: the hasher lives until this returns, and the pointer and the length are from one
        // `str`.
        match unsafe { scrypt_hasher_needs_rehash(hasher, text, len) } {
            NEEDS_REHASH => Ok(true),
            other => Error::check(other).map(|()| false),
        }
    }

    /// Frees the memory that the hasher and its clones keep. Waiting and later calls return
    /// `Closed`; a derivation that has begun runs to completion.
    pub fn close(&self) {
        // SAFETY: the hasher lives until this returns.
        unsafe { scrypt_hasher_close(self.raw()) }
    }
}

// The hash that `write` writes, with a salt of up to `salt_len` bytes.
pub(crate) fn text_by(
    write: impl FnOnce(&mut [u8]) -> i32,
    salt_len: usize,
) -> Result<String, Error> {
    let capacity = PHC_CAPACITY as usize + 2 * salt_len; // for either format
    let mut text = Vec::new();
    text.try_reserve_exact(capacity).map_err(|_| Error::OutOfMemory)?;
    text.resize(capacity, 0);
    Error::check(write(&mut text))?;
    text.truncate(text.iter().rposition(|it| *it != 0).map_or(0, |last| last + 1));
    text.shrink_to_fit();
    String::from_utf8(text).map_err(|_| Error::EncodingInvalid)
}
