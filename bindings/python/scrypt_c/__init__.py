"""scrypt (RFC 7914) and its password hashes, on top of the library libscrypt_c.

The source of the library's calls that derive keys and read and verify hashes is proved. Its hasher,
which is C, and this package are tested, not proved.

    from scrypt_c import PasswordHasher, VerifyMismatchError

    hasher = PasswordHasher()
    text = hasher.hash("correct horse")       # store this
    try:
        hasher.verify(text, "correct horse")
    except VerifyMismatchError:
        ...                                   # wrong password
    if hasher.check_needs_rehash(text):
        ...                                   # store hasher.hash(password) in its place

An untrusted hash chooses its own cost. A hash that needs more than DEFAULT_MAX_MEM of memory, or more
work than DEFAULT_MAX_WORK, four times the recommended work, raises TooCostlyError before any work. Both
limits are arguments of PasswordHasher. A hash with a key of fewer than DEFAULT_MIN_KEY_LEN bytes raises
KeyTooShortError. RejectedHashError is the base class of both, and of InvalidHashError.

`scrypt` has the signature of hashlib.scrypt. The GIL is released while a key is derived.

The environment variable SCRYPT_C_LIBRARY names the library's file or its folder. If it is not set,
the library inside this package is used; if there is none, the one that the system's loader finds.
"""

from .arguments import Bytes, Password
from .calibration import calibrate
from .declared import DEFAULT_MAX_MEM, DEFAULT_MAX_WORK, DEFAULT_MIN_KEY_LEN, VERSION_STRING, Status
from .errors import (
    BusyError,
    HashTooLongError,
    InvalidHashError,
    InvalidOutputLenError,
    InvalidParamsError,
    InvalidSaltError,
    KeyTooShortError,
    RejectedHashError,
    ScryptError,
    TooCostlyError,
    VerifyMismatchError,
)
from .hasher import Options, PasswordHasher, Stats
from .key import scrypt
from .params import RECOMMENDED, Params, params_of

__version__ = VERSION_STRING

__all__ = [
    "DEFAULT_MIN_KEY_LEN",
    "DEFAULT_MAX_MEM",
    "DEFAULT_MAX_WORK",
    "RECOMMENDED",
    "Bytes",
    "BusyError",
    "HashTooLongError",
    "InvalidHashError",
    "InvalidOutputLenError",
    "InvalidParamsError",
    "InvalidSaltError",
    "KeyTooShortError",
    "Options",
    "Params",
    "Password",
    "PasswordHasher",
    "RejectedHashError",
    "ScryptError",
    "Stats",
    "Status",
    "TooCostlyError",
    "VerifyMismatchError",
    "calibrate",
    "params_of",
    "scrypt",
]
