"""Keys, with the signature of hashlib.scrypt, and derived in steps: between two steps Python runs
signal handlers and reports the progress."""

from __future__ import annotations

import ctypes
from typing import Callable, Optional

from .arguments import Bytes, in_64_bits, number, raw_bytes
from .declared import AUTO, MAX_OUTPUT_LEN, STEP_MS, Status
from .errors import InvalidParamsError, check
from .library import Derivation, lib
from .params import NO_LIMIT, Params, accepted, check_costs, cost_of

# A key of fewer Salsa20/8 cores, which take about 40 ms, is derived in one call, which is faster
# than several.
LONG = 3 << 18

# What a maxmem of 0 means in hashlib.
OF_HASHLIB = 32 << 20


def scrypt(
    password: Bytes,
    *,
    salt: Bytes,
    n: int,
    r: int,
    p: int,
    maxmem: Optional[int] = None,
    dklen: int = 64,
    max_work: Optional[int] = None,
    progress: Optional[Callable[[float], object]] = None,
) -> bytes:
    """Derives a key of `dklen` bytes, like hashlib.scrypt; `n` is a power of two above 1.

    Set limits if `n`, `r` and `p` are untrusted: TooCostlyError, which is a ValueError, is raised
    if the derivation needs more than `maxmem` bytes, or if its `Params.work` is above `max_work`. A
    `maxmem` of 0 means 32 MiB, as in hashlib, where it is the default; here the default is no limit
    on memory. If p is 2 or more, several tables make a derivation faster, if they fit in `maxmem`,
    or in 129 MiB without a limit.

    A long derivation runs in steps of about 10 ms. Between two steps Python runs signal handlers,
    so that Ctrl-C ends it, and calls `progress` with the fraction that is done, from 0 to 1. An
    exception of either ends the derivation. PBKDF2 at the beginning and at the end, of
    `128 * r * p` bytes, is one step each.
    """
    password, salt = raw_bytes(password, "a password"), raw_bytes(salt, "a salt")
    n, dklen = number(n, "n"), number(dklen, "dklen")
    most = NO_LIMIT if maxmem is None else number(maxmem, "maxmem") or OF_HASHLIB
    params = Params(*accepted(log_of(n), r, p))
    if most < 0:
        raise ValueError(f"maxmem must not be negative: {maxmem}")
    max_work = NO_LIMIT if max_work is None else in_64_bits(max_work, "max_work")
    max_mem = in_64_bits(most, "maxmem")
    check_costs(*cost_of(params, max_mem, max_work), max_mem, max_work)
    if not 1 <= dklen <= MAX_OUTPUT_LEN:
        check(Status.INVALID_OUTPUT_LEN, f"dklen={dklen}")
    return derived(password, salt, params, AUTO if maxmem is None else max_mem, dklen, progress)


def log_of(n: int) -> int:
    """Returns the logarithm of a power of two above 1. Raises InvalidParamsError for other numbers,
    as hashlib rejects them."""
    if n < 2 or n & (n - 1):
        words = f"n must be a power of two above 1: {n}"
        raise InvalidParamsError(Status.INVALID_PARAMS, words)
    return n.bit_length() - 1


def derived(
    password: bytes,
    salt: bytes,
    params: Params,
    max_mem: int,
    dklen: int,
    progress: Optional[Callable[[float], object]] = None,
) -> bytes:
    """Derives a key in tables of up to `max_mem` bytes, or as many as the library chooses if it is
    AUTO. An exception of a signal handler or of `progress` ends the derivation, and its memory is
    freed."""
    key = ctypes.create_string_buffer(dklen)
    arguments = password, len(password), salt, len(salt), *params[:3]
    if progress is None and params.cores < LONG and (max_mem == AUTO or params.p == 1):
        status = lib.scrypt_key(*arguments, key, dklen)
    else:
        derivation, done = Derivation(), ctypes.c_double()
        try:
            status = lib.scrypt_derivation_new(*arguments, max_mem, dklen, derivation)
            while not status and done.value < 1:
                status = lib.scrypt_derivation_run(derivation, STEP_MS, done)
                if progress is not None:
                    progress(done.value)
            status = status or lib.scrypt_derivation_finish(derivation, key, dklen)
        finally:
            lib.scrypt_derivation_free(derivation)
    if status:
        check_costs(status, cost_of(params)[1], None, None)
    made = key.raw
    ctypes.memset(key, 0, dklen)
    return made
