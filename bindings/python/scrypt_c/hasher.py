"""Password hashing and verification with the library's hasher, which has the wait queue, the limits
and the memory."""

from __future__ import annotations

import ctypes
import math
import os
import threading
from typing import Any, Callable, Literal, NamedTuple, Optional, Union

from . import declared, library
from .arguments import (
    Bytes,
    Password,
    in_64_bits,
    number,
    raw_bytes,
    raw_password,
    raw_text,
    seconds,
)
from .declared import MAX_KEY_LEN, MAX_OUTPUT_LEN, MAX_SALT_LEN, MIN_KEY_LEN, Status
from .errors import VerifyMismatchError, check
from .library import lib
from .params import Params, accepted, check_costs, cost_of


class Options(NamedTuple):
    """The options of a hasher, with each default replaced by its value."""

    mcf: bool
    salt_len: int
    max_mem: int
    max_work: int
    min_key_len: int
    max_tables: int
    processors: int
    max_waiting: int


class Stats(NamedTuple):
    """The numbers of calls that wait and that derive, and of calls that failed because there was no
    memory, or no slot in time, or too many waited. In a child process they begin at the fork."""

    waiting: int
    deriving: int
    failed: int


class PasswordHasher:
    """Makes password hashes with these parameters, and verifies passwords against hashes with any
    parameters.

    `mcf` makes `$7$` hashes of crypt(5) instead of PHC hashes. A hasher is thread-safe. It has
    `processors` slots, by default one for each CPU that this process may use, and calls
    derive in slots; the others wait in FIFO order, and raise TimeoutError after `timeout` seconds:
    those of the call or, if they are None, of the hasher. math.inf is no limit.
    If `max_waiting` calls wait, by default 1000, the next one raises BusyError immediately.
    Waiting verifications with the same N, r and p are derived in one batch, which takes less time
    on some CPUs. An error, timeout or exception of one call does not affect the others.

    A hasher holds at most `max_tables` tables, whatever p is. The default is two for each
    CPU, or the number of tables of `max_mem` that fit in 7/8 of the memory, if that is less.
    It keeps their memory for later calls until `close` or the end of a `with` block.

    A hash that needs more than `max_mem` of memory, or whose `Params.work` is above `max_work`,
    is rejected without waiting. By default these are DEFAULT_MAX_MEM, or 7/8 of the memory if that is
    less, and DEFAULT_MAX_WORK, or the cost of new hashes if that is more. A hash is also rejected if its
    key has fewer than `min_key_len` bytes, by default DEFAULT_MIN_KEY_LEN, or `key_len` if that is
    less.
    """

    def __init__(
        self,
        log_n: int = declared.RECOMMENDED_LOG_N,
        r: int = declared.RECOMMENDED_R,
        p: int = declared.RECOMMENDED_P,
        key_len: int = declared.KEY_LEN,
        *,
        salt_len: int = declared.SALT_LEN,
        mcf: bool = False,
        max_mem: Optional[int] = None,
        max_work: Optional[int] = None,
        min_key_len: Optional[int] = None,
        max_tables: Optional[int] = None,
        processors: Optional[int] = None,
        max_waiting: Optional[int] = None,
        timeout: Optional[float] = None,
    ) -> None:
        self._params = Params(*accepted(log_n, r, p), number(key_len, "key_len"))
        if not MIN_KEY_LEN <= self._params.key_len <= MAX_KEY_LEN:
            check(Status.INVALID_PARAMS, f"key_len={key_len}")
        salt_len = number(salt_len, "salt_len")
        if not 1 <= salt_len <= MAX_SALT_LEN:
            check(Status.SALT_INVALID, f"salt_len={salt_len}")
        counts = {"max_tables": max_tables, "processors": processors}
        for name, count in counts.items():
            if count is not None and number(count, name) < 1:
                raise ValueError(f"{name} must be at least 1: {count}")
        if max_waiting is not None and number(max_waiting, "max_waiting") < 0:
            raise ValueError(f"max_waiting must not be negative: {max_waiting}")
        if min_key_len is not None and not 0 <= number(min_key_len, "min_key_len") <= key_len:
            words = f"min_key_len must be 0 to key_len, {key_len}: {min_key_len}"
            check(Status.INVALID_PARAMS, words)
        self._timeout = seconds(timeout, "timeout")
        # As they were passed: None depends on the machine, and a copy may be on another machine.
        counts["max_waiting"] = max_waiting
        limits = {"max_mem": max_mem, "max_work": max_work, "min_key_len": min_key_len, **counts}
        others = {"salt_len": salt_len, "mcf": bool(mcf), "timeout": timeout}
        self._options: dict[str, Any] = {**others, **limits}
        options = declared.Options()
        lib.scrypt_options_init(options)
        options.log_n, options.r, options.p, options.key_len = self._params
        options.mcf, options.salt_len = bool(mcf), salt_len
        for name, limit in limits.items():
            if limit is not None:
                setattr(options, name, in_64_bits(limit, name))
        self._c = library.Hasher()
        status = lib.scrypt_hasher_new(options, self._c)
        check_costs(status, cost_of(self._params)[1], max_mem, max_work)

    @property
    def params(self) -> Params:
        """The parameters of new hashes."""
        return self._params

    @property
    def options(self) -> Options:
        """The options, with each default replaced by its value."""
        options = lib.scrypt_hasher_options(self._c).contents
        return Options(bool(options.mcf), *(getattr(options, name) for name in Options._fields[1:]))

    def stats(self) -> Stats:
        """Returns the current statistics, for metrics."""
        stats = declared.Stats(ctypes.sizeof(declared.Stats))
        check(lib.scrypt_hasher_stats(self._c, stats))
        return Stats(stats.waiting, stats.deriving, stats.failed)

    def __repr__(self) -> str:
        log_n, r, p, key_len = self._params
        options = f"mcf={self.options.mcf}, max_tables={self.options.max_tables}"
        return f"PasswordHasher(log_n={log_n}, r={r}, p={p}, key_len={key_len}, {options})"

    def __reduce__(self) -> tuple[Callable[..., PasswordHasher], tuple[Any, ...], Any]:
        """A copy, also in another process, is a new hasher with the same arguments and with the
        attributes of a subclass."""
        attributes = {name: value for name, value in vars(self).items() if name != "_c"}
        return _copied, (type(self), self._params, self._options), attributes

    def close(self) -> None:
        """Frees the memory that is kept. Derivations that have begun run to completion; waiting and
        later calls raise ValueError."""
        lib.scrypt_hasher_close(self._c)

    def __enter__(self) -> PasswordHasher:
        return self

    def __exit__(self, *_: object) -> None:
        self.close()

    def hash(
        self, password: Password, *, salt: Optional[Bytes] = None, timeout: Optional[float] = None
    ) -> str:
        """Returns a new hash, with this salt or with a random salt from the system."""
        secret = raw_password(password)
        raw_salt = None if salt is None else raw_bytes(salt, "a salt")
        salt_len = len(raw_salt or b"")
        text = ctypes.create_string_buffer(declared.PHC_CAPACITY + 2 * salt_len)
        arguments = secret, len(secret), raw_salt, salt_len, text, len(text)
        self._check(self._run(lib.scrypt_hasher_hash, timeout, *arguments), timeout)
        return text.value.decode("ascii")

    def key(
        self, password: Password, *, salt: Bytes, key_len: int, timeout: Optional[float] = None
    ) -> bytes:
        """Returns the key of a password and a salt, with the parameters of new hashes. It waits for
        a slot, as the other calls do."""
        secret, raw_salt = raw_password(password), raw_bytes(salt, "a salt")
        if not 1 <= number(key_len, "key_len") <= MAX_OUTPUT_LEN:
            check(Status.INVALID_OUTPUT_LEN, f"key_len={key_len}")
        key = ctypes.create_string_buffer(key_len)
        arguments = secret, len(secret), raw_salt, len(raw_salt), key, key_len
        self._check(self._run(lib.scrypt_hasher_key, timeout, *arguments), timeout)
        made = key.raw
        ctypes.memset(key, 0, key_len)
        return made

    def _key_with(
        self, log_n: int, r: int, p: int, password: Password, salt: Bytes, key_len: int
    ) -> bytes:
        """Returns a key with these parameters, which may be others than those of new hashes. Others
        are derived within the same limits, one at a time."""
        if (log_n, r, p) == self._params[:3]:
            return self.key(password, salt=salt, key_len=key_len)
        limits = {"max_mem": self.options.max_mem, "max_work": self.options.max_work}
        other = PasswordHasher(log_n, r, p, **{**self._options, **limits})
        # In one statement: between an acquire and a try, a signal handler's exception would leave
        # the lock taken.
        with _OTHERS, other:
            return other.key(password, salt=salt, key_len=key_len)

    def verify(
        self, hash: Union[str, bytes, None], password: Password, *, timeout: Optional[float] = None
    ) -> Literal[True]:
        """Returns True if the password matches the hash, in either format.

        Otherwise raises VerifyMismatchError. If the hash is rejected, raises a RejectedHashError
        without waiting: InvalidHashError if it is not a scrypt hash, or has no key, TooCostlyError
        if it exceeds the limits, KeyTooShortError if its key is too short. For an unknown user,
        pass None: the call takes the time of a wrong password for a new hash, and raises
        VerifyMismatchError. While hashes of older parameters are stored, their time tells who
        exists: see docs/HASHER.md of the repository.
        """
        raw, secret = None if hash is None else raw_text(hash), raw_password(password)
        arguments = secret, len(secret), raw, len(raw or b""), None
        status = self._run(lib.scrypt_hasher_verify, timeout, *arguments)
        if lib.scrypt_status_is_invalid_hash(status) and secret.startswith((b"$scrypt$", b"$7$")):
            check(status, "the hash comes first, and then the password")
        self._check(status, timeout, raw)
        return True

    def verify_and_update(
        self, hash: Union[str, bytes, None], password: Password, *, timeout: Optional[float] = None
    ) -> tuple[bool, Optional[str]]:
        """Returns whether the password matches the hash, and a new hash to store in its place if
        the password matches and the hash is weaker than new hashes, otherwise None. Raises the
        exceptions of `verify`, except VerifyMismatchError."""
        try:
            self.verify(hash, password, timeout=timeout)
        except VerifyMismatchError:
            return False, None
        assert hash is not None  # None matches no password
        is_weak = self.check_needs_rehash(hash)
        return True, self.hash(password, timeout=timeout) if is_weak else None

    def check_needs_rehash(self, hash: Union[str, bytes]) -> bool:
        """Returns whether a parameter of the hash, or the length of its key, is smaller than in new
        hashes."""
        raw = raw_text(hash)
        status: int = lib.scrypt_hasher_needs_rehash(self._c, raw, len(raw))
        if status != Status.NEEDS_REHASH:
            check(status)
        return status == Status.NEEDS_REHASH

    def _limit(self, timeout: Optional[float]) -> Optional[float]:
        """Returns how long a call with this timeout waits."""
        return self._timeout if timeout is None else seconds(timeout, "timeout")

    def _run(self, call: Callable[..., int], timeout: Optional[float], *arguments: object) -> int:
        """Makes a call, and returns its status. Python runs signal handlers after it has returned."""
        limit = self._limit(timeout)
        most = threading.TIMEOUT_MAX if limit is None else limit
        return call(self._c, *arguments, math.ceil(1000 * most))

    def _judge(self, hash: str) -> None:
        """Raises the RejectedHashError of `verify` for this hash, without deriving."""
        raw, options = raw_text(hash), self.options
        limits = options.max_mem, options.max_work, options.min_key_len
        self._check(lib.scrypt_hash_cost(raw, len(raw), *limits, declared.Cost()), text=raw)

    def _check(
        self, status: int, timeout: Optional[float] = None, text: Optional[bytes] = None
    ) -> None:
        """Raises the error of a status for this hash, or for a new one. The hash is only read for a
        message that has its parameters."""
        if status not in (Status.KEY_TOO_SHORT, Status.OUT_OF_MEMORY, Status.TOO_COSTLY):
            limit, most = self._limit(timeout), self.options.max_waiting
            about = {int(Status.TIMEOUT): f"timeout={limit}", int(Status.BUSY): f"max_waiting={most}"}
            check(status, about.get(status, ""))
            return
        options = self.options
        limits = options.max_mem, options.max_work, options.min_key_len
        cost = cost_of(self._params)[1]
        if text is not None:  # the text is a valid hash, so this writes its cost
            lib.scrypt_hash_cost(text, len(text), *limits, cost)
        check(status, library.explained(status, cost, *limits))


def _copied(kind: type[PasswordHasher], params: Params, options: dict[str, Any]) -> PasswordHasher:
    """Copies a hasher. As for other classes, the `__init__` of a subclass is not called."""
    hasher = kind.__new__(kind)
    PasswordHasher.__init__(hasher, *params, **options)
    return hasher


# Held for a key with other parameters. A child has a new one: a thread of the parent may hold this.
_OTHERS = threading.RLock()


def _renew() -> None:
    global _OTHERS
    _OTHERS = threading.RLock()


if hasattr(os, "register_at_fork"):
    os.register_at_fork(after_in_child=_renew)


class Limited:
    """The options of a shared hasher, as attributes of the classes for Django and passlib; None means
    its default."""

    max_mem: Optional[int] = None
    max_work: Optional[int] = None
    max_tables: Optional[int] = None
    max_waiting: Optional[int] = None
    timeout: Optional[float] = None


_SHARED: dict[tuple[object, ...], PasswordHasher] = {}


def shared(
    log_n: int = declared.RECOMMENDED_LOG_N,
    r: int = declared.RECOMMENDED_R,
    p: int = declared.RECOMMENDED_P,
    of: Union[Limited, type[Limited]] = Limited,
) -> PasswordHasher:
    """Returns the hasher with these arguments and attributes that all callers of this process share,
    so that its slots and its `max_tables` are for all of them together. It is kept."""
    options = {name: getattr(of, name) for name in Limited.__annotations__}
    named = {name: it for name, it in options.items() if it is not None}
    at = *accepted(log_n, r, p), *named.items()
    # Two threads can make one each; setdefault keeps the first, and the other has no tables yet.
    return _SHARED.get(at) or _SHARED.setdefault(at, PasswordHasher(log_n, r, p, **named))
