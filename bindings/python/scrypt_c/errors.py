"""The exceptions of this package. It also raises Python's own: MemoryError, TypeError for a wrong
type, ValueError for a closed hasher, TimeoutError, and OSError if there are no random bytes."""

from __future__ import annotations

from typing import Union

from .declared import Status
from .library import lib


class ScryptError(Exception):
    """An error of this package. `status` is its `Status`; one that only a newer library has is an
    int."""

    def __init__(self, status: Union[Status, int], words: str) -> None:
        super().__init__(words)
        self.status = status

    def __reduce__(self) -> tuple[type, tuple[Union[Status, int], str]]:
        return type(self), (self.status, str(self))


class VerifyMismatchError(ScryptError):
    """The password does not match the hash."""


class RejectedHashError(ScryptError, ValueError):
    """The stored hash is rejected, whatever the password is: one of the next three errors. A login
    should log it, and respond as to a wrong password."""


class InvalidHashError(RejectedHashError):
    """The text is not a hash that this package reads; `status` and the message give the reason."""


class TooCostlyError(RejectedHashError):
    """The parameters need more memory or more work than the limits allow. Nothing was derived."""


class KeyTooShortError(RejectedHashError):
    """The key in the hash is shorter than the hasher allows, so that too many wrong passwords match
    it. Nothing was derived."""


class InvalidParamsError(ScryptError, ValueError):
    """log_n, r and p, or key_len, are not accepted."""


class InvalidSaltError(ScryptError, ValueError):
    """The salt of a PHC hash does not have 1 to 64 bytes, or that of a `$7$` hash is not UTF-8
    without a `$`."""


class InvalidOutputLenError(ScryptError, ValueError):
    """The key is empty, or longer than scrypt allows."""


class BusyError(ScryptError, TimeoutError):
    """`max_waiting` calls wait for a slot of the hasher already. Nothing was derived. It is a
    TimeoutError too."""


class HashTooLongError(ScryptError, ValueError):
    """The hash is longer than Django's column for it. Nothing was derived."""


# The exceptions of the statuses that a call of this package can return. Those of an invalid hash have
# one.
KINDS: dict[int, type[Exception]] = {
    Status.MISMATCH: VerifyMismatchError,
    Status.INVALID_PARAMS: InvalidParamsError,
    Status.INVALID_OUTPUT_LEN: InvalidOutputLenError,
    Status.OUT_OF_MEMORY: MemoryError,
    Status.ENCODING_INVALID: InvalidHashError,
    Status.SALT_INVALID: InvalidSaltError,
    Status.TOO_COSTLY: TooCostlyError,
    Status.NO_RANDOM_BYTES: OSError,
    Status.KEY_TOO_SHORT: KeyTooShortError,
    Status.CLOSED: ValueError,
    Status.TIMEOUT: TimeoutError,
    Status.BUSY: BusyError,
}


def check(status: int, about: str = "") -> None:
    """Raises the exception of a status that is not 0. `about` describes the call's arguments,
    without secrets."""
    if status == 0:
        return
    is_invalid = lib.scrypt_status_is_invalid_hash(status)
    kind = KINDS[Status.ENCODING_INVALID] if is_invalid else KINDS.get(status, ScryptError)
    message = f"{lib.scrypt_strerror(status).decode()}{about and ': '}{about}"
    if not issubclass(kind, ScryptError):
        raise kind(message)
    raise kind({int(it): it for it in Status}.get(status, status), message)
