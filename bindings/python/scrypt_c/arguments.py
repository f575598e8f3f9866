"""Converts the arguments of callers to arguments of the library."""

from __future__ import annotations

import operator
import threading
from typing import Optional, Union

from .declared import AUTO

# The types of salts and keys, and of passwords, for callers that annotate theirs.
Bytes = Union[bytes, bytearray, memoryview]
Password = Union[str, bytes, bytearray, memoryview]


def raw_bytes(data: Bytes, what: str, kinds: str = "bytes-like") -> bytes:
    """Returns the bytes of a bytes-like object, without a copy if it is bytes. `bytes(data)` would
    accept a number as a length. A subclass is copied, because its `len` can differ from the length
    of its buffer."""
    if type(data) is bytes:
        return data
    try:
        return memoryview(data).tobytes()
    except TypeError:
        raise TypeError(f"{what} must be {kinds}, not {type(data).__name__}") from None


def raw_password(password: Password) -> bytes:
    """Returns the bytes of a password; a str is encoded as UTF-8."""
    if not isinstance(password, str):
        return raw_bytes(password, "a password", "str or bytes-like")
    try:
        return str.encode(password)
    except UnicodeEncodeError:
        pass  # The error has the whole password: do not raise it, nor an error with it as context.
    raise UnicodeError("a password has a lone surrogate, which UTF-8 cannot encode")


def raw_text(text: Union[str, bytes]) -> bytes:
    """Returns the bytes of a hash. The library rejects characters outside ASCII if the format
    does."""
    if isinstance(text, str):
        return str.encode(text, errors="surrogatepass")
    if isinstance(text, bytes):
        return raw_bytes(text, "a hash")
    raise TypeError(f"a hash must be str or bytes, not {type(text).__name__}")


def number(value: int, what: str) -> int:
    """Returns an integer; 1.0 and "1" are not integers."""
    try:
        return operator.index(value)
    except TypeError:
        raise TypeError(f"{what} must be an int, not {type(value).__name__}") from None


def in_64_bits(value: int, what: str) -> int:
    """Clamps a limit to the range of C's types: a limit above 64 bits allows everything, and so does
    AUTO, which is the default in C."""
    most = (1 << 64) - 1
    return most if number(value, what) >= AUTO else max(value, 0)


def seconds(value: Optional[float], what: str) -> Optional[float]:
    """Returns a timeout, up to the maximum that threading accepts; None means no timeout."""
    if value is None:
        return None
    if not isinstance(value, (int, float)):
        raise TypeError(f"{what} must be a number of seconds, not {type(value).__name__}")
    if not value >= 0:  # also if it is not a number
        raise ValueError(f"{what} must not be negative: {value}")
    return min(value, threading.TIMEOUT_MAX)
