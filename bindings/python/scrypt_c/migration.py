"""Converts hashes of other programs to hashes that this package verifies, without the passwords.

Raises ValueError for a hash that is damaged, that has a key of a length which its program does not
write, that no password matches, or that neither format can store. `n` is N, a power of two.

`key_len` keeps only so many bytes of the key, at least 10: the first bytes of a key of scrypt are the
key of that length. With 32, hashes fit into Django's column of 128 characters.
"""

from __future__ import annotations

import base64
import ctypes
import re
from typing import Optional

from .arguments import Bytes, number, raw_bytes
from .declared import MIN_KEY_LEN, PHC_CAPACITY, PHC_OR_MCF
from .errors import check
from .library import lib
from .params import accepted

# The alphabet of `$7$` hashes, in the order of the values.
_LETTERS = "./0123456789ABCDEFGHIJKLMNOPQRSTUVWXYZabcdefghijklmnopqrstuvwxyz"


def _value(letters: str) -> int:
    return sum(_LETTERS.index(it) << 6 * place for place, it in enumerate(letters))


def stored_text(
    salt: Bytes, key: Bytes, n: int, r: int, p: int, *, key_len: Optional[int] = None
) -> str:
    """Returns a hash from a salt and a key: a PHC string if the lengths allow it, otherwise a `$7$`
    hash. A PHC string keeps only the first 64 bytes of the key, which are the key of that length.
    An n below 64 is rejected: it may be a log_n, and then no password would match."""
    if 1 <= number(n, "n") < 64:
        meant = f"{n} may be its logarithm, log_n: n={1 << n} is N = 2**{n}"
        raise ValueError(f"n is N, at least 64, and {meant}")
    return _text(salt, key, n, r, p, 0, key_len)


def _text(
    salt: Bytes, key: Bytes, n: int, r: int, p: int, written: int, key_len: Optional[int] = None
) -> str:
    """Returns a hash like stored_text, for any N. If `written` is not 0, the key must have that
    length."""
    salt, key, n = raw_bytes(salt, "a salt"), raw_bytes(key, "a key"), number(n, "n")
    if written and len(key) != written:
        raise ValueError(f"the key has {len(key)} bytes, where the program writes {written}")
    if key_len is not None:
        if not MIN_KEY_LEN <= number(key_len, "key_len") <= len(key):
            raise ValueError(f"key_len must be {MIN_KEY_LEN} to the {len(key)} bytes of the key: {key_len}")
        key = key[:key_len]
    if n < 2 or n & (n - 1):  # no other program makes hashes with N = 1
        raise ValueError(f"n must be a power of two above 1: {n}")
    params = accepted(n.bit_length() - 1, r, p)
    room = ctypes.create_string_buffer(PHC_CAPACITY + 2 * (len(salt) + len(key)))
    parts = salt, len(salt), key, len(key), *params, PHC_OR_MCF
    check(lib.scrypt_stored_text(*parts, room, len(room)))
    return room.raw.rstrip(b"\0").decode()


def _matched(pattern: str, stored: str, program: str) -> list[str]:
    """Returns the groups of a pattern, which has to match the whole hash."""
    found = re.fullmatch(pattern, stored, re.ASCII | re.DOTALL)
    if found is None:
        raise ValueError(f"this is not a hash of {program}")
    return list(found.groups())


def _unpadded(letters: str) -> bytes:
    return base64.b64decode(letters + "=" * (-len(letters) % 4), validate=True)


def from_passlib(stored: str) -> str:
    """Converts a hash of passlib. This package accepts most of them unchanged."""
    if stored.startswith("$7$"):
        return from_crypt(stored)
    pattern = r"\$scrypt\$ln=(\d+),r=(\d+),p=(\d+)\$([^$]*)\$([^$]*)"
    log_n, r, p, *letters = _matched(pattern, stored, "passlib")
    salt, key = (_unpadded(it.rstrip("=")) for it in letters)
    return _text(salt, key, 1 << min(int(log_n), 64), int(r), int(p), 32)


def from_powerdns(stored: str) -> str:
    """Converts a hash of PowerDNS: `$scrypt$ln=..,p=..,r=..$salt$key`, in padded Base64."""
    pattern = r"\$scrypt\$ln=(\d+),p=(\d+),r=(\d+)\$([^$]*)\$([^$]*)"
    log_n, p, r, *letters = _matched(pattern, stored, "PowerDNS")
    salt, key = (base64.b64decode(it, validate=True) for it in letters)
    return _text(salt, key, 1 << min(int(log_n), 64), int(r), int(p), 32)


def from_django(stored: str, *, key_len: Optional[int] = None) -> str:
    """Converts a hash of Django 4.0 or later: `scrypt$n$salt$r$p$key`, with the salt as text."""
    pattern = r"scrypt\$([1-9]\d*)\$([^$]+)\$([1-9]\d*)\$([1-9]\d*)\$([^$]*)"
    n, salt, r, p, letters = _matched(pattern, stored, "Django")
    key = base64.b64decode(letters, validate=True)
    if base64.b64encode(key).decode() != letters:
        raise ValueError("the last letter of the key encodes more than its bytes")
    return _text(salt.encode(), key, int(n), int(r), int(p), 64, key_len)


def from_werkzeug(stored: str, *, key_len: Optional[int] = None) -> str:
    """Converts a hash of Werkzeug 2.3 or later: `scrypt:n:r:p$salt$key`, with the salt as text."""
    pattern = r"scrypt:(\d+):(\d+):(\d+)\$([^$]*)\$([0-9a-f]*)"
    n, r, p, salt, key = _matched(pattern, stored, "Werkzeug")
    return _text(salt.encode(), bytes.fromhex(key), int(n), int(r), int(p), 64, key_len)


def from_crypt(stored: str) -> str:
    """Converts a `$7$` hash of crypt(3) whose salt has a `$`."""
    pattern = r"\$7\$([./\dA-Za-z]{11})(.*)\$([./\dA-Za-z]*)"
    params, salt, letters = _matched(pattern, stored, "crypt(3)")
    parts = [letters[at : at + 4] for at in range(0, len(letters), 4)]
    if any(len(it) == 1 or _value(it) >> 8 * (len(it) - 1) for it in parts):
        raise ValueError("the last letters of the key encode no whole bytes")
    key = b"".join(_value(it).to_bytes(len(it) - 1, "little") for it in parts)
    costs = 1 << _value(params[0]), _value(params[1:6]), _value(params[6:])
    return _text(salt.encode(), key, *costs, 32)


def from_libscrypt(stored: str, *, key_len: Optional[int] = None) -> str:
    """Converts a hash of `libscrypt_hash`: `$s1$`, two hexadecimal digits each for log_n, r and p,
    the salt and the key."""
    pattern = r"\$s1\$([\da-fA-F]{6})\$([^$]*)\$([^$]*)"
    params, *letters = _matched(pattern, stored, "libscrypt")
    log_n, r, p = bytes.fromhex(params)
    salt, key = (base64.b64decode(it, validate=True) for it in letters)
    return _text(salt, key, 1 << log_n, r, p, 64, key_len)
