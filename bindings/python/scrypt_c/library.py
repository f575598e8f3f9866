"""Loads the library, and declares its calls."""

from __future__ import annotations

import ctypes
import os
import sys
from typing import Any

from . import declared

FILE = "scrypt_c.dll" if sys.platform == "win32" else f"libscrypt_c.so.{declared.VERSION_MAJOR}"


def _place() -> str:
    named = os.environ.get("SCRYPT_C_LIBRARY")
    if named:
        return os.path.join(named, FILE) if os.path.isdir(named) else named
    inside = os.path.join(os.path.dirname(os.path.abspath(__file__)), FILE)
    return inside if os.path.exists(inside) else FILE


def _loaded() -> ctypes.CDLL:
    place = _place()
    try:
        return ctypes.CDLL(place)
    except OSError as error:
        raise ImportError(
            f"scrypt_c needs the library {FILE}, and {place} cannot be loaded ({error}). `make "
            "lib` in its repository builds it, and `make install` installs it; or let "
            "SCRYPT_C_LIBRARY name the file, or its folder."
        ) from error


lib = _loaded()


class Hasher(ctypes.c_void_p):
    """A scrypt_hasher, or NULL. The library writes it and frees it, each in one call, so that a
    signal handler's exception finds it in one of these two states; then it is freed with this
    object."""

    def __del__(self, free: Any = lib.scrypt_hasher_free, at: Any = ctypes.byref) -> None:
        free(at(self))


class Derivation(ctypes.c_void_p):
    """The same of a scrypt_derivation."""

    def __del__(self, free: Any = lib.scrypt_derivation_free, at: Any = ctypes.byref) -> None:
        free(at(self))


for _name, (_arguments, _result) in declared.calls(Derivation, Hasher).items():
    _call = getattr(lib, _name)
    _call.argtypes, _call.restype = _arguments, _result


def explained(
    status: int, cost: declared.Cost, max_mem: int, max_work: int, min_key_len: int = 0
) -> str:
    """Returns the part of an error message that has the numbers of a status."""
    text = ctypes.create_string_buffer(declared.EXPLANATION_CAPACITY)
    lib.scrypt_explain(status, cost, max_mem, max_work, min_key_len, text, len(text))
    return text.value.decode()
