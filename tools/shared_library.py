"""The shared library by ctypes, with the types that the package for Python declares."""

import ctypes
import os
import runpy
from pathlib import Path
from types import SimpleNamespace

declared = SimpleNamespace(**runpy.run_path(str(Path(__file__).parents[1] / "bindings/python/scrypt_c/declared.py")))


def loaded(path):
    """The library; an older one does not have all calls."""
    library = ctypes.CDLL(os.path.abspath(path))
    for name, (arguments, result) in declared.calls(ctypes.c_void_p, ctypes.c_void_p).items():
        if hasattr(library, name):
            call = getattr(library, name)
            call.argtypes, call.restype = arguments, result
    return library


def buffers(rooms, lens):
    """A scrypt_buffers of three arrays, which it keeps alive, with these lengths."""
    words = ctypes.POINTER(declared.U32)
    chunks, table, scratch = map(ctypes.cast, rooms, (declared.BYTES, words, words))
    return declared.Buffers(chunks, lens[0], table, lens[1], scratch, lens[2])
