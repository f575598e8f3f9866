"""Chooses parameters by measuring how long they take on this machine."""

from __future__ import annotations

import ctypes

from .arguments import in_64_bits
from .arguments import seconds as time_of
from .declared import DEFAULT_MAX_MEM, Status
from .errors import check
from .library import lib
from .params import Params

MAX_SECONDS = 1e9


def calibrate(seconds: float, max_mem: int = DEFAULT_MAX_MEM) -> Params:
    """Measures this machine, and returns the most costly parameters whose derivation takes no more
    than the given seconds, in a table of up to `max_mem`. Raises TooCostlyError if even log_n=10
    takes more time or memory. Run it on an idle machine.

    Memory comes first: N is the largest that both limits allow, and p uses the time that is left.
    The call takes about four times the given seconds. `PasswordHasher(*calibrate(0.2))` makes
    hashes with the result.
    """
    time_of(seconds, "seconds")
    if not 0 < seconds <= MAX_SECONDS:
        raise ValueError(f"seconds must be above 0 and at most {MAX_SECONDS:g}: {seconds}")
    log_n, r, p = ctypes.c_uint32(), ctypes.c_uint32(), ctypes.c_uint32()
    status = lib.scrypt_calibrate(float(seconds), in_64_bits(max_mem, "max_mem"), log_n, r, p)
    least = f"even log_n=10, r=8, p=1 exceeds {seconds} seconds or {max_mem} bytes"
    check(status, least if status == Status.TOO_COSTLY else "")
    return Params(log_n.value, r.value, p.value)
