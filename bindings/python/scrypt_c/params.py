"""The parameters of a derivation, and their cost."""

from __future__ import annotations

import ctypes
from typing import NamedTuple, Optional, Union

from . import declared
from .arguments import in_64_bits, number, raw_text
from .declared import Status
from .errors import check
from .library import explained, lib

# No limit.
NO_LIMIT = 2**64 - 1


def accepted(log_n: int, r: int, p: int) -> tuple[int, int, int]:
    """Returns the parameters if they fit in C's types: ctypes would truncate them. r and p are
    never 0, which could mean the default in C."""
    log_n, r, p = number(log_n, "log_n"), number(r, "r"), number(p, "p")
    if not (0 <= log_n <= 63 and 0 < r < 1 << 32 and 0 < p < 1 << 32):
        check(Status.INVALID_PARAMS, f"log_n={log_n}, r={r}, p={p}")
    return log_n, r, p


class Params(NamedTuple):
    """N = 2**log_n, the block size r, the parallelization p, and the length of a hash's key in
    bytes."""

    log_n: int = declared.RECOMMENDED_LOG_N
    r: int = declared.RECOMMENDED_R
    p: int = declared.RECOMMENDED_P
    key_len: int = declared.KEY_LEN

    @property
    def cores(self) -> int:
        """The number of Salsa20/8 cores of a derivation."""
        log_n, r, p = accepted(self.log_n, self.r, self.p)
        return 4 * (r * p << log_n)

    @property
    def work(self) -> int:
        """The work, which `max_work` limits: the number of Salsa20/8 cores, plus the cores of 32
        rows in each chunk for PBKDF2, up to 2**64 - 1."""
        return int(cost_of(self)[1].work)

    @property
    def memory(self) -> int:
        """The size of the buffers of a derivation in bytes, up to 2**64 - 1."""
        return int(cost_of(self)[1].bytes)


def cost_of(
    params: Params, max_mem: int = NO_LIMIT, max_work: int = NO_LIMIT
) -> tuple[int, declared.Cost]:
    """Returns whether the limits allow a derivation, OK or TOO_COSTLY, and its cost. Raises
    InvalidParamsError."""
    log_n, r, p = accepted(*params[:3])
    cost = declared.Cost()
    status = int(lib.scrypt_params_cost(log_n, r, p, max_mem, max_work, cost))
    if status == Status.INVALID_PARAMS:
        check(status, f"log_n={log_n}, r={r}, p={p}")
    return status, cost


RECOMMENDED = Params()


def check_costs(
    status: int, cost: declared.Cost, max_mem: Optional[int], max_work: Optional[int]
) -> None:
    """Raises the exception of a status, for a derivation with this cost. A limit that is None is
    not one that it exceeds."""
    limits = (NO_LIMIT if it is None else in_64_bits(it, "a limit") for it in (max_mem, max_work))
    check(status, explained(status, cost, *limits))


def params_of(hash: Union[str, bytes]) -> Params:
    """Returns the parameters of a hash; `key_len` is 0 if it has no key. Raises InvalidHashError if
    it is not a scrypt hash."""
    raw = raw_text(hash)
    found = ctypes.c_uint32(), ctypes.c_uint32(), ctypes.c_uint32(), ctypes.c_size_t()
    check(lib.scrypt_hash_params(raw, len(raw), *found))
    return Params(*(it.value for it in found))
