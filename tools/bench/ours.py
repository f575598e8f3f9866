"""What the benchmarks share: calls of this library, by ctypes, and tables in Markdown."""

import ctypes
import datetime
import os
import sys

from tools.shared_library import declared

RUNS = int(os.environ.get("RUNS", 7))


def hasher(library, params, **options):
    """A hasher for hashes with these parameters."""
    log_n, r, p = params
    with_all = declared.Options()
    library.scrypt_options_init(with_all)
    for name, value in {"log_n": log_n, "r": r, "p": p, **options}.items():
        setattr(with_all, name, value)
    made = ctypes.c_void_p()
    return made if library.scrypt_hasher_new(with_all, ctypes.byref(made)) == 0 else sys.exit("no hasher")


def buffer_lens(library, params, s=0):
    """The bytes of the chunks, and the words of the table and of the scratch."""
    it = declared.Buffers()
    if library.scrypt_buffer_lens(*params, s, it):
        sys.exit(f"no lengths for {params}")
    return [it.chunks_len, it.table_len, it.scratch_len]


def machine():
    """The date, the machine and its load."""
    with open("/proc/cpuinfo", encoding="ascii") as file:
        model = next(line.split(":")[1].strip() for line in file if line.startswith("model name"))
    return f"{datetime.date.today()}, {model}, {os.cpu_count()} processors, load {os.getloadavg()[0]:.1f} at the start\n"


def line(*cells, head=False):
    text = "| " + " | ".join(map(str, cells)) + " |"
    return text + ("\n" + "|---" * len(cells) + "|" if head else "")
