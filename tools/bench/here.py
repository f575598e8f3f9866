"""Measures the tables of docs/PARAMETERS.md and docs/BENCHMARKS.md that are about this library only, and prints them in Markdown.

usage: python3 -m tools.bench.here LIBRARY parameters [PICTURE]   *Time and attack*, and its picture parameters.svg
       python3 -m tools.bench.here LIBRARY thin                   *Smaller tables*
       python3 -m tools.bench.here LIBRARY logins                 *Tables for each CPU*, with 1, 2 and 4 tables

LIBRARY is libscrypt_c.so. `parameters` and `thin` print the minimum of RUNS runs (an environment variable, 7 by default), and
each number of `logins` takes SECONDS seconds (10).
"""

import concurrent.futures
import ctypes
import os
import statistics
import sys
import time

from tools.bench import ours, picture
from tools.shared_library import buffers, loaded

SECONDS = float(os.environ.get("SECONDS", 10))
PASSWORD, SALT = b"pleaseletmein", b"SodiumChloride"
SECRETS = PASSWORD, len(PASSWORD), SALT, len(SALT)
YEAR = 365.25 * 86400


def seconds(call, *arguments):
    """The minimum CPU time of a call: other work on the machine matters only if it slows memory down."""
    taken = []
    for _ in range(ours.RUNS):
        start = time.process_time()
        status = call(*arguments)
        taken.append(time.process_time() - start)
        if status:
            sys.exit(f"{call.__name__}: status {status}")
    return min(taken)


def login_of(library, log_n):
    """The password and its hash, each with its length."""
    text = ctypes.create_string_buffer(512)
    if library.scrypt_hash_with_salt(*SECRETS, log_n, 8, 1, 32, 0, text, len(text)):
        sys.exit("no hash")
    return PASSWORD, len(PASSWORD), text.value, len(text.value)


def parameters(library, to=None):
    print(ours.line("log_n (r = 8, p = 1)", "MiB", "seconds", "CPU-years per 10^9 guesses", head=True))
    points = []
    for log_n in (10, 12, 13, 14, 15, 16, 17, 18, 20):
        mib, taken = 1 << (log_n - 10), seconds(library.scrypt_verify_unlimited, *login_of(library, log_n))
        points.append((mib, taken, f"{log_n}: {taken:.2g}"))
        print(ours.line(log_n, f"{mib:,}", f"{taken:.2g}", f"{taken * 1e9 / YEAR:.2g}"), flush=True)
    if to:
        title = "CPU seconds of one login, r = 8, p = 1; beside each point its log_n and seconds"
        picture.draw(to, title, {"one login": points}, (0.001, 0.01, 0.1, 1, 4))


def thin_seconds(library, log_n, s):
    """The seconds of a key from a table that keeps one row in 2^s. ctypes fills the buffers with zeros, so no page is mapped
    during the measurement."""
    lens = ours.buffer_lens(library, (log_n, 8, 1), s)
    kinds = ctypes.c_uint8, ctypes.c_uint32, ctypes.c_uint32
    room = buffers([(kind * length)() for kind, length in zip(kinds, lens)], lens)
    return seconds(library.scrypt_key_thin, *SECRETS, log_n, 8, 1, s, ctypes.create_string_buffer(64), 64, room)


def thin(library):
    print(ours.line("s", "MiB at (17, 8, 1)", "seconds", "seconds at (20, 8, 1)", head=True))
    for s in 0, 1, 2, 3, 4, 6:
        taken = [f"{thin_seconds(library, log_n, s):.3g}" for log_n in (17, 20)]
        print(ours.line(s, f"{2.0 ** (7 - s):g}", *taken), flush=True)


def waits_of(library, hasher, login, clients):
    """The seconds that each login took, but for those in the first tenth of the time. Each client is a thread that verifies
    one hash repeatedly."""
    end = time.perf_counter() + SECONDS

    def client(_):
        waits = []
        while (start := time.perf_counter()) < end:
            if library.scrypt_hasher_verify(hasher, *login, None, -1):
                raise ValueError("a login is rejected")
            if start > end - 0.9 * SECONDS:
                waits.append(time.perf_counter() - start)
        return waits

    with concurrent.futures.ThreadPoolExecutor(clients) as pool:
        return [it for waits in pool.map(client, range(clients)) for it in waits]


def logins(library, clients=16):
    processors = len(os.sched_getaffinity(0))
    print(ours.line("log_n (r = 8, p = 1)", "logins a second", "median wait, ms", "99th percentile, ms", head=True))
    for log_n in range(14, 19):
        measured = []
        for tables in 1, 2, 4:
            hasher = ours.hasher(library, (log_n, 8, 1), max_tables=tables * processors)
            waits = waits_of(library, hasher, login_of(library, log_n), clients)
            library.scrypt_hasher_free(ctypes.byref(hasher))
            cuts = statistics.quantiles(waits, n=100)
            measured.append((f"{len(waits) / (0.9 * SECONDS):.1f}", *(f"{1e3 * cuts[at]:.0f}" for at in (49, 98))))
        print(ours.line(log_n, *map(", ".join, zip(*measured))), flush=True)


if __name__ == "__main__":
    print(ours.machine())
    {"parameters": parameters, "thin": thin, "logins": logins}[sys.argv[2]](loaded(sys.argv[1]), *sys.argv[3:])
