#!/usr/bin/env python3
"""A differential test against Python's hashlib, on random keys and texts: keys with one to four
whole tables, and with smaller tables; texts of both formats, which only their password must verify;
and parameters at the limits of RFC 7914, with the bytes that they need.

usage: python3 -m bindings.c.tests.random_keys KEYS TEXTS SEED COMMAND..

KEYS and TEXTS are how many. COMMAND runs key_lines.c, perhaps in an emulator.
"""

import hashlib
import random
import subprocess
import sys

from tools.generate import header
from tools.tests.reference import hash_of


def given(rng):
    """A log_n, r and p, a password and a salt."""
    params = rng.choice([1, 2, 3, 4, 5, 7, 10]), rng.choice([1, 2, 3, 8, 9]), rng.choice([1, 1, 2, 3, 4, 5, 7])
    return params, rng.randbytes(rng.choice([0, 1, 8, 63, 64, 65, 130])), rng.randbytes(rng.choice([0, 1, 16, 32, 100]))


def line(how, s, params, length, password, salt):
    return f"{how} {s} {' '.join(map(str, params))} {length} .{password.hex()} .{salt.hex()}"


def keys(rng, count):
    """Lines for key_lines.c, each with its answer."""
    for _ in range(count):
        (log_n, r, p), password, salt = given(rng)
        tables, s, length = rng.randrange(5), 0, rng.randint(1, 200)
        if tables == 1:
            s = rng.randint(0, log_n)
        key = hashlib.scrypt(password, salt=salt, n=1 << log_n, r=r, p=p, dklen=length, maxmem=1 << 30)
        yield line(tables, s, (log_n, r, p), length, password, salt), f"0 {key.hex()}"


def texts(rng, count):
    for _ in range(count):
        params, password, salt = given(rng)
        how, length = rng.choice(["phc", "mcf"]), rng.randint(10, 64)
        salt = salt[:64] or b"s" if how == "phc" else salt
        yield line(how, 0, params, length, password, salt), f"0 {hash_of(how, password, salt, *params, length)} 0 1"


def needs(rng, count):
    """Parameters with about the maximum product or table."""
    for _ in range(count):
        r = rng.choice([1, 2, 3, 8, 1 << 15, (1 << 15) - 1, 1 << 20, (1 << 30) - 1])
        p = max((1 << 30) + rng.choice([0, 1, -1, -r, r, rng.randrange(-(1 << 24), 1 << 24)]), r) // r
        log_n = rng.choice([0, 1, rng.randrange(57), 56 - r.bit_length(), 57 - r.bit_length(), 58 - r.bit_length()])
        log_n = max(log_n, 0)
        if 128 * r << log_n < 1 << 64 and r * p < 1 << 30:
            needed, work = 128 * r * p + (128 * r << log_n) + 256 * r, 4 * ((1 << log_n) + 32) * r * p
            status = "OK" if max(needed, work) < 1 << 64 else "TOO_COSTLY"
        else:
            needed, status = 0, "INVALID_PARAMS"
        yield line("need", 0, (log_n, r, p), 0, b"", b""), f"{header.STATUSES[status]} {min(needed, (1 << 64) - 1)}"


def main(key_count, text_count, seed, *command):
    rng = random.Random(int(seed))
    made = [*keys(rng, int(key_count)), *texts(rng, int(text_count)), *needs(rng, 200)]
    lines = "".join(f"{it}\n" for it, _ in made)
    found = subprocess.run(command, input=lines, stdout=subprocess.PIPE, text=True, check=True).stdout.splitlines()
    wrong = [it for (it, answer), printed in zip(made, found) if printed != answer]
    for it in wrong[:10]:
        print(f"another answer: {it}")
    print(f"{key_count} random keys, {text_count} texts and 200 needs: as hashlib makes them, {len(wrong)} not")
    sys.exit(1 if wrong or len(found) != len(made) else 0)


if __name__ == "__main__":
    main(*sys.argv[1:])
