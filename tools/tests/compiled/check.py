"""Compares the compiled code of the library with RFC 7914, for every password, every salt and every content of the
buffers at once: see README.md.

usage: python3 -m tools.tests.compiled.check LIBRARY [all] [LEVEL ..]    `all` runs each log_n
"""

import gc
import hashlib
import sys
import time
from functools import partial

from tools.tests import crypt64, phc
from tools.tests.compiled import definition, words
from tools.tests.compiled.any_rows import AnyRows
from tools.tests.compiled.calls import LEVELS, Case, Compression, Wrong, expect
from tools.tests.compiled.machine import Branch
from tools.tests.compiled.program import Program, Unknown

# Lengths around the blocks of SHA-256, of the password, the salt and the key; and the alignment.
LENGTHS = [(0, 0, 1, 0), (1, 51, 31, 1), (55, 52, 32, 2), (63, 55, 33, 3), (64, 56, 64, 0), (65, 60, 65, 1),
           (119, 63, 20, 2), (120, 64, 16, 3), (128, 119, 100, 0), (200, 127, 10, 1)]

# log_n, r, p, and the numbers of tables: each remainder of p by the number of interleaved chunks.
PARAMETERS = [(0, 1, 5, range(1, 5)), (1, 1, 5, range(1, 5)), (1, 2, 1, [1]), (2, 2, 2, [1, 2])]

# log_n, r and p of derivations with any number of rows. The first of each p finds its loops.
ANY = [(24, 1, 1), (3, 1, 1), (16, 1, 1), (24, 2, 1), (24, 8, 1), (24, 1, 2), (24, 1, 3), (24, 1, 4)]
EVERY = [*ANY, *((log_n, 1, 1) for log_n in range(4, 57)), *((n, 8, p) for p in (1, 2, 3, 4) for n in (24, 3, 14, 17)),
         *((24, r, 1) for r in (3, 4, 16))]


def cases(is_long):
    """What is run: its name, and a function of the compression and the level."""
    for password_len, salt_len, key_len, odd in LENGTHS:
        case = Case(password_len, salt_len, 0, 1, 1, key_len, odd)
        yield f"lengths {password_len}, {salt_len} and {key_len}", partial(case.in_buffers, 1)
    for *params, numbers in PARAMETERS:
        case = Case(9, 8, *params, 64)
        for tables in numbers:
            yield f"{case}, tables: {tables}", partial(case.in_buffers, tables)
    for log_n, r, p in EVERY if is_long else ANY:
        case = AnyRows(9, 8, log_n, r, p, 64)
        yield f"{case}, by induction", case.in_any_rows
    for s in (1, 2, 3) if is_long else (1,):
        case = AnyRows(9, 8, 24, 1, 1, 64)
        yield f"{case}, a row in {1 << s}, by induction", partial(case.thin, s)
    case = Case(9, 8, 1, 1, 2, 64)
    yield f"{case}, allocated", case.allocated
    for count in (1, 2, 5) if is_long else (2,):
        case = Case(9, 8, 2, 1, 2, 64)
        yield f"{case}, in steps of {count}", partial(case.in_steps, count)
    for form, key_len in ((phc.text, 64), (phc.text, 39), (crypt64.text, 97)):
        case = Case(9, 8, 1, 1, 1, key_len)
        what = f"a {'PHC string' if form is phc.text else '$7$ hash'} of {key_len} bytes"
        yield f"{case}, {what}", partial(case.verified, form)
    yield f"{case}, limits", Case(9, 8, 1, 1, 1, 32).limited
    if is_long:
        yield f"{case}, a batch of four", Case(9, 8, 1, 1, 1, 32).in_batch
    case = AnyRows(9, 8, 24, 1, 1, 32)
    yield f"{case}, a PHC string, by induction", partial(case.verified, phc.text)
    yield f"{case}, a batch of four, by induction", case.in_batch


def run_all(compression, levels, is_long=False, then=lambda *_: None):
    """Runs all cases, and after each that is right `then` with its name, its function and the level. Returns how many
    fail. The levels have most formulas of a case in common."""
    program, run_ones, failed, its = compression.program, {}, 0, [*cases(is_long)]
    for what, run in its:
        words.forget()
        for level in levels:
            program.decoded.clear()
            begin = time.process_time()
            try:
                run(compression, level)
            except (Wrong, Unknown, Branch) as error:
                failed += 1
                print(f"{level}: {what}: WRONG: {error}", flush=True)
                continue
            print(f"ok {level}: {what} ({time.process_time() - begin:.1f} s)", flush=True)
            run_ones |= program.decoded
            then(what, run, level)
    for _, what, text in compression.found:
        print(f"a secret index decides the {what} at {text}")
    program.decoded = run_ones
    count = len(its) * len(levels)
    print(f"{len(program.decoded)} instructions were run, in {time.process_time():.0f} seconds")
    print(f"cases: {count - failed} of {count} as they should be")
    return failed


def main():
    gc.disable()  # all words are kept
    for password in (b"password", bytes(range(100))):  # the definition on numbers
        key = hashlib.scrypt(password, salt=b"NaCl", n=8, r=2, p=2, dklen=70)
        expect(definition.scrypt(list(password), list(b"NaCl"), 3, 2, 2, 70) == key, "the definition is not hashlib's")
    library, *levels = sys.argv[1:]
    is_long = "all" in levels
    return run_all(Compression(Program(library)), [it for it in levels if it != "all"] or LEVELS, is_long) > 0


if __name__ == "__main__":
    sys.exit(main())
