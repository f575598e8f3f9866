"""Compares the proved calls that the kit builds with those of the erased crates, at each level of the processor, by random
calls: the statuses, and all bytes that they leave. It sees what erasing, rustc or the crates below change.

usage: python3 -m tools.kit.same build          proves and builds crates/scrypt_c by the kit, over the libraries that
                                                  `rt ci` has proved: crates/scrypt_c/out/libscrypt_c.a
       python3 -m tools.kit.same CALLS [SEED]   compares it with what `rust/build.sh c` has left
"""

import subprocess
import sys
from collections import Counter
from pathlib import Path

from bindings.js.test import random_calls
from bindings.js.test.random_calls import KEY, PASSWORD, SALT, TEXT, WORDS, Native, below, pick, slice_of
from tools.kit import rattle

KIT = Path("crates/scrypt_c/out/libscrypt_c.a")
NEVER = "scrypt_verify_batch_with_buffers", "scrypt_wipe" # return nothing


def build():
    """The library of the kit, for the processors that it calls x86-64-v3."""
    KIT.parent.mkdir(exist_ok=True)
    options = ["--cpu", "x86-64-v3", "--jobs", "2", "--toolchain", f"{rattle.kit()}/toolchain", "-o", KIT.resolve()]
    print("== scrypt_c", flush=True)
    return subprocess.run([*rattle.of("build", "scrypt_c"), *options], cwd="crates/scrypt_c", check=False).returncode


def others():
    """A case of the calls that the module for JavaScript doesn't have: those that allocate, smaller tables, and logins."""
    small = pick(*9 * [(1 + below(6), pick(1, 2, 8), pick(1, 2, 3, 4, 5))], (9, 8, below(3)), (64, 1, 1), (3, 0, 1), (2, 1 << 30, 4))
    password, salt, key, stored = random_calls.small_slices()
    text = pick(bytes, random_calls.changed)(random_calls.text_of(*small))
    given = slice_of(TEXT, len(text))
    bounds = [str(it) for it in pick((1 << 20, 1 << 16, 0), (1 << 20, 1 << 16, 16), (3000, 1 << 12, 0), (1 << 18, 100, 32))]
    words, room, s = [f"@{WORDS + 8 * i}" for i in range(4)], random_calls.buffers(*small), below(4)
    key_len, logins = str(pick(9, 10, 16, 32, 64, 65)), []
    for _ in range(4):
        logins += [*pick(password, slice_of(PASSWORD, 0)), *given, below(2)]
    calls = [
        ["scrypt_kdf", *password, *salt, *small, str(below(5)), str(pick(0, 1 << 14, 1 << 20)), *key],
        ["scrypt_hash_phc", *password, *salt, *small, key_len, *stored, words[0]],
        ["scrypt_hash_mcf", *password, *salt, *small, key_len, *stored, words[0]],
        ["scrypt_verify_limited", *pick(password, slice_of(PASSWORD, 0)), *given, *bounds],
        ["scrypt_buffer_lens", *small, s, *words[:3]],
        ["scrypt_kdf_thin", *password, *salt, *small, s, *key, *room[:3], str(int(room[3]) >> s), *room[4:]],
        [NEVER[0], *logins, *salt, *small, key_len, f"@{WORDS + 32}", *room],
        [NEVER[1], *room],
    ]
    written = {PASSWORD: random_calls.rng.randbytes(300), SALT: random_calls.rng.randbytes(300),
               KEY: random_calls.rng.randbytes(100), TEXT: text}
    return {"written": [[at, it.hex()] for at, it in written.items()], "calls": [pick(*calls)]}


def main(calls, seed=7914):
    random_calls.rng.seed(int(seed))
    kit = Native("-Wl,--whole-archive", KIT, "-Wl,--no-whole-archive", f"{rattle.kit()}/c/liblibc_c.a", prefix="")
    erased, counts = Native(), Counter()
    levels = sorted({erased.library.proved_force_level(it) for it in range(3)})
    while counts.total() < int(calls):
        case = pick(random_calls.case, others)()
        wanted = kit.answer(case)
        name, statuses = case["calls"][0][0], wanted[0]
        if name in NEVER:
            statuses.clear()
        for level in levels:
            found = erased.answer(case, level)
            if name in NEVER:
                found[0].clear()
            if found != wanted:
                sys.exit(f"seed {seed}, level {level}: {found}, and not {wanted}: {case}")
        counts[name, *statuses[:1]] += 1
    for key, count in sorted(counts.items()):
        print(*key, count)
    print(f"{counts.total()} random calls or derivations are the same at the levels {levels} (seed {seed})")


if __name__ == "__main__":
    sys.exit(build() if sys.argv[1] == "build" else main(*sys.argv[1:]))
