#!/usr/bin/env python3
"""Compares the module for JavaScript with the object that the C library is linked from, of the same crates and at each
of its levels: random calls, whose parameters, limits and lengths have up to 64 bits, and whose buffers fit them or
don't, give the same statuses and leave the same bytes.

usage: random_calls.py [CALLS [SEED]]      (from the top of the repository)
"""

import base64
import ctypes
import hashlib
import json
import platform
import random
import subprocess
import sys
import tempfile
from pathlib import Path

OBJECT = f"build/rust/c/{platform.machine()}-unknown-linux-gnu/scrypt_c.o"
MODULE = "bindings/js/scrypt.wasm"
# What the object calls besides C's library.
HEAP = """#include <stdlib.h>
void *clearing_malloc(size_t len) { return malloc(len); } void *clearing_realloc(void *at, size_t len) { return realloc(at, len); }
void clearing_free(void *at) { free(at); }"""
# Places in a memory: the buffers, and small things.
CHUNKS, TABLE, SCRATCH, SMALL, SIZE = 0, 1 << 13, 5 << 13, 11 << 12, 13 << 12
PASSWORD, SALT, OUTPUT, WORDS, PROGRESS, TEXT, KEY = (SMALL + it for it in (0, 512, 1024, 2560, 2944, 3072, 4096))
BUFFERS = (CHUNKS, 1, TABLE - CHUNKS), (TABLE, 4, SCRATCH - TABLE), (SCRATCH, 4, SMALL - SCRATCH)
MAX = 2**64 - 1
rng = random.Random()
pick = lambda *those: rng.choice(those)
below = rng.randrange


def slice_of(at, length):
    return [f"@{at}", str(length)]


def parameters():
    """Small ones, which are computed, or any."""
    if below(3) == 0:
        return [below(7), pick(1, 2, 3, below(4)), pick(1, 2, 3, 4, below(5))]
    some = lambda: pick(1, 2, 8, below(2**16), below(2**30), 2**25, 2**26, 2**29, 2**31, below(2**32))
    return [pick(below(57), below(66), below(256), 20, 24, 25, 26, 28, 29, 30, 31, 32, 33), some(), some()]


def buffers(log_n, r, p):
    """As the parameters want them, or nearly. No more than two chunks are interleaved: the module takes no more."""
    lens = []
    for n, (at, size, room) in zip((128 * r * p, 32 * r << log_n, 64 * r), BUFFERS):
        most = room // size
        wanted = pick(n, n, n, 2 * n, 2 * n, n - 1, n + 1, n % 2**32, 3 * n - 1, 0, below(most))
        lens += slice_of(at, max(0, min(most, wanted, 3 * n - 1)))
    return lens


def text_of(log_n, r, p):
    key = pick("A" * 43, "A" * 14, "A" * 86, "A" * 13, "")
    if 0 < log_n < 7 and 0 < r < 4 and 0 < p < 5:  # of no password
        key = hashlib.scrypt(b"", salt=bytes(6), n=1 << log_n, r=r, p=p, dklen=32)
        key = base64.b64encode(key).decode().rstrip("=")
    phc = f"$scrypt$ln={log_n},r={r},p={p}$AAAAAAAA"
    return pick(f"{phc}${key}", f"{phc}${key}", phc, f"$7$31....3....n34P${key}").encode()


def changed(text):
    text = bytearray(text)
    for _ in range(below(4)):
        at = below(len(text) + 1)
        text[at:at + below(2)] = pick(b"", b"$", b"=", b",", b"0", b"9", b"A", b"/", b"\xff", b"\0")
    return bytes(text)


def small_slices():
    """A password, a salt, a key and room for a text."""
    some = [slice_of(at, pick(0, 1, 8, 64, 65, below(300))) for at in (PASSWORD, SALT)]
    return *some, slice_of(KEY, pick(0, 1, 32, 100)), slice_of(OUTPUT, pick(0, 20, 100, 1500))


def limits():
    some = lambda: pick(0, 1000, 2**20, 2**30, 2**31 - 1, 2**31, 2**32 - 1, 2**32, 2**33, 2**45, MAX, below(MAX))
    return [str(it) for it in (some(), some(), pick(0, 10, 16, 32, 64, 65, 2**31, 2**32 + 3, MAX))]


def alone(params, room, given, bounds):
    """Calls of which each is tried alone."""
    words = [f"@{WORDS + 8 * i}" for i in range(4)]
    key_len = str(pick(0, 9, 10, 16, 32, 64, 65, 2**32, 2**32 + 32, MAX))
    password, salt, key, stored = small_slices()
    text = [*stored, words[0]]
    return [
        ["scrypt_params_cost", *params, *bounds[:2], words[0]],
        ["scrypt_hash_cost", *given, *bounds, words[0]],
        ["scrypt_default_limits", *params, key_len, *words[:3]],
        ["scrypt_hash_params", *given, *words],
        ["scrypt_needs_rehash", *given, *params, key_len],
        ["scrypt_stored_phc", *salt, *key, *params, *text],
        ["scrypt_stored_mcf", *salt, *key, *params, *text],
        ["scrypt_verify_limited_with_buffers", *password, *given, *bounds, *room],
        ["scrypt_kdf_with_buffers", *password, *salt, *params, *key, *room],
        ["scrypt_hash_phc_with_buffers", *password, *salt, *params, key_len, *text, *room],
        ["scrypt_hash_mcf_with_buffers", *password, *salt, *params, key_len, *text, *room],
    ]


def in_steps(params, room, given, bounds):
    """Keys and verdicts in steps, and parts of them with any progress."""
    words, (password, salt, key, _) = [f"@{WORDS + 8 * i}" for i in range(3)], small_slices()
    step = lambda counts: ["scrypt_key_step", *params, str(pick(*counts)), *room, f"@{PROGRESS}"]
    steps = [step((1, 7, MAX)) for _ in range(below(9))]
    finish = ["scrypt_key_finish", *password, *params, *room[:2], f"@{PROGRESS}", *key]
    verdict = ["scrypt_verify_finish", *password, *given, *room[:2], f"@{PROGRESS}"]
    return [
        [["scrypt_key_begin", *password, *salt, *params, *room, f"@{PROGRESS}"], *steps, finish],
        [["scrypt_verify_begin", *password, *given, *bounds, *words, *room, f"@{PROGRESS}"], *steps, verdict],
        [step((0, 1, 5, 2**32, 2**32 + 1, MAX))], [finish], [verdict],
    ]


def case():
    """What is written to memory, and calls."""
    params, bounds = parameters(), pick(limits(), [str(MAX), str(MAX), "0"])
    room, text, is_alone = buffers(*params), text_of(*params), pick(True, False)
    if is_alone:
        text = changed(text)
    given = slice_of(TEXT, len(text))
    calls = [pick(*alone(params, room, given, bounds))] if is_alone else pick(*in_steps(params, room, given, bounds))
    progress = [pick(0, 0, 1, params[2], 2**32, 2**63), pick(1, 1, 2, 0, 3, 2**32 + 1),
                pick(0, 0, 1, 2 << params[0] & MAX, 2**32, MAX - 2**40)]
    written = {PASSWORD: rng.randbytes(300), SALT: rng.randbytes(300), KEY: rng.randbytes(100), TEXT: text,
               PROGRESS: b"".join(it.to_bytes(8, "little") for it in progress)}
    # A damaged text can ask for smaller tables than the buffers are for: then the object fills up to four, and the
    # module two.
    unspecified = [TABLE, SCRATCH] if calls[0][0] == "scrypt_verify_limited_with_buffers" else [0, 0]
    return {"written": [[at, it.hex()] for at, it in written.items()], "calls": calls, "unspecified": unspecified}


class Native:
    """The calls of the object, on a memory as the module's, or those of another one (tools/kit/same.py)."""

    def __init__(self, *linked, prefix="proved_"):
        self.prefix = prefix
        with tempfile.TemporaryDirectory() as room:
            library = f"{room}/library.so"
            words = ["cc", "-shared", "-o", library, "-x", "c", "-", "-x", "none", *(linked or [OBJECT])]
            subprocess.run(words, input=HEAP.encode(), check=True)
            self.library = ctypes.CDLL(library)
        self.room = ctypes.create_string_buffer(SIZE + 64)
        self.base = -(-ctypes.addressof(self.room) // 64) * 64
        self.memory = memoryview(self.room)[self.base - ctypes.addressof(self.room):][:SIZE].cast("B")

    def status(self, name, *args):
        numbers = (self.base + int(it[1:]) if str(it)[0] == "@" else int(it) for it in args)
        return getattr(self.library, self.prefix + name)(*map(ctypes.c_uint64, numbers))

    def answer(self, it, level=None):
        self.memory[:] = bytes(SIZE)
        for at, text in it["written"]:
            self.memory[at:at + len(text) // 2] = bytes.fromhex(text)
        if self.prefix:
            self.library.proved_force_level(rng.choice([0, 1, 2]) if level is None else level)
        statuses = [self.status(*call) for call in it["calls"]]
        begin, end = it.get("unspecified", (0, 0))
        self.memory[begin:end] = bytes(end - begin)
        return [statuses, hashlib.sha1(self.memory).hexdigest()]


def main(calls=120_000, seed=None):
    seed = int(seed or random.randrange(2**32))
    rng.seed(seed)
    native, counts = Native(), {}
    words = ["node", Path(__file__).with_suffix(".mjs"), MODULE, str(SIZE)]
    with subprocess.Popen(words, stdin=subprocess.PIPE, stdout=subprocess.PIPE, text=True) as module:
        for begun in range(0, int(calls), 100):
            cases = [case() for _ in range(min(100, int(calls) - begun))]
            print(json.dumps(cases), file=module.stdin, flush=True)
            own = [native.answer(it) for it in cases]
            for it, wanted, found in zip(cases, own, json.loads(module.stdout.readline())):
                if wanted != found:
                    sys.exit(f"seed {seed}: the module answers {found}, and not {wanted}: {json.dumps(it)}")
                key = it["calls"][0][0], wanted[0][0]
                counts[key] = counts.get(key, 0) + 1
        module.stdin.close()
    for key in sorted(counts):
        print(*key, counts[key])
    print(f"ok {calls} random calls are as the C library's (seed {seed})")


if __name__ == "__main__":
    main(*sys.argv[1:])
