"""Compares the symbols of the drop-in library with hashlib, and with the original libraries if they
are installed. The results in the tables are from the original libraries.

usage: python3 -m bindings.drop_in.test_drop_in LIBRARY
"""

import ctypes
import ctypes.util
import errno
import hashlib
import os
import random
import resource
import subprocess
import sys

from tools.tests import crypt64

P, Z, U64, U32 = ctypes.c_char_p, ctypes.c_size_t, ctypes.c_uint64, ctypes.c_uint32
PWHASH = "crypto_pwhash_scryptsalsa208sha256"
MANY = 1 << 32


def loaded(name, package):
    path = ctypes.util.find_library(name)
    if not path:
        subprocess.run(["tools/lacks", f"lib{name}", package], check=True)
    return ctypes.CDLL(path, use_errno=True) if path else None


ours = ctypes.CDLL(sys.argv[1], use_errno=True)
sodium = loaded("sodium", "libsodium23")
BY_COSTS = {
    "crypto_scrypt": loaded("scrypt-kdf", "libscrypt-kdf1"),
    "libscrypt_scrypt": loaded("scrypt", "libscrypt0"),
    PWHASH + "_ll": sodium,
}


def call(library, name, types, *args):
    """Returns the result of a call, or the name of the error if the result is -1."""
    function = getattr(library, name)
    function.argtypes = types
    ctypes.set_errno(0)
    answer = function(*args)
    return answer if answer != -1 else errno.errorcode.get(ctypes.get_errno(), "")


def both(theirs):
    return [it for it in (ours, theirs) if it]


# Why, n, r, p, the length of the output, and the result, with libsodium's result if it differs.
REFUSED = [
    ("one row", 1, 1, 1, 8, "EINVAL"),
    ("no power of two", 3, 1, 1, 8, "EINVAL"),
    ("r of 0 beside a great n", MANY << 8, 0, 1, 8, "EINVAL"),
    ("p of 0", 16, 1, 0, 8, "EINVAL"),
    ("r * p of 2^30 and no power of two", 3, 1 << 15, 1 << 15, 8, "EFBIG"),
    ("r * p of 2^62", 16, 1 << 31, 1 << 31, 8, "EFBIG"),
    ("an output of 2^37 bytes", 16, 1, 1, 1 << 37, "EFBIG"),
    ("a table of 2^60 bytes", MANY << 18, 8, 1, 8, "ENOMEM", "EFBIG"),
    ("2^63 rows", 1 << 63, 1, 1, 8, "ENOMEM", "EFBIG"),
    ("no output", 16, 1, 1, 0, 0),
]


def by_costs(library, name, password, salt, n, r, p, length):
    out = ctypes.create_string_buffer(b"\7" * max(64, length if length < 1 << 20 else 0))
    types = [P, Z, P, Z, U64, U32, U32, P, Z]
    answer = call(library, name, types, password, len(password), salt, len(salt), n, r, p, out, length)
    return answer, out.raw[:-1]


def keys():
    for name, theirs in BY_COSTS.items():
        for library in both(theirs):
            for password, salt, n, r, p, length in [(b"pw", b"salt", 16, 1, 1, 64), (b"", b"", 1024, 8, 3, 20)]:
                key = hashlib.scrypt(password, salt=salt, n=n, r=r, p=p, dklen=length)
                answer = by_costs(library, name, password, salt, n, r, p, length)
                assert answer == (0, key + b"\7" * (64 - length)), name
            for why, n, r, p, length, *wanted in REFUSED:
                wanted = wanted[-1 if name.startswith(PWHASH) else 0]
                assert by_costs(library, name, b"", b"", n, r, p, length) == (wanted, b"\7" * 64), (name, why)


def overlapping():
    """Tests outputs that begin in the password, in the salt, or in neither."""
    for name, theirs in BY_COSTS.items():
        for library in both(theirs):
            for place in (0, 3, 8, 15, 16):
                room = ctypes.create_string_buffer(bytes(range(48)), 48)
                at = ctypes.addressof(room)
                key = hashlib.scrypt(bytes(range(8)), salt=bytes(range(8, 16)), n=16, r=1, p=1, dklen=32)
                types = [ctypes.c_void_p, Z, ctypes.c_void_p, Z, U64, U32, U32, ctypes.c_void_p, Z]
                assert call(library, name, types, at, 8, at + 8, 8, 16, 1, 1, at + place, 32) == 0
                assert room.raw[place : place + 32] == key, (name, place)


def chosen(work, memory):
    """Returns log_n and p for libsodium's limits, with r = 8, according to its documentation and
    results."""
    work = max(work, 32768)
    few = work < memory // 32
    most = work // 32 if few else memory // 1024
    log_n = next((it for it in range(1, 63) if 1 << it > most // 2), 63)
    return log_n, 1 if few else min(work // 4 >> log_n, 0x3FFFFFFF) // 8


def text_of(log_n, r, p, salt="s" * 43, key_len=32):
    key = hashlib.scrypt(b"pw", salt=salt.encode(), n=1 << log_n, r=r, p=p, dklen=key_len)
    return crypt64.text(salt, key, log_n, r, p).encode()


def verified(library, text, password):
    return call(library, PWHASH + "_str_verify", [P, P, U64], text, password, len(password)) == 0


def rehashed(library, text, work, memory):
    return call(library, PWHASH + "_str_needs_rehash", [P, U64, Z], text, work, memory)


def choices():
    """Compares the parameters that are chosen for limits of each size."""
    drawn = random.Random(7914)
    for _ in range(3000):
        work, memory = drawn.getrandbits(drawn.randint(0, 64)), drawn.getrandbits(drawn.randint(0, 64))
        log_n, p = chosen(work, memory)
        for library in both(sodium):
            for params, wanted in ((log_n, 8, p), 0), ((log_n - 1, 8, p), 1), ((log_n, 8, p + 1), 1):
                text = crypt64.params(*params).ljust(101, "s").encode()
                assert rehashed(library, text, work, memory) == wanted, (work, memory)


def by_limits(library, work, memory, length=40):
    out = ctypes.create_string_buffer(b"\7" * length, length)
    types = [P, U64, P, U64, P, U64, Z]
    return call(library, PWHASH, types, out, length, b"pw", 2, b"s" * 32, work, memory), out.raw


def limits():
    for work, memory in [(0, 1 << 24), (32768, 1 << 16), (524288, 1 << 24), (1 << 20, 1 << 22), (1 << 21, 1 << 26)]:
        log_n, p = chosen(work, memory)
        key = hashlib.scrypt(b"pw", salt=b"s" * 32, n=1 << log_n, r=8, p=p, dklen=40, maxmem=1 << 30)
        for library in both(sodium):
            assert by_limits(library, work, memory) == (0, key), (work, memory)
            text = ctypes.create_string_buffer(b"\7" * 102, 102)
            assert call(library, PWHASH + "_str", [P, P, U64, U64, Z], text, b"pw", 2, work, memory) == 0
            assert len(text.value) == 101 and text.value[:14] == crypt64.params(log_n, 8, p).encode(), (work, memory)
            for other in both(sodium):
                assert verified(other, text.value, b"pw") and not verified(other, text.value, b"PW")
    for library in both(sodium):
        assert by_limits(library, 0, 1 << 20, 16)[0] == 0
        assert by_limits(library, 0, 1 << 20, 15) == ("EINVAL", b"\0" * 15), "15 bytes; the output is cleared"
        assert by_limits(library, MANY << 20, MANY << 20) == ("EFBIG", b"\0" * 40), "too many rows"
        text = ctypes.create_string_buffer(b"\7" * 102, 102)
        answer = call(library, PWHASH + "_str", [P, P, U64, U64, Z], text, b"pw", 2, MANY << 20, MANY << 20)
        assert (answer, text.raw) == ("EINVAL", b"\0" * 102), "too many rows; the text is cleared"
    # libsodium 1.0.18 clears the password with the output, and then uses the zeros as the password.
    same = ctypes.create_string_buffer(b"p" * 16, 16)
    assert call(ours, PWHASH, [P, U64, P, U64, P, U64, Z], same, 16, same, 16, b"s" * 32, 0, 0) == "EINVAL"


GOOD = text_of(10, 8, 1)
# Why, the text, whether it verifies, and the result of .._str_needs_rehash for (32768, 2^20).
TEXTS = [
    ("a text of libsodium's", GOOD, True, 0),
    ("other costs", text_of(9, 3, 5), True, 1),
    ("an empty text", b"", False, "EINVAL"),
    ("a byte too few", GOOD[:-1], False, "EINVAL"),
    ("a byte too many", GOOD + b".", False, "EINVAL"),
    ("another scheme", b"$8$" + GOOD[3:], False, "EINVAL"),
    ("a byte of p outside the alphabet", GOOD[:13] + b"$" + GOOD[14:], False, "EINVAL"),
    ("a byte of the key outside the alphabet", GOOD[:-1] + b"!", False, 0),
    ("another key", GOOD[:-2] + (b"//" if GOOD[-2:] == b".." else b".."), False, 0),
    ("N of 1", b"$7$." + GOOD[4:], False, 1),
    ("N of 2^32", b"$7$U" + GOOD[4:], False, 1),
    ("r of 0", GOOD[:4] + b"....." + GOOD[9:], False, 1),
    ("a longer key and a shorter salt", text_of(10, 8, 1, "s" * 42, 33), False, 0),
    ("no dollar", GOOD.replace(b"s$", b"ss"), False, 0),
]


def texts():
    for why, text, verdict, needed in TEXTS:
        for library in both(sodium):
            assert verified(library, text, b"pw") == verdict, why
            assert rehashed(library, text, 32768, 1 << 20) == needed, why


def one_table():
    """As in the original libraries, a key has one table, whatever p is."""
    child = os.fork()
    if child == 0:
        before = resource.getrusage(resource.RUSAGE_SELF).ru_maxrss
        is_right = by_costs(ours, "crypto_scrypt", b"pw", b"salt", 1 << 14, 8, 4, 64)[0] == 0
        os._exit(min(255, (resource.getrusage(resource.RUSAGE_SELF).ru_maxrss - before) >> 10) if is_right else 255)
    mib = os.waitstatus_to_exitcode(os.waitpid(child, 0)[1])
    assert mib < 24, f"{mib} MiB for a table of 16"


for test in (keys, overlapping, choices, limits, texts, one_table):
    test()
for name, library in BY_COSTS.items():
    print(f"ok {name}: as hashlib" + (", and as its own library" if library else ""))
