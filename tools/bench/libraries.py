"""Verifications of a password by this library and by others: functions that return the nanoseconds that one took, and whether
it accepts the password.

This library and libxcrypt verify by their own calls. The others derive the key, which is compared. This library keeps its
tables between calls, in pages of 2 MiB; the others allocate theirs. If all are to do alike, this library allocates too, and
Linux gives each process pages of 4 KiB only.
"""

import ctypes
import ctypes.util
import hashlib
import mmap
import time

from tools.bench import ours
from tools.shared_library import buffers, declared, loaded
from tools.tests import crypt64
from tools.tests.worker import Worker

OURS, TWO, FOUR = "this library", "each of a batch of two", "each of a batch of four"
PASSWORD, SALT = b"pleaseletmein", b"SodiumChloride"
CRYPT_DATA = 32768  # the size of the structure crypt_data of crypt(3)
PR_SET_THP_DISABLE = 41  # of prctl(2); children inherit it


def timed(verify, count=1):
    """A verification by a call that makes this number of them."""

    def verification():
        begun = time.perf_counter_ns()
        accepted = verify()
        return (time.perf_counter_ns() - begun) // count, accepted

    return verification


def in_hasher(library, params, text):
    """In up to four tables, on one processor."""
    hasher = ours.hasher(library, params, max_tables=4, processors=1)
    return lambda: library.scrypt_hasher_verify(hasher, PASSWORD, len(PASSWORD), text, len(text), None, -1) == 0


def allocating(library, text):
    """In a table of its own."""
    return lambda: library.scrypt_verify_unlimited(PASSWORD, len(PASSWORD), text, len(text)) == 0


def in_batch(library, params, text, count):
    logins = (declared.Login * count)(*[(PASSWORD, len(PASSWORD), text, len(text))] * count)
    statuses, rooms = (ctypes.c_int * count)(*[-1] * count), []
    lens = [length * count for length in ours.buffer_lens(library, params)]
    for length, width in zip(lens, (1, 4, 4)):
        room = mmap.mmap(-1, length * width)
        room.madvise(mmap.MADV_HUGEPAGE)
        rooms.append((ctypes.c_char * len(room)).from_buffer(room))
    given = buffers(rooms, lens)
    return lambda: library.scrypt_verify_batch_with_buffers(logins, count, 0, 0, 0, 0, 0, statuses, given) == 0 and not any(statuses)


def libxcrypt(library, text):
    library.crypt_r.argtypes, library.crypt_r.restype = [ctypes.c_char_p, ctypes.c_char_p, ctypes.c_void_p], ctypes.c_char_p
    data = ctypes.create_string_buffer(CRYPT_DATA)
    return lambda: library.crypt_r(PASSWORD, text, data) == text


def deriving(derive, params, key):
    """By a call that libscrypt-kdf and libsodium declare alike."""
    data, size, word = ctypes.c_char_p, ctypes.c_size_t, ctypes.c_uint32
    derive.argtypes = [data, size, data, size, ctypes.c_uint64, word, word, data, size]
    (log_n, r, p), made = params, ctypes.create_string_buffer(len(key))
    arguments = PASSWORD, len(PASSWORD), SALT, len(SALT), 1 << log_n, r, p, made, len(key)
    return lambda: derive(*arguments) == 0 and made.raw == key


def openssl(log_n, r, p):
    """The key, by hashlib."""
    return hashlib.scrypt(PASSWORD, salt=SALT, n=1 << log_n, r=r, p=p, dklen=32, maxmem=(1 << 31) - 1)


def by_worker(worker, params, key):
    """In the time that the worker measured, without the pipe to it."""

    def verification():
        nanoseconds, derived = worker.derive(PASSWORD, SALT, params, len(key))
        return nanoseconds, derived == key

    return verification


def verifications(path, workers, params, alike):
    """Each verification of a hash with these parameters, by its name: by this library at this path, by these workers (as
    NAME=WORKER), and by the libraries that are installed."""
    library, key = loaded(path), openssl(*params)
    text = crypt64.text(SALT.decode(), key, *params).encode()
    made = {OURS: timed(allocating(library, text) if alike else in_hasher(library, params, text))}
    if alike and ctypes.CDLL(None).prctl(PR_SET_THP_DISABLE, 1, 0, 0, 0):
        raise OSError("Linux does not let a process do without pages of 2 MiB")
    if params[2] == 1 and not alike:
        made |= {name: timed(in_batch(library, params, text, count), count) for name, count in ((TWO, 2), (FOUR, 4))}
    for name, worker in (it.split("=", 1) for it in workers):
        made[name] = by_worker(Worker(name, worker), params, key)
    if found := ctypes.util.find_library("crypt"):
        made["libxcrypt"] = timed(libxcrypt(ctypes.CDLL(found), text))
    if found := ctypes.util.find_library("sodium"):
        sodium = ctypes.CDLL(found)
        sodium.sodium_init()  # before it, libsodium does not use SSE2
        made["libsodium"] = timed(deriving(sodium.crypto_pwhash_scryptsalsa208sha256_ll, params, key))
    if found := ctypes.util.find_library("scrypt-kdf"):
        made["libscrypt-kdf"] = timed(deriving(ctypes.CDLL(found).crypto_scrypt, params, key))
    return made | {"OpenSSL": timed(lambda: openssl(*params) == key)}
