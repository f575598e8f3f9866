"""scrypt (RFC 7914) in plain Python, written from the standard, for parameters that OpenSSL
rejects.

It is slow, and takes N = 1 and N from 2^(16*r) too. It also makes hashes, and compares which are
weaker than wanted, as defined in docs/DECISIONS.md.
"""

import hashlib
import struct

from tools.tests import crypt64, phc


def rotate(x, k):
    return ((x << k) | (x >> (32 - k))) & 0xFFFFFFFF


def salsa20_8(block):
    """The Salsa20/8 core of 16 words (section 3)."""
    x = list(block)

    def quarter(a, b, c, d):
        x[b] ^= rotate((x[a] + x[d]) & 0xFFFFFFFF, 7)
        x[c] ^= rotate((x[b] + x[a]) & 0xFFFFFFFF, 9)
        x[d] ^= rotate((x[c] + x[b]) & 0xFFFFFFFF, 13)
        x[a] ^= rotate((x[d] + x[c]) & 0xFFFFFFFF, 18)

    for _ in range(4):
        for first in range(4):
            quarter(*[(4 * k + 5 * first) % 16 for k in range(4)])
        for first in range(4):
            quarter(*[4 * first + (k + first) % 4 for k in range(4)])
    return [(a + b) & 0xFFFFFFFF for a, b in zip(x, block)]


def xor(a, b):
    return [p ^ q for p, q in zip(a, b)]


def block_mix(words):
    """scryptBlockMix (section 4)."""
    blocks = [words[at : at + 16] for at in range(0, len(words), 16)]
    x, y = blocks[-1], []
    for block in blocks:
        x = salsa20_8(xor(x, block))
        y.append(x)
    return sum(y[0::2], []) + sum(y[1::2], [])


def ro_mix(words, n):
    """scryptROMix (section 5)."""
    table = []
    for _ in range(n):
        table.append(words)
        words = block_mix(words)
    for _ in range(n):
        j = (words[-16] | words[-15] << 32) % n
        words = block_mix(xor(words, table[j]))
    return words


def scrypt(password, salt, log_n, r, p, length):
    """scrypt (section 6)."""
    size, mixed = 128 * r, b""
    b = hashlib.pbkdf2_hmac("sha256", password, salt, 1, p * size)
    for at in range(0, p * size, size):
        words = struct.unpack(f"<{32 * r}I", b[at : at + size])
        mixed += struct.pack(f"<{32 * r}I", *ro_mix(words, 1 << log_n))
    return hashlib.pbkdf2_hmac("sha256", password, mixed, 1, length)


def key(password, salt, log_n, r, p, length):
    """The key by OpenSSL, or by plain Python if OpenSSL rejects the parameters."""
    if 1 <= log_n < 16 * r:
        return hashlib.scrypt(password, salt=salt, n=1 << log_n, r=r, p=p, dklen=length, maxmem=1 << 30)
    return scrypt(password, salt, log_n, r, p, length)


def hash_of(form, password, salt, log_n, r, p, length):
    """The text of a hash in the format of that name. The salt of a `$7$` key is the salt's letters."""
    if form == "mcf":
        field = crypt64.letters(salt)
        return crypt64.text(field, key(password, field.encode(), log_n, r, p, length), log_n, r, p)
    return phc.text(salt, key(password, salt, log_n, r, p, length), log_n, r, p)


def accepted(log_n, r, p):
    """Whether parameters are accepted: the table has less than 2^64 bytes, and r * p is below 2^30."""
    return r > 0 and p > 0 and 128 * r << log_n < 1 << 64 and r * p < 1 << 30


def is_weaker(stored, wanted):
    """Whether log_n, r, p or the length of the key is below the wanted value; one of the four is enough."""
    return any(has < wants for has, wants in zip(stored, wanted))
