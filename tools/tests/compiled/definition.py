"""The key of scrypt as RFC 7914 defines it, of numbers or of symbolic words (words.py): bytes are a list of words below
256. The Salsa20/8 core and the block mix (sections 3 and 4) are those of tools/tests/reference.py, which works on both.
"""

from math import isqrt

from tools.tests.compiled.words import ALL, atom, chosen, rotate, shift_right
from tools.tests.reference import block_mix, xor

# ---- SHA-256 (FIPS 180-4) ----

PRIMES = [n for n in range(2, 312) if all(n % k for k in range(2, n))]


def cube_root(n):
    """The greatest number whose cube is at most n."""
    root = 0
    for i in reversed(range(n.bit_length() // 3 + 1)):
        root += (root + (1 << i)) ** 3 <= n and 1 << i
    return root


# The first 32 bits of the fractions of the roots of primes (sections 5.3.3 and 4.2.2).
INITIAL_STATE = [isqrt(prime << 64) & ALL for prime in PRIMES[:8]]
ROUND_CONSTANTS = [cube_root(prime << 96) & ALL for prime in PRIMES]


def compress(state, block, named=lambda it: it):
    """The next hash value (section 6.2.2). Its words may be given names (words.named)."""
    w = list(block)
    for t in range(16, 64):
        sigma0 = rotate(w[t - 15], -7) ^ rotate(w[t - 15], -18) ^ shift_right(w[t - 15], 3)
        sigma1 = rotate(w[t - 2], -17) ^ rotate(w[t - 2], -19) ^ shift_right(w[t - 2], 10)
        w.append(sigma1 + w[t - 7] + sigma0 + w[t - 16] & ALL)
    a, b, c, d, e, f, g, h = state
    for constant, word in zip(ROUND_CONSTANTS, w):
        sum1 = rotate(e, -6) ^ rotate(e, -11) ^ rotate(e, -25)
        t1 = h + sum1 + ((e & f) ^ ((e ^ ALL) & g)) + constant + word & ALL
        sum0 = rotate(a, -2) ^ rotate(a, -13) ^ rotate(a, -22)
        t2 = sum0 + ((a & b) ^ (a & c) ^ (b & c)) & ALL
        a, b, c, d, e, f, g, h = t1 + t2 & ALL, a, b, c, d + t1 & ALL, e, f, g
    return [named(x + y & ALL) for x, y in zip((a, b, c, d, e, f, g, h), state)]


def compressed(state, block):
    """The same; of symbolic words, as a function that is known by its arguments alone (check.Compression)."""
    given = (*state, *block)
    if all(type(it) is int for it in given):
        return compress(state, block)
    return [atom("SHA-256", i, *given) for i in range(8)]


BIG, LITTLE = (24, 16, 8, 0), (0, 8, 16, 24)  # the shift of each byte of a word


def bytes_of(words, order):
    return [shift_right(it, k) & 0xFF for it in words for k in order]


def words_of(some_bytes, order):
    made = []
    for at in range(0, len(some_bytes), 4):
        word = 0
        for it, k in zip(some_bytes[at : at + 4], order):
            word |= it << k
        made.append(word)
    return made


def sha256(message):
    padded = [*message, 0x80, *[0] * ((55 - len(message)) % 64), *(8 * len(message)).to_bytes(8, "big")]
    state = INITIAL_STATE
    for at in range(0, len(padded), 64):
        state = compressed(state, words_of(padded[at : at + 64], BIG))
    return bytes_of(state, BIG)


# ---- HMAC (RFC 2104) and PBKDF2 of one iteration (RFC 8018) ----


def hmac(key, text):
    key = sha256(key) if len(key) > 64 else key
    key = [*key, *[0] * (64 - len(key))]
    return sha256([it ^ 0x5C for it in key] + sha256([it ^ 0x36 for it in key] + text))


def pbkdf2(password, salt, length):
    """Block i is HMAC of the salt and of i in four bytes, counted from 1."""
    blocks = [hmac(password, [*salt, *i.to_bytes(4, "big")]) for i in range(1, 1 + -(-length // 32))]
    return [it for block in blocks for it in block][:length]


# ---- scrypt (RFC 7914) ----


def integerify(x):
    """The low word of the last block (section 5), whose low bits choose a row."""
    return x[-16]


def step(x, row):
    """One step of the second loop of scryptROMix, where `row` is V[j]."""
    return block_mix(xor(x, row))


def ro_mix(x, n, rows):
    """scryptROMix (section 5). The words by which rows are chosen are put into `rows`."""
    v = []
    for _ in range(n):
        v.append(x)
        x = block_mix(x)
    for _ in range(n):
        rows.append(integerify(x))
        j = integerify(x) & n - 1
        x = step(x, [chosen(j, column) for column in zip(*v)])
    return x


def scrypt(password, salt, log_n, r, p, length):
    """The key (section 6), of numbers."""
    b, size, mixed = pbkdf2(password, salt, p * 128 * r), 128 * r, []
    for at in range(0, p * size, size):
        mixed += bytes_of(ro_mix(words_of(b[at : at + size], LITTLE), 1 << log_n, []), LITTLE)
    return bytes(pbkdf2(password, mixed, length))
