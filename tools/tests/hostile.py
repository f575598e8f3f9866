"""Fuzzes the verifier: compares its verdicts on hostile hashes with a reader in plain Python.

usage: python3 -m tools.tests.hostile LIBRARY TEXTS [SEED]

LIBRARY is libscrypt_c.so. First come two long texts, all texts that are one character away from a
text of each format, and the `$7$` hashes with a key of up to three letters. Then come TEXTS random
texts of both formats: valid ones, and valid ones that are mutated, spliced, truncated, doubled, or
random, from a seed that is printed. Their log_n is 0 to 4, or so large that the allocation of the
table fails. Then the same texts, and texts with random parameters, are verified within limits, in
buffers for a log_n of 4 and an r * p of 16. The script prints the number of texts for each verdict,
and fails if a verdict differs, or if one has no text.
"""

import collections
import ctypes
import functools
import itertools
import random
import re
import resource
import sys

from tools.generate import header
from tools.shared_library import buffers, declared, loaded
from tools.tests import crypt64, known, phc, reference, runs

# the verdicts on the empty password, and within limits, in buffers: nothing is allocated there
VERDICTS = ["OK", "MISMATCH", "OUT_OF_MEMORY", "ALGORITHM", "ENCODING_INVALID", "OUTPUT_SIZE", "VERSION", "HASH_PARAM_INVALID",
            "HASH_PARAMS_INVALID"]
WITHIN = [*VERDICTS, "BUFFER_SIZE", "TOO_COSTLY", "KEY_TOO_SHORT"]
WITHIN.remove("OUT_OF_MEMORY")

# the maximum cost of a text
MEMORY = 4 << 30

# from this log_n on no machine has the table
GREAT = 50

# the default limits, and the lengths of the buffers
BOUNDS = MAX_MEM, MAX_WORK, MIN_KEY_LEN = [header.NUMBERS[f"DEFAULT_{it}"] for it in ("MAX_MEM", "MAX_WORK", "MIN_KEY_LEN")]
LENS = CHUNKS, TABLE, SCRATCH = 128 * 16, 32 * 16 * 16, 64 * 16

# parameters that are exactly, or almost, at the limits
ALLOWED = [(17, 8, 1), (17, 8, 4), (18, 8, 1), (20, 1, 4), (0, 1, 127131), (4, 16, 1), (4, 1, 16), (4, 1, 17), (5, 16, 1)]

# the characters that mutations insert
CHARACTERS = "$$$=,,.-/+" + crypt64.ALPHABET + "*!\x00\x7f \u00e9\u20ac"

# the texts whose neighbours are read: each part of a PHC string, and a key that is compared
BASES = [
    known.PASSLIB.replace("ln=16,r=8", "ln=1,r=1"),
    "$scrypt$v=1$ln=1$aA$AAAAAAAAAAAAAA",
    "$a-1$v=4294967295$x=/+.-,y=0$aGk",
    "$scrypt$v=0$ln=4,r=1,p=1",
    "$a$aGVsbG8$cCO9yzr9c0hGHA",
    known.EMPTY,
]

# a key of 750,000 bytes, and a text of a million empty fields
LONG = [known.EMPTY[: known.EMPTY.rindex("$") + 1] + "." * 1_000_000, "$7" + "$" * 1_000_000]

# the key of the empty password
derived_key = functools.lru_cache(maxsize=1 << 16)(functools.partial(reference.key, b""))


class Costly(Exception):
    """The parameters are too large to derive a key, and too small for the allocation to fail."""


def compared(salt, log_n, r, p, key):
    """The verdict once everything except the key is accepted."""
    # The chunks are allocated before the table, so they have to be small at every log_n.
    if r * p > 16:
        raise Costly
    if log_n >= GREAT:
        return "OUT_OF_MEMORY"
    if log_n > 4 or log_n == 0 and r * p > 2:
        raise Costly
    return "OK" if derived_key(salt, log_n, r, p, len(key)) == key else "MISMATCH"


def compared_within(salt, log_n, r, p, key):
    """The same within the limits, in the buffers."""
    chunks, table, scratch = 128 * r * p, 32 * r << log_n, 64 * r
    size, work = chunks + 4 * table + 4 * scratch, 4 * ((1 << log_n) + 32) * r * p
    if size > MAX_MEM or work > MAX_WORK:
        return "TOO_COSTLY"
    if len(key) < MIN_KEY_LEN:
        return "KEY_TOO_SHORT"
    if chunks > CHUNKS or table > TABLE or scratch > SCRATCH:
        return "BUFFER_SIZE"
    return compared(salt, log_n, r, p, key)


def phc_params(pairs):
    """The parameters of the pairs, or the error."""
    params = {"ln": 17, "r": 8, "p": 1}
    for pair in pairs.split(",") if pairs else []:
        name, value = pair.split("=", 1)
        if name not in params:
            return "HASH_PARAMS_INVALID"
        if not re.fullmatch(phc.DECIMAL, value, re.VERBOSE) or int(value) >= (256 if name == "ln" else 1 << 32):
            return "HASH_PARAM_INVALID"
        params[name] = int(value)
    if not reference.accepted(*params.values()):
        return "HASH_PARAMS_INVALID"
    return tuple(params.values())


def phc_verdict(text, by):
    """The verdict on a PHC string, by what compares its key."""
    parts = phc.parts(text)
    if parts is None:
        return "ENCODING_INVALID"
    name, version, pairs, salt, key = parts
    if name != "scrypt":
        return "ALGORITHM"
    if version is not None:
        return "VERSION"
    params = phc_params(pairs)
    if isinstance(params, str):
        return params
    if key is None:
        return "MISMATCH"
    return by(salt, *params, key)


def mcf_verdict(text, by):
    """The verdict on a text that is `$7` or begins with `$7$`, by what compares its key."""
    fields = text.split("$")[2:]
    params = fields[0].encode() if fields else b""
    if not params or params[0] > 127:
        return "ENCODING_INVALID"
    five = [params[at : at + 5].decode("latin-1") for at in (1, 6)]
    r, p = (crypt64.number(it) if len(it) == 5 else None for it in five)
    if r is None or p is None:
        return "ENCODING_INVALID"
    log_n = crypt64.number(chr(params[0]))
    if log_n is None or not reference.accepted(log_n, r, p):
        return "HASH_PARAMS_INVALID"
    key = crypt64.read(fields[1]) if len(fields) == 2 else None
    if key is None:
        return "ENCODING_INVALID"
    if not key:
        return "OUTPUT_SIZE"
    return by(params[11:], log_n, r, p, key)


def verdict(text, by):
    """The verdict on the empty password, by the library's choice of the format."""
    return mcf_verdict(text, by) if text == "$7" or text.startswith("$7$") else phc_verdict(text, by)


def calls(path):
    """The calls that verify a text with the empty password: one allocates, one has limits and uses the buffers.
    The cost of a text has the error of its verification."""
    library, cost, room = loaded(path), declared.Cost(), buffers([(ctypes.c_uint32 * it)() for it in LENS], LENS)

    def within(*text):
        status = library.scrypt_hash_cost(*text, *BOUNDS, cost)
        verified = library.scrypt_verify_limited_with_buffers(b"", 0, *text, *BOUNDS, room)
        # No password matches a hash without a key, and its cost cannot be read.
        is_keyless = (status, verified) == (header.STATUSES["OUTPUT_SIZE"], header.STATUSES["MISMATCH"])
        return verified if status in (0, verified) or is_keyless else status

    return functools.partial(library.scrypt_verify_unlimited, b"", 0), within


def random_params(rng):
    """Costs of every size, without end."""
    while True:
        r, p = (rng.randrange(1, 2 << rng.randrange(24)) for _ in range(2))
        yield rng.randrange(rng.choice((8, 24, 64))), r, p


def good_texts(rng):
    """Hashes of the empty password, and similar texts."""
    texts = ["$7$s/..../....$r/", "$scrypt$ln=56,r=1,p=1$aA$AAAAAAAAAAAAAA", "$7$2/..../....$"]
    texts += ["$scrypt$v=1$ln=1", "$argon2id$ln=4,r=1,p=1$aA$AAAAAAAAAAAAAA", "$scrypt$ln=4,r=1,p=1$aA"]
    for _ in range(60):
        log_n, r, p = rng.randrange(5), rng.choice((1, 1, 2, 8)), rng.choice((1, 1, 2))
        if log_n == 0:
            r = p = 1
        salt = rng.randbytes(rng.randrange(1, 17))
        for form, lengths in ("phc", (10, 32, 64)), ("mcf", (1, 32, 33)):
            texts.append(reference.hash_of(form, b"", salt, log_n, r, p, rng.choice(lengths)))
    return texts


def hostile(rng, texts):
    """A text: a valid one, or one that was made from valid ones."""
    text = rng.choice(texts)
    kind = rng.randrange(8)
    if kind == 0:
        return text
    if kind < 4:
        for _ in range(kind):
            at = rng.randrange(len(text) + 1)
            text = text[:at] + rng.choice(CHARACTERS) + text[at + rng.randrange(2) :]
        return text
    if kind == 4:
        other = rng.choice(texts)
        return text[: rng.randrange(len(text) + 1)] + other[rng.randrange(len(other) + 1) :]
    if kind == 5:
        return text[: rng.randrange(len(text) + 1)]
    if kind == 6:
        parts = text.split("$")
        at = rng.randrange(len(parts))
        parts[at] = rng.choice((parts[at] * 2, parts[at] + "$" + parts[at], rng.choice("059") + parts[at]))
        return "$".join(parts)
    front = rng.choice(("", "$", "$7$", "$7$2/..../....", "$scrypt$", "$scrypt$ln=4,", "$scrypt$r="))
    return front + "".join(rng.choice(CHARACTERS) for _ in range(rng.randrange(40)))


def neighbours(text):
    """Each text with one character replaced, put in or left out, in the order of places."""
    for at in range(len(text)):
        for byte in range(32, 127):
            yield text[:at] + chr(byte) + text[at + 1 :]
            yield text[:at] + chr(byte) + text[at:]
        yield text[:at] + text[at + 1 :]


def short_keys():
    """`$7$` hashes with every key of up to two letters, and of three: the first has at most one bit."""
    each = crypt64.ALPHABET
    of_three = itertools.product([each[bit] for bit in (0, 1, 2, 4, 8, 16, 32)], each, each)
    keys = [*(itertools.product(each, repeat=count) for count in range(3)), of_three]
    return ("$7$2/..../....$" + "".join(letters) for letters in itertools.chain(*keys))


def judged(texts, by=compared):
    """Texts and their verdicts, except for texts whose parameters are too large."""
    for text in texts:
        try:
            yield text, verdict(text, by)
        except Costly:
            pass


def agree(title, pairs, call, verdicts):
    """Whether the library has the same verdict on each text, and each verdict has a text."""
    encoded = ((text, text.encode(), wanted) for text, wanted in pairs)
    is_same = runs.report(title, ((repr(text[:100]), call(data, len(data)), header.STATUSES[wanted]) for text, data, wanted in encoded))
    fell = collections.Counter(wanted for _, wanted in pairs)
    missing = [it for it in verdicts if not fell[it]]
    print(f"{dict(fell)}; verdicts without a text: {missing or 'none'}")
    return is_same and not missing


def main(path, count, seed=None):
    count, seed = int(count), random.SystemRandom().randrange(1 << 32) if seed is None else int(seed)
    verified, within = calls(path)
    resource.setrlimit(resource.RLIMIT_AS, (MEMORY, MEMORY))
    print(f"hostile texts from seed {seed}")
    pairs = list(judged(itertools.chain(LONG, *map(neighbours, BASES), short_keys())))
    print(f"{len(pairs)} texts near good ones, long, or with a short key")
    rng = random.Random(seed)
    good = good_texts(rng)
    pairs += itertools.islice(judged(hostile(rng, good) for _ in itertools.count()), count)
    is_well = agree("hostile texts", pairs, verified, VERDICTS)
    params = ALLOWED + list(itertools.islice(random_params(random.Random(seed)), count // 10))
    texts = itertools.chain((text for text, _ in pairs), known.costly(), *(known.texts_of(*it) for it in params))
    sys.exit(not (agree("within limits", list(judged(texts, compared_within)), within, WITHIN) and is_well))


if __name__ == "__main__":
    main(*sys.argv[1:])
