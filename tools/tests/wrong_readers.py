"""Plants faults into a reader in plain Python, and looks for a test of vectors/ that finds each. The reader is that of
hostile.py with the keys of reference.py; without a fault no test may differ.

usage: python3 -m tools.tests.wrong_readers
"""

import base64
import functools
import hashlib
import json
import re
import sys
from unittest import mock

from tools.generate import header
from tools.tests import crypt64, hostile, phc, reference

MOST = 1 << 28  # bytes of a table or of the chunks; what needs more fails
derived = functools.cache(reference.key)
verdict, parts, crypt_read = hostile.verdict, phc.parts, crypt64.read


class NoEnd(Exception):
    pass


class Steps:
    """What a fault replaces, besides functions of the reader."""

    password = staticmethod(lambda password: password)
    p = staticmethod(lambda r, p: p)
    key = staticmethod(derived)
    equal = staticmethod(lambda key, stored: key == stored)
    text = staticmethod(lambda text: text)


def key_of(password, salt, log_n, r, p, length):
    """The key; None is an error."""
    p = Steps.p(r, p)
    if 128 * r << log_n > MOST or 128 * r * p > MOST:
        return None
    return Steps.key(Steps.password(password), salt, log_n, r, p, length)


def key_answer(test):
    n, r, p, length = (test[it] for it in ("N", "r", "p", "dkLen"))
    if n.bit_count() != 1 or not reference.accepted(n.bit_length() - 1, r, p) or not 0 < length < 1 << 30:
        return None
    key = key_of(data(test["password"]), data(test["salt"]), n.bit_length() - 1, r, p, length)
    return None if key is None else key.hex() == test["dk"]


def text_answer(test):
    def compared(salt, log_n, r, p, stored):
        key = key_of(data(test["password"]), salt, log_n, r, p, len(stored))
        return "OK" if key is not None and Steps.equal(key, stored) else "MISMATCH"

    try:
        return hostile.verdict(Steps.text(data(test["hash"])).decode(), compared) == "OK" or None
    except UnicodeDecodeError:
        return None


def data(it):
    return bytes.fromhex(it) if isinstance(it, str) else b"".join(bytes.fromhex(one) * times for one, times in it)


def params(value_of=lambda name, value: int(value), is_strict=True):
    """The parameters of pairs, with a fault."""
    def of(pairs):
        found = {"ln": 17, "r": 8, "p": 1}
        for name, value in (it.split("=", 1) for it in (pairs.split(",") if pairs else [])):
            if name in found:
                found[name] = value_of(name, value)
            elif is_strict:
                return "HASH_PARAMS_INVALID"
        return tuple(found.values()) if reference.accepted(*found.values()) else "HASH_PARAMS_INVALID"
    return of


def lax(text):
    """Base64 that ignores other letters, and a letter too many."""
    letters = re.sub("[^A-Za-z0-9+/]", "", text)
    letters = letters[: len(letters) - (len(letters) % 4 == 1)]
    return base64.b64decode(letters + "=" * (-len(letters) % 4))


def early(text, by):
    """Derives before it has read the whole text."""
    found = re.match(r"\$scrypt\$ln=(\d+),", text)
    if found and 20 < int(found[1]) < 57 and not parts(text):
        raise NoEnd
    return verdict(text, by)


def text_with(old, new):
    return re.compile(phc.TEXT.pattern.replace(old, new), re.VERBOSE | re.DOTALL)


def unmixed(password, length):
    """The key without a chunk."""
    return hashlib.pbkdf2_hmac("sha256", password, b"", 1, length)


def in_32_bits(log_n, r, p):
    return r > 0 and p > 0 and 128 * r << log_n < 1 << 64 and r * p % (1 << 32) < 1 << 30


FAULTS = {
    "none": [],
    "N = 1 has neither a key nor an error": [(Steps, "key", lambda *of: b"" if of[2] == 0 else derived(*of))],
    "r * p in 32 bits": [(reference, "accepted", in_32_bits),
                         (Steps, "p", lambda r, p: p if r * p < 1 << 30 else max(1, r * p % (1 << 32) // r))],
    "p = 0": [(reference, "accepted", lambda log_n, r, p: r > 0 and 128 * r << log_n < 1 << 64 and r * p < 1 << 30),
              (Steps, "key", lambda *of: derived(*of) if of[4] else unmixed(of[0], of[5]))],
    "other letters ignored in Base64": [(phc, "TEXT", text_with("[a-zA-Z0-9+/]+", "[^$]+")), (phc, "read", lax)],
    "other letters ignored in $7$": [(crypt64, "read", lambda it: crypt_read(re.sub("[^./0-9A-Za-z]", "", it)))],
    "a derivation before the end of the text": [(hostile, "verdict", early)],
    "ln in a byte": [(hostile, "phc_params", params(lambda name, it: int(it) % 256 if name == "ln" else int(it)))],
    "ln modulo 64": [(hostile, "phc_params", params(lambda name, it: int(it) % 64 if name == "ln" else int(it)))],
    "r and p in 32 bits": [(hostile, "phc_params", params(lambda name, it: int(it) % (1 << 32)))],
    "octal numbers": [(hostile, "phc_params", params(lambda _, it: int(it, 8 if it[0] == "0" else 10)))],
    "numbers as Python reads them": [(phc, "TEXT", text_with("[a-zA-Z0-9/+.-]+", "[^,$]+")),
                                     (hostile, "phc_params", params())],
    "unknown parameters ignored": [(hostile, "phc_params", params(is_strict=False))],
    "the last of two values": [(phc, "parts", lambda it: parts(re.sub(r"ln=\d+,(ln=\d+)", r"\1", it)))],
    "a field after the key ignored": [(phc, "parts", lambda it: parts("$".join(it.split("$")[:5])))],
    "32 bytes compared": [(Steps, "equal", lambda key, stored: key[:32] == stored[:32])],
    "72 bytes of the password": [(Steps, "password", lambda it: it[:72])],
    "the password up to a zero": [(Steps, "password", lambda it: it.split(b"\0")[0])],
    "seven bits of a letter": [(Steps, "text", lambda it: bytes(byte & 127 for byte in it))],
}


def found_by(files):
    """The flags of the tests that differ."""
    flags = set()
    for name, tests in files.items():
        for test in tests:
            try:
                answer = key_answer(test) if name == "kdf" else text_answer(test)
            except NoEnd:
                answer = "no end"
            except (ValueError, OverflowError, MemoryError):
                answer = None
            if answer not in {"valid": [True], "invalid": [None], "acceptable": [True, None]}[test["result"]]:
                flags.add(test["flags"][0])
    return sorted(flags)


def main():
    files = {}
    for name in ("kdf", "phc", "mcf"):
        groups = json.loads((header.TOP / f"vectors/scrypt_{name}_test.json").read_text("utf-8"))["testGroups"]
        files[name] = [it for group in groups for it in group["tests"] if "LargeMemory" not in it["flags"]]
    failed = []
    for fault, replaced in FAULTS.items():
        patches = [mock.patch.object(*it) for it in replaced]
        for it in patches:
            it.start()
        flags = found_by(files)
        for it in patches:
            it.stop()
        print(f"{fault}: {', '.join(flags) or 'no test differs'}", flush=True)
        if (fault == "none") == bool(flags):
            failed.append(fault)
    sys.exit("; ".join(failed) or 0)


if __name__ == "__main__":
    main()
