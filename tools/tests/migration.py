#!/usr/bin/env python3
"""Differential test against other programs: converts hashes and keys that they make now, and
verifies them by the program.

usage: python3 -m tools.tests.migration PROGRAM [SEED]

Each part draws passwords, lets another program hash them, converts the hashes with Python's
scrypt_c.migration (Go with its package), and lets PROGRAM verify each with the right and a wrong
password. Hashes that only one of the two rejects are tried too. The library is in
build/lib. Missing programs are named; the status is 1 if something differs.
"""

import base64
import ctypes
import hashlib
import importlib
import json
import os
import random
import shutil
import string
import subprocess
import sys
import tempfile

from tools.tests import crypt64, known, oracle, reference
from tools.tests.oracle import some_bytes, some_params
from tools.tests.runs import report, run

sys.path.append("/usr/lib/python3/dist-packages")  # Debian's packages, for an interpreter that is not the system's
os.environ.setdefault("SCRYPT_C_LIBRARY", "build/lib")
sys.path.insert(0, "bindings/python")
import scrypt_c  # noqa: E402
from scrypt_c import migration  # noqa: E402

CASES = 20
GO_SOURCES = "/usr/share/gocode"  # where Debian has the sources of Go's libraries

# Texts of Django's own tests, each after its password: Django has scrypt from 4.0.
DJANGO_TEXTS = [
    ("lètmein", "scrypt$16384$seasalt$8$1$"
     "Qj3+9PPyRjSJIebHnG81TMjsqtaIGxNQG/aEB/NYafTJ7tibgfYz71m0ldQESkXFRkdVCBhhY8mx7rQwite/Pw=="),
    ("lètmein", "scrypt$16384$seasalt$8$5$"
     "ECMIUp+LMxMSK8xB/IVyba+KYGTI7FTnet025q/1f/vBAVnnP3hdYqJuRi+mJn6ji6ze3Fbb7JEFPKGpuEf5vw=="),
]

# Texts of `rec_control hash-password` of PowerDNS Recursor 4.8.8, each after its password.
POWERDNS_TEXTS = [
    ("hunter42", "$scrypt$ln=10,p=1,r=8$q/DDJMhENbuu2hq4tJei7A==$FwyCuonJwiRa+XjhwmvqR8BYDaPVYo6nmTxEtAJ7l/o="),
    ("hunter42", "$scrypt$ln=12,p=1,r=8$/EmzsGN/zcbAcwBJ6ggJ+w==$IVAqvlLo4dRu+iT8/OBQH+mQ0BcEwcTHtxxtFKXEYhc="),
]

# Spellings that passlib reads and the program does not: a part of a text with the salt `s`, and
# another spelling.
PASSLIB_SPELLINGS = [
    ("ln=4", "ln=04", "ParamInvalid ln"),
    ("$cw$", "$cw==$", "EncodingInvalid"),
    ("$cw$", "$cx$", "EncodingInvalid"),
]

# Hashes that crypt(3) does not verify and the program does: log_n, r, p and the key's length, and a
# password.
CRYPT_REFUSES = [
    ((0, 8, 1, 32), b"password"),
    ((1, 8, 1, 32), b"password"),
    ((4, 8, 1, 31), b"password"),
    ((4, 8, 1, 33), b"password"),
    ((4, 8, 1, 32), b"p" * 512),
]

GO = """package main

import (
	"encoding/hex"
	"encoding/json"
	"fmt"
	"os"

	"golang.org/x/crypto/scrypt"
	proved "nilomafy.example/scrypt"
)

func main() {
	for in := json.NewDecoder(os.Stdin); in.More(); {
		var password, letters string
		var n, r, p, length int
		if err := in.Decode(&[]any{&password, &letters, &n, &r, &p, &length}); err != nil {
			panic(err)
		}
		salt, _ := hex.DecodeString(letters)
		key, err := scrypt.Key([]byte(password), salt, n, r, p, length)
		var text string
		if err == nil {
			text, err = proved.StoredText(salt, key, n, r, p)
		}
		if err != nil {
			text = err.Error()
		}
		fmt.Println(text)
	}
}
"""


def lacks(*what_and_packages):
    subprocess.run(["tools/lacks", *what_and_packages], check=True)


class Missing(Exception):
    """A program or library that a part needs is not installed."""


def imported(module, package):
    try:
        return importlib.import_module(module)
    except ImportError:
        raise Missing(module, package) from None


def loaded(library, package):
    try:
        return ctypes.CDLL(library)
    except OSError:
        raise Missing(library, package) from None


class Trial:
    """Runs of the program as cases, and random input for them."""

    def __init__(self, program, rng):
        self.program, self.rng = program, rng

    def verified(self, text, password):
        return oracle.verified(self.program, text, password.encode() if isinstance(password, str) else password)

    def rejected(self, text, error):
        return text, run([self.program, "verify", text], b"password"), (2, "", f"hash refused: {error}\n")

    def converted(self, convert, text, password):
        """A text that is rejected as it is, and verified once it is converted."""
        return [self.rejected(text, "EncodingInvalid"), self.verified(convert(text), password)]

    def answer(self, words, password):
        return run([self.program, *(str(it) for it in words)], password)[1].strip()

    def key(self, password, salt, log_n, r, p, length):
        return bytes.fromhex(self.answer(["key", log_n, r, p, length, salt.hex()], password))

    def hash_mcf(self, log_n, r, p, length, salt=b"salt", password=b"password"):
        return self.answer(["hash", "mcf", log_n, r, p, salt.hex(), length], password)

    def params(self):
        """A small n, r and p."""
        return 1 << self.rng.randrange(6, 11), self.rng.choice((1, 2, 8)), self.rng.randrange(1, 4)

    def word(self, least=1, most=40):
        letters = string.ascii_letters + string.digits
        return "".join(self.rng.choices(letters, k=self.rng.randrange(least, most + 1)))

    def texts(self):
        """Passwords and salts that are text, and parameters."""
        return [(self.word(), self.word(8, 32), *self.params()) for _ in range(CASES)]


def passlib(trial):
    """passlib's hashes are verified. It finds the same ones weaker, and makes the same new ones,
    with keys of 32 bytes, its only length; but it also rehashes if r or p is above the wanted value.
    """
    scrypt = imported("passlib.hash", "python3-passlib").scrypt

    def made(password, salt, n, r, p, **more):
        costs = {"rounds": n.bit_length() - 1, "block_size": r, "parallelism": p}
        return scrypt.using(salt=salt.encode(), **costs, **more).hash(password)

    for case in trial.texts():
        yield trial.verified(made(*case), case[0])
        yield trial.verified(made(*case, ident="$7$"), case[0])
        yield trial.verified(migration.from_passlib(made(*case, ident="$7$")), case[0])
    for salt in ["", *(trial.word(65, 200) for _ in range(9))]:
        yield from trial.converted(migration.from_passlib, made("pass", salt, *trial.params()), "pass")
    text = made("password", "s", 16, 8, 1)
    for old, new, error in PASSLIB_SPELLINGS:
        other = text.replace(old, new)
        yield f"passlib verifies {other}", (other != text, scrypt.verify("password", other)), (True, True)
        yield trial.rejected(other, error)
        yield trial.verified(migration.from_passlib(other), "password")
    for part in (",r=8", ",p=1"):  # here, a missing parameter has its default
        other = text.replace(part, "")
        yield f"passlib rejects {other}", raises(scrypt.verify, "password", other), True
        yield trial.verified(other, "password")
    other = text.replace("ln=4", "ln=0")
    refused = [raises(scrypt.verify, "password", other), raises(migration.from_passlib, other)]
    yield f"passlib and from_passlib reject {other}", refused, [True, True]
    for _ in range(2 * CASES):
        (log_n, r, p, _), (*wanted, _) = some_params(trial.rng), some_params(trial.rng)
        text, salt = made("password", "stored", 1 << log_n, r, p), some_bytes(trial.rng, 20) + b"!"
        weaker = reference.is_weaker((log_n, r, p), wanted)
        handler = scrypt.using(salt=salt, min_rounds=wanted[0], default_rounds=wanted[0], block_size=wanted[1],
                               parallelism=wanted[2])
        yield f"passlib replaces {text} for {wanted}", handler.needs_update(text), weaker or [r, p] != wanted[1:]
        new = trial.answer(["rehash", "phc", *wanted, 32, salt.hex(), text], b"password")
        yield f"{text} for {wanted}", new, handler.hash("password") if weaker else "ok"


def django(trial):
    for password, text in DJANGO_TEXTS:
        yield from trial.converted(migration.from_django, text, password)
    try:
        from django.conf import settings
        settings.configure()
        from django.contrib.auth.hashers import ScryptPasswordHasher
    except ImportError:
        lacks("Django 4", "python3-django>=4")  # its encoder: its texts above were verified
        return
    for case in trial.texts():
        yield from trial.converted(migration.from_django, ScryptPasswordHasher().encode(*case), case[0])


def powerdns(trial):
    for password, text in POWERDNS_TEXTS:
        yield from trial.converted(migration.from_powerdns, text, password)


def libxcrypt(trial):
    library = loaded("libcrypt.so.1", "libcrypt1")
    library.crypt.restype = ctypes.c_char_p

    def crypt(password, setting):
        """The hash that crypt(3) makes."""
        return library.crypt(password, setting.encode()).decode()

    for password, text in (b"pleaseletmein", known.CRYPT), (b"pleaseletmein", known.PLAIN), (b"", known.EMPTY):
        yield "a hash of the tests", crypt(password, text), text
    for password, salt, n, r, p in trial.texts():
        ours = trial.hash_mcf(n.bit_length() - 1, r, p, 32, some_bytes(trial.rng, 20), password.encode())
        yield "crypt(3) verifies", crypt(password.encode(), ours), ours
        params = crypt64.params(n.bit_length() - 1, r, p)
        yield trial.verified(crypt(password.encode(), f"{params}{salt}$"), password)
        setting = f"{params}{salt[:20]}$a${salt}$"  # it takes a salt with a $
        text = crypt(password.encode(), setting)
        yield f"crypt(3) takes the salt of {text}", text.startswith(setting), True
        yield from trial.converted(migration.from_crypt, text, password)
    key = hashlib.scrypt(b"password", salt=b"a+b", n=16, r=1, p=1, dklen=32)
    texts = [(f"{crypt64.params(4, 1, 1)}a+b${crypt64.letters(key)}", b"password")]
    texts += [(trial.hash_mcf(*params, password=it), it) for params, it in CRYPT_REFUSES]
    for text, password in texts:
        yield trial.verified(text, password)
        yield f"crypt(3) verifies {text}", crypt(password, text) == text, False


def libsodium(trial):
    pwhash, exceptions = (imported(f"nacl.{it}", "python3-nacl") for it in ("pwhash", "exceptions"))
    for password, *_ in trial.texts()[:10]:
        text = pwhash.scrypt.str(password.encode(), opslimit=32768, memlimit=1 << 24).decode()
        yield trial.verified(text, password)
    for salt, length, is_verified in ((32, 32, True), (16, 32, False), (32, 33, False)):
        text = trial.hash_mcf(4, 8, 1, length, trial.rng.randbytes(salt))
        try:
            verdict = pwhash.scrypt.verify(text.encode(), b"password")
        except (exceptions.CryptoError, ValueError):
            verdict = False
        yield f"libsodium verifies {text}", verdict, is_verified


def libscrypt(trial):
    library = loaded("libscrypt.so.0", "libscrypt0")
    for password, _, n, r, p in trial.texts():
        text = ctypes.create_string_buffer(128)
        library.libscrypt_hash(text, password.encode(), n, r, p)
        yield from trial.converted(migration.from_libscrypt, text.value.decode(), password)
        salt = some_bytes(trial.rng, 15) + b"!"
        key = trial.key(password.encode(), salt, n.bit_length() - 1, r, p, 64)
        library.libscrypt_mcf(n, r, p, base64.b64encode(salt), base64.b64encode(key), text)
        made = text.value.decode()
        yield f"libscrypt verifies {made}", library.libscrypt_check(text, password.encode()) > 0, True
        yield trial.verified(migration.from_libscrypt(made), password)


def raises(call, *words, **named):
    """Whether a call raises ValueError."""
    try:
        call(*words, **named)
    except ValueError:
        return True
    return False


def of_hashlib(trial):
    for _ in range(2 * CASES):
        password, (n, r, p) = some_bytes(trial.rng, 80), trial.params()
        some, long = trial.rng.randrange(1, 200), trial.word(65, 300).encode()
        plain, short = (some_bytes(trial.rng, 63) + b"!", some + 9), ("ö".encode(), some % 10 + 1)
        salt, length = trial.rng.choice([plain, (b"", some), (long, some), short])
        key = hashlib.scrypt(password, salt=salt, n=n, r=r, p=p, dklen=length)
        yield f"the key of {salt}", trial.key(password, salt, n.bit_length() - 1, r, p, length), key
        yield trial.verified(migration.stored_text(salt, key, n, r, p), password)
    for password, salt, n, r, p in trial.texts():  # as Werkzeug 2.3 writes them
        key = hashlib.scrypt(password.encode(), salt=salt.encode(), n=n, r=r, p=p, dklen=64).hex()
        yield from trial.converted(migration.from_werkzeug, f"scrypt:{n}:{r}:{p}${salt}${key}", password)
    for salt in (b"\xff" * 65, b"$" * 65):
        yield f"neither format has the salt {salt}", raises(migration.stored_text, salt, bytes(32), 64, 8, 1), True
    for costs in ({"n": 1}, {"n": True}, {"n": 16, "dklen": 0}):
        refused = [raises(it, b"", salt=b"", r=8, p=1, **costs) for it in (hashlib.scrypt, scrypt_c.scrypt)]
        yield f"hashlib and scrypt reject {costs}", refused, [True, True]
    for log_n, r, p in ((0, 8, 1), (16, 1, 1), (17, 8, 1)):
        is_refused = raises(hashlib.scrypt, b"", salt=b"", n=1 << log_n, r=r, p=p, dklen=10)
        yield f"hashlib refuses {log_n}, {r}, {p}", (is_refused, len(trial.key(b"", b"", log_n, r, p, 10))), (True, 10)


def go(trial):
    if not shutil.which("go"):
        raise Missing("go", "golang-go")
    if not os.path.isdir(f"{GO_SOURCES}/src/golang.org/x/crypto/scrypt"):
        raise Missing("x/crypto", "golang-golang-x-crypto-dev")
    salts = [(some_bytes(trial.rng, 63) + b"!").hex() for _ in range(CASES)]
    cases = [(trial.word(), it, *trial.params(), trial.rng.randrange(10, 65)) for it in salts]
    cases += [("pass", "00", 1 << 16, 1, 1, 32), ("pass", "00", 1, 8, 1, 32)]
    with tempfile.TemporaryDirectory() as folder:
        shutil.copytree("bindings/go", f"{folder}/src/nilomafy.example/scrypt")
        source = f"{folder}/main.go"
        with open(source, "w", encoding="utf-8") as file:
            file.write(GO)
        paths = {"GO111MODULE": "off", "GOPATH": f"{folder}:{GO_SOURCES}", "GOFLAGS": ""}
        _, printed, errors = run(["go", "run", source], "\n".join(map(json.dumps, cases)).encode(), env=os.environ | paths)
    *made, last = printed.splitlines() or [""]
    for case, text in zip(cases, made):
        yield trial.verified(text, case[0])
    yield f"x/crypto refuses N = 1 {errors}", (len(made), last), (len(cases) - 1, "scrypt: N must be > 1 and a power of 2")


def main(program, seed=7914):
    trial, is_well = Trial(os.path.abspath(program), random.Random(int(seed))), True
    for part in (passlib, django, powerdns, libxcrypt, libsodium, libscrypt, of_hashlib, go):
        try:
            is_well = report(part.__name__, part(trial)) and is_well
        except Missing as missing:
            lacks(*missing.args)
    sys.exit(not is_well)


if __name__ == "__main__":
    main(*sys.argv[1:])
