"""PasswordHasher: formats, options, exact limits, updates, names that don't exist, and copies; and
arguments that it, scrypt and calibrate reject: C's types would truncate many to accepted ones."""

import copy
import functools
import hashlib
import math
import os
import pickle
import unittest

import scrypt_c
from scrypt_c import InvalidParamsError, InvalidSaltError, KeyTooShortError, Params, PasswordHasher
from scrypt_c import TooCostlyError, VerifyMismatchError, calibrate, errors, params_of
from scrypt_c.declared import MAX_OUTPUT_LEN, Status
from scrypt_c.migration import stored_text

SMALL = PasswordHasher(log_n=4)
RANGES = "r and p at least 1, 128 * r * 2^log_n below 2^64, r * p below 2^30"
KEY = "$c2FsdHNhbHQ$AAAAAAAAAAAAAAAAAAAA"  # a salt, and a key of 15 bytes
B32, B64 = 1 << 32, 1 << 64
made = functools.partial(PasswordHasher, log_n=4)
hashed = functools.partial(SMALL.hash, password="pw")
verify = functools.partial(SMALL.verify, hash="", password="")
key = functools.partial(scrypt_c.scrypt, password=b"pw", salt=b"salt", n=16, r=8, p=1)


def each(names, *values):
    return [{name: it} for name in names.split() for it in values]


# An error and some of its words, and calls: a function and its arguments.
REFUSED = [
    (InvalidParamsError, RANGES, made, [
        *each("log_n", 57, 260, 4 + B64, -252), *each("r", 0, 8 + B32, 8 - B32),
        *each("p", 1 + B32, -1, 1 << 27), {"log_n": 0, "r": 0, "p": 0}]),
    (InvalidParamsError, "; log_n is the logarithm of N, 14 for 16384", made, each("log_n", 64, 1 << 17)),
    (InvalidParamsError, "10 to 64 bytes", made, each("key_len", 9, 65, 32 + B64, 32 - B64)),
    (InvalidParamsError, RANGES, lambda it: it.memory + it.cores + it.work,
     each("it", Params(260), Params(-1), Params(4, 8 + B32), Params(4, 8, -1))),
    (InvalidParamsError, RANGES, key, [
        *each("n", 1 << 57, 1 << 260), *each("r", 0, -1, 8 + B32), *each("p", B32)]),
    (InvalidParamsError, "n must be a power of two above 1: ", key, each("n", 3, 0, -2, 16 - B64, 1, True)),  # as hashlib
    (InvalidSaltError, "1 to 64 bytes: salt_len=", made, each("salt_len", 0, 65, 16 + B64)),
    (InvalidSaltError, "1 to 64 bytes", hashed, each("salt", b"", bytes(65))),
    (scrypt_c.InvalidOutputLenError, f"1 to {MAX_OUTPUT_LEN} bytes", key,
     each("dklen", 0, -1, MAX_OUTPUT_LEN + 1, 32 + B64)),
    (scrypt_c.InvalidOutputLenError, f"1 to {MAX_OUTPUT_LEN} bytes", functools.partial(SMALL.key, "pw", salt=b"salt"),
     each("key_len", 0, -1, MAX_OUTPUT_LEN + 1, 32 + B64)),
    (TooCostlyError, "N=2^17, r=8, p=1 need 134220800 bytes (at most 134220799) and a work of 4195328", made, [
        {"log_n": 17, "max_mem": 134220799}]),
    (TooCostlyError, "134220800 bytes and a work of 4195328 (at most 4195327)", made, [{"log_n": 17, "max_work": 4195327}]),
    (TooCostlyError, "need", made, each("max_mem max_work", 0, -1)),  # not defaults
    (TooCostlyError, "N=2^4, r=8, p=1 need 19456 bytes (at most 19455) and a work of 1536", key, each("maxmem", 19455)),
    (TooCostlyError, "N=2^4, r=8, p=1 need 19456 bytes and a work of 1536 (at most ", key, each("max_work", 1535, 0)),
    (TooCostlyError, "even log_n=10, r=8, p=1 exceeds", calibrate, [
        {"seconds": 1e-6}, {"seconds": 1, "max_mem": 1 << 19}]),
    (KeyTooShortError, "at least 14", PasswordHasher(key_len=14).verify, [
        {"hash": f"$7$46..../....saltsalt${16 * '.'}", "password": ""}]),
    (scrypt_c.InvalidHashError, "not a PHC or $7$ hash", verify, each("hash", "$scrypt$ln=\ud800")),
    (ValueError, "max_tables must be at least 1: ", made, each("max_tables", 0, 1 - B64)),
    (ValueError, "processors must be at least 1: ", made, each("processors", 0, 1 - B64)),
    (InvalidParamsError, "min_key_len must be 0 to key_len, 32: ", made, each("min_key_len", 33, -1, 16 + B64)),
    (ValueError, "timeout must not be negative: ", made, each("timeout", -1, math.nan)),
    (ValueError, "maxmem must not be negative: ", key, each("maxmem", -1, 1 - B64)),
    (ValueError, "seconds must", calibrate, each("seconds", math.inf, 0, -1, math.nan, 10**400)),
    (TypeError, "must be a number of seconds, not str", made, each("timeout", "1")),
    (TypeError, "must be an int, not", made,
     each("log_n r p key_len salt_len max_mem max_work min_key_len max_tables processors", 17.0, "17")),
    (TypeError, "must be an int, not", key, each("n r p maxmem dklen max_work", 16.0, "16")),
    (TypeError, "must be bytes-like, not", key, each("password salt", 5, "text", None)),
    (TypeError, "a salt must be bytes-like, not str", hashed, each("salt", "saltsalt")),
    (TypeError, "a password must be str or bytes-like, not", verify, each("password", None, 5, ["pw"])),
    (TypeError, "a hash must be str or bytes, not", verify, each("hash", 5, bytearray(b"$"))),
    (TypeError, "a hash must be str or bytes, not", params_of, each("hash", None)),
    (MemoryError, "need 9223372036854776192 bytes", PasswordHasher(56, 1).hash, [{"password": ""}]),
    (scrypt_c.ScryptError, "unknown status", errors.check, each("status", 99)),  # of a newer library
    (OSError, "random", errors.check, each("status", Status.NO_RANDOM_BYTES)),
    (MemoryError, "need 9223372036854776192 bytes", key, [
        {"n": 1 << 56, "r": 1}, {"n": 1 << 56, "r": 1, "progress": print}]),
]


def refuse_a_lone_surrogate(test, *calls):
    """The error contains nothing of the password, and has no context that does."""
    for call in calls:
        with test.assertRaises(UnicodeError) as caught:
            call("hunter\ud800")
        error = caught.exception
        test.assertNotIn("hunter", f"{error!r} {vars(error)} {getattr(error, 'object', '')}")
        test.assertEqual((error.__context__, error.__cause__), (None, None))


class Site(PasswordHasher):
    name = "none"


class Hashes(unittest.TestCase):
    def test_both_formats(self):
        for costs, salt, text, size in [  # the keys are hashlib's
            ((5, 3, 2, 20), b"saltsalt", "$scrypt$ln=5,r=3,p=2$c2FsdHNhbHQ$JKedy3/pPEaQ9TR4ftXUBiuxkK8", 135),
            ((4, 8, 1), b"", "$7$26..../....$fQQtT8CamUzif3mWSfaXAN/SUnYR6iHSdkE.XUbEX/7", 144),
        ]:
            hasher = PasswordHasher(*costs, salt_len=64, mcf=salt == b"")
            self.assertEqual(hasher.hash(b"pass\0word", salt=salt), text)
            self.assertEqual(params_of(text), hasher.params)
            for kind in (bytes, bytearray, memoryview, bytes.decode):
                self.assertIs(hasher.verify(text.encode(), kind(b"pass\0word")), True)
            self.assertRaises(VerifyMismatchError, hasher.verify, text, b"pass")
            self.assertFalse(hasher.check_needs_rehash(text))
            self.assertTrue(PasswordHasher().check_needs_rehash(text))
            drawn = {hasher.hash("grün") for _ in range(20)}
            self.assertEqual((len(drawn), {len(it) for it in drawn}), (20, {size}))
            self.assertTrue(all(hasher.verify(it, "grün".encode()) for it in drawn))
        refuse_a_lone_surrogate(self, hasher.hash, lambda password: hasher.verify(text, password))

    def test_options(self):
        """Each default is replaced by its value."""
        usual, cores = PasswordHasher().options, scrypt_c.RECOMMENDED.cores
        self.assertTrue(1 <= usual.max_tables <= 2 * usual.processors <= 2 * os.cpu_count(), usual)
        limits = scrypt_c.DEFAULT_MAX_MEM, scrypt_c.DEFAULT_MAX_WORK, scrypt_c.DEFAULT_MIN_KEY_LEN
        self.assertEqual(usual, (False, 16, *limits, usual.max_tables, usual.processors, 1000))
        given = {"mcf": True, "salt_len": 64, "max_mem": 1 << 20, "max_work": 1 << 16, "min_key_len": 9}
        given |= {"max_tables": 3, "processors": 2, "max_waiting": 0}
        self.assertEqual((PasswordHasher(4, **given).options._asdict(), cores), (given, 4_194_304))
        self.assertEqual(PasswordHasher(4, key_len=10).options.min_key_len, 10)
        for most in ("max_mem", "max_work"):  # 2**64 - 2 is SCRYPT_AUTO in C, the default
            self.assertEqual(getattr(PasswordHasher(4, **{most: B64 - 2}).options, most), B64 - 1)

    def test_limits(self):
        """The limits on memory and work are exact, and 2^64 + 1 is not truncated to 1."""
        text, of = PasswordHasher(6, 3, 5).hash("pw"), Params(6, 3, 5)
        for memory, work in [(of.memory, of.work), (B64 + 1, B64 + 1)]:
            self.assertTrue(PasswordHasher(6, 3, 5, max_mem=memory, max_work=work).verify(text, "pw"))
        for less in ({"max_mem": of.memory - 1}, {"max_work": of.work - 1}):
            self.assertRaises(TooCostlyError, PasswordHasher(4, **less).verify, text, "pw")
        self.assertTrue(PasswordHasher(log_n=19), "new hashes above the default limits")
        short = stored_text(b"salt", scrypt_c.scrypt(b"pw", salt=b"salt", n=64, r=8, p=1, dklen=9), 64, 8, 1)
        self.assertTrue(PasswordHasher(4, min_key_len=9).verify(short, "pw"))
        self.assertRaises(KeyTooShortError, PasswordHasher(4, min_key_len=10).verify, short, "pw")

    def test_limits_for_costly_hashes(self):
        """Those that docs/MIGRATION.md names, of libsodium and libxcrypt, are within its limits."""
        raised, usual = PasswordHasher(max_mem=1025 << 20, max_work=1 << 26), PasswordHasher()
        for log_n, r in [(20, 8), (17, 32), (18, 32)]:
            text = f"$scrypt$ln={log_n},r={r},p=1{KEY}AA"
            self.assertIsNone(raised._judge(text))
            self.assertRaises(TooCostlyError, usual._judge, text)

    def test_verify_and_update(self):
        """As in passlib, there is a new hash if the old hash is weak and the password matches."""
        weak, hasher = SMALL.hash("pw"), PasswordHasher(log_n=5)
        self.assertEqual(hasher.verify_and_update(hasher.hash("pw"), "pw"), (True, None))
        for text, password in [(weak, "PW"), (None, "pw")]:
            self.assertEqual(hasher.verify_and_update(text, password), (False, None))
        verified, new = hasher.verify_and_update(weak, "pw")
        self.assertEqual((verified, params_of(new)), (hasher.verify(new, "pw"), hasher.params))
        self.assertRaises(scrypt_c.RejectedHashError, hasher.verify_and_update, "$7$", "pw")

    def test_pickle_and_copy(self):
        """A copy has each argument and attribute, and stays open when the original is closed."""
        for options in [
            {"log_n": 4, "r": 3, "p": 2, "key_len": 33, "salt_len": 40, "mcf": True},
            {"log_n": 4, "max_tables": 3, "timeout": 0.5, "max_mem": 1 << 20, "max_work": 1 << 15},
            {"log_n": 4, "min_key_len": 9, "processors": 1},
        ]:
            with Site(**options) as hasher:
                hasher.name = "shop"
                copies = [pickle.loads(pickle.dumps(hasher)), copy.copy(hasher), copy.deepcopy(hasher)]
            self.assertRaises(ValueError, hasher.hash, "pw")
            for of in copies:
                self.assertEqual(*((type(it), it.name, repr(it), it.options, it._timeout) for it in (of, hasher)))
                self.assertTrue(of.verify(of.hash("pw"), "pw"))

    def test_key(self):
        """The key of hashes with this salt, of any length."""
        hasher = PasswordHasher(5, 3, 2)
        wanted = hashlib.scrypt("gr\xfcn".encode(), salt=b"salt", n=32, r=3, p=2, dklen=70)
        self.assertEqual(hasher.key("gr\xfcn", salt=b"salt", key_len=70), wanted)
        self.assertEqual(hasher.key("gr\xfcn", salt=memoryview(b"salt"), key_len=1), wanted[:1])
        refuse_a_lone_surrogate(self, lambda password: hasher.key(password, salt=b"", key_len=1))
        hasher.close()
        self.assertRaisesRegex(ValueError, "closed", hasher.key, "pw", salt=b"", key_len=1)

    def test_rejected_arguments(self):
        for error, words, call, arguments in REFUSED:
            for named in arguments:
                with self.assertRaises(error, msg=named) as caught:
                    call(**named)
                self.assertIn(words, str(caught.exception), named)
