"""The tables of bindings/, and hashes of other programs: each is converted to a hash that its
password matches, or rejected."""

import base64
import hashlib
import pathlib
import pickle
import unittest

import scrypt_c
from scrypt_c import PasswordHasher, params_of
from scrypt_c.migration import from_crypt, from_django, from_libscrypt
from scrypt_c.migration import from_passlib, from_powerdns, from_werkzeug, stored_text

SALT, KEY = b"seasalt", hashlib.scrypt(b"pw", salt=b"seasalt", n=1024, r=8, p=1, dklen=64)
B64, PASSLIB = base64.b64encode(KEY).decode(), base64.b64encode(KEY[:32]).decode().rstrip("=")
# A function, a password, and its hash by the program: the parameters with the salt, and the key.
HASHES = [
    (from_django, "pw", "scrypt$1024$seasalt$8$1$", B64),
    (from_werkzeug, "pw", "scrypt:1024:8:1$seasalt$", KEY.hex()),
    (from_passlib, "pw", "$scrypt$ln=10,r=8,p=1$c2Vhc2FsdA$", PASSLIB),
    (from_passlib, "pw", "$scrypt$ln=010,r=8,p=1$c2Vhc2FsdA==$", PASSLIB),
    (from_passlib, "pw", "$7$66..../....seasalt$", "iAwQILgEcMvP0G/qucemJSXvqZe26/uYa9KGpGvt5dA"),
    (from_powerdns, "pw", "$scrypt$ln=10,p=1,r=8$c2Vhc2FsdA==$", f"{PASSLIB}="),
    (from_libscrypt, "pw", "$s1$0a0801$c2Vhc2FsdA==$", B64),
    (from_crypt, "password", "$7$66..../....a$b$", "CGyY/8u9Q9D5eanoScbBcdq6lOSvHl8LkXgfxQONWH/"),
]
# Parts of a hash and their replacements, after which it is rejected. No program makes N = 1.
DAMAGES = [
    ("1024", "1"), ("ln=10", "ln=0"), ("0a0801", "000801"), ("$7$6", "$7$."),
    ("1024", "1000"), ("1024", "1_024"), ("1024", "+1024"), ("scrypt", "bcrypt"), ("$8$", "$0$"),
    (",r=8", ""), ("p=1,r=8", "r=8,p=1"),
    ("ln=10", "ln=64"), ("ln=10", f"ln={4000 * '9'}"), ("ln=10,r=8", "r=8,ln=10"), ("$7$", "$6$"),
    ("0a0801", "0a081"), ("c2Vhc2FsdA==", "c2V!c2FsdA=="), ("$7$6", "$7$z"),
]
LEADING_ZEROS = ["scrypt$01024$seasalt$8$1$", "scrypt$1024$seasalt$08$1$", "scrypt$1024$seasalt$8$01$"]


def rows(table):
    text = (pathlib.Path(__file__).parents[2] / table).read_text("utf-8")
    return [line.split("\t") for line in text.splitlines()[1:]]


def outcome(call, *arguments):
    """Returns the name of the status, and the error."""
    try:
        call(*arguments)
    except scrypt_c.ScryptError as error:
        return error.status.name, error
    return "OK", None


class Texts(unittest.TestCase):
    def test_cases(self):
        hasher = PasswordHasher()
        for status, password, text, *numbers in rows("cases.tsv"):
            text = text.replace("\\0", "\0")
            found, error = outcome(hasher.verify, text, password)
            self.assertEqual(found, status, text)
            refused = status not in ("OK", "MISMATCH")
            self.assertEqual(isinstance(error, scrypt_c.RejectedHashError), refused, text)
            if error:
                copy = pickle.loads(pickle.dumps(error))
                self.assertEqual(*((type(it), it.status, str(it)) for it in (copy, error)))
                self.assertIs(copy.status, scrypt_c.Status[status])
                self.assertTrue(str(error).endswith("".join(f": {it}" for it in numbers)), error)
            unread = isinstance(error, scrypt_c.InvalidHashError)
            for reads in (hasher.check_needs_rehash, params_of):
                self.assertEqual(outcome(reads, text)[0], status if unread else "OK", text)

    def test_swapped_arguments(self):
        for text in ("$scrypt$ln=4", b"$7$"):
            for password, reason in [("pw", "ENCODING_INVALID"), ("$money", "ALGORITHM")]:
                name, error = outcome(PasswordHasher().verify, password, text)
                self.assertEqual((name, type(error)), (reason, scrypt_c.InvalidHashError))
                self.assertRegex(str(error), ": the hash comes first, and then the password$")
        _, error = outcome(PasswordHasher().verify, "pw", "other")
        self.assertNotIn("first", str(error))

    def test_converted_hashes(self):
        for convert, password, costs, key in HASHES:
            self.assertTrue(PasswordHasher(log_n=4).verify(convert(costs + key), password), costs)

    def test_damaged_hashes(self):
        """A truncated key, a letter outside the alphabet or too many letters, or a wrong number."""
        for convert, _, costs, key in HASHES:
            wrong = [key + it for it in ("$", "AA", "..")] + [key[:-1] + "z"] * (costs[1] == "7")
            for at in range(len(key)):
                wrong += [key[:at], *(key[:at] + it + key[at + 1 :] for it in "! \n")]
            if convert is from_django:  # it compares texts, so the last letter has no spare bits
                wrong.append(f"{key[:-3]}{chr(ord(key[-3]) + 1)}==")
            changed = [costs.replace(*it) + key for it in DAMAGES if it[0] in costs]
            changed += [it + key for it in LEADING_ZEROS if convert is from_django]
            for stored in [costs + it for it in wrong] + changed:
                self.assertRaises(ValueError, convert, stored)

    def test_stored_text(self):
        """A log_n in place of N is rejected, with a hint. A hash may have a small N."""
        for salt, key, *numbers, wanted in rows("stored.tsv"):
            try:
                text = stored_text(bytes.fromhex(salt), bytes.fromhex(key), *map(int, numbers))
            except ValueError:
                text = ""
            self.assertEqual(text, wanted, (salt, key, numbers))
        for costs in [(-1024, 8, 1), (1 << 64, 8, 1), (64, 8 + (1 << 32), 1), (64, 1 << 30, 1)]:
            self.assertRaises(ValueError, stored_text, b"", KEY, *costs)
        for salt in (b"\xff", b"sea$salt"):  # the key is too short for a PHC string
            words = r"\$7\$ hash must be UTF-8 without a \$"
            self.assertRaisesRegex(scrypt_c.InvalidSaltError, words, stored_text, salt, KEY[:9], 64, 8, 1)
        words = "^n is N, at least 64, and 14 may be its logarithm, log_n: n=16384 is"
        self.assertRaisesRegex(ValueError, words, stored_text, SALT, KEY, 14, 8, 1)
        self.assertEqual(params_of(from_werkzeug(f"scrypt:16:8:1$seasalt${KEY.hex()}"))[:3], (4, 8, 1))
        self.assertEqual(params_of("$scrypt$ln=17,r=8,p=1"), (17, 8, 1, 0))  # without a key
