"""The handler for passlib, compared with passlib's own handler."""

import pathlib
import re
import unittest
import warnings
from unittest import mock

import passlib.hash
from passlib.context import CryptContext

import scrypt_c
from scrypt_c.hasher import shared
from scrypt_c.passlib import scrypt
from test_hasher import refuse_a_lone_surrogate

SMALL = {"rounds": 6, "block_size": 8}
TEXT = scrypt.using(**SMALL).hash("pw")


class Handler(unittest.TestCase):
    def test_hashes_of_passlib(self):
        theirs, ours = passlib.hash.scrypt.using(**SMALL), scrypt.using(**SMALL)
        for one, other in [(theirs, ours), (ours, theirs)]:
            text = one.hash("grün")
            self.assertTrue(other.verify("grün", text))
            self.assertFalse(other.verify("grun", text))
        with mock.patch("passlib.crypto.scrypt.scrypt", None):  # passlib's own derivation
            self.assertTrue(ours.verify("grün", ours.hash("grün")))

    def test_example_of_the_page(self):
        page, of_page = pathlib.Path(__file__).parents[1] / "README.md", {}
        exec(re.search(r"(?ms)^```python\n(from passlib.*?)^```", page.read_text("utf-8"))[1], of_page)
        text = of_page["context"].hash("pw")
        self.assertTrue(text.startswith("$scrypt$ln=17,") and of_page["context"].verify("pw", text))

    def test_weak_hashes_need_an_update(self):
        for options, is_weak, why in [
            ({}, True, "fewer than the recommended rounds"),
            ({"default_rounds": 6}, False, "the rounds of new hashes"),
            ({"default_rounds": 7}, True, "fewer than new hashes"),
            ({"default_rounds": 7, "min_rounds": 6}, False, "the minimum that is allowed"),
            ({"rounds": 5}, True, "more than allowed"),
            ({"default_rounds": 7, "vary_rounds": 1}, False, "new hashes may have fewer too"),
        ]:
            with warnings.catch_warnings():
                warnings.simplefilter("ignore")  # of vary_rounds, which passlib discourages
                context = CryptContext(schemes=[scrypt.using(**options)])
            self.assertIs(context.needs_update(TEXT), is_weak, why)
        verified, new = CryptContext(schemes=[scrypt]).verify_and_update("pw", TEXT)
        self.assertTrue(verified and new.startswith("$scrypt$ln=17,") and not scrypt.needs_update(new))

    def test_rejected_hashes(self):
        """Numbers are rejected, not truncated; a key has 32 bytes, as passlib requires. The limits
        are exact, and no error contains the password."""
        refuse_a_lone_surrogate(self, scrypt.using(**SMALL).hash, lambda it: scrypt.verify(it, TEXT))
        for error, costs, key_len in [
            (scrypt_c.TooCostlyError, "ln=1,r=1,p=2000000", 43),
            (scrypt_c.TooCostlyError, "ln=21,r=8,p=1", 43),
            (ValueError, "ln=260,r=8,p=1", 43),
            (ValueError, "ln=6,r=8,p=1", 20),
            (ValueError, "ln=6,p=1,r=8", 43),  # passlib: AssertionError
            (ValueError, "ln=6,r=8,p=1", 45),  # passlib: TypeError
        ]:
            with self.assertRaises(error, msg=costs):
                scrypt.verify("pw", f"$scrypt${costs}$c2FsdHNhbHQ${key_len * 'A'}")
        self.assertRaises(TypeError, scrypt.verify, "pw", 1)
        for name, limit in [("max_work", scrypt_c.Params(6).work), ("max_mem", scrypt_c.Params(6).memory)]:
            small = scrypt.using(rounds=5)
            self.assertTrue(type("scrypt", (small,), {name: limit}).verify("pw", TEXT))
            less = type("scrypt", (small,), {name: limit - 1})
            self.assertRaises(scrypt_c.TooCostlyError, less.verify, "pw", TEXT)
            self.assertRaises(scrypt_c.TooCostlyError, less.from_string(TEXT)._calc_checksum, "pw")

    def test_one_hasher_verifies(self):
        """It derives too, in both idents, and it is the hasher of Django's classes. A salt that
        neither of its formats has leaves it."""
        with mock.patch.object(scrypt_c.PasswordHasher, "_key_with", return_value=bytes(32)):
            self.assertTrue(scrypt.using(**SMALL).hash("pw").endswith(43 * "A"))
        for ident in ("$scrypt$", "$7$"):
            text = scrypt.using(**SMALL, ident=ident).hash("pw")
            with mock.patch.object(scrypt, "_calc_checksum", None):
                self.assertTrue(scrypt.verify("pw", text))
                self.assertFalse(scrypt.verify("PW", text))
        self.assertIs(scrypt.hasher(), shared())
        given = {"max_mem": 1 << 20, "max_work": 1 << 16, "max_tables": 3, "timeout": 0.5}
        hasher = type("scrypt", (scrypt.using(**SMALL),), given).hasher()
        found = {**hasher.options._asdict(), "timeout": hasher._timeout}
        self.assertEqual(({name: found[name] for name in given}, hasher.params.log_n), (given, 6))
        for salt in (b"", b"s", 100 * b"s", 65 * b"\xff", 1024 * b"$"):
            one = scrypt.using(**SMALL, salt=salt)
            self.assertTrue(passlib.hash.scrypt.verify("pw", one.hash("pw")) and one.verify("pw", one.hash("pw")))
            self.assertFalse(one.verify("PW", one.hash("pw")))
