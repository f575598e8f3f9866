#!/usr/bin/env python3
"""Opens published files, and files that the programs age and scrypt make now."""

import base64
import functools
import hashlib
import os
import shutil
import subprocess
import sys
import tempfile
import unittest
from pathlib import Path
from unittest import mock

import key_files
from key_files import open_age, open_ethereum, open_scrypt

HERE = Path(__file__).resolve().parent
sys.path.insert(0, str(HERE.parents[1]))
from tools.tests.terminal import session  # noqa: E402

PASSWORD = "testpassword"
CONTENT = b"The key of the garden gate is under the third stone.\n"
SECRET = bytes.fromhex("7a28b5ba57c53603b0b07b56bba752f7784bf506fa95edc395f5cf6c7514fe9d")
VECTORS = [
    (open_age, (HERE / "vectors/example.age").read_bytes(), CONTENT),
    (open_scrypt, (HERE / "vectors/example.scrypt").read_bytes(), CONTENT),
    (open_ethereum, (HERE / "vectors/ethereum.json").read_bytes(), SECRET),
]


def scrypt_enc(source, target, log_n, r, p):
    words = ["scrypt", "enc", "-f", f"--logN={log_n}", "-r", str(r), "-p", str(p)]
    words += ["--passphrase", "dev:stdin-once", source, target]
    subprocess.run(words, input=PASSWORD.encode(), check=True)


class KeyFilesTest(unittest.TestCase):
    def refuses(self, message, *given, **limits):
        with self.assertRaisesRegex(ValueError, message):
            print(given[0](*given[1:], **limits))

    def test_vectors(self):
        for open_file, file, content in VECTORS:
            self.assertEqual(open_file(file, PASSWORD), content)
            self.refuses("wrong password", open_file, file, PASSWORD + "x")

    def test_keys_are_those_of_hashlib(self):
        for open_file, file, _ in VECTORS[:2]:  # OpenSSL rejects r = 1 with N = 2^18
            with mock.patch("key_files.scrypt", wraps=key_files.scrypt) as ours:
                open_file(file, PASSWORD)
            (password,), salt_and_params = ours.call_args
            key = key_files.scrypt(password, **salt_and_params)
            del salt_and_params["max_work"]
            self.assertEqual(hashlib.scrypt(password, **salt_and_params), key)

    def test_limits(self):
        for open_file, file, _ in VECTORS:
            self.refuses("at most 1048576", open_file, file, PASSWORD, maxmem=1 << 20)
            self.refuses("at most 32768", open_file, file, PASSWORD, max_work=1 << 15)
        file = VECTORS[1][1]
        for log_n, message in ((20, "need"), (30, "need"), (63, "invalid"), (255, "invalid")):
            costly = file[:7] + bytes([log_n]) + file[8:48]
            costly += hashlib.sha256(costly).digest()[:16] + file[64:]
            self.refuses(message, open_scrypt, costly, PASSWORD)

    def test_damaged_files(self):
        self.refuses("not a file of Ethereum", open_ethereum, 100_000 * "[", PASSWORD)
        with mock.patch("key_files.scrypt", functools.cache(key_files.scrypt)):
            age = base64.b64decode(b"".join(VECTORS[0][1].splitlines()[1:-1]))
            payload = len(age) - len(CONTENT) - 16
            two_chunks = age[:payload] + bytes(key_files.AGE_CHUNK + 16)
            self.refuses("the last chunk is empty", open_age, two_chunks, PASSWORD)
            # The MAC of Ethereum does not cover the IV.
            # Of age's salt, the first and the last letter: a key by another takes half a second.
            salt = age.index(b"-> scrypt ") + 10
            places = [*range(salt + 1), *range(salt + 21, len(age))]
            scrypt = VECTORS[1][1]
            for open_file, file, places in (
                (open_age, age, places),
                (open_scrypt, scrypt, range(len(scrypt))),
            ):
                for at in places:
                    flipped = file[:at] + bytes([file[at] ^ 1]) + file[at + 1 :]
                    message = "not a file" if open_file is open_scrypt and at < 64 else ""
                    for damaged in (file[:at], flipped):
                        self.refuses(message, open_file, damaged, PASSWORD)

    @unittest.skipUnless(shutil.which("age"), "the package age is not installed")
    def test_files_of_age(self):
        with tempfile.TemporaryDirectory() as folder:
            source, target = Path(folder, "source"), Path(folder, "target")
            for length in (0, 65536, 200_000):
                source.write_bytes(os.urandom(length))
                words = ["age", "-p", "-o", str(target), str(source)]
                self.assertEqual(session(words, [f"{PASSWORD}\n".encode()] * 2)[0], 0)
                self.assertEqual(open_age(target.read_bytes(), PASSWORD), source.read_bytes())

    @unittest.skipUnless(shutil.which("scrypt"), "the package scrypt is not installed")
    def test_files_of_scrypt(self):
        with tempfile.TemporaryDirectory() as folder:
            source, target = Path(folder, "source"), Path(folder, "target")
            limits = {"maxmem": 2 << 30, "max_work": 1 << 26}
            for length, *params in ((0, 10, 8, 1), (1, 12, 1, 3), (9999, 14, 8, 2), (9, 20, 8, 1)):
                source.write_bytes(os.urandom(length))
                scrypt_enc(source, target, *params)
                content = open_scrypt(target.read_bytes(), PASSWORD, **limits)
                self.assertEqual(content, source.read_bytes())


if __name__ == "__main__":
    unittest.main()
