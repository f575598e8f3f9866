"""The search for the library, and the names that the package exports."""

import os
import pathlib
import subprocess
import sys
import typing
import unittest

import scrypt_c
from scrypt_c import library

FOLDER = os.environ["SCRYPT_C_LIBRARY"]
FILE = os.path.join(FOLDER, library.FILE)
PLACE = "from scrypt_c import library; print(library._place())"

# Imitates Windows, where the library has another name.
ON_WINDOWS = """
import ctypes, sys
opened, load, library = [], ctypes.CDLL, sys.argv[1]
sys.platform = "win32"
ctypes.CDLL = lambda name: opened.append(name) or load(library)
import scrypt_c
hasher = scrypt_c.PasswordHasher(log_n=4)
print(*opened, hasher.verify(hasher.hash("pw"), "pw"))
"""


class Library(unittest.TestCase):
    def runs(self, code, words, *arguments, place=FOLDER):
        """Runs Python, with this status, and these words in its output."""
        environment = {**os.environ, "SCRYPT_C_LIBRARY": place}
        run = subprocess.run([sys.executable, "-B", *arguments], env=environment, text=True,
                             stdout=subprocess.PIPE, stderr=subprocess.STDOUT)
        self.assertRegex(run.stdout, words)
        self.assertEqual(run.returncode, code, run.stdout)

    def test_library_path(self):
        for place in (FOLDER, FILE):
            self.runs(0, f"^{FILE}\n$", "-c", PLACE, place=place)
        for place in ("/nowhere", "/"):
            self.runs(1, "ImportError.*make install.*SCRYPT_C_LIBRARY", "-c", PLACE, place=place)
        for place, found in [(FOLDER, f"{FOLDER}/scrypt_c.dll"), ("", "scrypt_c.dll")]:
            self.runs(0, f"^{found} True\n$", "-c", ON_WINDOWS, FILE, place=place)

    def test_exported_names(self):
        """The package has the names that it exports, its version, and the types for annotations."""
        self.assertEqual([it for it in scrypt_c.__all__ if not hasattr(scrypt_c, it)], [])
        self.assertEqual(typing.get_args(scrypt_c.Password), (str, *typing.get_args(scrypt_c.Bytes)))
        version = (pathlib.Path(__file__).parents[3] / "VERSION").read_text("ascii")
        self.assertEqual(scrypt_c.__version__, version.strip())
