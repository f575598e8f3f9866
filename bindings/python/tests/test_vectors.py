"""The test vectors of vectors/, the lines of their page, and their runner."""

import contextlib
import io
import json
import os
import pathlib
import re
import subprocess
import sys
import tempfile
import unittest
import warnings

import scrypt_c

FOLDER = pathlib.Path(__file__).parents[3] / "vectors"


def data(it):
    return bytes.fromhex(it) if isinstance(it, str) else b"".join(bytes.fromhex(one) * times for one, times in it)


def key(test):
    costs = {"n": test["N"], "r": test["r"], "p": test["p"], "dklen": test["dkLen"]}
    return scrypt_c.scrypt(data(test["password"]), salt=data(test["salt"]), **costs).hex() == test["dk"]


def match(test, hasher=scrypt_c.PasswordHasher()):
    return hasher.verify(data(test["hash"]), data(test["password"]))


class Vectors(unittest.TestCase):
    def test_vectors(self):
        for name, call in ("kdf", key), ("phc", match), ("mcf", match):
            file = json.loads((FOLDER / f"scrypt_{name}_test.json").read_text("utf-8"))
            tests = [test for group in file["testGroups"] for test in group["tests"]]
            self.assertEqual(len(tests), file["numberOfTests"])
            for test in (it for it in tests if "LargeMemory" not in it["flags"]):
                try:
                    answer = call(test)
                except (scrypt_c.ScryptError, ValueError, MemoryError):
                    answer = None
                wanted = {"valid": [True], "invalid": [None], "acceptable": [True, None]}[test["result"]]
                self.assertIn(answer, wanted, (name, test["tcId"], test["comment"]))

    def test_page(self):
        """The lines of the page find nothing in hashlib."""
        code = re.search(r"^```python\n(.*?)^```", (FOLDER / "README.md").read_text("utf-8"), re.M | re.S)[1]
        here, said = os.getcwd(), io.StringIO()
        self.addCleanup(os.chdir, here)
        os.chdir(FOLDER)
        with contextlib.redirect_stdout(said), warnings.catch_warnings():
            warnings.simplefilter("ignore", ResourceWarning)  # it leaves the file to be closed
            exec(code, {})
        self.assertEqual(said.getvalue(), "")

    def test_run(self):
        """The runner sees a key, a wrong one, an error, a crash, work without end, and memory above the limit."""
        tests = [{"tcId": 1, "flags": ["Normal"], "comment": "", "password": "70", "salt": "", "N": 2, "r": 1, "p": 1,
                  "dkLen": 2, "dk": "abcd", "result": it} for it in ("valid", "invalid", "acceptable")]
        with tempfile.TemporaryDirectory() as folder:
            file = pathlib.Path(folder, "file.json")
            file.write_text(json.dumps({"testGroups": [{"tests": tests}]}), "utf-8")
            for code, found, differ in [
                    ("print('abcd')", "right", 1), ("print('abce')", "wrong", 3), ("exit(3)", "error", 1),
                    ("print(open(0).read() == '70\\n\\n2\\n1\\n1\\n2\\n' and 'abcd')", "right", 1),
                    ("import os; os.abort()", "signal 6", 3), ("while 1: pass", "no end", 3),
                    ("bytearray(1 << 30)", "error", 1)]:
                words = [FOLDER / "run.py", "--seconds", "1", "--mib", "500", file, sys.executable, "-c", code]
                said = subprocess.run([sys.executable, *words], capture_output=True, text=True).stdout
                self.assertIn(f"'valid, {found}': 1", said)
                self.assertEqual(len(said.splitlines()), 1 + differ, said)


if __name__ == "__main__":
    unittest.main()
