"""Counts the instructions of runs of the program in valgrind, as multiples of those of a key: a part of tools/tests/program.py.

Calls that drop their count of cores could derive twice, and no clause states that they do not. bindings/c/tests/test_work.c
counts C's calls.
"""

import re
import shlex
import shutil
import subprocess
import tempfile

from tools.tests import reference

PASSWORD, SALT, NUMBERS = b"password", b"NaCl", (10, 8, 1, 32)
PHC, MCF = (reference.hash_of(form, PASSWORD, SALT, *NUMBERS) for form in ("phc", "mcf"))
REJECTED, ONCE = "key 10 8 1 0 4e61436c", "key 10 8 1 32 4e61436c"

# the arguments, and how many keys with N = 2^10, r = 8 and p = 1 their work is
RUNS = [
    (f"--progress {ONCE}", 1),
    ("hash phc 10 8 1 4e61436c", 1),
    ("hash mcf 10 8 1 4e61436c", 1),
    (f"verify {PHC}", 1),
    (f"verify {MCF}", 1),
    (f"rehash phc 10 8 1 32 4e61436c {PHC}", 1),  # verified, and not replaced
    (f"rehash phc 10 8 1 64 4e61436c {PHC}", 2),  # verified, and replaced by one with a longer key
    (f"rehash mcf 11 8 1 32 4e61436c {PHC}", 3),
    (f"--max-work=1 verify {PHC}", 0),
]


def instructions(words, line):
    with tempfile.NamedTemporaryFile("r", encoding="ascii") as file:
        valgrind = ["valgrind", "-q", "--tool=callgrind", f"--callgrind-out-file={file.name}"]
        subprocess.run([*valgrind, *words, *shlex.split(line)], input=PASSWORD, capture_output=True)
        return int(re.search(r"^totals: (\d+)$", file.read(), re.M)[1])


def cases(words):
    if len(words) > 1:  # in an emulator
        return
    if not shutil.which("valgrind"):
        subprocess.run(["tools/lacks", "valgrind", "valgrind"], check=True)
        return
    least = instructions(words, REJECTED)
    once = instructions(words, ONCE) - least
    for line, keys in RUNS:
        yield f"the work of {line!r}, in keys", round((instructions(words, line) - least) / once), keys
