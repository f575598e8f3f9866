"""Runs of the program on hashes in files, and on names of files."""

import os
import shlex
import tempfile

from tools.tests.known import EMPTY, EMPTY_OF_64
from tools.tests.runs import USAGE, run

# A `$7$` hash of 4096 bytes whose salt has all but its other letters.
LONGEST = f"$7$2/..../....{'x' * 4079}$r/"

# The bytes of a file, the arguments with {} for its name, the status, the line, and the reason for the row. The password
# is empty.
HASH_FILES = [
    (EMPTY, "--hash-file={} verify", 0, "ok", "the text of a file"),
    (f"{EMPTY}\n", "--hash-file={} verify", 0, "ok", "the newline at its end is not of the hash"),
    (f"{EMPTY}\n\n", "--hash-file={} verify", 2, "hash refused: EncodingInvalid", "only one is cut off"),
    (EMPTY, "--hash-file=/ --hash-file={} --default-limits verify", 0, "ok", "the last of two files, and another option"),
    (EMPTY, "--hash-file={} rehash mcf 4 1 1 64 ''", 0, EMPTY_OF_64, "a new hash"),
    (EMPTY, f"--hash-file={{}} verify {EMPTY}", 2, USAGE, "HASH is left out"),
    (EMPTY, "verify --hash-file={}", 2, "hash refused: EncodingInvalid", "an option after the command is HASH"),
    ("", "--hash-file={} verify", 2, "hash refused: EncodingInvalid", "no text"),
    (LONGEST, "--hash-file={} verify", 1, "no", "the longest text"),
    (f"{LONGEST}\n", "--hash-file={} verify", 2, "{}: more than 4096 bytes", "a longer one"),
    ("\udcff", "--hash-file={} verify", 2, "{}: stream did not contain valid UTF-8", "not a text"),
]

# Names of missing files, how they are printed, and the reason for the row.
NAMES = [
    ("a\nusage: b", "a\\nusage: b", "a newline: the fault is one line"),
    ("\x1b[2J\x07", "\\u{1b}[2J\\u{7}", "control sequences of a terminal"),
    ("\u009b31m", "\\u{9b}31m", "the same in one character"),
    ("\u202egnp", "\\u{202e}gnp", "a right-to-left override"),
    ("\\n", "\\\\n", "a backslash is escaped"),
    ("schlüssel 塩", "schlüssel 塩", "letters are not escaped"),
]


def hash_files(program):
    """Hashes in files."""
    with tempfile.TemporaryDirectory() as room:
        file = f"{room}/hash"
        for text, line, status, printed, reason in HASH_FILES:
            with open(file, "wb") as it:
                it.write(os.fsencode(text))
            lines = f"{printed.format(file)}\n", ""
            words = [word.format(file) for word in shlex.split(line)]
            yield f"{line!r} ({reason})", run([*program, *words]), (status, *(lines if status < 2 else lines[::-1]))
        for name, printed, reason in NAMES:
            fault = f"{room}/{printed}: No such file or directory (os error 2)\n"
            yield f"the name {printed!r} ({reason})", run([*program, f"--hash-file={room}/{name}", "verify"]), (4, "", fault)
        yield "--help after --hash-file is a usage error, and reads no file", run([*program, f"--hash-file={room}", "--help"])[0], 2
