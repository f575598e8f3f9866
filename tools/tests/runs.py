"""Runs of the built programs, error lines of scrypt_tool, and cases that compare results with the expected ones."""

import contextlib
import os
import subprocess
import tempfile

OK, NO = (0, "ok\n", ""), (1, "no\n", "")
USAGE = (
    "usage: key LOG_N R P LEN SALT_HEX | hash phc|mcf LOG_N R P SALT_HEX [LEN] | verify HASH"
    " | rehash phc|mcf LOG_N R P LEN SALT_HEX HASH"
)
COMPILER = os.environ.get("CC", "cc")


def run(words, password=b"", **options):
    """How a run ends: its status, its standard output and its standard error."""
    outputs = {"stdout": subprocess.PIPE, "stderr": subprocess.PIPE}
    ran = subprocess.run(words, input=password, **outputs | options)
    return ran.returncode, *((it or b"").decode(errors="surrogateescape") for it in (ran.stdout, ran.stderr))


def redirected(shell, words):
    """How a run ends whose streams the shell opens, in a line that has `"$@"` for the arguments."""
    return run(["sh", "-c", shell, "sh", *words])


@contextlib.contextmanager
def failing_calls():
    """The path of failing_calls.c as a library to preload."""
    with tempfile.TemporaryDirectory() as folder:
        library, source = f"{folder}/failing_calls.so", os.path.join(os.path.dirname(__file__), "failing_calls.c")
        subprocess.run([COMPILER, "-O2", "-shared", "-fPIC", source, "-o", library], check=True)
        yield library


def report(title, cases, shown=20):
    """Prints the first cases whose result is not the expected one. Returns True if every result is.

    A case is a triple: a description, the result, and the expected result.
    """
    right = wrong = 0
    for about, answer, wanted in cases:
        if answer == wanted:
            right += 1
            continue
        wrong += 1
        if wrong <= shown:
            print(f"{about}: {answer}, and not {wanted}")
    print(f"{title}: {right} of {right + wrong} as they should be", flush=True)
    return wrong == 0
