"""Runs the tests of hashlib.scrypt in CPython, or of scrypt in passlib, over the original or over
this library, and prints a line for each call or test.

usage: suites.py peer|scrypt_c [FOLDER]    CPython's if FOLDER is its package test, or passlib's
"""

import hashlib
import os
import sys
import unittest

import scrypt_c

OURS = sys.argv[1] == "scrypt_c"
scrypt = scrypt_c.scrypt if OURS else hashlib.scrypt
calls = []


def recorded(*args, **options):
    """Calls scrypt, and keeps its key, or that it was rejected."""
    try:
        if OURS and options.get("maxmem", 0) is None:
            raise TypeError("the one difference: here None, the default, is no limit")
        key = scrypt(*args, **options)
    except Exception:
        calls.append("rejected")
        raise
    calls.append(key.hex())
    return key


def run(title, tests):
    """Prints the outcome of each test that is not skipped."""
    with open(os.devnull, "w") as nothing:
        result = unittest.TextTestRunner(stream=nothing, verbosity=0, resultclass=Lines).run(tests)
    for test, trace in result.failures + result.errors:
        print(f"FAIL: {title} {test.id()}: {trace.strip().splitlines()[-1]}")


class Lines(unittest.TextTestResult):
    def addSuccess(self, test):
        super().addSuccess(test)
        print("passed:", test.id().rpartition(".")[2])


def cpython(folder):
    import test

    test.__path__.append(folder)  # Debian has the package in two
    from test import test_hashlib

    run("CPython", unittest.TestSuite([test_hashlib.KDFTests("test_scrypt")]))
    print("\n".join(calls))


def passlib():
    os.environ.setdefault("PASSLIB_TEST_MODE", "full")
    from passlib.tests import test_crypto_scrypt, test_handlers_scrypt

    class Handler(test_handlers_scrypt._scrypt_test):
        if OURS:
            from scrypt_c.passlib import scrypt as handler

    for case in Handler, test_crypto_scrypt.StdlibScryptTest:
        run(case.__name__, unittest.defaultTestLoader.loadTestsFromTestCase(case))
    if not calls:
        print("FAIL: not called")


hashlib.scrypt = recorded
if sys.argv[2:]:
    cpython(sys.argv[2])
else:
    passlib()
