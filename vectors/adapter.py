"""Adapters for run.py: keys by hashlib, or keys and hash strings by scrypt_c, this repository's package for Python.

usage: adapter.py hashlib|scrypt_c
"""

import sys

password, middle, *numbers = sys.stdin.read().splitlines()
data = bytes.fromhex(password), bytes.fromhex(middle)
costs = dict(zip(("n", "r", "p", "dklen"), map(int, numbers)))
if sys.argv[1] == "hashlib":
    import hashlib

    print(hashlib.scrypt(data[0], salt=data[1], maxmem=2**31 - 1, **costs).hex())
else:
    import scrypt_c

    if costs:
        print(scrypt_c.scrypt(data[0], salt=data[1], **costs).hex())
    else:
        print("ok" if scrypt_c.PasswordHasher().verify(data[1], data[0]) else "no")
