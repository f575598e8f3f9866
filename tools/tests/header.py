"""Declarations that tools/generate/header.py must not pass over: they would be in no package, and have no test.

usage: python3 -m tools.tests.header
"""

import sys

from tools.generate import header
from tools.tests import runs

# What a header might have, and whether it is understood.
DECLARATIONS = [
    ("int scrypt_more(int status);", True),
    ("void scrypt_more(void);", True),
    ("const char *scrypt_more(void);", True),
    ("typedef struct scrypt_more scrypt_more;", True),
    ("typedef struct scrypt_more {\n  size_t size;\n} scrypt_more;", True),
    ("#define SCRYPT_MORE(it) \\\n  ((it) + 1)", True),
    ("size_t scrypt_more(const char *text);", False),  # another result
    ("uint64_t scrypt_more(void);", False),
    ("int other_more(int status);", False),  # another name
    ("int scrypt_more(int status)", False),  # no end
    ("static inline int scrypt_more(void) { return 0; }", False),
    ("extern int scrypt_more;", False),
    ("int (*scrypt_more)(void);", False),
    ("typedef struct scrypt_more {\n  uint8_t key[4];\n} scrypt_more;", False),  # an array, and a bit field
    ("typedef struct scrypt_more {\n  int is_more : 1;\n} scrypt_more;", False),
    ("enum scrypt_more {\n  SCRYPT_MORE = 1\n};", False),  # another enum
    ("enum scrypt_status {\n  SCRYPT_MORE\n};", False),  # a status without a number
]


def main():
    end = header.TEXT.rindex("#ifdef __cplusplus")
    cases = ((repr(it), header.not_understood(f"{header.TEXT[:end]}{it}\n{header.TEXT[end:]}") == "", wanted)
             for it, wanted in DECLARATIONS)
    sys.exit(not runs.report("declarations", cases))


if __name__ == "__main__":
    main()
