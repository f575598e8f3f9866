"""What bindings/c/scrypt_c.h declares: its calls, structures, statuses and numbers. The default limits are those of
crates/scrypt. A declaration that is not understood is an error: it would have no test, and no package would have it.

usage: python3 -m tools.generate.header   prints the names of the calls
"""

import re
import sys
from pathlib import Path

TOP = Path(__file__).parents[2]
TEXT = (TOP / "bindings/c/scrypt_c.h").read_text("utf-8")


def without_comments(text):
    return re.sub(r"/\*.*?\*/", "", text, flags=re.S)


def name_of(declared):
    """The name of an argument or of a field."""
    return re.search(r"\w+$", declared)[0]


def word_of(declared):
    """The word of its type."""
    return declared.removeprefix("const ").split()[0]


def structures_of(text):
    """The structures of a header, each with its fields."""
    made = {}
    for fields, name in re.findall(r"^typedef struct \w+ \{(.*?)\} (\w+);", without_comments(text), re.M | re.S):
        made[name] = []
        for declared in filter(None, map(str.strip, fields.split(";"))):
            first, *others = declared.split(",")
            kind = first.removesuffix(name_of(first))
            made[name] += [first, *(kind + it.strip() for it in others)]
    return made


OPAQUE_STRUCTURE, CALL = r"^typedef struct (\w+) \1;", r"^(int|void|(?:const )?\w+ \*) ?(scrypt_\w+)\(([^{}]*?)\);"
STATUS = r"^  SCRYPT_(?:E_)?(\w+) = (\d+),?$"


def not_understood(text):
    """What is left of a header without the declarations that are read here."""
    text = re.sub(r"^#(?:.*\\\n)*.*$", "", without_comments(text), flags=re.M)
    text = re.sub(r" +$", "", text, flags=re.M)
    for read in (OPAQUE_STRUCTURE, r"^typedef struct (\w+) \{\n[^{}()\[\]:]*\} \1;", CALL, STATUS, "^SCRYPT_NODISCARD$",
                 r"^enum scrypt_status \{\s*\};", r'^extern "C" \{$', r"^\}$"):
        text = re.sub(read, "", text, flags=re.M)
    return " ".join(text.split())


if left := not_understood(TEXT):
    sys.exit(f"bindings/c/scrypt_c.h: tools/generate/header.py does not understand: {left}")
OPAQUE, STRUCTURES = re.findall(OPAQUE_STRUCTURE, TEXT, re.M), structures_of(TEXT)
# the result, the name and the arguments of each call
CALLS = [(result, name, [" ".join(it.split()) for it in arguments.split(",") if it != "void"]) for result, name, arguments in
         re.findall(CALL, without_comments(TEXT), re.M)]
# statuses and numbers, by their names without SCRYPT_ and SCRYPT_E_; the crate proves that the default limits have these values
STATUSES = {name: int(number) for name, number in re.findall(r"^  SCRYPT_(?:E_)?(\w+) = (\d+)", TEXT, re.M)}
MEANINGS = dict(re.findall(r"^  SCRYPT_(?:E_)?(\w+) = \d+,? +/\* (.*) \*/$", TEXT, re.M)) | {"OK": "the call succeeded"}
if unexplained := STATUSES.keys() - MEANINGS.keys():
    sys.exit(f"bindings/c/scrypt_c.h: no comment beside it explains {', '.join(unexplained)}")
NUMBERS = {name: int(number) for name, number in re.findall(r"^#define SCRYPT_(\w+) (?:UINT64_C\()?(\d+)\)?$", TEXT, re.M)}
LIMITS = {f"DEFAULT_{name.upper()}": int(number) for name, number in
          re.findall(r"Limits::DEFAULT\.(\w+) == (\d+)", (TOP / "crates/scrypt/src/limits.rt").read_text("utf-8"))}
NUMBERS |= LIMITS
VERSION = re.search('^#define SCRYPT_VERSION_STRING "(.*)"$', TEXT, re.M)[1]

if __name__ == "__main__":
    print("\n".join(name for _, name, _ in CALLS))
