"""Writes vectors/*_test.json: keys of scrypt and its hash strings, for every implementation, in the form of Wycheproof.

usage: python3 -m tools.generate.vectors LIBRARY           writes the files
       python3 -m tools.generate.vectors check [LIBRARY]   fails if they are not what the table makes

The cases are those of vector_cases.py. Keys are hashlib's, or reference.py's where OpenSSL rejects the parameters, and
verdicts are those of the independent reader (tools/tests/hostile.py). Nothing is written if LIBRARY, libscrypt_c.so,
derives another key, also in a smaller table, or returns another status, or if a file does not fit its schema. `check`
leaves out the cases with 1 GiB or more, which take minutes.
"""

import ctypes
import json
import re
import resource
import subprocess
import sys

sys.path.append("/usr/lib/python3/dist-packages")  # Debian's packages, for an interpreter that is not the system's
try:
    import jsonschema
except ImportError:
    jsonschema = None

from tools.generate import header
from tools.generate.vector_cases import INVALID, OPEN, PASSWORD, SALT, VALID, all_cases, derived
from tools.shared_library import buffers, declared, loaded
from tools.tests import hostile

FOLDER = header.TOP / "vectors"
MEMORY = 2 << 30  # of a table or of the chunks of a text
KINDS = {"kdf": ("SCRYPT", "ScryptKdf"), "phc": ("SCRYPT-PHC", "ScryptHash"), "mcf": ("SCRYPT-MCF", "ScryptHash")}
PHC = "PHC strings"

# What each flag is about, in Wycheproof's words, and its reason
NOTES = {
    "Rfc7914": ("BASIC", "The test vectors of RFC 7914, section 12."),
    "Normal": ("BASIC", "A usual hash with its password."),
    "PasswordLength": ("EDGE_CASE", "HMAC-SHA-256 pads a key of up to 64 bytes with zeros, and hashes a longer one."),
    "SaltLength": ("EDGE_CASE", "PBKDF2 appends 4 bytes to the salt, and SHA-256 hashes blocks of 64 bytes. No format "
                   "sets the length: 8 to 48 bytes are usual in $scrypt$, and 22 or 43 letters in $7$."),
    "OutputLength": ("EDGE_CASE", "A key consists of blocks of 32 bytes. A shorter key is the start of a longer one."),
    "AnyBytes": ("EDGE_CASE", "RFC 7914, section 6: a password and a salt are octet strings, so they may have zeros, "
                 "and need not be UTF-8."),
    "Parameters": ("EDGE_CASE", "N, r and p that are odd, large, or as small as RFC 7914, section 2, allows."),
    "ThinTable": ("EDGE_CASE", "The key is the same if a part of the table is stored, and the rest derived again."),
    "EquivalentPassword": ("DEFINED", "RFC 2104, section 2: HMAC pads a key of up to 64 bytes with zeros, and replaces "
                           "a longer one by its digest. So these passwords have one key."),
    "LargeMemory": ("FUNCTIONALITY", "The table, the password, the salt or the key has 1 GiB or more. There may be a "
                    "limit, but a key that is returned must be this one."),
    "CostOne": ("DEFINED", "RFC 7914, section 2: N is above 1. Some take N = 1, and the key is then the algorithm's."),
    "CostAboveBlock": ("DEFINED", "RFC 7914, section 2: N is below 2^(16 * r). Some take more, and the key is then the "
                       "algorithm's."),
    "EmptyOutput": ("DEFINED", "RFC 7914, section 2: dkLen is positive. All empty keys are equal."),
    "NotAPowerOfTwo": ("MODIFIED_PARAMETER", "RFC 7914, section 2: N is a power of 2 above 1."),
    "Zero": ("MODIFIED_PARAMETER", "RFC 7914, section 2: r and p are positive. With 0 no block would be mixed."),
    "ProductTooLarge": ("MODIFIED_PARAMETER", "RFC 7914, section 2: p <= (2^32 - 1) * 32 / (128 * r), so r * p is "
                        "below 2^30. Some of these products are small in 32 or 64 bits."),
    "TableTooLarge": ("MODIFIED_PARAMETER", "The table has 2^50 bytes or more, which no machine has. Some are small "
                      "in 32 or 64 bits. A key that is returned is wrong, and so is a password that is accepted."),
    "OutputTooLong": ("MODIFIED_PARAMETER", "RFC 7914, section 2: dkLen is at most (2^32 - 1) * 32."),
    "Wrapped": ("MODIFIED_PARAMETER", "A number that is another one in 8, 16, 31, 32 or 64 bits, or modulo the width "
                "of a shift. The key is that of the other one."),
    "LongPassword": ("DEFINED", "A reader may reject a password of 600 bytes, or with a zero, but it must not cut it."),
    "WrongPassword": ("AUTH_BYPASS", "The password is another, so its key is not the stored one."),
    "WrongKey": ("AUTH_BYPASS", "The key, the salt or a parameter was changed, so the derived key is another."),
    "MissingPart": ("AUTH_BYPASS", "Without a key there is nothing to compare, so no password matches."),
    "Negative": ("MODIFIED_PARAMETER", "RFC 7914, section 2: N, r and p are positive. The key is that of the number "
                 "without its sign."),
    "Malformed": ("AUTH_BYPASS", "Neither $scrypt$, pairs name=value between commas, $, a salt, $ and a key, nor $7$, "
                  "eleven letters, a salt, $ and a key."),
    "CostBeforeSyntax": ("FUNCTIONALITY", "The text cannot be read, and its parameters need more memory than a machine "
                         "has: a reader that derives before it has read the whole text does not return."),
    "KeyLength": ("DEFINED", f"{PHC} have a key of 10 bytes or more, 32 by default; crypt(5) has 43 letters."),
    "ShortKey": ("WEAK_PARAMS", f"One password in 256 has this key of one byte. {PHC} should not have it."),
    "Duplicate": ("CAN_OF_WORMS", "A parameter has two values: a reader of the first and one of the last differ."),
    "SameDuplicate": ("DEFINED", "A parameter stands twice, with the same value."),
    "ParameterOrder": ("DEFINED", f"{PHC} leave the parameters to the function; nothing sets scrypt's order."),
    "MissingParameter": ("DEFINED", f"{PHC} may leave out a parameter with a default: ln=17, r=8 and p=1, or none."),
    "UnknownParameter": ("MODIFIED_PARAMETER", "scrypt has no such parameter, so the key is another function's."),
    "Version": ("DEFINED", f"{PHC} may have a version, which is not defined for scrypt."),
    "LeadingZero": ("DEFINED", f"Decimals in {PHC} have no leading zeros; the number is clear without that."),
    "PlusSign": ("DEFINED", f"Decimals in {PHC} have no plus sign; the number is clear without that."),
    "Octal": ("MODIFIED_PARAMETER", f"The key is that of the number in octal. {PHC} have only decimals."),
    "NotADecimal": ("MODIFIED_PARAMETER", f"Values in {PHC} have a-zA-Z0-9/+.- and no other character, and a decimal "
                    "has only ASCII digits. scrypt has no other numbers."),
    "UpperCase": ("MODIFIED_PARAMETER", f"Names in {PHC} have lower case letters, digits and -. In $7$ the case of a "
                  "letter is part of its value."),
    "Padding": ("DEFINED", f"Base64 in {PHC} has no padding. RFC 4648, section 3.2, leaves that to each format."),
    "NonCanonical": ("DEFINED", "Unused bits of the last letter are not 0, so the key has two texts. RFC 4648, section "
                     "3.5: decoders may reject them."),
    "NotInAlphabet": ("MALLEABILITY", "RFC 4648, section 3.3: decoders reject letters outside the alphabet, which is "
                      "./0-9A-Za-z in crypt(5). If they were ignored, a key would have any number of texts."),
    "ImpossibleLength": ("MALLEABILITY", "One letter after groups of four encodes no byte. If ignored, it may be any."),
    "ExtraField": ("MALLEABILITY", "A field follows the key, and no format has one."),
    "Surrounded": ("DEFINED", "A blank comes first, or blanks or zeros follow. A string in C ends at the zero."),
    "OtherScheme": ("WRONG_PRIMITIVE", "The name is not that of scrypt."),
    "SmallCost": ("DEFINED", "RFC 7914 allows N = 2. A reader may require more."),
    "SaltCharacters": ("DEFINED", "Salts in crypt(5) have ./0-9A-Za-z. The salt of the derivation is the text itself."),
}


def described(data):
    """Bytes in hexadecimal; long ones as pairs of bytes and how often they are repeated."""
    if len(data) <= 5000:
        return data.hex()
    runs = re.finditer(rb"(.)\1{499,}|(?s:.)+?(?=(.)\2{499}|\Z)", data, re.S)
    return [[it[1].hex(), len(it[0])] if it[1] else [it[0].hex(), 1] for it in runs]


def thin_key(library, s, password, salt, log_n, r, p, length):
    """The key by a table that keeps one row in 2^s."""
    lens, out = declared.Buffers(), ctypes.create_string_buffer(length)
    assert library.scrypt_buffer_lens(log_n, r, p, s, lens) == 0
    sizes = lens.chunks_len, lens.table_len, lens.scratch_len
    room = buffers([(ctypes.c_uint32 * it)() for it in sizes], sizes)
    assert library.scrypt_key_thin(password, len(password), salt, len(salt), log_n, r, p, s, out, length, room) == 0
    return out.raw.hex()


def key_test(library, flags, about, result, changes):
    """The inputs and the key, which the library derives too."""
    inputs = {"password": PASSWORD, "salt": SALT, "N": 16, "r": 1, "p": 1, "dkLen": 32} | changes
    known = inputs.pop("dk", None)
    password, salt, n, r, p, length = inputs.values()
    log_n = n.bit_length() - 1
    if known is None:
        known = derived(password, salt, log_n, r, p, length).hex() if result != INVALID and length else ""
    if library and n > 0 and n == 1 << log_n and max(r, p) < 1 << 32:
        password, salt = (it if isinstance(it, bytes) else bytes(it[0][1]) for it in (password, salt))
        out = ctypes.create_string_buffer(length if known else 64)
        status = library.scrypt_key(password, len(password), salt, len(salt), log_n, r, p, out, length)
        last = out[len(out) - len(known) // 2 :].hex()
        assert (status == 0, last) == (known != "", known) and (known or not any(out.raw)), (flags, about, status)
        if flags == "ThinTable":
            for s in range(log_n + 1):
                assert thin_key(library, s, password, salt, log_n, r, p, length) == known, (about, s)
    shown = {name: described(it) if isinstance(it, bytes) else it for name, it in inputs.items()}
    return shown | {"dk": known}


def text_test(library, flags, about, result, text, password=PASSWORD):
    """The password and the text, whose verdict is the reader's and the library's."""
    def compared(salt, log_n, r, p, key):
        if 128 * r << log_n > MEMORY or 128 * r * p > MEMORY:
            return "OUT_OF_MEMORY"
        return "OK" if derived(password, salt, log_n, r, p, len(key)) == key else "MISMATCH"

    data = text if isinstance(text, bytes) else text.encode()
    try:
        verdict = hostile.verdict(data.decode(), compared)
    except UnicodeDecodeError:
        verdict = "ENCODING_INVALID"
    assert result == OPEN or (result == VALID) == (verdict == "OK"), (flags, about, verdict)
    if library:
        status = library.scrypt_verify_unlimited(password, len(password), data, len(data))
        assert status == header.STATUSES[verdict], (flags, about, verdict, status)
    printable = {"text": data.decode()} if len(data) < 5000 and data.isascii() and data.decode().isprintable() else {}
    return {"password": described(password), "hash": described(data), **printable}


def made(name, cases, library, skips):
    """The file, whose groups have a source."""
    test, (algorithm, kind) = key_test if name == "kdf" else text_test, KINDS[name]
    groups, flags = {}, set()
    for number, (words, result, about, *parts) in enumerate(cases, 1):
        asked = None if skips and "LargeMemory" in words else library
        row = {"tcId": number, "comment": about, "flags": words.split(), **test(asked, words, about, result, *parts)}
        groups.setdefault("RFC 7914" if "Rfc7914" in words else "Nilomafy", []).append(row | {"result": result})
        flags.update(words.split())
    return {
        "algorithm": algorithm, "schema": "scrypt_test_schema.json", "numberOfTests": len(cases),
        "header": [f"Test vectors of type {kind}: see README.md."],
        "notes": {it: dict(zip(("bugType", "description"), NOTES[it])) for it in sorted(flags)},
        "testGroups": [{"type": kind, "source": {"name": it, "version": "1"}, "tests": groups[it]} for it in groups],
    }


def lines(value, indent="\n"):
    """JSON with a member a line."""
    inner, (first, *_, last) = indent + " ", "{}" if isinstance(value, dict) else "[]"
    if isinstance(value, dict):
        each = [f"{json.dumps(name)}: {lines(it, inner)}" for name, it in value.items()]
    elif isinstance(value, list) and isinstance(value[0], dict):
        each = [lines(it, inner) for it in value]
    else:
        return json.dumps(value)
    return first + inner + f",{inner}".join(each) + indent + last


def main(*words):
    checks = words[:1] == ("check",)
    [path] = words[checks:] or [None]
    library, wrong = path and loaded(path), []
    if not checks and library is None:
        sys.exit(__doc__)
    if checks:
        resource.setrlimit(resource.RLIMIT_AS, (2 * MEMORY, 2 * MEMORY))
    if not jsonschema:
        subprocess.run(["tools/lacks", "the schema of vectors/", "python3-jsonschema"], check=True)
    schema = json.loads((FOLDER / "scrypt_test_schema.json").read_text("utf-8"))
    for name, cases in all_cases().items():
        file, it = FOLDER / f"scrypt_{name}_test.json", made(name, cases, library, checks)
        text = lines(it) + "\n"
        if jsonschema:
            jsonschema.validate(it, schema)
        if not checks:
            file.write_text(text, "utf-8")
        elif file.read_text("utf-8") != text:
            wrong.append(f"{file.name} is not what tools/generate/vectors.py makes")
        print(f"{file.name}: {len(cases)} tests, {len(text)} bytes")
    sys.exit("\n".join(wrong) or 0)


if __name__ == "__main__":
    main(*sys.argv[1:])
