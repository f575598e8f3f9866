"""Runs the built program on command lines whose results are known from elsewhere, and on each fault
once.

A run writes one line, to standard output for the statuses 0 and 1, and otherwise to standard error;
the other stream stays empty. The keys and the verdicts are those of vectors/,
Python's hashlib, tools/tests/known.py and bindings/cases.tsv.

usage: python3 -m tools.tests.program PROGRAM
       python3 -m tools.tests.program EMULATOR.. PROGRAM    without the longest password, terminals and the counts of work
"""

import hashlib
import itertools
import json
import re
import shlex
import sys

from tools.generate import header
from tools.tests import allocations, crypt64, prompt, reference, runs, work
from tools.tests.hash_files import hash_files
from tools.tests.known import CRYPT, EMPTY, EMPTY_OF_64, EMPTY_PHC, HASHLIB, PASSLIB, RFC, SHORT
from tools.tests.runs import USAGE, run
from tools.tests.streams import memory, streams

FIRST_KEY = (
    "77d6576238657b203b19ca42c18a0497f16b4844e3074ae8dfdffa3fede21442"
    "fcd0069ded0948f8326a753a0fc81f17e8d3e0fb2e0d3628cf35e20c38d18906"
)
MAX_MEM, MAX_WORK, MIN_KEY_LEN = (header.NUMBERS[f"DEFAULT_{it}"] for it in ("MAX_MEM", "MAX_WORK", "MIN_KEY_LEN"))

# The minimum log_n whose table with r = 8 is larger.
ABOVE = MAX_MEM.bit_length() - 10


def too_costly(needed, work, max_mem=MAX_MEM, max_work=MAX_WORK):
    return f"hash refused: TooCostly, it needs {needed} bytes and work {work}, and --max-mem is {max_mem} and --max-work {max_work}"


def key_too_short(key_len, least):
    return f"hash refused: KeyTooShort, its key has {key_len} bytes, and --min-key-len is {least}"


PASSLIB_SALT_AND_KEY = PASSLIB[PASSLIB.index("$aM") :]


def key_of(password, salt, length):
    """hashlib's key by (4, 1, 1)."""
    return hashlib.scrypt(password, salt=salt, n=16, r=1, p=1, dklen=length)


# A format, its longest salt or a long one, and the hashes of a long password with a log_n of 4 and of 5.
LONG = "x" * 100_000
LONG_HASHES = [(form, salt.hex(), *(reference.hash_of(form, LONG.encode(), salt, log_n, 1, 1, 32) for log_n in (4, 5)))
               for form, salt in (("phc", b"s" * 64), ("mcf", b"s" * 5000))]
# `$7$` hashes of the empty password, whose long keys differ in the last byte.
LONG_KEY = key_of(b"", b"", 90_000)
RIGHT, WRONG = (crypt64.text("", LONG_KEY[:-1] + bytes([LONG_KEY[-1] ^ bit]), 4, 1, 1) for bit in (0, 1))

LONGEST = 1 << 17  # of an argument

# Each row has the arguments as a shell splits them, the input, the status, the line, and the reason
# for the row.
ANSWERS = [
    ("key 0 1 1 32 ''", "", 0, reference.scrypt(b"", b"", 0, 1, 1, 32).hex(), "N = 1"),
    ("key 4 3 2 33 0a0bFF", "password", 0, "16b7ca20bc71b047b152bb150c62dd9e14d23f698eeaade5d0ed74a8e355acd2da",
     "all parameters differ, and the salt has digits of either case"),
    *((f"key 4 1 1 {it} ''", "", 0, key_of(b"", b"", it).hex(), "a long key") for it in (4096, 1_000_000)),
    ("hash phc 16 8 1 68cd79ef5debdd7b2fc5b8b7d65aabd5", "password", 0, PASSLIB, "passlib's hash"),
    ("hash phc 14 8 1 536f6469756d43686c6f72696465", "pleaseletmein", 0, RFC, "the third key of RFC 7914"),
    ("hash phc 14 8 1 536f6469756d43686c6f72696465 10", "pleaseletmein", 0, SHORT, "the last argument is the length of the key"),
    ("hash mcf 4 1 1 ''", "", 0, EMPTY, "the empty password and salt"),
    ("hash mcf 4 1 1 '' 64", "", 0, EMPTY_OF_64, "a longer key"),
    ("hash mcf 4 1 1 '' 10", "", 0, "$7$2/..../....$rNxJWVHNv/mCN.", "the shortest key"),
    ("hash mcf 14 32 1 986d90d343e07e4f7e00864f03040bf3", "pleaseletmein", 0, CRYPT, "libxcrypt's hash"),
    ("hash mcf 14 32 1 986d90d343e07e4f7e00864f03040bf3 10", "pleaseletmein", 0,
     "$7$CU..../....Mq4YHD2syxYT.MsH1Ek0n1$JyHIxez0DOwm01", "with the shortest key"),
    (f"verify {PASSLIB}", "password", 0, "ok", "the password of a PHC hash"),
    ("verify $7$86..../....sålt-ключ-塩$JBBPPL5zOCwvCfq6A/PJLkQvgCyERPLs/BfvPFtvhT4", "pässword", 0, "ok",
     "a salt that is not ASCII, by Python's hashlib"),
    ("verify $7$2/..../....$r/", "", 0, "ok", "a shorter key is the beginning of a longer one"),
    (f"verify {RIGHT}", "", 0, "ok", "a long key"),
    (f"verify {WRONG}", "", 1, "no", "its last byte is compared too"),
    *((f"hash {form} 4 1 1 {salt}", LONG, 0, text, "a long password and a long salt") for form, salt, text, _ in LONG_HASHES),
    *((f"verify {text}", LONG, 0, "ok", "the same, verified") for _, _, text, _ in LONG_HASHES),
    *((f"rehash {form} 5 1 1 32 {salt} {text}", LONG, 0, new, "and hashed again") for form, salt, text, new in LONG_HASHES),
]

# Lines that are not commands, by error.
NO_COMMANDS = {
    "no command": ["''", "help", "Key 4 1 1 64 ", "--default-limits", "--max-work=1 help"],
    "-h, --help and --version take no other argument": [f"{asked} {it}" for asked in ("-h", "--help", "--version") for it in ("''", "x", "key 4 1 1 64 ''")],
    "-h, --help and --version come first": [*(f"{it} {asked}" for it in ("--raw", "--hash-file=x") for asked in ("-h", "--help", "--version")), "key -h"],
    "one minus does not begin an option": ["-", "-help", "-key 4 1 1 64 "],
    "too few arguments": ["key 4 1 1 16", "hash phc 4 1 1", "--generate-salt hash phc 4 1", "verify", "rehash phc 4 1 1 32 00"],
    "too many": ["key 4 1 1 16 00 x", "hash phc 4 1 1 00 32 x", f"verify {EMPTY} x", f"rehash phc 4 1 1 32 00 {EMPTY} x"],
    "no format": ["hash md5 4 1 1 00", "hash PHC 4 1 1 00", f"rehash 4 1 1 32 00 {EMPTY}", f"verify phc {EMPTY_PHC}"],
}

# Options after the command, which are wrong words there.
OPTIONS_AFTER = [f"verify --default-limits {EMPTY}", f"verify {EMPTY} --default-limits", "key --help", "key --version", "hash phc --recommended",
                 f"rehash phc 4 1 1 --generate-salt 32 {EMPTY}", "key 4 1 1 64 00 --raw", f"verify -- {EMPTY}",
                 "key -- 4 1 1 64 ''"]

# Texts that are not numbers, and each argument that is a number.
NO_NUMBERS = {"''": "nothing", "04": "a leading zero", "00": "two digits for 0", "+4": "a plus", "-4": "a minus", "4.": "a dot",
              "0x4": "hexadecimal", "\u0664": "a digit that is not ASCII"}
NUMBER_PLACES = ["key {} 1 1 64 ''", "key 4 {} 1 64 ''", "key 4 1 {} 64 ''", "key 4 1 1 {} ''", "hash mcf {} 1 1 ''", "hash phc 4 {} 1 00",
                 "hash mcf 4 1 {} ''", "hash mcf 4 1 1 '' {}", "rehash mcf {} 1 1 32 '' " + EMPTY, "rehash mcf 4 {} 1 32 '' " + EMPTY,
                 "rehash phc 4 1 {} 32 00 " + EMPTY, "rehash mcf 4 1 1 {} '' " + EMPTY]

# The maximum of each number, which is read and then not accepted. One more is a usage error.
GREATEST = list(zip(NUMBER_PLACES, itertools.cycle((255, 2**32 - 1, 2**32 - 1, 2**64 - 1))))

# Parameters that are not accepted.
NOT_ACCEPTED = {"4 0 1": "r is 0", "4 1 0": "p is 0", "57 1 1": "N * r is 2^57", "28 1073741823 1": "N * r is above 2^57",
                "255 1 1": "N is 2^255", "1 1073741824 1": "r * p is 2^30", "4 65536 65536": "r * p is 2^32"}

# Each fault: bindings/cases.tsv has those of verifications, without the name of a parameter.
FAULTS = [
    *((line, "", 2, USAGE, reason) for reason, lines in NO_COMMANDS.items() for line in lines),
    *((line, "", 2, USAGE, "an option after the command") for line in OPTIONS_AFTER),
    *((place.format(it), "", 2, USAGE, reason) for place in NUMBER_PLACES for it, reason in NO_NUMBERS.items()),
    *((place.format(greatest + 1), "", 2, USAGE, "a number above its range") for place, greatest in GREATEST),
    *((place.format(greatest), "", 2, "invalid scrypt parameters", "the maximum number")
      for place, greatest in GREATEST if place != "key 4 1 1 {} ''"),
    *((f"key {params} 64 ''", "", 2, "invalid scrypt parameters", reason) for params, reason in NOT_ACCEPTED.items()),
    *((f"hash {form} {it}", "", 2, "invalid scrypt parameters", "a stored key has 10 to 64 bytes")
      for form in ("phc 4 1 1 00", "mcf 4 1 1 ''") for it in (0, 9, 65)),
    *((f"rehash mcf 4 1 1 {it} '' {EMPTY}", "", 2, "invalid scrypt parameters", "the same") for it in (0, 9, 65)),
    *((f"key 4 1 1 {it} ''", "", 2, "invalid output buffer length", "a key has 1 to 137438953440 bytes")
      for it in (0, 137438953441, 137438953471, 18446744073709551615)),
    (f"--max-work=01 verify {EMPTY}", "", 2, USAGE, "a number with a leading zero in an option"),
    (f"--max-work= verify {EMPTY}", "", 2, USAGE, "no number"),
    (f"--max-mem=18446744073709551616 verify {EMPTY}", "", 2, USAGE, "a number of 2^64"),
    (f"--max-work 192 verify {EMPTY}", "", 2, USAGE, "a number in a separate argument"),
    ("--hash-file hash verify", "", 2, USAGE, "a file in a separate argument"),
    ("--hash-file --help", "", 2, USAGE, "later arguments are not read"),
    (f"--default-limits --hash-files verify {EMPTY}", "", 2, USAGE, "an unknown option"),
    (f"-- verify {EMPTY}", "", 2, USAGE, "-- does not end the options"),
    ("key 4 1 1 64 0", "", 2, "salt is not hexadecimal", "half a byte of salt"),
    ("key 4 1 1 64 0g", "", 2, "salt is not hexadecimal", "no digit"),
    ("key 4 0 1 64 0", "", 2, "salt is not hexadecimal", "the salt before the parameters"),
    ("key 4 0 1 0 ''", "", 2, "invalid scrypt parameters", "the parameters before the length of a key"),
    ("hash phc 04 1 1 0", "", 2, USAGE, "numbers before the salt of a hash"),
    ("hash phc 57 1 1 0", "", 2, "salt is not hexadecimal", "this salt before the parameters"),
    ("hash phc 4 1 1 --generate-salt", "", 2, "salt is not hexadecimal", "a salt like an option is a salt"),
    ("rehash phc 57 1 1 32 0 $", "", 2, "salt is not hexadecimal", "the salt before the wanted parameters"),
    ("rehash phc 57 1 1 32 00 $", "", 2, "invalid scrypt parameters", "these before the text of the hash"),
    ("rehash phc 4 1 1 32 00 $", "", 2, "hash refused: EncodingInvalid", "the text of the hash"),
    ("verify --version", "", 2, "hash refused: EncodingInvalid", "a text like an option is a text"),
    *((f"verify {PASSLIB.replace(old, f'{name}={above}')}", "", 2, f"hash refused: ParamInvalid {name}", "a number above its range")
      for old, name, above in (("ln=16", "ln", 256), ("r=8", "r", 1 << 32), ("p=1", "p", 1 << 32))),
    ("hash phc 4 1 1 ''", "password", 2, "hash refused: SaltInvalid", "a PHC hash has a salt"),
    ("hash phc 56 1 1 " + "00" * 65, "", 2, "hash refused: SaltInvalid", "a salt of 65 bytes, before memory"),
    ("key 56 1 1 32 ''", "", 3, "out of memory", "a table of 2^63 bytes"),
    ("hash phc 56 1 1 00", "", 3, "out of memory", "the same for a hash"),
    ("verify $7$s/..../....$r/", "", 3, "out of memory", "the same for a verdict"),
    (f"rehash mcf 56 1 1 32 '' {EMPTY}", "", 3, "out of memory", "the same for a new hash"),
]

REHASHES = [
    (f"rehash mcf 4 1 1 64 '' {EMPTY}", "", 0, EMPTY_OF_64, "a longer key is wanted"),
    (f"rehash mcf 4 1 1 32 '' {EMPTY}", "", 0, "ok", "the hash is as wanted"),
    (f"rehash phc 4 1 1 32 '' {EMPTY}", "", 0, "ok", "as wanted: the other format and its salt do not matter"),
    (f"rehash phc 4 1 1 64 '' {EMPTY}", "", 2, "hash refused: SaltInvalid", "a PHC hash takes no empty salt"),
    (f"rehash phc 4 1 1 64 '' {EMPTY}", "x", 1, "no", "a wrong password comes before a salt that the new hash rejects"),
    (f"rehash mcf 56 1 1 32 '' {EMPTY}", "x", 1, "no", "and before memory that the new hash needs"),
    (f"rehash phc 14 8 1 32 536f6469756d43686c6f72696465 {SHORT}", "pleaseletmein", 0, RFC,
     "a key of 10 bytes is replaced by one of 32"),
    (f"rehash mcf 5 1 1 32 abcd {HASHLIB}", "password", 0,
     "$7$3/..../....fqA$GSoayDUS/tZpwSg3qA/sOnwx1jjdhVpHN49dfPH6c09", "the new hash has the format that is named"),
    ("rehash phc 4 1 1 32 00 $argon2id$ln=4$aA", "password", 2, "hash refused: Algorithm", "verifying rejects the hash"),
    (f"rehash phc 17 8 1 32 00 {PASSLIB}", "invalid", 1, "no", "a wrong password of a weaker hash"),
]

# The arguments, the input, the status, the line, and the reason for the row. EMPTY needs 128 + 2048
# + 256 bytes, and the work 4 * (16 + 32).
LIMITS = [
    (f"--max-mem=2432 verify {EMPTY}", "", 0, "ok", "the maximum memory"),
    (f"--max-mem=2431 verify {EMPTY}", "", 2, too_costly(2432, 192, max_mem=2431), "one byte above the maximum memory"),
    (f"--max-work=192 verify {EMPTY}", "", 0, "ok", "the maximum work"),
    (f"--max-work=191 verify {EMPTY}", "", 2, too_costly(2432, 192, max_work=191), "above the maximum work"),
    (f"--min-key-len=32 verify {EMPTY}", "", 0, "ok", "the minimum key length"),
    (f"--min-key-len=33 verify {EMPTY}", "", 2, key_too_short(32, 33), "below the minimum key length"),
    (f"--max-mem=2432 --max-work=191 verify {EMPTY}", "", 2, too_costly(2432, 192, 2432, 191), "two options"),
    (f"--max-work=191 --default-limits verify {EMPTY}", "", 0, "ok", "a later option overrides an earlier one"),
    ("--max-work=192 verify $7$2/..../....$r/", "", 2, key_too_short(1, MIN_KEY_LEN), "the others are the defaults"),
    (f"--default-limits verify $scrypt$ln=17,r=8,p=5{PASSLIB_SALT_AND_KEY}", "", 2, too_costly(134224896, 20976640),
     "five times the recommended work"),
    (f"--default-limits verify $scrypt$ln={ABOVE},r=8,p=1{PASSLIB_SALT_AND_KEY}", "", 2,
     too_costly((1 << 10 + ABOVE) + 3072, 32 * ((1 << ABOVE) + 32)), "more memory than is allowed"),
    (f"--default-limits verify {SHORT}", "", 2, key_too_short(10, MIN_KEY_LEN), "a key of 10 bytes"),
    ("--max-work=1 verify $argon2id$ln=4$aA", "", 2, "hash refused: Algorithm", "an invalid hash comes first"),
    (f"--max-work=191 rehash phc 4 1 1 32 00 {EMPTY}", "", 0, "ok", "rehash may do the work of a new hash"),
    (f"--max-mem=2431 rehash phc 4 1 1 32 00 {EMPTY}", "", 0, "ok", "and take its memory"),
    (f"--max-work=191 rehash phc 3 1 1 32 00 {EMPTY}", "", 2, too_costly(2432, 192, max_work=191), "a new hash that needs less"),
    (f"--min-key-len=33 rehash phc 4 1 1 32 00 {EMPTY}", "", 2, key_too_short(32, 33), "a shorter key, if a length is named"),
]

# Each option before each command that it does not fit, and the passwords that --strip-newline
# leaves.
OPTIONS = [
    *((f"{limit} {command}", "", 2, USAGE, "limits are those of verify and rehash")
      for limit in ("--default-limits", "--max-mem=1", "--max-work=1", "--min-key-len=1")
      for command in ("key 4 1 1 16 ''", "hash phc 4 1 1 00")),
    ("--generate-salt key 4 1 1 16", "", 2, USAGE, "the salt of a key is named"),
    (f"--generate-salt verify {EMPTY}", "", 2, USAGE, "a verdict has no salt"),
    ("--recommended key 16", "", 2, USAGE, "the recommended parameters are those of a hash"),
    (f"--recommended rehash phc 32 {EMPTY}", "", 2, USAGE, "the same"),
    ("--recommended hash phc 17 8 1", "", 2, USAGE, "they are not named"),
    *((f"--hash-file=/nowhere{command}", "", 2, USAGE, "no file is read without a command") for command in ("", " foo", " --")),
    ("--hash-file=/nowhere key 4 1 1 16 ''", "", 2, USAGE, "nor for a command without HASH"),
    ("--hash-file=/nowhere hash phc 4 1 1 00", "", 2, USAGE, "the same"),
    ("--hash-file=/nowhere verify", "", 4, "/nowhere: No such file or directory (os error 2)", "no file"),
    *((f"{option} {command}", "", 2, USAGE, "only a key is written raw, and has a bar")
      for option in ("--raw", "--progress") for command in ("hash phc 4 1 1 00", f"verify {EMPTY}", f"rehash phc 4 1 1 32 00 {EMPTY}")),
    ("--raw key 4 1 1 0 ''", "", 2, "invalid output buffer length", "a raw key of no bytes"),
    (f"--default-limits --generate-salt --strip-newline rehash phc 4 1 1 32 {EMPTY}", "\n", 0, "ok", "three options"),
    (f"--default-limits rehash phc 14 8 1 32 536f6469756d43686c6f72696465 {SHORT}", "pleaseletmein", 0, RFC,
     "rehash accepts a short key"),
    (f"--default-limits rehash phc 4 1 1 32 00 $scrypt$ln=17,r=8,p=5{PASSLIB_SALT_AND_KEY}", "", 2,
     too_costly(134224896, 20976640), "rehash rejects a costly hash"),
    *((f"--strip-newline verify {EMPTY}", text, status, line, "one newline is cut off")
      for text, status, line in (("", 0, "ok"), ("\n", 0, "ok"), ("\r\n", 0, "ok"), ("\n\n", 1, "no"), ("\r", 1, "no"))),
    ("--strip-newline key 4 1 1 64 ''", "\n", 0, FIRST_KEY, "the same for a key"),
    (f"--strip-newline rehash mcf 4 1 1 64 '' {EMPTY}", "\n", 0, EMPTY_OF_64, "and for a new hash"),
]

# Lines that make a hash with a salt of their own, and how the hash begins.
LOG_N, R, P = RECOMMENDED = [header.NUMBERS[f"RECOMMENDED_{name}"] for name in ("LOG_N", "R", "P")]
SALTED = 2 * [("--generate-salt hash phc 4 1 1", "$scrypt$ln=4,r=1,p=1$"), ("--generate-salt hash mcf 4 1 1", crypt64.params(4, 1, 1))]
SALTED += [("--recommended hash phc", f"$scrypt$ln={LOG_N},r={R},p={P}$")]
SALTED += [("--recommended --generate-salt hash mcf", crypt64.params(*RECOMMENDED))]

# Lines, and whether each draws a salt.
DRAWN = [(line, True) for line in ("--generate-salt hash phc 4 1 1", f"--generate-salt rehash phc 5 1 1 32 {EMPTY}")]
DRAWN += [(line, False) for line in ("key 4 1 1 16 ''", "hash phc 4 1 1 00", f"verify {EMPTY}", f"rehash phc 5 1 1 32 00 {EMPTY}")]
DRAWN += [(f"--generate-salt {line}", False) for line in ("key 4 1 1 16", f"verify {EMPTY}", "--help", "--version", "foo")]


def rows(program):
    for line, text, status, printed, reason in ANSWERS + FAULTS + REHASHES + LIMITS + OPTIONS:
        wanted = (status, f"{printed}\n", "") if status < 2 else (status, "", f"{printed}\n")
        yield f"{line[:100]!r} ({reason})", run([*program, *shlex.split(line)], text.encode()), wanted
    yield "no words", run(program), (2, "", f"{USAGE}\n")
    # Python passes this character as the byte ff.
    for words in ("\udcff", "verify \udcff", "key 4 1 1 \udcff"):
        yield f"{words!r} (an argument is not UTF-8)", run([*program, *shlex.split(words)]), (3, "", "the arguments can't be read\n")


def long_passwords(program):
    """The input is read whole, however long it is."""
    for length in (1_000_001, (1 << 28) + 1)[: 1 if len(program) > 1 else None]:
        wanted = key_of(bytes(length), b"", 16).hex()
        yield f"a password of {length} bytes", run([*program, *"key 4 1 1 16".split(), ""], bytes(length)), (0, f"{wanted}\n", "")


def verdicts(program):
    """The verifications of bindings/cases.tsv, except a text with a zero byte, which no argument has."""
    for line in (header.TOP / "bindings/cases.tsv").read_text("utf-8").splitlines()[1:]:
        status, password, text = line.split("\t")[:3]
        if "\\0" not in text:
            *ended, error = run([*program, "--default-limits", "verify", text], password.encode())
            refused = 2, "", "hash refused: " + status.removeprefix("HASH_").title().replace("_", "")
            found = *ended, re.match(r"(hash refused: \w+)?", error)[0]
            yield f"{text} (cases.tsv)", found, {"OK": runs.OK, "MISMATCH": runs.NO}.get(status, refused)


def vectors(program):
    """The tests of vectors/, except what needs 1 GiB, and texts that no argument can have."""
    for test in read_tests("kdf"):
        n, numbers = test["N"], [test[it] for it in ("r", "p", "dkLen")]
        words = ["key", n.bit_length() - 1, *numbers, bytes_of(test["salt"]).hex()]
        if n and n == 1 << words[1] and len(words[-1]) < LONGEST:
            yield from judged("kdf", test, run([*program, *map(str, words)], bytes_of(test["password"])), (0, f"{test['dk']}\n", ""))
    for name in ("phc", "mcf"):
        for test in read_tests(name):
            text = bytes_of(test["hash"])
            if b"\0" not in text and len(text) < LONGEST:
                limits = f"--max-mem={MAX_MEM}", "--min-key-len=1"
                yield from judged(name, test, run([*program, *limits, "verify", text], bytes_of(test["password"])), runs.OK)


def judged(name, test, found, right):
    is_right = found == right
    is_refused = found[0] in (2, 3) or found == runs.NO and "hash" in test
    about = f"{name} {test['tcId']} of vectors/: {test['comment']}, {found}"
    yield about, (is_right and test["result"] != "invalid") or (is_refused and test["result"] != "valid"), True


def read_tests(name):
    groups = json.loads((header.TOP / f"vectors/scrypt_{name}_test.json").read_text("utf-8"))["testGroups"]
    return [test for group in groups for test in group["tests"] if "LargeMemory" not in test["flags"]]


def bytes_of(part):
    return bytes.fromhex(part) if isinstance(part, str) else b"".join(bytes.fromhex(one) * times for one, times in part)


def salts(program):
    """Hashes with a drawn salt have different salts of 16 bytes, and accept their passwords; without random bytes, no hash
    is made."""
    drawn = set()
    for line, start in SALTED:
        status, text, _ = run([*program, *shlex.split(line)], b"password")
        salt = text.removeprefix(start).split("$")[0]
        drawn.add(salt)
        verified = run([*program, "verify", text.strip()], b"password")
        yield f"the hash and the salt of {line}", (status, len(salt), verified), (0, 22, runs.OK)
    yield "drawn salts differ", len(drawn), len(SALTED)
    with runs.failing_calls() as library:
        hashed = run([*program, "--generate-salt", "hash", "phc", "4", "1", "1"], env={"LD_PRELOAD": library})
        yield "no salt can be drawn", hashed, (3, "", "no salt can be drawn\n")
        for line, is_drawn in DRAWN:
            status, _, printed = run([*program, *shlex.split(line)], env={"LD_PRELOAD": library, "SIZES": "1"})
            yield f"whether {line!r} draws a salt, and needs it", ("drawn\n" in printed, status == 3), (is_drawn, is_drawn)


# As the source has it, where a line ends in `\n\` and may begin with `\x20`.
SOURCE = (header.TOP / "crates/scrypt_commands/src/usage.rt").read_text("utf-8")
HELP = re.search(r'HELP: &str = "\\\n(.*?)"', SOURCE, re.S)[1].replace("\\n\\\n", "\n").replace("\\x20", " ")
HELP_NUMBERS = [f"LOG_N R P are {LOG_N} {R} {P} and", f"in bytes ({MIN_KEY_LEN} for verify", f"{LOG_N} {R} {P}), or for rehash"]


def information(program):
    yield "--version", run([*program, "--version"]), (0, f"{prompt.VERSION}\n", "")
    yield "--help", run([*program, "--help"]), (0, HELP, "")
    yield "-h", run([*program, "-h"]), (0, HELP, "")
    yield "the numbers of the header in the help", [it for it in HELP_NUMBERS if it not in HELP], []
    named = USAGE.removeprefix("usage: ").split(" | ")
    yield "the usage line has each command as the help", set(named) - {it.strip() for it in HELP.splitlines()}, set()
    named = re.findall(r"^  ([a-z]+) [a-zA-Z]|(?<= )(--[a-z-]+=?)", HELP, re.M)
    offered = re.search('choices="(key.*?)"', (header.TOP / "bindings/cli/scrypt_tool.bash").read_text("utf-8"), re.S)
    yield "bash completes the commands and options of the help", set(offered[1].split()), {"".join(it) for it in named}


def raw_keys(program):
    """Keys as bytes, of each length, with no newline."""
    for length in (1, 64, 100):
        key = key_of(b"password", b"\0", length).decode(errors="surrogateescape")
        yield f"a raw key of {length} bytes", run([*program, "--raw", *f"key 4 1 1 {length} 00".split()], b"password"), (0, key, "")


def main():
    parts = [memory, rows, verdicts, vectors, long_passwords, raw_keys, salts, hash_files, information, streams, allocations.cases, prompt.cases,
             work.cases]
    sys.exit(not runs.report("program", itertools.chain(*(part(sys.argv[1:]) for part in parts))))


if __name__ == "__main__":
    main()
