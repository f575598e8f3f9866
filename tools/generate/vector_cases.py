"""The cases of vectors/: keys, `$scrypt$` texts and `$7$` texts. vectors.py has the reason of each flag.

A case has its flags, its result, a comment, and what it consists of. An invalid text holds the key that a reader with
the fault derives, so that the fault is seen, and not taken for a wrong password.
"""

import functools
import hashlib

from tools.tests import crypt64, phc, reference

VALID, INVALID, OPEN = "valid", "invalid", "acceptable"
PASSWORD, SALT, TOP = b"pleaseletmein", b"SodiumChloride", (1 << 30) - 1
PHC_SALT, MCF_SALT = SALT + b"!!", crypt64.letters(SALT + SALT + b"Sodi").encode()
BASE64 = "ABCDEFGHIJKLMNOPQRSTUVWXYZabcdefghijklmnopqrstuvwxyz0123456789+/"
MEGABYTE, OF_4_GIB = 1 << 20, [["00", (1 << 32) + 8]]

# Keys that take long: of 1 GiB (RFC 7914), of 4 GiB (hashlib), of N = 2^16 and r = 1 (reference.py), and three that
# hashlib's SHA-256 and HMAC and reference.py's scryptROMix make in parts. The library has them too.
OF_RFC_4 = ("2101cb9b6a511aaeaddbbe09cf70f881ec568d574a2ffd4dabe5ee9820adaa47"
            "8e56fd8f4ba5d09ffa1c6d927c40f4c337304049e8a952fbcbf45c6fa77a41a4")
OF_N_22 = "576e70e175e5ac44da87da941e2768e6087d26ed0d24acb89da50aeb2f88fbde"
OF_R_1 = "4f37dbcb04bbafed5081e9772cf42e7c4d4b8cda1d55ce08e3d3b544068f242a"
OF_LONG = {"password": "b8681fce2924567ed111e0e3c671748908c8de2c58fc301c014f1c78e1223814",
           "salt": "d7e798a602732c75e5d5f7b28115ed250a614750de0403c11422ef70b7520fab"}
LAST = "5ffa20ab2270724a0e73c8dd6292b69b84882828aadd57c2ae67efd1c5c19c4e"


@functools.cache
def derived(password, salt, log_n, r, p, length):
    """The key."""
    if (password, salt, log_n, r, p) == (PASSWORD, SALT, 20, 8, 1):
        return bytes.fromhex(OF_RFC_4)[:length]
    return reference.key(password, salt, log_n, r, p, length)


def numbers(*those, names=("N", "r", "p")):
    """The comment and the arguments."""
    return ", ".join(f"{name} = {it}" for name, it in zip(names, those)), dict(zip(names, those))


def accepted_keys():
    """A case of a key has the arguments that differ from the usual ones; `dk` is known, or derived."""
    yield "Rfc7914", VALID, "1", {"password": b"", "salt": b"", "dkLen": 64}
    yield "Rfc7914", VALID, "2", {"password": b"password", "salt": b"NaCl", "N": 1024, "r": 8, "p": 16, "dkLen": 64}
    yield "Rfc7914", VALID, "3", {"N": 1 << 14, "r": 8, "dkLen": 64}
    yield "Rfc7914 LargeMemory", OPEN, "4, with 1 GiB", {"N": 1 << 20, "r": 8, "dkLen": 64, "dk": OF_RFC_4}
    yield "LargeMemory", OPEN, "4 GiB: 128 * N * r is 0 in 32 bits", {"N": 1 << 22, "r": 8, "dk": OF_N_22}
    for name, key in OF_LONG.items():
        yield "LargeMemory", OPEN, f"{name}: 2^32 + 8 zeros", {name: OF_4_GIB, "dk": key}
    yield "LargeMemory", OPEN, "2^32 + 32 bytes: the last 32", {"dkLen": (1 << 32) + 32, "dk": LAST}
    for size in (0, 1, 55, 56, 63, 64, 65, 119, 120, 127, 128, 129, 1000, MEGABYTE):
        yield "PasswordLength", VALID, f"{size} bytes", {"password": b"x" * size}
    yield "PasswordLength", VALID, "64 bytes and a zero, which is hashed", {"password": b"x" * 64 + b"\0"}
    for size in (0, 1, 51, 52, 55, 56, 59, 60, 63, 64, 65, 115, 116, 119, 120, 127, 128, 129, 1000, MEGABYTE):
        yield "SaltLength", VALID, f"{size} bytes", {"salt": b"x" * size}
    for size in (1, 2, 10, 16, 31, 32, 33, 63, 64, 65, 96, 100, 255, 256, 257, 1000, 8161, 8193):
        yield "OutputLength", VALID, f"{size} bytes", {"dkLen": size}
    for name in ("password", "salt"):
        for data in (b"pass\0word", b"pass", b"\0", bytes(range(128, 256)), b"\xe2\x82\xac", b"a\xcc\x88",
                     b"\xc3\xa4", b"\xff\xfe", b"\xed\xa0\x80", b"password\n", b" password "):
            yield "AnyBytes", VALID, f"the {name} {data[:12]!r}", {name: data}
    digest = hashlib.sha256(b"x" * 65).digest()
    for about, *both in [("a zero appended", b"password", b"password\0"), ("none, and 64 zeros", b"", bytes(64)),
                         ("63 bytes, and a zero", b"x" * 63, b"x" * 63 + b"\0"), ("a digest", b"x" * 65, digest),
                         ("a digest and 32 zeros", b"x" * 65, digest + bytes(32))]:
        yield from (("EquivalentPassword", VALID, about, {"password": it}) for it in both)
    for costs in [(2, 1, 1), (2, 3, 5), (8, 7, 3), (16, 9, 2), (16, 5, 7), (32768, 1, 1), (128, 31, 1), (256, 127, 1),
                  (16, 1024, 1), (2, 4097, 3), (2, 65536, 1), (2, 1, 65536), (4, 1, 255), (4, 1, 256), (4, 1, 257),
                  (2, 641, 11), (1024, 8, 16), (65536, 2, 1), (32768, 6, 1), (2048, 100, 1), (64, 32, 5)]:
        yield "Parameters", VALID, *numbers(*costs)
    for costs in [(2, 8, 1), (4, 1, 1), (8, 2, 3), (64, 1, 2), (4096, 1, 1), (4096, 3, 1)]:
        yield "ThinTable", VALID, *numbers(*costs)
    yield from (("CostOne", OPEN, *numbers(*costs)) for costs in [(1, 1, 1), (1, 8, 2), (1, 1, 100)])


def rejected_keys():
    yield "CostAboveBlock", OPEN, "N = 2^16, r = 1", {"N": 1 << 16, "dk": OF_R_1}
    yield "EmptyOutput", OPEN, "0 bytes", {"dkLen": 0}
    for n in (0, 3, 15, 17, 1000, (1 << 32) + 16):
        yield "NotAPowerOfTwo", INVALID, *numbers(n)
    yield from (("Zero", INVALID, f"{name} = 0", {name: 0}) for name in ("r", "p"))
    for r, p in [(1 << 15, 1 << 15), (1, TOP + 1), (TOP + 1, 1), (1, TOP + 2), (TOP + 2, 1), (TOP, 2), (2, TOP),
                 (TOP, TOP), (1 << 16, 1 << 16), (641, 6700417), (1 << 31, 2), ((1 << 32) - 1, (1 << 32) - 1),
                 (1 << 31, 1 << 26), ((1 << 32) + 1, 1), (1, (1 << 32) + 1), (8, 1 << 32)]:
        about, those = numbers(2, r, p)
        yield "ProductTooLarge", INVALID, f"{about}: {r * p % (1 << 32)} in 32 bits", those
    for log_n, r in [(40, 8), (52, 32), (52, 33), (52, 8), (47, 1024), (24, 1 << 29), (28, TOP), (57, 1), (64, 8)]:
        about = f"N = 2^{log_n}, r = {r}: {(128 * r << log_n) % (1 << 64)} in 64 bits"
        yield "TableTooLarge", INVALID, about, {"N": 1 << log_n, "r": r}
    for it in ((1 << 37) - 31, (1 << 37) + 32):
        yield "OutputTooLong", INVALID, f"{it} bytes: {it % (1 << 32)} in 32 bits", {"dkLen": it}


def phc_text(costs=(4, 1, 1), shown=None, salt=PHC_SALT, length=32, password=PASSWORD, key=None):
    """A text with the key of `costs`, or with this key, that shows these or other parameters."""
    shown = costs if shown is None else shown
    params = shown if isinstance(shown, str) else "ln={},r={},p={}".format(*shown)
    key = derived(password, salt, *costs, length) if key is None else key
    return f"$scrypt${params}${phc.letters(salt)}${phc.letters(key)}"


def mcf_text(costs=(4, 1, 1), shown=None, salt=MCF_SALT, length=32, password=PASSWORD, key=None):
    shown = costs if shown is None else shown
    params = shown if isinstance(shown, str) else crypt64.params(*shown)[3:]
    key = derived(password, salt, *costs, length) if key is None else key
    return f"$7${params}{salt.decode()}${crypt64.letters(key)}"


def passwords(text):  # a case of a text has the text and, if it is not the usual one, the password
    long = b"x" * 100
    for right in (b"", long, "ä€😀".encode(), b"\xff\xfe", b" x "):
        yield "AnyBytes", VALID, f"the password {right[:12]!r}", text(password=right), right
    for right in (b"x" * 600, b"pass\0word"):
        yield "LongPassword", OPEN, f"{right[:9]!r}, {len(right)} bytes", text(password=right), right
    yield "EquivalentPassword LongPassword", OPEN, "a zero appended", text(), PASSWORD + b"\0"
    yield "EquivalentPassword", VALID, "a digest", text(password=b"x" * 65), hashlib.sha256(b"x" * 65).digest()
    for about, right, wrong in [
            ("case", PASSWORD, PASSWORD.title()), ("empty", PASSWORD, b""), ("shorter", PASSWORD, PASSWORD[:-1]),
            ("a blank", PASSWORD, PASSWORD + b" "), ("a line feed", PASSWORD, PASSWORD + b"\n"), ("none", b"", b" "),
            ("8 bytes", PASSWORD, PASSWORD[:8]), ("72 bytes", long, long[:72]), ("64 bytes", long, long[:64]),
            ("the last byte", long, long[1:] + b"y"), ("the 600th byte", long * 6, long[1:] * 6 + b"xxxxxy"),
            ("a zero, and more", b"pass", b"pass\0word"), ("up to the zero", b"pass\0word", b"pass"),
            ("after the zero", b"pass\0word", b"pass\0work"), ("NFD", b"\xc3\xa4", b"a\xcc\x88"),
            ("UTF-8 of Latin-1", b"\xe4", b"\xc3\xa4"), ("without the eighth bit", b"\xe4", b"d")]:
        yield "WrongPassword", INVALID, about, text(password=right), wrong


def keys(text, salt):
    key = derived(PASSWORD, salt, 4, 1, 1, 96)
    for at, size in [(0, 32), (15, 32), (31, 32), (64, 96), (95, 96)]:
        wrong = bytes(byte ^ (at == place) for place, byte in enumerate(key[:size]))
        yield "WrongKey", INVALID, f"a bit of byte {at} of {size}", text(key=wrong)
    yield "WrongKey", INVALID, "the right key, and a zero", text(key=key[:32] + b"\0")
    yield "ShortKey KeyLength", OPEN, "1 byte", text(length=1)
    for size in (4, 9, 10, 16, 31, 33, 48, 64, 65, 96, 128, 255, 256, 257, 1000, 8000):
        yield "KeyLength", OPEN, f"{size} bytes", text(length=size)


def costs(text):
    about = "N = 2^{}, r = {}, p = {}".format
    yield "Normal", VALID, "usual", text()
    for those in [(2, 1, 1), (10, 8, 1), (14, 8, 1), (6, 3, 5), (4, 65, 64), (13, 32, 1)]:
        yield "Normal", VALID, about(*those), text(those)
    yield "SmallCost", OPEN, "N = 2", text((1, 1, 1))
    yield "CostOne", OPEN, "N = 1", text((0, 1, 1))
    yield "LargeMemory", OPEN, "1 GiB: RFC 7914", text((20, 8, 1), salt=SALT)
    for those in [(0, 1, 1), (4, 1, 1), (31, 8, 1), (36, 8, 1), (1, 1, TOP), (1, TOP, 1)]:
        yield "WrongKey", INVALID, f"zeros: {about(*those)}", text(those, key=bytes(32))
    none = hashlib.pbkdf2_hmac("sha256", PASSWORD, b"", 1, 32)
    for those in (4, 0, 1), (4, 1, 0):
        for of, key in ("PBKDF2", none), ("1", None), ("zeros", bytes(32)):
            yield "Zero", INVALID, f"{about(*those)}: the key of {of}", text(shown=those, key=key)
    for r, p, key in [(1 << 15, 1 << 15, none), (1 << 16, 1 << 16, none), (641, 6700417, None), (TOP, TOP, None)]:
        yield "ProductTooLarge", INVALID, f"{about(4, r, p)}: r * p in 32 bits", text(shown=(4, r, p), key=key)
    for those in [(40, 8, 1), (50, 128, 1), (57, 1, 1), (63, 1, 1)]:
        yield "TableTooLarge", INVALID, about(*those), text(those, key=bytes(32))
    for those in (4, (1 << 25) + 1, 1), (4, 1, (1 << 25) + 1):
        yield "Wrapped", INVALID, f"{about(*those)}: 128 * r * p in 32 bits", text(shown=those)
    for more, tail in ("a letter", "!"), ("a field", "$x"):
        yield "CostBeforeSyntax", INVALID, f"2^50 bytes, and {more} too many", text(shown=(40, 8, 1)) + tail


def syntax(text):
    usual = text()
    fields, _, letters = usual.rpartition("$")
    for tail in ("\n", " ", "\0", "\0\0\0", "\0x", "\r\n"):
        yield "Surrounded", OPEN, repr(tail), usual + tail
    for tail in ("$", "$x", "$$"):
        yield "ExtraField", INVALID, tail, usual + tail
    for mark in "=!-_ \t":
        yield "NotInAlphabet", INVALID, f"{mark!r} within the key", usual[:-8] + mark + usual[-8:]
    yield from (("NotInAlphabet", INVALID, f"{it!r} as the last but one", usual[:-2] + it + usual[-1]) for it in "!*\n")
    yield "NotInAlphabet", INVALID, "a byte above 127 after the key", usual.encode() + b"\xff"
    above = usual[:-2].encode() + bytes([ord(usual[-2]) | 128]) + usual[-1:].encode()
    yield "NotInAlphabet", INVALID, "the eighth bit of a letter of the key", above
    for extra in "A.":
        yield "ImpossibleLength", INVALID, f"{extra} after 32 letters of the key", text(length=24) + extra
    for about, changed in [("empty key", text(key=b"")), ("no key", fields), ("a name", usual[: usual.index("$", 1)]),
                           ("no text", ""), ("a zero before the key", f"{fields}$\0{letters}")]:
        yield from (("MissingPart", INVALID, about, changed, password) for password in (PASSWORD, b""))
    yield "Surrounded", OPEN, "a blank first", " " + usual
    yield "Malformed", INVALID, "no dollar", usual[1:]
    yield "Malformed", INVALID, "two dollars", "$" + usual
    for name in ("argon2id", "yscrypt", "8", ""):
        yield "OtherScheme", INVALID, f"${name}$", f"${name}" + usual[usual.index("$", 1) :]


def phc_parameters(by):
    """Parameters in other writings, each with the key of those that a reader may take for them."""
    for params in ("r=1,ln=4,p=1", "ln=4,p=1,r=1", "p=1,r=1,ln=4"):
        yield "ParameterOrder", OPEN, params, by((4, 1, 1), params)
    for params in ("ln=4,r=8", "ln=4,p=1", "ln=4"):
        yield "MissingParameter", OPEN, params, by((4, 8, 1), params)
    yield "MissingParameter", OPEN, "r=8,p=1", by((17, 8, 1), "r=8,p=1")
    yield "MissingParameter", OPEN, "none", by((14, 8, 1)).replace("ln=14,r=8,p=1$", "")
    for params, log_n in ("ln=4,ln=5,r=1,p=1", 4), ("ln=4,ln=5,r=1,p=1", 5), ("ln=5,r=1,p=1,ln=4", 4):
        yield "Duplicate", INVALID, f"{params}: the key of ln={log_n}", by((log_n, 1, 1), params)
    yield "SameDuplicate", OPEN, "r twice", by((4, 1, 1), "ln=4,r=1,r=1,p=1")
    for params in ("ln=4,r=1,p=1,x=1", "x=1,ln=4,r=1,p=1", "n=4,ln=4,r=1,p=1", "ln=4,r=1,p=1,m=64", "ln=4,r=1,p=1,t=1"):
        yield "UnknownParameter", INVALID, params, by((4, 1, 1), params)
    for params in ("v=0$ln=4,r=1,p=1", "v=1$ln=4,r=1,p=1", "v=19$ln=4,r=1,p=1", "v=1,ln=4,r=1,p=1"):
        yield "Version", OPEN, params, by((4, 1, 1), params)
    for params in ("ln=04,r=1,p=1", "ln=4,r=01,p=1", "ln=4,r=1,p=0001", f"ln={'0' * MEGABYTE}4,r=1,p=1"):
        yield "LeadingZero", OPEN, params[:15], by((4, 1, 1), params)
    for params, those in ("ln=010,r=1,p=1", (8, 1, 1)), ("ln=4,r=010,p=1", (4, 8, 1)), ("ln=4,r=1,p=011", (4, 1, 9)):
        yield "Octal", INVALID, params, by(those, params)
    for params in ("LN=4,R=1,P=1", "ln=4,R=1,p=1", "Ln=4,r=1,p=1"):
        yield "UpperCase", INVALID, params, by((4, 1, 1), params)
    for params in ("ln=4,r=1,p=1,", ",ln=4,r=1,p=1", "ln=4,,r=1,p=1", "ln=4;r=1;p=1", "ln:4,r:1,p:1", "ln=4,r=1,p",
                   "ln=4,r=1,p=", "ln==4,r=1,p=1", "ln=4 ,r=1,p=1", "ln =4,r=1,p=1", "4,1,1", "ln=4,r=1,=1",
                   "ln=4$r=1$p=1", "$" * MEGABYTE):
        yield "Malformed", INVALID, params[:15], by((4, 1, 1), params)


def phc_numbers(by):
    for flag, result, sign in ("PlusSign", OPEN, "+"), ("Negative", INVALID, "-"):
        for params, r in (f"ln={sign}4,r=1,p=1", 1), (f"ln=4,r={sign}8,p=1", 8):
            yield flag, result, params, by((4, r, 1), params)
    for value in (" 4", "4 ", "\t4", "\n4", "4.0", "4e0", "0x4", "0b100", "0_4", "4_", "\u0664", "\uff14",
                  "4\0", "", "4;"):
        yield "NotADecimal", INVALID, f"ln={value!r}", by((4, 1, 1), f"ln={value},r=1,p=1")
    for value in (" 8", "8 ", "0x8", "\u0668", "8.0"):
        yield "NotADecimal", INVALID, f"r={value!r}", by((4, 8, 1), f"ln=4,r={value},p=1")
    yield "NotADecimal", INVALID, "r=1_6", by((4, 16, 1), "ln=4,r=1_6,p=1")
    for value in (36, 68, 100, 132, 260, 516, 65540, (1 << 32) + 4, (1 << 63) + 4, (1 << 64) + 4, -252, (1 << 128) + 4):
        yield "Wrapped", INVALID, f"ln={value}", by((4, 1, 1), f"ln={value},r=1,p=1")
    for value in (64, 256):
        yield "Wrapped", INVALID, f"ln={value}: N = 1", by((0, 1, 1), f"ln={value},r=1,p=1")
    for value in ((1 << 31) + 1, (1 << 32) + 1, (1 << 64) + 1, 1 - (1 << 32)):
        yield "Wrapped", INVALID, f"r={value}", by((4, 1, 1), f"ln=4,r={value},p=1")
        yield "Wrapped", INVALID, f"p={value}", by((4, 1, 1), f"ln=4,r=1,p={value}")
    yield "Wrapped", INVALID, "ln of a megabyte", by((4, 1, 1), f"ln={'4' * MEGABYTE},r=1,p=1")


def phc_base64(text):
    usual = text()
    padded = usual.replace("IQ$", "IQ==$")
    for about, changed in ("salt", padded), ("both", padded + "="), *((it, usual + it) for it in ("=", "==", "===")):
        yield "Padding", OPEN, about, changed
    for size, bits in (32, 1), (32, 2), (32, 3), (31, 15):
        *start, last = text(length=size)
        yield "NonCanonical", OPEN, f"bits {bits}", "".join(start) + BASE64[BASE64.index(last) | bits]
    yield "NonCanonical", OPEN, "salt", usual.replace("IQ$", "IR$")
    yield "ImpossibleLength", INVALID, "a letter after the salt", text(salt=SALT + b"!").replace("ZGUh$", "ZGUhA$")
    yield "ImpossibleLength", INVALID, "a salt of one letter", text(salt=b"").replace("$$", "$A$")
    both = text(salt=b"salt-0000000006x")
    start, _, letters = both.rpartition("$")
    yield "Normal", VALID, "a key with + and /", both
    for old, new in ("+/", "-_"), ("+", "-"), ("/", "_"), ("+", "."), ("+/", "./"):
        yield "NotInAlphabet", INVALID, f"{new} for {old}", f"{start}${letters.translate(str.maketrans(old, new))}"
    for mark in "- \n!=_":
        yield "NotInAlphabet", INVALID, f"{mark!r} in the salt", usual.replace("U29kaXVt", f"U29kaXVt{mark}", 1)
    yield "MissingPart", INVALID, "no salt, no key", "$scrypt$ln=4,r=1,p=1"
    yield "MissingPart", INVALID, "the key in place of the salt", text(salt=b"").replace("$$", "$")
    yield "UpperCase", INVALID, "the name", usual.replace("$scrypt", "$SCRYPT")
    for size in (0, 1, 2, 3, 7, 8, 16, 22, 32, 33, 48, 49, 64, 65, 100, MEGABYTE):
        yield "SaltLength", VALID if 8 <= size <= 48 else OPEN, f"{size} bytes", text(salt=b"\0" * size)


def mcf_syntax(text):
    usual = text()
    for size in (0, 1, 8, 14, 22, 42, 43, 44, 64, 86, 87, 200, MEGABYTE):
        yield "SaltLength", VALID if size in (22, 43) else OPEN, f"{size} letters", text(salt=b"x" * size)
    for salt in ("Na!Cl", "Na Cl", "Na:Cl", "Na*Cl", "Na\\Cl", "Na\nCl", "Na-_+=Cl", "Nä", "Na$Cl", "$", "Na$"):
        yield "SaltCharacters", OPEN, repr(salt), text(salt=salt.encode())
    yield "WrongKey", INVALID, "of the salt before a second dollar", text(salt=b"Na").replace("Na$", "Na$Cl$")
    decoded = crypt64.read(MCF_SALT.decode())
    yield "WrongKey", INVALID, "of the decoded salt", text(key=derived(PASSWORD, decoded, 4, 1, 1, 32))
    yield "WrongKey", INVALID, "r and p exchanged", text((4, 2, 1), (4, 1, 2))
    yield "WrongKey", INVALID, "r with the highest digit first", text(shown="2..../" + "/....")
    for bits in (16, 32, 48):
        last = crypt64.ALPHABET[crypt64.ALPHABET.index(usual[-1]) | bits]
        yield "NonCanonical", OPEN, f"bits {bits} of the last letter", usual[:-1] + last
    for params in ("!/..../....", "-/..../....", "\0/..../....", "2/.!../....", "2/.-../....", "2/...+/....",
                   "2/..../...!", "2/..../..=.", "2/..../.\0.."):
        yield "NotInAlphabet", INVALID, f"the parameters {params!r}", text(shown=params)
    for at in (3, 4, 8, 9, 13):
        raw = bytearray(usual.encode())
        raw[at] |= 128
        yield "NotInAlphabet", INVALID, f"the eighth bit of letter {at}", bytes(raw)
    for params in ("", "2", "2/...", "2/....", "2/..../...", "4,1,1,", "." * MEGABYTE):
        yield "Malformed", INVALID, f"the parameters {params[:12]!r}, and no salt", text(shown=params, salt=b"")
    for prefix in ("$07$", "$7a$", "$7", "7$", "$7$$", "$ 7$", "$\uff17$", "$scrypt$"):
        yield "OtherScheme", INVALID, f"the prefix {prefix}", prefix + usual[3:]
    yield "UpperCase", INVALID, "a letter of the key", usual[:-43] + usual[-43:].swapcase()


def both_cases(text, salt):
    return *costs(text), *passwords(text), *keys(text, salt), *syntax(text)


def all_cases():
    """The cases of each file."""
    of_phc = phc_parameters, phc_numbers, phc_base64
    return {
        "kdf": [*accepted_keys(), *rejected_keys()],
        "phc": [*both_cases(phc_text, PHC_SALT), *(row for cases in of_phc for row in cases(phc_text))],
        "mcf": [*both_cases(mcf_text, MCF_SALT), *mcf_syntax(mcf_text)],
    }
