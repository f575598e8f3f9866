"""PHC strings in plain Python, written from the grammar in docs/FORMATS.md."""

import base64
import re

DECIMAL = r"(?: 0 | [1-9][0-9]* )"
PAIR = r"[a-z0-9-]{1,32} = [a-zA-Z0-9/+.-]+"
TEXT = re.compile(
    rf"""
    \$ (?P<id> [a-z0-9-]{{1,32}} )
    (?: \$v= (?P<version> {DECIMAL} ) )?
    (?: \$ (?P<pairs> {PAIR} (?: , {PAIR} )* ) )?
    (?: \$ (?P<salt> [a-zA-Z0-9+/]+ ) (?: \$ (?P<key> [a-zA-Z0-9+/]+ ) )? )?
    """,
    re.VERBOSE,
)


def letters(data):
    """Bytes in Base64 without padding."""
    return base64.b64encode(data).decode().rstrip("=")


def read(text):
    """The bytes that letters encode, or None if they are not an encoding."""
    if len(text) % 4 == 1:
        return None
    data = base64.b64decode(text + "=" * (-len(text) % 4))
    return data if letters(data) == text else None


def text(salt, key, log_n, r, p):
    """A hash of scrypt."""
    return f"$scrypt$ln={log_n},r={r},p={p}${letters(salt)}${letters(key)}"


def parts(text):
    """The algorithm, version, pairs, salt and key of a text, each None if missing; or None if the text is not a hash."""
    found = TEXT.fullmatch(text)
    if not found:
        return None
    name, version, pairs, salt, key = found.groups()
    names = [pair.split("=", 1)[0] for pair in (pairs or "").split(",")]
    if version is not None and int(version) >= 1 << 32:
        return None
    if len(pairs or "") > 127 or "v" in names or len(set(names)) < len(names):
        return None
    salt, key = (None if it is None else read(it) or b"" for it in (salt, key))
    if salt is not None and not 1 <= len(salt) <= 64 or key is not None and not 10 <= len(key) <= 64:
        return None
    return name, version, pairs, salt, key
