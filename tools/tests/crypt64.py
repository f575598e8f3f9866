"""Crypt Base64 and `$7$` hashes in plain Python, written from docs/FORMATS.md."""

ALPHABET = "./0123456789ABCDEFGHIJKLMNOPQRSTUVWXYZabcdefghijklmnopqrstuvwxyz"


def digits(number, count):
    """The first `count` letters of a number, the lowest digit first."""
    return "".join(ALPHABET[number >> 6 * place & 63] for place in range(count))


def letters(data):
    """The letters of bytes."""
    groups = (data[at : at + 3] for at in range(0, len(data), 3))
    return "".join(digits(int.from_bytes(it, "little"), len(it) + 1) for it in groups)


def number(text):
    """The number that letters encode, the lowest digit first, or None if one is outside the alphabet."""
    if not all(letter in ALPHABET for letter in text):
        return None
    return sum(ALPHABET.index(letter) << 6 * place for place, letter in enumerate(text))


def read(text):
    """The bytes that letters encode, or None if they are not an encoding."""
    if number(text) is None:
        return None
    data = b""
    for at in range(0, len(text), 4):
        group = text[at : at + 4]
        size = len(group) * 3 // 4
        data += (number(group) & (1 << 8 * size) - 1).to_bytes(size, "little")
    return data if letters(data) == text else None


def params(log_n, r, p):
    """The part of a `$7$` hash before the salt."""
    return f"$7${ALPHABET[log_n]}{digits(r, 5)}{digits(p, 5)}"


def text(field, key, log_n, r, p):
    """A hash whose salt is this field."""
    return f"{params(log_n, r, p)}{field}${letters(key)}"
