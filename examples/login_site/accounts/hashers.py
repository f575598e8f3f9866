from scrypt_c import PasswordHasher
from scrypt_c.django import FalseIfRejected, PHCPasswordHasher


class Scrypt(FalseIfRejected, PHCPasswordHasher):
    """scrypt with the recommended parameters. No password matches a stored hash that is damaged or
    too costly, after the usual time; the logger scrypt_c.django has the reason."""

    hasher = PasswordHasher(timeout=10, max_waiting=32)  # in fewer threads than the server has
