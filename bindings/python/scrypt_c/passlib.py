"""A handler for passlib: passlib.hash.scrypt, with keys and results from this library.

    from passlib.context import CryptContext
    from scrypt_c.passlib import scrypt

    context = CryptContext(schemes=[scrypt])

It reads and writes the hashes of passlib.hash.scrypt, and has its options. A hash with fewer rounds
than new hashes needs an update, so verify_and_update replaces it, unless min_rounds allows it.

All handlers with the same attributes share a PasswordHasher, `scrypt.hasher()`, with the hashers
for Django too: it has the limits, the slots and the queue. To change them, set the attributes of a
subclass, for instance `max_tables` or `timeout`. If a salt has more than 64 bytes and is not UTF-8
without a `$`, neither format of the hasher has it: it derives the key, and passlib compares it.
"""

from __future__ import annotations

import passlib.exc
import passlib.hash
from passlib.utils.handlers import validate_secret

from .declared import RECOMMENDED_LOG_N
from .errors import InvalidSaltError, VerifyMismatchError
from .hasher import Limited, PasswordHasher, shared
from .migration import from_passlib


class scrypt(Limited, passlib.hash.scrypt):  # passlib names handlers as their scheme
    """passlib.hash.scrypt, with keys and results from libscrypt_c."""

    default_rounds = RECOMMENDED_LOG_N

    @classmethod
    def hasher(cls) -> PasswordHasher:
        """Returns the hasher of this class, for instance for its `stats`."""
        return shared(cls.default_rounds, cls.block_size, cls.parallelism, cls)

    @classmethod
    def from_string(cls, hash: str | bytes) -> scrypt:
        try:
            return super().from_string(hash)
        except (AssertionError, TypeError):  # passlib's own, also of a damaged hash
            if not isinstance(hash, (str, bytes)):
                raise
            raise passlib.exc.MalformedHashError(cls) from None

    @classmethod
    def verify(cls, secret: str | bytes, hash: str | bytes) -> bool:
        validate_secret(secret)
        stored = cls.from_string(hash)
        if stored.checksum is None:
            raise passlib.exc.MissingDigestError(cls)
        try:
            text = from_passlib(stored.to_string())
        except InvalidSaltError:  # neither format has this salt
            return super().verify(secret, hash)
        try:
            return cls.hasher().verify(text, secret)
        except VerifyMismatchError:
            return False

    def _calc_checksum(self, secret: str | bytes) -> bytes:
        costs = self.rounds, self.block_size, self.parallelism
        return self.hasher()._key_with(*costs, secret, self.salt, self.checksum_size)

    def _calc_needs_update(self, **kwds: object) -> bool:
        # With vary_rounds new hashes may have fewer than default_rounds too.
        may_vary = self.min_desired_rounds is not None or self.vary_rounds
        if not may_vary and self.rounds < self.default_rounds:
            return True
        return super()._calc_needs_update(**kwds)
