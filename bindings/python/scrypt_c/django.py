"""Password hashers for Django, 3.2 and later.

    PASSWORD_HASHERS = [
        "scrypt_c.django.PHCPasswordHasher",     # PHC strings, as other programs read them
        "scrypt_c.django.ScryptPasswordHasher",  # hashes of Django's own ScryptPasswordHasher
        ...
    ]

The first class in the list makes new hashes; a hash of another class is replaced at the next login.
OverPBKDF2 and OverBCrypt hash the hashes of PBKDF2 and bcrypt once more, for users who don't log
in: `wrap_all` does so, and docs/MIGRATION.md of the repository shows how.

A PasswordHasher makes and verifies the hashes of these classes: it has the limits, the slots and the
queue. By default those of PHC strings share one, with the handler for passlib too. New hashes of
ScryptPasswordHasher have N = 2**16 and p = 2, because with N = 2**17 they don't fit into Django's
column of 128 characters; so it has a PasswordHasher of its own. Parameters and limits are
attributes. To change them, put your own subclass into the list; `hasher` lets two classes share:

    class OurPasswordHasher(PHCPasswordHasher):
        hasher = PasswordHasher(log_n=16, max_mem=1 << 30, timeout=10)

    class OurDjangoHasher(ScryptPasswordHasher):
        hasher = OurPasswordHasher.hasher

    class AnotherDjangoHasher(ScryptPasswordHasher):  # with a hasher of its own
        work_factor, parallelism, max_mem, timeout = 2**15, 4, 1 << 30, 10

A hash that is longer than the column raises HashTooLongError before anything is derived.

For a hash that is damaged or exceeds the limits, check_password raises a RejectedHashError. If no
view catches it, put FalseIfRejected before the class: check_password returns False after the time
of a wrong password, and the logger has the reason:

    class OurPasswordHasher(FalseIfRejected, PHCPasswordHasher):
        pass
"""

from __future__ import annotations

import base64
import logging
import re
from typing import Any, Callable, Optional

from django.apps import apps
from django.contrib.auth import get_user_model
from django.contrib.auth.hashers import (
    BasePasswordHasher,
    BCryptSHA256PasswordHasher,
    PBKDF2PasswordHasher,
    mask_hash,
    must_update_salt,
)
from django.core.exceptions import ImproperlyConfigured

from .arguments import raw_password
from .declared import MAX_SALT_LEN, RECOMMENDED_R, Status
from .errors import (
    HashTooLongError,
    InvalidHashError,
    RejectedHashError,
    TooCostlyError,
    VerifyMismatchError,
)
from .hasher import Limited, PasswordHasher, shared
from .key import log_of
from .migration import from_django
from .params import accepted, params_of

LOG = logging.getLogger(__name__)


class FalseIfRejected:
    """A base class to put before one of the hashers below: no password matches a rejected hash,
    verifying takes the time of a wrong password, and the log has the reason."""

    def verify(self, password: str, encoded: str) -> bool:
        try:
            return super().verify(password, encoded)  # type: ignore[misc]
        except RejectedHashError as error:
            LOG.error("a stored hash is rejected: %s", error)
        return self.verify_no_hash(password)  # type: ignore[attr-defined]


def _invalid(why: str) -> InvalidHashError:
    return InvalidHashError(Status.ENCODING_INVALID, why)


def _check_column(*parts: object, key_len: int, padded: bool = False) -> None:
    """Raises HashTooLongError if a hash of these parts, joined by `$`, and of a key in Base64 does
    not fit into the column of the project's users. Without models there is no column."""
    if not apps.ready:
        return
    try:
        users = get_user_model()
    except ImproperlyConfigured:  # of other users than Django's, or of none
        from django.contrib.auth.base_user import AbstractBaseUser

        users = AbstractBaseUser
    room = users._meta.get_field("password").max_length
    letters = _letters(key_len) + (-_letters(key_len) % 4 if padded else 0)
    size = sum(len(str(it)) + 1 for it in parts) + letters
    if room is not None and size > room:
        words = f"the hash has {size} characters, and the column of users {room}"
        raise HashTooLongError(Status.BUFFER_SIZE, words)


def _letters(size: int) -> int:
    """Returns how many letters of Base64 encode so many bytes."""
    return (4 * size + 2) // 3


class _Hasher(BasePasswordHasher):
    """The methods of both formats: a PasswordHasher verifies."""

    hasher: PasswordHasher

    def _text(self, encoded: str) -> str:
        """Returns what `hasher` reads. Raises InvalidHashError."""
        if not encoded.startswith(self.algorithm):
            raise _invalid(f"not a hash of {self.algorithm}")
        return encoded[len(self.algorithm) :]

    def verify(self, password: str, encoded: str) -> bool:
        try:
            return self.hasher.verify(self._text(encoded), password)
        except VerifyMismatchError:
            return False

    def verify_no_hash(self, password: str) -> bool:
        """Returns False after the time of a wrong password, as for an unknown user. Under
        load a new hash would take longer, because only verifications are derived in batches."""
        return self.hasher.verify_and_update(None, password)[0]

    def must_update(self, encoded: str) -> bool:
        """Returns whether a login should replace the hash: it is weaker than new hashes, or its
        salt is shorter than Django's 22 letters, or it is damaged."""
        try:
            weaker = self.hasher.check_needs_rehash(self._text(encoded))
            return weaker or must_update_salt(self.decode(encoded)["salt"], self.salt_entropy)
        except InvalidHashError:
            return True

    def safe_summary(self, encoded: str) -> dict[str, Any]:
        """Returns the parts of `decode`, by Django's words, without most of the salt and the key."""
        shown = {name.replace("_", " "): part for name, part in self.decode(encoded).items()}
        return {**shown, **{name: mask_hash(shown[name]) for name in ("salt", "hash")}}

    def harden_runtime(self, password: str, encoded: str) -> None:
        """Does nothing: additional work cannot give a hash with smaller parameters the time of a
        hash with larger ones."""


class ScryptPasswordHasher(Limited, _Hasher):
    """The format of Django's own ScryptPasswordHasher: scrypt$N$SALT$r$p$KEY."""

    algorithm = "scrypt"
    work_factor = 2**16  # with p = 2 as much work as the recommended parameters
    block_size = RECOMMENDED_R
    parallelism = 2

    @property
    def hasher(self) -> PasswordHasher:  # type: ignore[override]
        return shared(log_of(self.work_factor), self.block_size, self.parallelism, self)

    def encode(
        self, password: str, salt: str, n: Any = None, r: Any = None, p: Any = None
    ) -> str:
        if password is None:
            raise TypeError("password must be provided.")
        if not salt or "$" in salt:
            raise ValueError("salt must be provided and cannot contain $.")
        own = self.hasher.params  # 0 does not mean a default, and is rejected
        log_n = own.log_n if n is None else log_of(n)
        costs = accepted(log_n, own.r if r is None else r, own.p if p is None else p)
        shown = self.algorithm, 1 << log_n, salt, *costs[1:]
        _check_column(*shown, key_len=64, padded=True)
        key = base64.b64encode(self.hasher._key_with(*costs, password, salt.encode(), 64)).decode()
        return "$".join(map(str, (*shown, key)))

    def _text(self, encoded: str) -> str:
        try:
            return from_django("scrypt" + super()._text(encoded))
        except ValueError as error:
            raise _invalid(str(error)) from None

    def decode(self, encoded: str) -> dict[str, Any]:
        self._text(encoded)  # rejects all others
        algorithm, n, salt, r, p, key = encoded.split("$")
        numbers = {"work_factor": int(n), "block_size": int(r), "parallelism": int(p)}
        return {"algorithm": algorithm, **numbers, "salt": salt, "hash": key}


class PHCPasswordHasher(_Hasher):
    """PHC strings, after the hasher's name in Django: scrypt_c$scrypt$ln=..,r=..,p=..$SALT$KEY."""

    algorithm = "scrypt_c"
    hasher = shared()

    def encode(self, password: str, salt: str) -> str:
        if password is None:
            raise TypeError("password must be provided.")
        raw, (log_n, r, p, key_len) = salt.encode(), self.hasher.params
        letters = _letters(len(raw)) * "."
        shown = ["7", 11 * "." + letters] if self.hasher.options.mcf else ["scrypt", f"ln={log_n},r={r},p={p}", letters]
        _check_column(self.algorithm, *shown, key_len=key_len)
        return self.algorithm + self.hasher.hash(password, salt=raw)

    def decode(self, encoded: str) -> dict[str, Any]:
        """Returns the parts of a hash, with the salt that `encode` was given. A salt of another
        program is decoded as Latin-1."""
        text = self._text(encoded)
        params_of(text)  # rejects what is not a hash
        scheme, *parts = text.split("$")[1:]
        if scheme == "7":  # the salt is not encoded, and follows eleven letters of parameters
            parts[:1] = parts[0][:11], parts[0][11:]
        if len(parts) != 3:
            raise _invalid("the text lacks its parameters, its salt or its key")
        params, salt, key = parts
        if scheme != "7":
            salt = base64.b64decode(salt + "=" * (-len(salt) % 4)).decode("latin1")
        return {"algorithm": self.algorithm, "parameters": params, "salt": salt, "hash": key}


class OverPasswordHasher(PHCPasswordHasher):
    """The base of the next two: hashes a hash of another hasher of Django, `inner`, once more, and
    keeps its cost and its salt in the new salt. A hash of `inner` whose cost is above `max_cost` is
    rejected, like one above the limits of `hasher`, before any work."""

    inner: type[BasePasswordHasher]
    max_cost: int
    _settings: str  # the pattern of the cost and the salt of `inner`
    _key: str  # the pattern of what follows them in a hash of `inner`

    def wrap(self, old: str) -> str:
        """Returns what to store in place of a hash of `inner`. Raises a RejectedHashError, or
        ValueError if `hasher` makes `$7$` hashes: no password would match them."""
        if self.hasher.options.mcf:  # a `$7$` hash encodes a new salt
            raise ValueError("hasher has mcf=True, but a hash over another is a PHC string")
        name, _, parts = old.partition("$")
        found = re.fullmatch(f"({self._settings}){self._key}", parts, re.ASCII)
        if found is None or name != self.inner.algorithm:
            raise _invalid(f"not a hash of {self.inner.algorithm}")
        self._judge(found[1])
        return super().encode(old, found[1])

    def salt(self) -> Any:
        return self.inner().salt()

    def encode(self, password: str, salt: Any) -> str:
        return self.wrap(self.inner().encode(password, salt))

    def verify(self, password: str, encoded: str) -> bool:
        self.hasher._judge(self._text(encoded))
        settings = self.decode(encoded)["salt"]
        self._judge(settings)
        raw_password(password)  # whose errors have nothing of the password
        return super().verify(self._old(password, settings), encoded)

    def verify_no_hash(self, password: str) -> bool:
        raw_password(password)
        self.inner().encode(password, self.salt())
        return super().verify_no_hash(password)

    def _judge(self, settings: str) -> None:
        found = re.fullmatch(self._settings, settings, re.ASCII)
        if found is None or len(settings) > MAX_SALT_LEN:
            raise _invalid(f"the salt is not a cost and a salt of {self.inner.algorithm}")
        if int(found["cost"]) > self.max_cost:
            words = f"{self.inner.algorithm} has a cost of {found['cost']}"
            raise TooCostlyError(Status.TOO_COSTLY, f"{words}, with max_cost={self.max_cost}")

    def _old(self, password: str, settings: str) -> str:
        """Returns the hash of `inner`."""
        raise NotImplementedError


class OverPBKDF2(OverPasswordHasher):
    """Over PBKDF2PasswordHasher. A cost is the number of iterations."""

    algorithm = "scrypt_pbkdf2"
    inner = PBKDF2PasswordHasher
    max_cost = 4 * PBKDF2PasswordHasher.iterations
    _settings = r"(?P<cost>[1-9]\d{0,8})\$[!-#%-~]+"
    _key = r"\$[A-Za-z\d+/]+=*"

    def _old(self, password: str, settings: str) -> str:
        cost, salt = settings.split("$")
        return self.inner().encode(password, salt, int(cost))


class OverBCrypt(OverPasswordHasher):
    """Over BCryptSHA256PasswordHasher. A cost is the logarithm of the number of rounds."""

    algorithm = "scrypt_bcrypt"
    inner = BCryptSHA256PasswordHasher
    max_cost = 2 + BCryptSHA256PasswordHasher.rounds
    _settings = r"\$2[aby]\$(?P<cost>0[4-9]|[12]\d|3[01])\$[./A-Za-z\d]{22}"
    _key = r"[./A-Za-z\d]{31}"

    def _old(self, password: str, settings: str) -> str:
        return self.inner().encode(password, settings.encode())


def wrap_all(
    users: Any, hasher: OverPasswordHasher, progress: Optional[Callable[[int, int], object]] = None
) -> int:
    """Stores what `hasher.wrap` returns in place of each hash of `hasher.inner` among `users`, a
    queryset, and returns how many it has replaced. Each is replaced only if it is still the hash
    that was read: a user who has logged in or changed the password meanwhile keeps the new hash. A
    hash that is rejected stays, and the log has the reason.

    `progress` is called after each with the number of hashes that are done, and of all. Each is
    replaced in a transaction of its own, unless the caller has begun one, which would make logins
    wait until it ends. After an interruption, call it again: it goes on with the rest.
    """
    every = users.model._base_manager.using(users.db)
    left = users.filter(password__startswith=f"{hasher.inner.algorithm}$").order_by("pk")
    done, replaced, total = 0, 0, left.count()
    rest = left
    while batch := list(rest.values_list("pk", "password")[:100]):
        for key, old in batch:
            try:
                replaced += every.filter(pk=key, password=old).update(password=hasher.wrap(old))
            except ValueError as error:
                LOG.error("the hash of user %s is not replaced: %s", key, error)
            done += 1
            if progress is not None:
                progress(done, total)
        rest = left.filter(pk__gt=batch[-1][0])
    return replaced
