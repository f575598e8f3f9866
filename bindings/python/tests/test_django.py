"""The hashers for Django, in a Django without a project."""

import base64
import hashlib
import importlib.util
import pathlib
import re
import unittest
from concurrent.futures import ThreadPoolExecutor
from unittest import mock

import django
from django.conf import settings

settings.configure(
    PASSWORD_HASHERS=[
        f"{__name__}.Small", "scrypt_c.django.ScryptPasswordHasher",
        "scrypt_c.django.OverPBKDF2", "django.contrib.auth.hashers.PBKDF2PasswordHasher"],
    INSTALLED_APPS=["django.contrib.auth", "django.contrib.contenttypes"],
    DATABASES={"default": {"ENGINE": "django.db.backends.sqlite3", "NAME": ":memory:"}},
    DEFAULT_AUTO_FIELD="django.db.models.AutoField", USE_TZ=True)
django.setup()

from django.contrib.auth import hashers  # noqa: E402  after the settings
from django.contrib.auth.models import User  # noqa: E402
from django.core.management import call_command  # noqa: E402
from django.utils.module_loading import import_string  # noqa: E402

import scrypt_c  # noqa: E402
from scrypt_c.django import FalseIfRejected, OverBCrypt, OverPBKDF2  # noqa: E402
from scrypt_c.django import PHCPasswordHasher, ScryptPasswordHasher, wrap_all  # noqa: E402
from scrypt_c.hasher import shared  # noqa: E402
from scrypt_c.migration import from_django, from_libscrypt, from_werkzeug, stored_text  # noqa: E402
from test_hasher import KEY, refuse_a_lone_surrogate  # noqa: E402

NO_KEY = f"{86 * 'A'}=="  # 64 bytes of zeros, which no password has
COSTLY = [
    f"scrypt$2$salt$1$2000000${NO_KEY}", f"scrypt$1099511627776$salt$8$1${NO_KEY}",
    f"scrypt_c$scrypt$ln=1,r=1,p=2000000{KEY}",
]
DAMAGED = [
    "scrypt_c", "scrypt_c$", "scrypt_c$7", "scrypt_c$7$", "scrypt_c$scrypt$ln=4", "scrypt_c$scrypt$a$b$c",
    "scrypt", "scrypt$", f"scrypt_c$scrypt$ln=6,r=8,p=1$c2V!c2FsdA${43 * 'A'}",
    f"scrypt_c$scrypt$ln=6,r=8,p=1{KEY}", f"scrypt_c$argon2$ln=6,r=8,p=1{KEY}",
    "scrypt_c$7$46..../....saltsalt$..", "scrypt$16$seasalt$8", f"scrypt$16$$8$1${NO_KEY}",
    f"scrypt$16$sea\ud800$8$1${NO_KEY}", f"scrypt$x$seasalt$8$1${NO_KEY}",
    f"scrypt$0$seasalt$8$1${NO_KEY}",  # not the default
    "scrypt_c$scrypt$ln=6,r=8,p=1", "scrypt_c$scrypt$ln=6,r=8,p=1$c2FsdHNhbHQ", "scrypt$16$seasalt$8$1$",
    f"scrypt${1 << 260}$seasalt$8$1${NO_KEY}", f"scrypt$16$seasalt${8 + (1 << 32)}$1${NO_KEY}",
    f"scrypt$016$seasalt$8$1${NO_KEY}", f"scrypt$16$seasalt$+8$1${NO_KEY}", f"scrypt$16$seasalt$8$1 ${NO_KEY}",
    *(f"scrypt$16$seasalt$8$1${key}" for key in [
        NO_KEY[:-30], NO_KEY[1:], NO_KEY[:-1], NO_KEY[:-2],  # cut
        f"*{NO_KEY[1:]}", f"-{NO_KEY[1:]}", f"é{NO_KEY[1:]}",  # not in the alphabet
        f"{NO_KEY}\n", f"{NO_KEY}=", f"{NO_KEY}$AAAA", f"{85 * 'A'}B==",  # more than the bytes
        f"{14 * 'A'}==", 84 * "A", f"{87 * 'A'}=",  # 10, 63 and 65 bytes
    ]),
]


class Small(PHCPasswordHasher):
    hasher = scrypt_c.PasswordHasher(log_n=6)


def or_false(kind, **attributes):
    return type(kind.__name__, (FalseIfRejected, kind), attributes)()


class Hashers(unittest.TestCase):
    def test_both_formats(self):
        """Ours is a PHC string; Django's has N, salt, r, p and 64 bytes of hashlib's key."""
        ours, theirs = hashers.make_password("lètmein"), ScryptPasswordHasher()
        self.assertTrue(ours.startswith("scrypt_c$scrypt$ln=6,r=8,p=1$"), ours)
        self.assertLess(len(ours), 128, "Django's column")
        self.assertTrue(scrypt_c.PasswordHasher().verify(ours[len("scrypt_c") :], "lètmein"))
        key = hashlib.scrypt("lètmein".encode(), salt=b"seasalt", n=1024, r=8, p=2, dklen=64)
        stored = f"scrypt$1024$seasalt$8$2${base64.b64encode(key).decode()}"
        self.assertEqual(theirs.encode("lètmein", "seasalt", 1024, 8, 2), stored)
        for text in (ours, stored):
            self.assertTrue(hashers.check_password("lètmein", text))
            self.assertFalse(hashers.check_password("letmein", text))

    def test_settings_of_the_page(self):
        """The first class makes a hash, and each class reads its own."""
        page = pathlib.Path(__file__).parents[1] / "README.md"
        names = re.search(r"(?m)^PASSWORD_HASHERS = \[\n([^]]*)^\]$", page.read_text("utf-8"))[1]
        kinds = [import_string(name)() for name in re.findall('"(.*?)"', names)]
        with mock.patch.object(hashers, "get_hashers", lambda: kinds):
            with mock.patch.object(hashers, "get_hashers_by_algorithm", lambda: {it.algorithm: it for it in kinds}):
                self.assertTrue(hashers.make_password("pw").startswith("scrypt_c$scrypt$ln=17,"))
                for it in kinds:
                    self.assertTrue(hashers.check_password("pw", it.encode("pw", it.salt())))

    def test_weaker_hashes_are_replaced(self):
        """At a login Django replaces a weaker hash, a hash of another hasher, and a wrapped hash."""
        weak = "scrypt_c" + scrypt_c.PasswordHasher(log_n=5).hash("lètmein")
        theirs = ScryptPasswordHasher().encode("lètmein", "seasalt", 1024)
        pbkdf2 = hashers.PBKDF2PasswordHasher().encode("lètmein", 22 * "s", 1000)
        ours, over = hashers.make_password("lètmein"), OverPBKDF2().wrap(pbkdf2)
        for old, is_replaced in [(weak, 1), (theirs, 1), (pbkdf2, 1), (over, 1), (ours, 0)]:
            new = []
            self.assertFalse(hashers.check_password("letmein", old, setter=new.append))
            self.assertTrue(hashers.check_password("lètmein", old, setter=new.append))
            self.assertEqual(new, is_replaced * ["lètmein"], old)

    def test_all_share_one_hasher(self):
        """Its max_tables is for PHC strings, and for the hashes over others. An attribute that
        differs makes another hasher."""
        usual = scrypt_c.PasswordHasher().options
        for kind in (PHCPasswordHasher, OverPBKDF2, OverBCrypt):
            self.assertIs(kind().hasher, PHCPasswordHasher.hasher)
            self.assertEqual(kind().hasher.options, usual)
        self.assertIs(ScryptPasswordHasher().hasher, ScryptPasswordHasher().hasher)
        self.assertEqual(ScryptPasswordHasher().hasher.params[:3], (16, 8, 2))
        given = {"max_mem": 1 << 20, "max_work": 1 << 16, "max_tables": 3, "timeout": 0.5}
        kind = type("Ours", (ScryptPasswordHasher,), {"work_factor": 64, **given})
        self.assertIs(kind().hasher, kind().hasher)
        found = {**kind().hasher.options._asdict(), "timeout": kind().hasher._timeout}
        self.assertEqual({name: found[name] for name in given}, given)
        same = type("Same", (ScryptPasswordHasher,), {"hasher": Small.hasher})()
        stored = same.encode("pw", 22 * "s")
        self.assertTrue(stored.startswith("scrypt$64$") and same.verify("pw", stored))
        self.assertFalse(same.must_update(stored))

    def test_one_hasher_of_threads(self):
        """Threads that ask at the same time for a new hasher get the same one."""
        with ThreadPoolExecutor(24) as pool:
            asked = [pool.submit(shared, 5, 1, 1) for _ in range(24)]
        self.assertEqual(len({id(it.result()) for it in asked}), 1)

    def test_salts_and_weak_hashes(self):
        """decode returns the salt that encode was given; a hash with a short salt is weak."""
        for it, encoded, salt, is_weak in [
            (Small(), Small().encode("pw", "sea$" + 18 * "s"), "sea$" + 18 * "s", False),
            (Small(), f"scrypt_c$7$46..../....seasalt${43 * '.'}", "seasalt", True),
            (Small(), "scrypt_c" + Small.hasher.hash("pw", salt=b"\xff\x00"), "\xff\x00", True),
            (ScryptPasswordHasher(), f"scrypt$65536${21 * 's'}$8$2${NO_KEY}", 21 * "s", True),
            (ScryptPasswordHasher(), f"scrypt$65536${22 * 's'}$8$2${NO_KEY}", 22 * "s", False),
            (ScryptPasswordHasher(), f"scrypt$32768${22 * 's'}$8$2${NO_KEY}", 22 * "s", True),
        ]:
            self.assertEqual(it.decode(encoded)["salt"], salt, encoded)
            self.assertTrue(it.safe_summary(encoded)["salt"].startswith(salt[:6]), encoded)
            self.assertEqual(it.must_update(encoded), is_weak, encoded)

    def test_rejected_hashes(self):
        """check_password raises, whichever hasher is preferred: a broken database is not a wrong
        password. With FalseIfRejected it returns False, logs one line, and stores no new hash."""
        of_all = {it.algorithm: or_false(it, work_factor=64) for it in (Small, ScryptPasswordHasher)}
        for stored in COSTLY + DAMAGED:
            error = scrypt_c.TooCostlyError if stored in COSTLY else scrypt_c.RejectedHashError
            for preferred in (Small(), ScryptPasswordHasher()):
                with self.assertRaises(error, msg=stored):
                    hashers.check_password("pw", stored, preferred=preferred)
            with mock.patch.object(hashers, "get_hashers_by_algorithm", lambda: of_all):
                for preferred in of_all.values():
                    new = []
                    with self.assertLogs("scrypt_c.django") as log:
                        found = hashers.check_password("pw", stored, new.append, preferred)
                    self.assertEqual((found, new, len(log.output)), (False, [], 1), stored)
                    self.assertNotIn("AAAA", log.output[0], "the key")

    def test_methods_of_damaged_hashes(self):
        """decode and safe_summary, which pages of the admin call, raise nothing but InvalidHashError."""
        good = Small().encode("pw", "saltsalt"), ScryptPasswordHasher().encode("pw", "salt", 16, 1, 1)
        cut = [text[:end] for text in good for end in range(len("scrypt_c"), len(text))]
        for stored in COSTLY + DAMAGED + cut + ["argon2$x", ""]:
            it = Small() if stored.startswith("scrypt_c") else ScryptPasswordHasher()
            for method in (it.decode, it.safe_summary):
                try:
                    self.assertIn("salt", map(str, method(stored)))
                except scrypt_c.InvalidHashError:
                    self.assertTrue(it.must_update(stored), stored)

    def test_no_hash(self):
        """It is verified, so it can be derived in a batch, unlike a new hash.
        The hasher derives new hashes too, so that they wait for its slots."""
        own = scrypt_c.PasswordHasher(log_n=6)
        hasher = mock.Mock(wraps=own, params=own.params, options=own.options)
        ours = or_false(Small, hasher=hasher)
        with self.assertLogs("scrypt_c.django"):
            self.assertIs(ours.verify("pw", DAMAGED[0]), False)
        self.assertIs(ours.verify_no_hash("pw"), False)
        self.assertTrue(ours.encode("pw", "saltsalt"))
        calls = [name for name, *_ in hasher.method_calls]
        self.assertEqual(calls, ["verify", "verify_and_update", "verify_and_update", "hash"])
        theirs, hasher.method_calls[:] = or_false(ScryptPasswordHasher, hasher=hasher), []
        self.assertIs(theirs.verify("pw", f"scrypt$16$seasalt$8$1${NO_KEY}"), False)
        self.assertIs(theirs.verify_no_hash("pw"), False)
        self.assertTrue(theirs.encode("pw", "salt", 16, 8, 1))
        self.assertEqual([name for name, *_ in hasher.method_calls], ["verify", "verify_and_update", "_key_with"])

    def test_other_errors(self):
        """Other errors are raised too, and none contains the password. The limits are exact."""
        ours, of = or_false(Small, hasher=scrypt_c.PasswordHasher(log_n=6)), scrypt_c.Params(10, 8, 2)
        theirs = or_false(ScryptPasswordHasher, work_factor=64)
        for it in (theirs, ours):
            stored = it.encode("pw", "seasalt")
            refuse_a_lone_surrogate(
                self, lambda wrong: it.verify(wrong, stored), lambda wrong: it.encode(wrong, "salt"))
            self.assertRaises(TypeError, it.encode, None, "seasalt")
        for name, limit in [("max_work", of.work), ("max_mem", of.memory)]:
            setattr(theirs, name, limit)
            self.assertTrue(theirs.verify("pw", theirs.encode("pw", "seasalt", 1024, 8, 2)))
            setattr(theirs, name, limit - 1)
            self.assertRaises(scrypt_c.TooCostlyError, theirs.encode, "pw", "seasalt", 1024, 8, 2)
            delattr(theirs, name)
        for salt, *costs in [("",), ("sea$salt",), ("salt", 0, 8, 1), ("salt", 16, 0, 1)]:
            self.assertRaises(ValueError, theirs.encode, "pw", salt, *costs)
        ours.hasher.close()
        self.assertRaisesRegex(ValueError, "closed", ours.verify, "pw", stored)


def derived(salt, n=64):
    return hashlib.scrypt(b"pw", salt=salt, n=n, r=8, p=1, dklen=64, maxmem=1 << 26)


def b64(data):
    return base64.b64encode(data).decode()


SALT = b"sixteen letters."
# What docs/MIGRATION.md stores in Django's column: the function, and its arguments.
CONVERTED = [
    (from_werkzeug, f"scrypt:32768:8:1${SALT.decode()}${derived(SALT, 32768).hex()}"),
    (from_django, f"scrypt$16384${22 * 'a'}$8$1${b64(derived(22 * b'a', 16384))}"),
    (from_libscrypt, f"$s1$0e0801${b64(SALT)}${b64(derived(SALT, 16384))}"),
    (stored_text, SALT, derived(SALT), 64, 8, 1),
]
PBKDF2_OF_32 = f"pbkdf2_sha256$260000${16 * '0f'}${b64(bytes(32))}"


class Column(unittest.TestCase):
    """What fits into the column of 128 characters, which SQLite does not check."""

    def test_new_hashes_fit(self):
        of_64 = {"hasher": scrypt_c.PasswordHasher(log_n=4, key_len=64)}
        with mock.patch.object(scrypt_c.PasswordHasher, "hash", side_effect=AssertionError("derived")):
            with mock.patch.object(scrypt_c.PasswordHasher, "_key_with", side_effect=AssertionError("derived")):
                for it, *arguments in [
                    (ScryptPasswordHasher(), "pw", 22 * "s", 2**17), (ScryptPasswordHasher(), "pw", 23 * "s"),
                    (type("Long", (PHCPasswordHasher,), of_64)(), "pw", 22 * "s"),
                    (type("Mcf", (PHCPasswordHasher,), {"hasher": scrypt_c.PasswordHasher(4, key_len=64, mcf=True)})(), "pw", 22 * "s"),
                    (type("Long", (OverPBKDF2,), of_64)(), "pw", "s"),
                ]:
                    with self.assertRaisesRegex(scrypt_c.HashTooLongError, "has [0-9]+ characters, .* 128$"):
                        it.encode(*arguments)
                self.assertRaises(scrypt_c.HashTooLongError, OverPBKDF2().wrap, PBKDF2_OF_32)
        for it in (ScryptPasswordHasher(), PHCPasswordHasher(), OverPBKDF2()):
            self.assertLessEqual(len(it.encode("pw", it.salt())), 128)
        self.assertEqual(len(ScryptPasswordHasher().encode("pw", 22 * "s")), 128)
        with mock.patch.object(User._meta.get_field("password"), "max_length", 129):  # a longer column
            self.assertEqual(len(ScryptPasswordHasher().encode("pw", 22 * "s", 2**17, 8, 1)), 129)

    def test_converted_hashes_fit(self):
        for convert, *arguments in CONVERTED:
            self.assertGreater(len("scrypt_c" + convert(*arguments)), 128)
            text = convert(*arguments, key_len=32)
            self.assertLessEqual(len("scrypt_c" + text), 128, text)
            self.assertTrue(hashers.check_password("pw", f"scrypt_c{text}"))
            for key_len in (0, 9, 65):
                self.assertRaisesRegex(ValueError, "^key_len must be 10 to", convert, *arguments, key_len=key_len)


class WrapAll(unittest.TestCase):
    """In SQLite; examples/login_site has the same in PostgreSQL."""

    def setUp(self):
        call_command("migrate", verbosity=0)
        self.addCleanup(call_command, "flush", verbosity=0, interactive=False)
        self.over = type("Small", (OverPBKDF2,), {"hasher": Over.small["hasher"]})()
        cheap = type("Cheap", (hashers.PBKDF2PasswordHasher,), {"iterations": 1000})()
        users = [User(username=f"user{at}", password=cheap.encode(f"old {at}", 8 * "s")) for at in range(205)]
        users += [User(username="other", password="!"), User(username="damaged", password="pbkdf2_sha256$9$salt$")]
        User.objects.bulk_create(users)

    def test_a_change_meanwhile_stays(self):
        """Of a password, in the middle of the same batch and in a later one."""
        changed, seen = ["user9", "user204"], []

        def progress(*numbers):
            if not seen:
                User.objects.filter(username__in=changed).update(password="new")
            seen.append(numbers)

        with self.assertLogs("scrypt_c.django") as log:
            self.assertEqual(wrap_all(User.objects.all(), self.over, progress), 203)
        self.assertEqual((seen[-1], len(seen), len(log.output)), ((205, 206), 205, 1))
        self.assertEqual({it.password for it in User.objects.filter(username__in=changed)}, {"new"})
        self.assertEqual({it.password[:14] for it in User.objects.filter(username__startswith="user2")},
                         {"scrypt_pbkdf2$", "new"})
        self.assertTrue(self.over.verify("old 8", User.objects.get(username="user8").password))
        with self.assertLogs("scrypt_c.django"):
            self.assertEqual(wrap_all(User.objects.all(), self.over), 0, "all are done")

    def test_example_of_the_page(self):
        page = pathlib.Path(__file__).parents[3] / "docs/MIGRATION.md"
        code = re.search(r"(?ms)^```python\n(from django.db import migrations.*?)^```", page.read_text("utf-8"))[1]
        User.objects.filter(pk__gt=User.objects.order_by("pk")[1].pk).delete()
        names = {}
        exec(code, names)
        schema = mock.Mock(**{"connection.alias": "default"})
        names["over_pbkdf2"](mock.Mock(**{"get_model.return_value": User}), schema)
        self.assertEqual({it.password[:14] for it in User.objects.all()}, {"scrypt_pbkdf2$"})
        self.assertTrue(hashers.check_password("old 0", User.objects.get(username="user0").password))
        self.assertIs(names["Migration"].atomic, False)


# For OverPBKDF2 and OverBCrypt: a cost and a salt of an old hash, and whether they are rejected.
SETTINGS = [
    (OverPBKDF2, "1000$salt", None),
    (OverPBKDF2, "1001$salt", scrypt_c.TooCostlyError),
    *((OverPBKDF2, it, scrypt_c.InvalidHashError) for it in [
        "salt", "x$salt", "0$salt", "-1$salt", "01$salt", "1_0$salt", "\u0663$salt", "1$", "$salt", "1$sal$t",
        "1$s\xe4lt", "1$sa t", f"{10**9}$salt", f"{'9' * 60}$", "1"]),
    (OverBCrypt, f"$2b$05${22 * 'a'}", None),
    (OverBCrypt, f"$2b$06${22 * 'a'}", scrypt_c.TooCostlyError),
    (OverBCrypt, f"$2a$31${22 * 'a'}", scrypt_c.TooCostlyError),
    *((OverBCrypt, it, scrypt_c.InvalidHashError) for it in [
        "$2b$", "$2b$05$", f"$2b$05${21 * 'a'}", f"$2b$05${23 * 'a'}", f"$2b$05${21 * 'a'}!", f"$2x$05${22 * 'a'}",
        f"$2b$03${22 * 'a'}", f"$2b$32${22 * 'a'}", f"$2b$99${22 * 'a'}", f"$2b$5${22 * 'a'}", "1000$salt"]),
]
HAS_BCRYPT = importlib.util.find_spec("bcrypt") is not None


class Over(unittest.TestCase):
    """Hashes of PBKDF2 and bcrypt, hashed once more."""

    small = {"hasher": scrypt_c.PasswordHasher(log_n=4)}
    kinds = [OverPBKDF2, OverBCrypt][: 1 + HAS_BCRYPT]

    def limited(self, kind):
        most = {OverPBKDF2: 1000, OverBCrypt: 5}[kind]
        cheap = {OverPBKDF2: {"iterations": 1000}, OverBCrypt: {"rounds": 5}}[kind]
        inner = type("Inner", (kind.inner,), cheap)
        return or_false(kind, inner=inner, max_cost=most, **self.small)

    def test_verdicts(self):
        for kind in self.kinds:
            it = self.limited(kind)
            for stored in (it.wrap(it.inner().encode("l\xe8tmein", it.salt())), it.encode("l\xe8tmein", it.salt())):
                self.assertTrue(it.verify("l\xe8tmein", stored))
                self.assertFalse(it.verify("letmein", stored))
                self.assertLessEqual(len(stored), 128, "Django's column")
                self.assertIn("salt", map(str, it.safe_summary(stored)))
            refuse_a_lone_surrogate(self, lambda wrong: it.verify(wrong, stored), it.verify_no_hash)

    def test_rejected_settings(self):
        """The limit is exact, and nothing is derived above it, nor for a damaged hash, nor if the
        outer hash is rejected. With FalseIfRejected the time is that of a wrong password."""
        for kind, kept, error in SETTINGS:
            if kind not in self.kinds:
                continue
            it = self.limited(kind)
            good = it.algorithm + it.hasher.hash("pw", salt=kept.encode())
            if error is None:
                self.assertFalse(it.verify("pw", good))
            else:
                self.assert_rejected(it, good, error)
            key = good.rpartition("$")[2]
            self.assert_rejected(it, good.replace("ln=4", "ln=30"), scrypt_c.TooCostlyError)
            self.assert_rejected(it, good.replace(key, 14 * "A"), scrypt_c.KeyTooShortError)
            for damaged in (good[:-2], good[: -len(key)], good.replace("r=8", "r=0"), it.algorithm, f"{it.algorithm}$7"):
                self.assert_rejected(it, damaged, scrypt_c.InvalidHashError)

    def assert_rejected(self, it, stored, error):
        with mock.patch.object(it.inner, "encode", side_effect=AssertionError("derived")):
            with mock.patch.object(scrypt_c.PasswordHasher, "verify", side_effect=AssertionError("derived")):
                with self.assertRaises(error, msg=stored):
                    super(FalseIfRejected, it).verify("pw", stored)
        with mock.patch.object(it.inner, "encode", autospec=True, side_effect=it.inner.encode) as old:
            with mock.patch.object(it.hasher, "verify_and_update", return_value=(False, None)) as new:
                with self.assertLogs("scrypt_c.django"):
                    self.assertIs(it.verify("pw", stored), False)
        self.assertEqual((old.call_count, new.call_args), (1, mock.call(None, "pw")))

    def test_wrap_rejects(self):
        """What is not a hash of the inner hasher, and what it could not verify."""
        pbkdf2, bcrypt = (self.limited(kind) for kind in (OverPBKDF2, OverBCrypt))
        letters = 53 * "a"
        for it, old, error in [
            (pbkdf2, f"pbkdf2_sha256$1001$salt${43 * 'A'}=", scrypt_c.TooCostlyError),
            (bcrypt, f"bcrypt_sha256$$2b$06${letters}", scrypt_c.TooCostlyError),
            *((pbkdf2, it, scrypt_c.InvalidHashError) for it in [
                "pbkdf2_sha256$9$salt$", "pbkdf2_sha1$9$salt$AAAA", "pbkdf2_sha256", "", f"bcrypt_sha256$$2b$05${letters}",
                f"pbkdf2_sha256$9${63 * 's'}${43 * 'A'}="]),  # its cost and salt do not fit into a salt of ours
            *((bcrypt, it, scrypt_c.InvalidHashError) for it in [
                f"bcrypt$$2b$05${letters}", f"bcrypt_sha256$$2b$05${letters}a", "bcrypt_sha256$$2b$05$", "bcrypt_sha256"]),
        ]:
            with self.assertRaises(error, msg=old):
                it.wrap(old)
        with self.assertRaisesRegex(ValueError, "PHC"):  # from a $7$ hash `verify` could not read the salt
            type("Crypt", (OverPBKDF2,), {"hasher": scrypt_c.PasswordHasher(4, mcf=True)})().wrap(f"pbkdf2_sha256$9$salt${43 * 'A'}=")
        most = type("Most", (OverPBKDF2,), {"max_cost": 10**7})().wrap(f"pbkdf2_sha256$1500000${22 * 's'}${43 * 'A'}=")
        self.assertLessEqual(len(most), 128, "Django's column, with the most iterations of Django so far")
        self.assertEqual(OverPBKDF2.max_cost, 4 * hashers.PBKDF2PasswordHasher.iterations)
        self.assertEqual(OverBCrypt.max_cost, hashers.BCryptSHA256PasswordHasher.rounds + 2)
