"""A hasher in threads: signals, statistics, and freeing it. The queue has tests in C."""

import contextlib
import functools
import math
import os
import signal
import subprocess
import sys
import threading
import time
import unittest
from concurrent.futures import ThreadPoolExecutor

from scrypt_c import BusyError, PasswordHasher, VerifyMismatchError
from test_hasher import KEY
from test_keys import growth

TEXT = f"$scrypt$ln=4,r=8,p=1{KEY}AA"


@contextlib.contextmanager
def busy(hasher):
    """Another thread has the only slot of this hasher for about 0.8 seconds."""
    with ThreadPoolExecutor(1) as threads:
        running = threads.submit(hasher.verify, f"$scrypt$ln=17,r=8,p=4{KEY}AA", "pw")
        while hasher.stats().deriving == 0 and not running.done():
            time.sleep(0.001)
        yield
        assert isinstance(running.exception(), VerifyMismatchError)


def until_waiting(hasher, count):
    while hasher.stats().waiting < count and hasher.stats().deriving:
        time.sleep(0.001)


# A program forks, and ends, while daemon threads derive and wait.
DAEMONS = """
import os, scrypt_c, threading, time
hasher = scrypt_c.PasswordHasher(log_n=12, max_tables=2)
text = hasher.hash("pw")
for _ in range(8):
    verify = lambda: [hasher.verify(text, "pw") for _ in iter(int, 1)]
    threading.Thread(target=verify, daemon=True).start()
time.sleep(0.05)
other = lambda: hasher._key_with(13, 8, 1, "pw", b"salt", 32)  # of other parameters
threading.Thread(target=lambda: [other() for _ in iter(int, 1)], daemon=True).start()
child = os.fork()
if child == 0:
    os._exit(not (hasher.verify(text, "pw") and other()))
assert os.waitpid(child, 0)[1] == 0
"""


class Threads(unittest.TestCase):
    def test_timeouts_signals_and_stats(self):
        """A call that waits returns at its timeout; an exception of a signal handler replaces its
        result. stats counts calls that wait, that derive, and that have failed."""
        hasher = PasswordHasher(log_n=4, max_tables=1)
        before = signal.signal(signal.SIGALRM, signal.default_int_handler)
        self.addCleanup(signal.signal, signal.SIGALRM, before)

        def interrupt(waiting):
            until_waiting(hasher, waiting)
            signal.raise_signal(signal.SIGALRM)

        with busy(hasher), ThreadPoolExecutor(2) as threads:
            other = threads.submit(hasher.verify, TEXT, "pw")
            until_waiting(hasher, 1)
            self.assertEqual(hasher.stats(), (1, 1, 0))
            hasher._timeout = 60
            for call in (hasher.verify, hasher.verify_and_update, lambda _, *of, **to: hasher.hash(*of, **to)):
                with self.assertRaisesRegex(TimeoutError, "timeout=0.03$") as caught:
                    call(TEXT, "pw", timeout=0.03)
                self.assertIs(type(caught.exception), TimeoutError)
            hasher._timeout = 0.01
            with self.assertRaisesRegex(TimeoutError, "timeout=0.01$"):
                hasher.key("pw", salt=b"", key_len=32)
            self.assertEqual(hasher.stats(), (1, 1, 4))
            threads.submit(interrupt, 2)
            self.assertRaises(KeyboardInterrupt, hasher.verify, TEXT, "pw", timeout=math.inf)
            self.assertIs(type(other.exception()), VerifyMismatchError)
            self.assertEqual(hasher.stats(), (0, 0, 4))

    def test_a_bounded_queue(self):
        """A call that may not wait returns at once."""
        hasher = PasswordHasher(log_n=4, max_tables=1, max_waiting=0)
        with busy(hasher), self.assertRaisesRegex(BusyError, "max_waiting=0$") as caught:
            hasher.verify(None, "pw")
        self.assertIsInstance(caught.exception, TimeoutError)
        self.assertRaises(ValueError, PasswordHasher, max_waiting=-1)

    def test_other_keys_and_signals_and_forks(self):
        """An exception of a signal handler leaves no lock taken, and a fork does not wait for a key."""
        hasher = PasswordHasher(log_n=4, max_mem=1 << 30, max_work=1 << 40)
        before = signal.signal(signal.SIGALRM, signal.default_int_handler)
        self.addCleanup(signal.signal, signal.SIGALRM, before)
        for at in range(300):
            try:
                signal.setitimer(signal.ITIMER_REAL, 1e-5 + at * 1e-6)
                hasher._key_with(3, 1, 1, b"pw", b"salt", 32)
                signal.setitimer(signal.ITIMER_REAL, 0)
            except KeyboardInterrupt:
                pass
        with ThreadPoolExecutor(1) as threads:
            self.assertEqual(len(threads.submit(hasher._key_with, 3, 1, 1, b"pw", b"salt", 32).result(60)), 32)
            slow = threads.submit(hasher._key_with, 19, 8, 1, b"pw", b"salt", 32)
            time.sleep(0.2)
            child = os.fork()
            if child == 0:
                os._exit(len(hasher._key_with(3, 1, 1, b"pw", b"salt", 32)) != 32)
            self.assertFalse(slow.done(), "the fork has not waited for it")
            self.assertEqual(os.waitpid(child, 0)[1], 0)
            slow.result()

    def test_timeout_in_milliseconds(self):
        """A timeout is rounded up to milliseconds, and limited to the maximum of threading."""
        longest = math.ceil(1000 * threading.TIMEOUT_MAX)
        for timeout, wanted in [(0, 0), (0.1201, 121), (None, longest), (1e300, longest), (math.inf, longest)]:
            for hasher, of_call in ((PasswordHasher(4, timeout=timeout), None), (PasswordHasher(4), timeout)):
                self.assertEqual(hasher._run(lambda _, ms: ms, of_call), wanted)

    def test_memory_is_freed(self):
        """A hasher frees its memory when it is closed or deleted."""
        for end in (lambda: hashers[0].close(), lambda: hashers.clear()):
            hashers = [PasswordHasher(log_n=16)]
            _, kept = growth(lambda: hashers[0].hash("pw"))
            _, freed = growth(end)
            self.assertTrue(60 << 20 < kept < (4 << 20) - freed, (kept, freed))

    def test_keys_of_other_parameters(self):
        """Threads derive them one at a time: each table has 32 MiB."""
        hasher = PasswordHasher(log_n=4)
        with ThreadPoolExecutor(24) as pool:
            key = functools.partial(hasher._key_with, 15, 8, 1, b"pw", key_len=32)
            used, _ = growth(lambda: list(pool.map(key, 24 * [b"salt"])))
        self.assertLess(used, 3 << 25)

    def test_exit(self):
        """A program with daemon threads exits."""
        for _ in range(3):
            command = [sys.executable, "-W", "ignore", "-c", DAEMONS]  # Python 3.12 warns of forks
            run = subprocess.run(command, capture_output=True, timeout=600)
            self.assertEqual((run.stderr, run.returncode), (b"", 0))
