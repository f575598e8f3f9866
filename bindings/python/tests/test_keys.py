"""scrypt: keys equal to hashlib's, memory, interrupts; and calibrate."""

import hashlib
import pathlib
import re
import signal
import threading
import time
import unittest

import scrypt_c
from scrypt_c import Params, calibrate
from test_hasher import B64, key


def growth(call):
    """Returns by how many bytes the memory of this process has grown in a call, and after it."""
    status, peaks = pathlib.Path("/proc/self/status"), []
    for step in (lambda: None, call, lambda: None):
        pathlib.Path("/proc/self/clear_refs").write_text("5")  # the peak begins now
        step()
        peaks.append(int(re.search(r"VmHWM:\s*(\d+)", status.read_text("ascii"))[1]) << 10)
    return peaks[1] - peaks[0], peaks[2] - peaks[0]


class Keys(unittest.TestCase):
    def test_keys_equal_hashlib(self):
        """In one call, and in steps. The minimum maxmem is the same as in hashlib."""
        for password, salt, n, r, p, dklen in [
            (b"", b"", 2, 1, 1, 1),
            (b"pass\0word", b"salt\xff", 64, 3, 2, 99),
            (b"pleaseletmein", b"SodiumChloride", 1 << 14, 8, 3, 64),
        ]:
            of, seen = Params(n.bit_length() - 1, r, p), []
            costs = {"salt": salt, "n": n, "r": r, "p": p, "dklen": dklen}
            limits = {"maxmem": of.memory, "max_work": of.work}
            wanted = hashlib.scrypt(password, **costs, maxmem=of.memory)
            self.assertEqual(scrypt_c.scrypt(password, **costs, **limits), wanted, costs)
            self.assertEqual(scrypt_c.scrypt(password, **costs, progress=seen.append), wanted, costs)
            self.assertEqual((seen, seen[-1]), (sorted(seen), 1), costs)
            for derive in (hashlib.scrypt, scrypt_c.scrypt):
                self.assertRaises(ValueError, derive, password, **costs, maxmem=of.memory - 1)
        for maxmem in (0, 32 << 20):  # the same in hashlib
            for derive in (hashlib.scrypt, scrypt_c.scrypt):
                self.assertRaises(ValueError, derive, b"", salt=b"", n=1 << 15, r=8, p=1, maxmem=maxmem)
                derive(b"", salt=b"", n=1 << 14, r=8, p=1, maxmem=maxmem)
        self.assertTrue(scrypt_c.scrypt(b"", salt=b"", n=1 << 15, r=8, p=1))
        most = {"maxmem": B64 + 1, "max_work": B64 + 1}
        self.assertEqual(key(password=bytearray(b"pw"), salt=memoryview(b"salt"), **most), key())

    def test_memory(self):
        """The memory of a derivation in steps is at most maxmem, and is freed."""
        used, left = growth(lambda: key(n=1 << 15, p=4, maxmem=Params(15, 8, 4).memory))
        self.assertLess(used, 40 << 20)
        self.assertLess(left, 8 << 20)

    def test_interrupts(self):
        """Ctrl-C ends a derivation that takes seconds at the end of a step, and so does an
        exception of `progress`. A shell lets what it starts in the background ignore Ctrl-C."""
        self.addCleanup(signal.signal, signal.SIGINT, signal.signal(signal.SIGINT, signal.default_int_handler))
        begun = time.thread_time()
        threading.Timer(0.1, signal.raise_signal, [signal.SIGINT]).start()
        self.assertRaises(KeyboardInterrupt, key, n=1 << 20)
        self.assertLess(time.thread_time() - begun, 0.6, "0.15 on an idle machine")
        with self.assertRaises(ZeroDivisionError):
            key(n=1 << 20, progress=lambda done: 1 // (done < 0.1))

    def test_calibrate(self):
        """Seconds and bytes are passed as they are, and what is found makes a hasher."""
        params = calibrate(1e9, 1 << 20)
        self.assertEqual((params.log_n, params.r), (10, 8))
        self.assertEqual(scrypt_c.PasswordHasher(*params, max_work=B64).params, params)
        self.assertLess(calibrate(0.02, 1 << 30).log_n, 17)
