"""An implementation in a separate process, which reads lines and answers each line immediately with a line:

    LOG_N R P LENGTH PASSWORD SALT REPEATS      numbers, and bytes in hexadecimal (- for none)
    ok NANOSECONDS NANOSECONDS KEY              the minimum wall time and processor time, and the key
    err REASON                                  if the input is rejected
"""

import os
import subprocess


class Refused(Exception):
    """An implementation returned an error instead of a key."""


class Worker:
    """A process that derives one key for each line that it reads."""

    def __init__(self, name, path):
        self.name = name
        self.process = subprocess.Popen(
            [os.path.expanduser(path)], stdin=subprocess.PIPE, stdout=subprocess.PIPE, text=True, bufsize=1
        )

    def derive(self, password, salt, params, length):
        """The nanoseconds that one call took, and its key."""
        numbers = " ".join(str(number) for number in (*params, length))
        texts = f"{password.hex() or '-'} {salt.hex() or '-'}"
        self.process.stdin.write(f"{numbers} {texts} 1\n")
        answer = self.process.stdout.readline().split()
        if not answer or answer[0] != "ok":
            raise Refused(f"{self.name}: {' '.join(answer) or 'no answer'}")
        return int(answer[1]), bytes.fromhex("".join(answer[3:]))
