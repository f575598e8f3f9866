"""Differential test of the program against hashlib, and plain Python where OpenSSL rejects the
parameters, on random input. tools/tests/migration.py compares it with other programs.

usage: python3 -m tools.tests.oracle PROGRAM [--seed N] [--worker PATH]

Each part prints the number of cases that agree. WORKER speaks the protocol that
tools/tests/worker.py describes: with it, only 10,000 keys are compared, some with parameters and
lengths that both have to reject.
"""

import argparse
import random
import sys

from tools.tests import reference
from tools.tests.reference import hash_of
from tools.tests.runs import NO, OK, report, run
from tools.tests.worker import Refused, Worker

CASES, WORKER_CASES = 200, 10_000


def by_python(password, salt, params, length):
    if length == 0 or not reference.accepted(*params):
        raise Refused
    return reference.key(password, salt, *params, length)


def some_bytes(rng, greatest):
    """Bytes of any value, zeros and bytes that are no text among them."""
    return bytes(rng.choice((0, 10, 255, rng.randrange(256))) for _ in range(rng.randrange(greatest)))


def some_params(rng):
    """log_n, r, p and the length of a key, from few values, so that two are often equal."""
    return rng.randrange(3, 6), rng.randrange(1, 4), rng.randrange(1, 4), rng.choice((16, 31, 32, 33))


def some_case(rng):
    """A password, a salt, parameters and a length, of which one in 50 is rejected."""
    password, salt = (some_bytes(rng, 2 + rng.choice((0, 1, 16, 80, most))) for most in (400, 300))
    log_n, r = rng.randrange(11), rng.randrange(1, 17)
    p = rng.randrange(1, 5) if r << log_n <= 2048 else 1
    refused = [(64, r, p), (log_n, 0, p), (log_n, r, 0), (log_n, 1 << 15, 1 << 15)]
    params = rng.choice(refused) if rng.randrange(50) == 0 else (log_n, r, p)
    return password, salt, params, rng.randrange(1 + rng.choice((1, 32, 33, 65, 300)))


def made(program, words, password, wanted):
    """The case of a command, whose salt is bytes."""
    words = [it.hex() if isinstance(it, bytes) else str(it) for it in words]
    return f"{words} on {password.hex()}", run([program, *words], password), wanted


def verified(program, text, password):
    """The case of a hash that is verified with its password and with a wrong one."""
    got = [run([program, "verify", text], it) for it in (password, password + b"x")]
    return f"verify {text!r} on {password.hex()}", got, [OK, NO]


def keys(program, rng, derive=by_python, count=CASES):
    """Keys of random passwords, salts, parameters and lengths; or both reject them."""
    for _ in range(count):
        password, salt, params, length = case = some_case(rng)
        try:
            wanted = 0, f"{derive(*case).hex()}\n"
        except Refused:
            wanted = 2, ""
        about, ended, _ = made(program, ["key", *params, length, salt], password, wanted)
        yield about, ended[:2], wanted


def hashes(program, rng):
    """Hashes of random passwords, salts and parameters in both formats, with keys of each length."""
    for length in [*range(10, 65)] * 4:
        password, salt = some_bytes(rng, 140), some_bytes(rng, 64) + b"!"
        params = rng.randrange(9), rng.choice((1, 2, 3, 8)), rng.randrange(1, 4)
        for form in ("phc", "mcf"):
            text = hash_of(form, password, salt, *params, length)
            yield made(program, ["hash", form, *params, salt, length], password, (0, f"{text}\n", ""))
            yield verified(program, text, password)


def rehashes(program, rng):
    """Random pairs of stored and wanted parameters, by the definition in plain Python."""
    for _ in range(300):
        stored, wanted = some_params(rng), some_params(rng)
        has, form = rng.choice(("phc", "mcf")), rng.choice(("phc", "mcf"))
        password, salt = some_bytes(rng, 40), some_bytes(rng, 20)
        text = hash_of(has, password, some_bytes(rng, 20) + b"!", *stored)
        right = rng.randrange(5) > 0
        if not right:
            answer = NO
        elif not reference.is_weaker(stored, wanted):
            answer = OK
        elif form == "phc" and not salt:
            answer = 2, "", "hash refused: SaltInvalid\n"
        else:
            answer = 0, hash_of(form, password, salt, *wanted) + "\n", ""
        yield made(program, ["rehash", form, *wanted, salt, text], password if right else password + b"x", answer)


def main():
    parser = argparse.ArgumentParser(usage=__doc__.split("usage: ")[1].split("\n")[0])
    parser.add_argument("program")
    parser.add_argument("--seed", type=int, default=7914)
    parser.add_argument("--worker")
    args = parser.parse_args()
    program, rng = args.program, random.Random(args.seed)
    if args.worker:
        worker = Worker("worker", args.worker)
        sys.exit(not report("keys of the worker", keys(program, rng, lambda *case: worker.derive(*case)[1], WORKER_CASES)))
    parts = {
        "keys of hashlib, or of plain Python if it refuses": keys(program, rng),
        "hashes with keys of 10 to 64 bytes": hashes(program, rng),
        "rehashes by the definition in plain Python": rehashes(program, rng),
    }
    sys.exit(not all([report(*part) for part in parts.items()]))


if __name__ == "__main__":
    main()
