"""Runs the tests of a file against an implementation, and prints those that differ, and how many have each end.

The adapter is a command that gets a test on standard input, and prints the key in hexadecimal, or `ok` if the password
matches the text and `no` if it does not. Its status is 0, or another one if the implementation rejects the test. A line
for each part of the test comes in: password, salt, N, r, p and dkLen of a key, password and hash of a text, bytes in
hexadecimal. Each test has a process of its own, with limits. LargeMemory tests are left out.
"""

import argparse
import collections
import concurrent.futures
import json
import os
import pathlib
import signal
import subprocess
import sys

PARTS = "password", "salt", "hash", "N", "r", "p", "dkLen"
LIMITED = 'ulimit -c 0; ulimit -t "$1" && ulimit -d "$2" && shift 2 && exec "$@"'


def line(part):
    if isinstance(part, list):
        return "".join(one * times for one, times in part)
    return str(part)


def outcome(test, args):
    """What an adapter does with a test: `right`, `wrong`, `error`, `no end`, or the signal that ended it."""
    words = ["sh", "-c", LIMITED, "sh", str(args.seconds), str(args.mib << 10), *args.adapter]
    given = "".join(f"{line(test[it])}\n" for it in PARTS if it in test)
    try:
        ran = subprocess.run(words, input=given.encode(), timeout=8 * args.seconds, capture_output=True)
    except subprocess.TimeoutExpired:
        return "no end"
    ended = ran.returncode % 128 if ran.returncode > 128 else -ran.returncode  # a shell between adds 128 to a signal
    if ended in (signal.SIGKILL, signal.SIGXCPU):
        return "no end"
    if ended:
        return f"signal {ended}" if ended > 0 else "error"
    return "right" if ran.stdout.decode().strip() == test.get("dk", "ok") else "wrong"


def is_allowed(test, found):
    rejected = ("error", "wrong") if "hash" in test else ("error",)
    return found in {"valid": ("right",), "invalid": rejected, "acceptable": ("right", *rejected)}[test["result"]]


def main():
    parser = argparse.ArgumentParser(description=__doc__, formatter_class=argparse.RawDescriptionHelpFormatter)
    parser.add_argument("--seconds", type=int, default=30, help="of processor time for a test (30)")
    parser.add_argument("--mib", type=int, default=3072, help="of memory for a test (3072)")
    parser.add_argument("file", type=pathlib.Path)
    parser.add_argument("adapter", nargs=argparse.REMAINDER)
    args, counts = parser.parse_args(), collections.Counter()
    tests = [it for group in json.loads(args.file.read_text("utf-8"))["testGroups"] for it in group["tests"]]
    tests = [it for it in tests if "LargeMemory" not in it["flags"]]
    with concurrent.futures.ThreadPoolExecutor(os.cpu_count()) as pool:
        for test, found in zip(tests, pool.map(lambda it: outcome(it, args), tests)):
            counts[f"{test['result']}, {found}"] += 1
            if not is_allowed(test, found):
                counts["differ"] += 1
                print(f"{test['tcId']} ({' '.join(test['flags'])}) {test['comment']}: {test['result']}, and {found}")
    print(f"{len(tests)} tests:", dict(counts))
    sys.exit(counts["differ"] > 0)


if __name__ == "__main__":
    main()
