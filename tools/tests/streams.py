"""Runs the program on streams of the system that fail, and with little memory. crates/caller_tests/src/streams.rt has
inputs and outputs that take one byte in each call, and fail at each byte.
"""

import os
import resource
import shlex

from tools.tests.known import EMPTY, EMPTY_PHC
from tools.tests.runs import redirected, run

# One command of each kind. Each ends with status 0 for an empty password.
COMMANDS = ["key 4 1 1 64 ''", "hash phc 4 1 1 00", "hash mcf 4 1 1 ''", f"verify {EMPTY_PHC}", f"verify {EMPTY}"]
COMMANDS += [f"rehash phc 5 1 1 32 00 {EMPTY}"]

# How the shell opens a stream, in a line that has `"$@"` for the command, the error line, and the reason for the row.
STREAMS = [
    ('"$@" > /dev/full', "output failed\n", "a full device takes nothing"),
    ('"$@" >&-', "output failed\n", "the standard output is closed"),
    ('"$@" < /', "input failed\n", "a directory opens, but cannot be read"),
    ('"$@" <&-', "input failed\n", "the standard input is closed"),
]
# A file that takes one byte; its content is printed.
SHORT_FILE = 'trap "" XFSZ; file=$(mktemp); prlimit --fsize=1 "$@" > "$file"; status=$?; cat "$file"; rm "$file"; exit $status'

# Parameters whose chunks take 2 GiB, and whose table cannot be allocated: log_n is 56, r is 1 and p is 2^24. Nothing is
# written before everything is allocated, so the run touches little memory. Each row has a limit on the address space of
# the run, and the reason for the row.
REFUSED_TABLE = "verify $7$s/......../$r/"
MAX_TOUCHED = 64 << 20
ADDRESSES = [("unlimited", "memory for the chunks"), (1 << 30, "no memory for the chunks")]


def without_reader(words):
    """How a run ends whose output is a pipe without a reader."""
    read, write = os.pipe()
    os.close(read)
    ended = run(words, stdout=write)
    os.close(write)
    return ended


def writes_of(stream, words):
    """The content of each write to an output of a run, through a pipe that keeps writes separate, and holds only few."""
    read, write = os.pipe2(os.O_DIRECT)
    run(words, timeout=600, **{stream: write})
    os.close(write)
    with open(read, "rb", buffering=0) as pipe:
        return [text.decode() for text in iter(lambda: pipe.read(1 << 16), b"")]


def streams(program):
    """Every command on streams that fail: status 4, and nothing in the output but what it took."""
    for line in COMMANDS:
        words = [*program, *shlex.split(line)]
        status, answer, _ = redirected('"$@"', words)
        yield f"{line!r} on streams that work", status, 0
        yield f"the writes of {line!r}", writes_of("stdout", words), [answer]
        for shell, fault, reason in STREAMS:
            yield f"{line!r} ({reason})", redirected(shell, words), (4, "", fault)
        yield f"{line!r} (a file that takes one byte)", redirected(SHORT_FILE, words), (4, answer[:1], "output failed\n")
        yield f"{line!r} (a pipe without a reader)", without_reader(words), (4, "", "output failed\n")
    costly = redirected('"$@" < /', [*program, *"key 56 1 1 32".split(), ""])
    yield "the input is read before memory is allocated", costly, (4, "", "input failed\n")
    for line in ("key 4 1 1 0 ''", "verify $7$", "key 56 1 1 32 ''", "\udcff"):
        words = [*program, *shlex.split(line)]
        status, _, fault = run(words)
        yield f"the writes of the fault of {line!r}", writes_of("stderr", words), [fault]
        for shell in ('"$@" 2> /dev/full', '"$@" 2>&-'):
            yield f"{line!r} by {shell}", redirected(shell, words), (status, "", "")
    yield "nothing to write there", redirected('"$@" 2>&-', [*program, *"key 4 1 1 16".split(), ""])[0], 0
    yield "--help that cannot be written", redirected('"$@" > /dev/full', [*program, "--help"]), (4, "", "output failed\n")


def memory(program):
    """Runs that cannot have their table. They have to be the first that the script waits for."""
    for addresses, reason in ADDRESSES:
        ended = run(["prlimit", f"--as={addresses}", *program, *shlex.split(REFUSED_TABLE)])
        touched = resource.getrusage(resource.RUSAGE_CHILDREN).ru_maxrss << 10
        about = f"{REFUSED_TABLE!r} ({reason}) in {touched} bytes"
        yield about, (*ended, touched > MAX_TOUCHED), (3, "", "out of memory\n", False)
