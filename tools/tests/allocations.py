"""Makes each allocation of a run of the program fail, one per run, and compares the number of
allocations and the sizes for a derivation: a part of tools/tests/program.py.

The program runs with failing_calls.c preloaded, which makes the n-th allocation fail, for each n.
Each failure has to end with status 3, empty output and the fault line. The number of allocations is
compared, so that a hidden allocation is seen, and so is the order of the chunks, the table and the
scratch.
"""

import functools
import shlex

from tools.tests import runs
from tools.tests.known import HASHLIB as PHC

# how a run ends if an allocation fails: while the arguments are read, and after that
ARGUMENTS = (3, "", "the arguments can't be read\n")
MEMORY = (3, "", "out of memory\n")

MCF = "$7$2/..../....C3qEg/$oOSIli7m/kDufp3GXHdJ7lqr3hzIyIJUYr4iTamAqDA"

# the arguments, the input, the status, and the number of allocations of the run
RUNS = [
    ("key 4 1 1 32 4e61436c", b"password", 0, 8),
    ("key 4 1 1 4000 4e61436c", b"password", 0, 8),
    ("--progress key 4 1 1 32 4e61436c", b"password", 0, 8),
    ("hash phc 4 1 1 4e61436c", b"password", 0, 7),
    ("hash mcf 4 1 1 4e61436c", b"password", 0, 7),
    (f"verify {PHC}", b"password", 0, 4),
    (f"verify {MCF}", b"password", 0, 4),
    (f"verify {MCF}", b"another", 1, 4),
    # the input grows by doubling, from the first 1,024 bytes on
    (f"verify {PHC}", b"a" * 5000, 1, 7),
    # the verdict, and then a new hash if there is one
    (f"rehash phc 5 1 1 32 4e61436c {MCF}", b"password", 0, 10),
    (f"rehash mcf 4 1 1 32 4e61436c {PHC}", b"password", 0, 5),
    (f"rehash mcf 5 1 1 32 4e61436c {MCF}", b"another", 1, 5),
    # large chunks take no more allocations
    ("key 0 2048 1 32 4e61436c", b"password", 0, 8),
    # rejected before the input, some with the salt in memory
    ("key 4 1 1 32 4", b"password", 2, 0),
    ("key 4 1 1 0 4e", b"password", 2, 1),
    # rejected after it
    ("verify $scrypt$v=1$ln=4,r=1,p=1$TmFDbA$rsa3SD7SbgiAK0H0AyCGoOiGvnrEj8/ZL/DO+BCXUvQ", b"password", 2, 1),
    ("verify $scrypt$ln=4$aA", b"password", 1, 1),
    ("verify $7$2/..../....$", b"password", 2, 1),
    ("--default-limits verify $7$s/..../....$" + "z" * 40, b"password", 2, 1),
]

# the arguments of runs that derive a key with four chunks, and the sizes of the chunks, the table
# and the scratch, or of these after the text of a `$7$` hash
BUFFERS = [
    ("key 4 1 4 32 4e61436c", [512, 2048, 256]),
    ("hash mcf 4 2 4 4e61436c", [64, 1024, 4096, 512]),
    (f"verify {PHC.replace('p=1', 'p=4')}", [512, 2048, 256]),
]


# What a block takes more, for its head and to begin at a cache line (bindings/c/blocks.c).
MORE = 16 + 63


def sizes(run):
    """The sizes of the allocations of a run, in order."""
    return [int(line.split(" ")[1]) - MORE for line in run(SIZES="1")[2].splitlines() if "alloc " in line]


def refused(run):
    """The number of allocations whose failure ends a run, after those for the arguments, or how the runs end if one ends
    differently."""
    total = len(sizes(run))
    ends = [run(FAIL_AT=str(it + 1)) for it in range(total)]
    of_arguments = ends.count(ARGUMENTS)
    of_run = total - of_arguments
    return of_run if ends == [ARGUMENTS] * of_arguments + [MEMORY] * of_run else ends


def run_with(library, words, password, **settings):
    return runs.run(words, password, env={"LD_PRELOAD": library, **settings})


def cases(program):
    with runs.failing_calls() as library:
        for words, password, status, allocations in RUNS:
            run = functools.partial(run_with, library, [*program, *shlex.split(words)], password)
            yield words, (run()[0], refused(run)), (status, allocations)
        for words, wanted in BUFFERS:
            made = sizes(functools.partial(run_with, library, [*program, *shlex.split(words)], b"password"))
            found = [it for it in (made[at : at + len(wanted)] for at in range(len(made))) if it == wanted]
            yield f"{words}, of which these are the sizes", found or made, [wanted]
