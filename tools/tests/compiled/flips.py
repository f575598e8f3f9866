"""Flips a random bit of a random instruction, COUNT times at each level, and says how many of these miscompilations no
case of check.py finds. README.md says what to look for in those that survive.

usage: python3 -m tools.tests.compiled.flips LIBRARY COUNT SEED [LEVEL ..]
"""

import gc
import random
import signal
import sys
from collections import Counter

from tools.tests.compiled import words
from tools.tests.compiled.calls import LEVELS, Wrong
from tools.tests.compiled.check import cases
from tools.tests.compiled.planted import CASES, Plantation
from tools.tests.compiled.program import plain

# The cases whose instructions are changed, and that have to find it.
FINDERS = [CASES[it] for it in ("lengths", "two rows", "two chunks", "any rows", "PHC")]
SECONDS = 10  # of CPU time, after which a case that is changed is ended


class Late(Exception):
    """A case that takes longer."""


def late(*_):
    raise Late("no end")


def flipped(plantation, run, level, at, bit):
    """The instruction with a bit flipped, and how the case fails, or None."""
    code = bytearray(plantation.program.code(plantation.program.instruction(at)))
    code[bit // 8 % len(code)] ^= 1 << bit % 8
    plantation.program.replace(at, bytes(code))
    text = plantation.program.texts.get(at, ("none",))[0]
    signal.setitimer(signal.ITIMER_VIRTUAL, SECONDS)
    try:
        error = plantation.error(run, level, at)
    except Exception as it:  # what this machine was not made for
        error = it
    finally:
        signal.setitimer(signal.ITIMER_VIRTUAL, 0)
        plantation.restore()
    return text, error


def flip_all(plantation, its, level, count, rng):
    """Flips bits of what these cases run at a level. Prints those that no case finds."""
    places, how = {}, Counter()
    for what, run in its:
        words.forget()
        plantation.program.decoded.clear()
        run(plantation.compression, level)
        places[what] = set(plantation.program.decoded)
    ran = sorted(set().union(*places.values()))
    left = {(rng.choice(ran), rng.getrandbits(7)): "" for _ in range(count)}
    count = len(left)
    for what, run in its:
        words.forget()
        for at, bit in [it for it in left if it[0] in places[what]]:
            left[at, bit], error = flipped(plantation, run, level, at, bit)
            if error is not None:
                del left[at, bit]
                how["another result" if isinstance(error, Wrong) else "no end" if isinstance(error, Late) else
                    "it cannot be run"] += 1
    for (at, _), text in left.items():
        it = plantation.program.instruction(at)
        print(f"{level}: not found: {plain(it)} -> {text} at {at:#x} of {plantation.function(at)}")
    print(f"{level}: {count - len(left)} of {count} found, by {dict(how)}", flush=True)


def main():
    gc.disable()
    signal.signal(signal.SIGVTALRM, late)
    library, count, seed, *levels = sys.argv[1:]
    plantation, its = Plantation(library), [it for it in cases(False) if it[0] in FINDERS]
    for level in levels or LEVELS:
        flip_all(plantation, its, level, int(count), random.Random(f"{seed} {level}"))


if __name__ == "__main__":
    main()
