"""Runs check.py, plants miscompilations into the code that each case runs, in memory, and fails unless the case finds
them. Then compares the instructions that were run with this processor (processor.py).

usage: python3 -m tools.tests.compiled.planted LIBRARY [LEVEL ..]    with as and ld of binutils
"""

import gc
import re
import sys
from bisect import bisect

from tools.tests.compiled import processor
from tools.tests.compiled.calls import LEVELS, Compression, Wrong
from tools.tests.compiled.check import run_all
from tools.tests.compiled.machine import Branch
from tools.tests.compiled.program import Program, Unknown, assembled, plain

# The cases of check.py that have to find what is planted.
CASES = {
    "chunk": "lengths 1, 51 and 31",
    "two chunks": "N = 1, r = 1, p = 5, tables: 2",
    "two rows": "N = 2, r = 2, p = 1, tables: 1",
    "lengths": "lengths 65, 60 and 65",
    "PHC": "N = 2, r = 1, p = 1, a PHC string of 39 bytes",
    "$7$": "N = 2, r = 1, p = 1, a $7$ hash of 97 bytes",
    "limits": "N = 2, r = 1, p = 1, limits",
    "steps": "N = 4, r = 1, p = 2, in steps of 2",
    "any rows": "N = 16777216, r = 1, p = 1, by induction",
    "thin": "N = 16777216, r = 1, p = 1, a row in 2, by induction",
}

# What is planted; the case that has to find it; a part of the function's name; and the instructions, one after another.
# Of the places that fit, and that this case has run, it is put into the middle one; and if that changes nothing, which
# can be, into some others. It is the first instruction's text with a replacement; or code that names the instructions
# {0} and {1}, and the register {a} of the first.
SHIFT, TURN, SUM = r"v?pslld .*,0x7|vprold .*,0x7", r"v?pshufd .*,0x39", r"v?paddd (?P<a>[xy]mm\d+),.*mm\d+"
STORE, LOAD = r"v?mov(dqu|ups) [XY]MMWORD PTR \[.*\],[xy]mm\d+", r"v?mov(dqu|ups) [xy]mm\d+,XMMWORD PTR \[r.*"
INTEGERIFY, COMPARE, ANY = r"mov (e\w+|r\d+d),DWORD PTR \[.*-0x40\]", r"and [a-d]l,r\d+b|and r\d+b,[a-d]l", ".*"
LIMIT = r"cmp (?P<a>r[a-z0-9]+),r[a-z0-9]+"
PLANTED = [
    ("a word is shifted by 8 bits in place of 7", "chunk", "", [SHIFT], ("0x7$", "0x8")),
    ("the same in two interleaved chunks", "two chunks", "", [SHIFT], ("0x7$", "0x8")),
    ("lanes are turned by two in place of one", "chunk", "", [TURN], ("0x39", "0x4e")),
    ("the lanes of another register are turned", "chunk", "", [TURN], (r"mm\d+,0x39", "mm7,0x39")),
    ("words are combined by or in place of added", "two chunks", "", [SUM], ("paddd", "por")),
    ("or in place of exclusive or", "two rows", "step", [r"v?pxor [xy]mm.*"], ("pxor", "por")),
    ("a sum comes too late", "chunk", "", [SUM, r"v?(movdqa|pslld|prold) .*"], "{1}; {0}"),
    ("a sum is 0 in place of 0xffffffff", "chunk", "", [r"v?paddd (?P<a>xmm\d),.*", r"v?(mov|pxor|psl|psr|prol).*"],
     """{0}; movdqu [rsp - 1024], xmm15; pcmpeqd xmm15, xmm15; pcmpeqd xmm15, {a}; pxor {a}, xmm15
     movdqu xmm15, [rsp - 1024]; {1}"""),
    ("a vector is not stored", "two chunks", "step", [STORE], "nop"),
    ("a vector is stored 16 bytes further", "two chunks", "step", [STORE], (r"\]", "+16]")),
    ("a vector is loaded 16 bytes further", "two rows", "step", [LOAD], (r"\]", "+16]")),
    ("the operands of a subtraction are swapped", "lengths", "", [r"sub (?P<a>r[a-z0-9]+),r[a-z0-9]+"], "{0}; neg {a}"),
    ("Integerify reads word 1", "two rows", "step", [INTEGERIFY], ("-0x40", "-0x3c")),
    ("the same, of 2^24 rows", "any rows", "step", [INTEGERIFY], ("-0x40", "-0x3c")),
    ("the index of a row is not masked", "two rows", "step", [r"and r\w+,r\w+"], "nop"),
    ("a loop ends an iteration early", "any rows", "take_steps", [r"dec r\w+"], ("dec (.*)", r"sub \1,2")),
    ("an index is not divided by the rows that a thin table lacks", "thin", "step", [r"shr r\w+,cl|shrx r.*"], "nop"),
    ("SHA-256 shifts by 2 in place of 3", "chunk", "compress", [r"shr e\w+,0x3"], ("0x3", "0x2")),
    ("SHA-NI leaves out part of a round", "chunk", "digest_blocks", [r"sha256msg1 .*"], "nop"),
    ("bytes of a hash keep their order", "lengths", "finish", [r"pshuflw .*,0x1b"], ("0x1b", "0xe4")),
    ("a constant is another", "chunk", "", [r"mov(aps|dqa) xmm\d+,XMMWORD PTR \[rip.*"], (r"\]", "+16]")),
    ("a register is not restored", "chunk", "kdf_with_buffers", [r"pop rbx"], "add rsp, 8"),
    ("a flag is lost before it is used", "PHC", "is_derived_key", [r"cmp e.*", "set.*"], "{0}; test rsp, rsp; {1}"),
    ("one equal byte of the keys is enough", "PHC", "is_derived_key", [COMPARE, ANY], ("and", "or")),
    ("a branch by a secret changes nothing", "PHC", "is_derived_key", [COMPARE, ANY], "{0}; je 1f; nop; 1: {1}"),
    ("a letter is another", "$7$", "is_derived_key", [r"add \w+,0x2e"], ("0x2e", "0x2f")),
    ("a limit is one too large", "limits", "verify_limited", [LIMIT], "inc {a}; {0}; lea {a}, [{a} - 1]"),
    ("two steps are counted as one", "steps", "step", [r"(inc|dec) r\w+|add r\w+,0x1"], "nop"),
]
TRIED = 6  # places
COMMON = "compress", "digest_blocks"  # functions that all levels have in common, which are run at the first


class Plantation:
    """A program in which something is planted at a time."""

    def __init__(self, library):
        self.program = Program(library)
        self.compression = Compression(self.program)
        self.end = self.program.BASE + len(self.program.image)
        self.program.image.extend(bytes(4096))
        self.image, self.texts = bytes(self.program.image), dict(self.program.texts)

    def error(self, run, level, at):
        """How a case fails, or None. SHA-256 is checked again only if it is changed."""
        checked = () if "sha2::" in self.function(at) else self.compression.checked
        self.program.decoded.clear()
        try:
            run(Compression(self.program, checked, self.compression.heads), level)
        except (Wrong, Unknown, Branch) as error:
            return error

    def function(self, at):
        return self.program.starts[bisect(self.program.starts, (at, "~")) - 1][1]

    def find(self, places, function, patterns):
        """The places with these instructions, the middle ones first: the instructions, and the first one's match."""
        found = []
        for at in places:
            its = [self.program.instruction(at)]
            while len(its) < len(patterns):
                its.append(self.program.instruction(its[-1].next))
            matches = [re.fullmatch(pattern, plain(it)) for pattern, it in zip(patterns, its)]
            if function in self.function(at) and all(matches):
                found.append((its, matches[0]))
        return sorted(found, key=lambda it: abs(found.index(it) - len(found) // 2))[:TRIED]

    def plant(self, its, match, change):
        at, end = its[0].at, its[-1].next
        moved = [".byte " + ", ".join(map(str, self.program.code(it))) for it in its]
        if isinstance(change, tuple):
            text = re.sub(*change, match[0], count=1) + "".join("; " + it for it in moved[1:])
            code = assembled(text, at)
        else:
            text = change.format(*moved, **match.groupdict())
            code = assembled(text, at)
        if len(code) > end - at:
            self.program.replace(self.end, assembled(f"{text}; jmp {end}", self.end))
            code = assembled(f"jmp {self.end}", at)
        self.program.replace(at, code + b"\x90" * (end - at - len(code)))

    def restore(self):
        self.program.image[:], self.program.texts = self.image, dict(self.texts)
        self.program.decoded.clear()


def planted(plantation, row, run, level):
    """Plants a row's change in one place after another until the case fails. Returns how it fails, or why it does not.
    """
    _, _, function, patterns, change = row
    places = plantation.find(sorted(plantation.program.decoded), function, patterns)
    for its, match in places:
        plantation.plant(its, match, change)
        error = plantation.error(run, level, its[0].at)
        plantation.restore()
        if error:
            return True, f"found ({error})"
    if places:
        return False, f"NOT FOUND at {len(places)} places"
    return False, f"""NO PLACE: in a function *{function}* no instructions that this case runs are {"; ".join(patterns)}
Another compiler may write them otherwise. See what it writes there by objdump -dC -M intel, and change the pattern."""


def main():
    gc.disable()
    library, *levels = sys.argv[1:]
    levels, plantation, results = levels or LEVELS, Plantation(library), []
    its = [(level, row) for level in levels for row in PLANTED if level == levels[0] or row[2] not in COMMON]

    def plant_all(case, run, level):
        kept = dict(plantation.program.decoded)
        for row in (row for at, row in its if at == level and CASES[row[1]] == case):
            plantation.program.decoded = dict(kept)
            results.append(planted(plantation, row, run, level))
            print(f"{level}: {row[0]}: {results[-1][1]}", flush=True)

    failed = run_all(plantation.compression, levels, then=plant_all)
    right = sum(is_right for is_right, _ in results)
    print(f"planted: {right} of {len(its)} as they should be")
    failed += len(its) - right + processor.compare(plantation.program)
    return failed > 0


if __name__ == "__main__":
    sys.exit(main())
