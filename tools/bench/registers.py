#!/usr/bin/env python3
"""Checks that the loops of Salsa20/8 cores keep their blocks in registers.

usage: python3 -m tools.bench.registers [LIBRARY..]

Each LIBRARY is a shared or static library, an object or a program, by default the libraries of
build/lib. The compiler silently ignores `inline(always)` if a function grows too large. The keys
stay the same, but each block then goes through memory, and one chunk takes up to 1.12 times as
long, two up to 1.19 times.

A loop of cores is recognized by its rotations by seven bits. It has two cores of each interleaved
chunk, or one double round of one of them: the compiler decides. For each loop this counts the vector
instructions, and the vector instructions with an operand on the stack. It fails if a loop calls a
function, rotations are outside of a loop, a number is above its limit, or a kind of loop is missing.
"""

import collections
import re
import subprocess
import sys
from pathlib import Path

BUILT = Path(__file__).parents[2] / "build" / "lib"

# The limits of a loop by the rotations by seven bits in it, of four words each: the vector instructions,
# and the vector instructions with an operand on the stack. A double round of a chunk has two rotations,
# and its two cores have 16. The limits are a little above the measured numbers: for x86-64 528 and 0 for
# one chunk, and 120 and 0, 188 and 10, 273 and 36 for a double round of two to four; for AVX2 408 and 0,
# 440 and 0, and 92 and 0 for a double round of three and of four; for AVX-512, whose rotation is one
# instruction, 280, 304, 576 and 608, none on the stack; for arm64, with 32 registers, 359 for one chunk,
# and 80, 120 and 160 for a double round.
LIMITS = {
    "x86-64": {16: (560, 0), 4: (128, 0), 6: (200, 16), 8: (290, 44)},
    "x86-64-avx2": {16: (430, 0), 32: (470, 0), 6: (98, 0), 8: (98, 0)},
    "x86-64-avx512vl": {16: (300, 0), 32: (325, 0), 48: (610, 0), 64: (640, 0)},
    "arm64": {16: (380, 0), 4: (86, 0), 6: (128, 0), 8: (170, 0)},
}

# A rotation by seven bits begins with this shift, or is in this instruction.
ROTATION = re.compile(r"(v?pslld|vprold) +\$0x7,|(shl)\s+v\d+\.4s, v\d+\.4s, #7$")
KINDS = {"vpslld": "x86-64-avx2", "vprold": "x86-64-avx512vl", "pslld": "x86-64", "shl": "arm64"}

INSTRUCTION = re.compile(r" *([0-9a-f]+):\s+(.*)")
JUMP = re.compile(r"(?:j[a-z]+|b(?:\.[a-z]+)?|cbn?z\s+[wx]\d+,|tbn?z\s+[wx]\d+, #\d+,)\s+([0-9a-f]+)")
CALL = re.compile(r"call|blr?\s")
VECTOR, ON_STACK = re.compile(r"%[xy]mm|\b[vq]\d+"), re.compile(r"\(%[re]sp|\[sp")


def sections(library):
    """The instructions of each section of code, by their addresses. A library can have several objects."""
    text = ""
    for objdump in "objdump", "aarch64-linux-gnu-objdump":
        ran = subprocess.run([objdump, "-d", "--no-show-raw-insn", library], capture_output=True, text=True)
        if ran.returncode == 0:
            text = ran.stdout
            break
    for section in re.split(r"^Disassembly of section ", text, flags=re.M)[1:]:
        found = (INSTRUCTION.fullmatch(line.rstrip()) for line in section.splitlines())
        yield {int(it[1], 16): it[2] for it in found if it}


def loops_of_cores(library):
    """The level, the number of rotations and the instructions of each loop of cores that has no other loop in it, and the
    rotations outside of these."""
    for code in sections(library):
        jumps = ((int(it[1], 16), at) for at, text in code.items() if (it := JUMP.match(text)))
        loops = sorted({(to, at) for to, at in jumps if to <= at and to in code}, key=lambda it: it[1] - it[0])
        # Each rotation is in the shortest of them, since loops can overlap.
        inner = [it for it in loops if not any(it != other and it[0] <= other[0] and other[1] <= it[1] for other in loops)]
        cores = collections.defaultdict(list)
        for at, text in code.items():
            if ROTATION.match(text):
                cores[next((it for it in inner if it[0] <= at <= it[1]), None)].append(text)
        for loop, its in cores.items():
            kinds = {it.split()[0] for it in its}
            level = KINDS[kinds.pop()] if len(kinds) == 1 else " and ".join(sorted(kinds))
            rotations = sum(2 if "%ymm" in it else 1 for it in its)
            if loop:
                yield level, rotations, [text for at, text in code.items() if loop[0] <= at <= loop[1]]
            else:
                yield f"{level}, outside of a loop", rotations, its


def wrong(level, rotations, texts, vectors, on_stack):
    """The error of a loop of cores, if any."""
    if any(CALL.match(it) for it in texts):
        return ": calls a function, which was to be inlined"
    if rotations not in LIMITS.get(level, ()):
        return ": no limits are known for this"
    max_vectors, max_on_stack = LIMITS[level][rotations]
    if vectors > max_vectors or on_stack > max_on_stack:
        return f": above {max_vectors} vector instructions or {max_on_stack} on the stack"
    return ""


def check(library):
    """Prints the loops of cores of a library, and returns the number of errors."""
    errors, found = 0, set()
    for level, rotations, texts in sorted(loops_of_cores(library)):
        vectors = [it for it in texts if VECTOR.search(it)]
        counts = len(vectors), sum(bool(ON_STACK.search(it)) for it in vectors)
        error = wrong(level, rotations, texts, *counts)
        print(f"{library}: {level}, {rotations} rotations: {counts[0]} vector instructions, {counts[1]} on the stack{error}")
        errors += error != ""
        found.add((level, rotations))
    # Chunks that are mixed otherwise, such as by scalar code, have no loop here.
    missing = {(level, rotations) for level, _ in found for rotations in LIMITS.get(level, ())} - found
    for level, rotations in sorted(missing) if found else [("any processor", "any number")]:
        print(f"{library}: {level}, {rotations} rotations: no loop")
        errors += 1
    return errors


def main():
    libraries = sys.argv[1:] or [it for it in (BUILT / "libscrypt_c.a", BUILT / "libscrypt_c.so") if it.exists()]
    errors = sum(map(check, libraries))
    print(f"registers: {errors} errors in {len(libraries)} libraries")
    sys.exit(1 if errors or not libraries else 0)


if __name__ == "__main__":
    main()
