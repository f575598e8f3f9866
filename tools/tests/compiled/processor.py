"""Compares the instructions of x86_64.py with this processor: each form of an instruction that check.py runs, with
random and extreme registers and memory, once with numbers, and once with symbolic words, whose values are put in
afterwards. Names the instructions that this processor lacks, which are not compared.

usage: python3 -m tools.tests.compiled.processor LIBRARY [LEVEL ..]    with as and ld of binutils, on a CPU with AVX-512
"""

import copy
import ctypes
import gc
import mmap
import random
import re
import struct
import sys
from pathlib import Path

from tools.tests.compiled import check, words
from tools.tests.compiled.calls import LEVELS, Compression
from tools.tests.compiled.machine import CONDITIONS, HANDLERS, RDX, RSP, Machine
from tools.tests.compiled.memory import Region, value_of
from tools.tests.compiled.program import NAMES, Program, Unknown, assembled, plain
from tools.tests.compiled.words import ALL

# In the memory an instruction's operand is at PLACE, and a state at STATE or after it: 32 vectors, the flags, and the
# registers in this order. The stack pointer is after the state while the instruction runs.
SIZE, PLACE, STATE, TRIES = 1 << 16, 1 << 14, 1 << 15, 12
ORDER = [i for i in range(16) if i != RSP]
FLAGS, REGISTERS, AFTER = 2048, 2056, 2056 + 8 * len(ORDER)
CARRY, ZERO, SIGN, OVERFLOW = 0, 6, 7, 11  # the places of the flags
SAVED = "rbx", "rbp", "r12", "r13", "r14", "r15"

# These use the stack or the thread, change the control flow, or depend on the processor.
UNTRIED = re.compile(r"(push|pop|call|ret|j\w+|fldz|fstp|cpuid|nop|endbr64)\b.*|.*\bfs:.*|\w+ rsp,.*|lea .*rip.*")


class Processor:
    """Code that loads a state, runs an instruction, and stores the state."""

    def __init__(self):
        self.memory = mmap.mmap(-1, SIZE)
        self.code = mmap.mmap(-1, 8192, prot=mmap.PROT_READ | mmap.PROT_WRITE | mmap.PROT_EXEC)
        self.start, self.at = (ctypes.addressof(ctypes.c_char.from_buffer(it)) for it in (self.memory, self.code))
        moves = [(f"zmm{i}", f"[rsp + {64 * i}]") for i in range(32)]
        before = [*(f"push {it}" for it in SAVED), "mov [rdi - 8], rsp", "mov rsp, rdi",
                  *(f"vmovdqu64 {a}, {b}" for a, b in moves), f"add rsp, {FLAGS}", "popf",
                  *(f"pop {NAMES[i]}" for i in ORDER)]
        after = [*(f"push {NAMES[i]}" for i in reversed(ORDER)), "pushf", f"sub rsp, {FLAGS}",
                 *(f"vmovdqu64 {b}, {a}" for a, b in moves), "cld", "mov rsp, [rsp - 8]",
                 *(f"pop {it}" for it in reversed(SAVED)), "vzeroupper", "ret"]
        self.before, self.after = assembled("; ".join(before), 0), assembled("; ".join(after), 0)
        self.place = self.at + len(self.before)

    def run(self, code, memory, state):
        """The memory after the instruction."""
        self.memory[:] = bytes(memory)
        made = self.before + code + self.after
        self.code[: len(made)] = made
        ctypes.CFUNCTYPE(None, ctypes.c_void_p)(self.at)(self.start + state)
        return bytes(self.memory)


class One:
    """A program without code of its own."""

    BASE, image, externals, decoded = 0, bytes(4), {}, {}


def relocated(it, code, processor):
    """The instruction and its code where it is run: an operand that is relative to it is at PLACE."""
    it, code = copy.deepcopy(it), bytearray(code)
    for op in (op for op in it.operands if op.is_memory and op.is_relative):
        at = code.rfind((op.at - it.next & ALL).to_bytes(4, "little"))
        op.at = processor.start + PLACE
        code[at : at + 4] = (op.at - processor.place - len(code) & ALL).to_bytes(4, "little")
    return it, bytes(code)


def place_operand(op, registers, place):
    """Changes registers so that an operand is at the place, or near the stack pointer."""
    if op.index is not None:
        registers[op.index] = 64 * (op.index + 1)
    if op.base == op.index is not None:
        registers[op.base] = (place - op.at) // (1 + op.scale)
    elif op.base not in (None, RSP):
        registers[op.base] = place - op.at - (registers[op.index] * op.scale if op.index is not None else 0)
    elif op.base is None and op.index is not None:
        registers[op.index] = (place - op.at) // op.scale


class Trial:
    """An instruction with random registers, vectors, flags and memory."""

    def __init__(self, it, processor, rng, is_symbolic):
        self.it, self.processor, self.is_symbolic = it, processor, is_symbolic
        bounds = [1, 0x80, 0x7FFFFFFF, 0x80000000, ALL] + [0] * (it.name != "div")
        some = lambda: rng.choice(bounds) if rng.random() < 0.3 else rng.getrandbits(32)
        self.registers = [some() | some() << 32 for _ in range(16)]
        used = range(32) if it.name == "vzeroupper" else {0, *(op.vector for op in it.operands)} - {None}
        mask = 0x00FF00FF if it.name == "packuswb" else ALL  # of numbers that need no saturation
        self.vectors = {i: tuple(some() & mask for _ in range(16)) for i in used}
        self.flags = 0x202 | rng.getrandbits(1) << CARRY | rng.getrandbits(1) << ZERO
        # A vector on the stack has an address that is a multiple of its size.
        places = [op for op in it.operands if op.is_memory]
        self.state = STATE + sum(-(AFTER + op.at) % op.size for op in places if op.base == RSP and op.size > 8)
        self.registers[RSP], self.needed = processor.start + self.state + AFTER, {RSP}
        if it.name == "div":
            self.registers[RDX] = 0
        for op in places:
            self.needed |= {op.base, op.index} - {None}
            if it.name != "lea" and not op.is_relative:
                place_operand(op, self.registers, processor.start + PLACE)
        if it.name[:2] in ("sh", "bz"):  # by a number of bits that is not symbolic
            self.needed |= {op.register for op in it.operands[1:]} - {None}
        self.memory = bytearray(rng.randbytes(SIZE))
        for i, vector in self.vectors.items():
            self.memory[self.state + 64 * i : self.state + 64 * (i + 1)] = struct.pack("<16I", *vector)
        numbers = self.flags, *(self.registers[i] for i in ORDER)
        self.memory[self.state + FLAGS : self.state + AFTER] = struct.pack("<16Q", *numbers)

    def machine(self):
        """This machine after the instruction, and a function for the values of its words."""
        content, values, known = None if self.is_symbolic else bytes(self.memory), {}, {}
        m = Machine(One, [Region("memory", self.processor.start, SIZE, content, writable=True)])
        for i, vector in self.vectors.items():
            if self.is_symbolic:
                values |= zip(m.vector(i), vector)
            else:
                m.vectors[i] = vector
        for i in range(16):
            values |= zip(m.registers[i], value_of(self.registers[i], 8))
            if not self.is_symbolic or i in self.needed:
                m.registers[i] = value_of(self.registers[i], 8)
        m.set_flags("carry", 8, (self.flags >> CARRY & 1,))
        m.flags = "logic", 8, (1 - (self.flags >> ZERO & 1), 0)
        m.at = self.it.at
        of_variable = lambda word: values[word] if word in values else word_in(self.memory, 4 * word.made_of[1])
        value = lambda word: value_in(word, of_variable, known)
        m.decide = lambda word, operands: value(word)
        HANDLERS[self.it.name](m, self.it, *self.it.operands)
        return m, value

    def difference(self, code):
        """What differs after the instruction, or None."""
        m, value = self.machine()
        after, state = self.processor.run(code, self.memory, self.state), self.state
        for n, i in enumerate(ORDER):
            at = state + REGISTERS + 8 * n
            if [*map(value, m.registers[i])] != [word_in(after, at), word_in(after, at + 4)]:
                return f"register {i}"
        for i in range(32):
            at = state + 64 * i
            made = struct.pack("<16I", *map(value, m.vectors[i])) if i in m.vectors else self.memory[at : at + 64]
            if made != after[at : at + 64]:
                return f"vector {i}"
        for index, word in m.memory.items():
            at = 4 * index - self.processor.start
            if not state <= at < state + AFTER and value(word) != word_in(after, at):
                return f"memory at {at:#x}"
        real = [word_in(after, state + FLAGS) >> i & 1 for i in (CARRY, ZERO, SIGN, OVERFLOW)]
        for code, test in CONDITIONS.items():
            try:
                condition = m.condition(code)
            except (Unknown, TypeError):  # not known by this machine
                continue
            if value(condition) != int(test(*real)):
                return f"condition {code}"


def word_in(some_bytes, at):
    return int.from_bytes(some_bytes[at : at + 4], "little")


def value_in(word, of_variable, known):
    """The value of a word, by a function for the variables in it."""
    if type(word) is int:
        return word
    if word not in known:
        name, *of = word.made_of
        value = lambda it: value_in(it, of_variable, known)
        if name == "polynomial":
            made = 0
            for monomial, mask in word.polynomial.items():
                for factor in monomial:
                    mask &= words.turned(value(words.atom_of(factor)), factor % 32 if factor >= 0 else 0)
                made ^= mask
        elif name == "sum":
            made = of[1] + sum(value(it) * coefficient for it, coefficient in of[0]) & ALL
        elif name in ("low", "high"):
            whole = of[1] + sum((value(low) | value(high) << 32) * factor for (low, high), factor in of[0])
            made = whole >> 32 * (name == "high") & ALL
        elif name == "and":
            made = ALL
            for it in of[0]:
                made &= value(it)
        else:
            made = ALL * (value(of[0]) == 0) if name == "is zero" else of_variable(word)
        known[word] = made
    return known[word]


def forms(program):
    """An instruction of each form: registers by their kind, places without their numbers."""
    found = {}
    for it in program.decoded.values():
        text = plain(it)
        if not UNTRIED.fullmatch(text):
            text = re.sub(r"\[.*\]", "[]", re.sub(r"([xyz]mm)\d+", r"\1", text))
            for op in it.operands:
                if op.register is not None:
                    text = re.sub(r"(?<=[ ,])(?!0x|[xyz]mm)\w+(?=,|$)", f"r{op.size}", text, count=1)
            found.setdefault(text, it)
    return found


def compare(program):
    """Compares each form of the instructions that were run. Returns how many trials differ."""
    has, right, wrong, refused, lacking = Path("/proc/cpuinfo").read_text().split(), 0, 0, set(), set()
    if "avx512vl" not in has:
        print("instructions: none was compared, since this processor has no AVX-512")
        return 0
    its, processor, rng = forms(program), Processor(), random.Random(7914)
    for it in its.values():
        if it.name.startswith("sha256") and "sha_ni" not in has:
            lacking.add(it.name)
            continue
        it, code = relocated(it, program.code(it), processor)
        for i in range(TRIES):
            words.forget()
            try:
                what = Trial(it, processor, rng, i % 2).difference(code)
            except Unknown:
                refused.add(it.name)
                continue
            right, wrong = right + (what is None), wrong + (what is not None)
            if what:
                print(f"{it.text}: {what}{' of symbolic words' if i % 2 else ''}", flush=True)
    print(f"{len(its)} forms; not run on every symbolic operand: {', '.join(sorted(refused))}")
    print(f"not compared, since this processor lacks them: {', '.join(sorted(lacking)) or 'none'}")
    print(f"instructions: {right} of {right + wrong} as they should be")
    return wrong


def main():
    gc.disable()
    library, *levels = sys.argv[1:]
    compression = Compression(Program(library))
    failed = check.run_all(compression, levels or LEVELS)
    return failed + compare(compression.program) > 0


if __name__ == "__main__":
    sys.exit(main())
