"""A processor that runs code for x86-64 on symbolic words (words.py), along one path, in a memory whose addresses are
numbers.

What is not known here ends a run with `Unknown`: an instruction, a flag, an address that is not mapped, a symbolic
target or number of bits. A condition or an address that is symbolic is reported, also if the condition is the same for
every input. An address may depend on one index: it reads each of the places, or a table of any size whose words are
known by their addresses.
"""

from tools.tests.compiled import words
from tools.tests.compiled.memory import LOW, Memory, Region, concrete, number_of, signed, total, value_of
from tools.tests.compiled.program import THREAD, Unknown
from tools.tests.compiled.words import ALL, WIDE, atom, conj, is_zero, product, shift_left, shift_right, wide_sum, xor

RAX, RCX, RDX, RBX, RSP, RBP, RSI, RDI = range(8)
ARGUMENTS = (RDI, RSI, RDX, RCX, 8, 9)
KEPT = (RBX, RSP, RBP, 12, 13, 14, 15)  # the registers that a call preserves
RETURN = 0x0FEE_4B7D_2A60  # what a call returns to
MAX_RUN = 500_000  # instructions of a run, which otherwise does not end
CLOBBERED = 1024  # bytes below the stack pointer that a call may have changed

# For the name of an instruction a function of the machine, the instruction and its operands, which returns the address
# of the next instruction if that is not the one after it (x86_64.py).
HANDLERS = {}
EXTERNALS = {}  # functions of other libraries, of the machine, which return their result if they have one


class Branch(Exception):
    """A symbolic condition that is not decided, with the words that it compares."""


# ---- Flags: carry, zero, sign and overflow, of the last operation that set them ----


def flags_of(size, result, carry, overflow):
    result &= LOW[size]
    return carry, result == 0, result >> 8 * size - 1, overflow


def flags_of_sum(size, sign, a, b, carry=0):
    whole, exact = a + sign * (b + carry), signed(a, size) + sign * (signed(b, size) + carry)
    return flags_of(size, whole, whole >> 8 * size != 0, exact != signed(whole & LOW[size], size))


FLAGS = {
    "add": lambda size, *of: flags_of_sum(size, 1, *of),
    "sub": lambda size, *of: flags_of_sum(size, -1, *of),
    "logic": lambda size, result: flags_of(size, result, 0, 0),
    "shift": lambda size, result: flags_of(size, result, None, None),
    "carry": lambda size, carry: (carry, None, None, None),
    "multiply": lambda size, overflow: (overflow, None, None, overflow),
}
CONDITIONS = {
    "o": lambda c, z, s, o: o,
    "b": lambda c, z, s, o: c,
    "e": lambda c, z, s, o: z,
    "be": lambda c, z, s, o: c | z,
    "s": lambda c, z, s, o: s,
    "l": lambda c, z, s, o: s ^ o,
    "le": lambda c, z, s, o: z | (s ^ o),
}
OPPOSITES = {"no": "o", "ae": "b", "ne": "e", "a": "be", "ns": "s", "ge": "l", "g": "le"}


def symbolic_condition(code, kind, size, x, y=(0, 0), carry=(0,)):
    """The value of a condition of symbolic operands: by their bounds, or as a function of their bits."""
    if kind == "carry" and code == "b":
        return x[0]
    if kind in ("logic", "shift") and code in ("e", "be", "s"):
        return shift_right(x[-1], min(8 * size, 32) - 1) if code == "s" else product(map(is_zero, x))
    pairs = [(*it, 0)[:2] for it in (x, y)]
    low, high = words.difference(*pairs)
    if kind == "sub" and carry == (0,) and code in ("b", "e", "be"):
        if high < 0 or low > 0 or code == "b" and low >= 0 or code == "be" and high <= 0:
            return int(high < 0 and code != "e" or code == "be" and high <= 0)
        if code == "e":
            return words.is_same(*pairs)
    if kind == "add" and code == "e" and carry == (0,) and size == 8:
        return words.is_same(wide_sum(*pairs), (0, 0))
    if kind == "add" and code == "b" and carry == (0,) and size == 8:
        each = [words.exact(it) for it in pairs]
        if None not in each and sum(words.bounds(*it)[1] for it in each) < WIDE:
            return 0
    made = words.by_cases(lambda a, b: int(CONDITIONS[code](*FLAGS[kind](size, a, b))), x[0], y[0])
    if made is None or x[1:] not in ((), (0,)) or y[1:] not in ((), (0,)) or carry != (0,):
        raise Unknown("a condition of symbolic words")
    return made


# ---- The machine ----


class Machine:
    """`cuts` has functions that do what the code at an address does, and `before` has functions that are called before
    the code there. `decide` returns the value of a symbolic condition. `reports` has each address and condition that is
    symbolic: the instruction, which of both, and the words."""

    def __init__(self, program, regions, cuts=(), has_sha=False):
        self.program, self.cuts, self.before, self.reports, self.has_sha = program, dict(cuts), {}, {}, has_sha
        image = Region("image", program.BASE, len(program.image), bytes(program.image), writable=True)
        thread = Region("thread", THREAD, 64, bytes(range(64)))  # with the canary of the stack protector
        self.memory = Memory([*regions, image, thread])
        self.registers, self.calls, self.jumped = [None] * 16, 0, None
        self.forget(range(16))

    def decide(self, condition, operands):
        raise Branch(operands)

    def forget(self, registers):
        """Forgets these registers, the vectors and the flags."""
        self.calls += 1
        for i in registers:
            self.registers[i] = tuple(atom("register", self.calls, i, k) for k in range(2))
        self.vectors = {}  # each that was used since then
        self.set_flags("unknown", 8)

    def vector(self, i):
        if i not in self.vectors:
            self.vectors[i] = tuple(atom("vector", self.calls, i, k) for k in range(16))
        return self.vectors[i]

    def set_flags(self, *flags, keeps_carry=False):
        """The flags are those of this kind of operation, with its size and its operands."""
        self.flags, self.carry = flags, self.carry if keeps_carry else flags

    # Operands

    def get(self, it):
        if it.number is not None:
            return it.number
        if it.vector is not None:
            return self.vector(it.vector)[: it.size // 4]
        if it.register is None:
            return self.load(self.address(it), it.size)
        value = self.registers[it.register]
        if it.size == 8:
            return value
        return value[:1] if it.size == 4 else (conj(shift_right(value[0], it.bit), LOW[it.size]),)

    def put(self, it, value, is_vex=False):
        """Puts a value into an operand, cut or extended by zeros to its size. What is above it in a vector is kept, or
        0 if the instruction is one of AVX."""
        count = max(1, it.size // 4)
        if len(value) != count:
            value = (*value, *(0,) * count)[:count]
        if it.vector is not None:
            self.vectors[it.vector] = value + ((0,) * 16 if is_vex else self.vector(it.vector))[count:]
        elif it.register is None:
            self.store(self.address(it), value, it.size)
        elif it.size == 8:
            self.registers[it.register] = value
        elif it.size == 4:
            self.registers[it.register] = (*value, 0)
        else:  # the other bits are kept
            low, high = self.registers[it.register]
            mask = LOW[it.size] << it.bit
            self.registers[it.register] = xor(conj(low, ~mask & ALL), conj(shift_left(value[0], it.bit), mask)), high

    def address(self, it, size=8):
        made = value_of(it.at, size)
        for register, factor in ((it.base, 1), (it.index, it.scale)):
            if register is not None:
                made = total(size, made, self.registers[register][: size // 4], factor)
        if it.is_aligned and it.size >= 16:
            addends, constant = words.wide_addends(made)
            if any(number % it.size for number in (constant, *addends.values())):
                raise Unknown("an address that is not aligned")
        return made

    def load(self, address, size):
        at = number_of(address)
        if at is not None:
            return self.memory.load(at, size)
        self.report("address", [address])
        return self.memory.at_index(address, size)

    def store(self, address, value, size):
        at = number_of(address)
        if at is not None:
            return self.memory.store(at, value, size)
        self.report("address", [address])
        self.memory.at_index(address, size, value)

    def report(self, what, some_words):
        self.reports[self.at, what, tuple(some_words)] = None

    # Conditions

    def condition(self, code):
        if code in OPPOSITES:
            return xor(self.condition(OPPOSITES[code]), 1)
        kind, size, *operands = self.carry if code == "b" else self.flags
        if kind == "unknown" or code == "be" and self.carry is not self.flags:
            raise Unknown("a flag that is not known")
        if None in map(number_of, operands):
            return symbolic_condition(code, kind, size, *operands)
        return int(CONDITIONS[code](*FLAGS[kind](size, *map(number_of, operands))))

    def holds(self, code):
        """Whether a condition holds on this path."""
        kind, _, *operands = self.carry if OPPOSITES.get(code, code) == "b" else self.flags
        value = self.condition(code)
        if None in map(number_of, operands):
            self.report("condition", operands)
        return bool(value) if type(value) is int else self.decide(value, operands)

    # Running

    def call(self, at, *arguments):
        """Puts the arguments of a function where it takes them, and runs it."""
        stacked = [RETURN, *arguments[len(ARGUMENTS) :]]
        top = (concrete(self.registers[RSP]) - 8 * len(stacked) & ~15) - 8  # a call leaves it 8 below a multiple of 16
        for number, it in zip(ARGUMENTS, arguments):
            self.registers[number] = value_of(it, 8)
        for i, it in enumerate(stacked):
            self.memory.store(top + 8 * i, value_of(it, 8), 8)
        self.registers[RSP] = value_of(top, 8)
        self.kept = [value_of(top + 8, 8) if i == RSP else self.registers[i] for i in KEPT]
        self.run(at)

    def keeps(self):
        """Whether the registers that a call preserves are those before it."""
        return self.kept == [self.registers[i] for i in KEPT]

    def run(self, at):
        """Runs until the code at this address returns."""
        self.at, left = at, MAX_RUN
        while self.at != RETURN:
            left -= 1
            if not left:
                raise Unknown("no end")
            if self.at in self.cuts or self.at in self.program.externals:
                name = self.program.externals.get(self.at)
                if self.at not in self.cuts and name not in EXTERNALS:
                    raise Unknown(f"a call of {name}")
                self.run_other(self.cuts.get(self.at) or EXTERNALS[name])
                continue
            if self.at in self.before:
                self.before[self.at](self)
            it = self.program.decoded.get(self.at) or self.program.instruction(self.at)
            try:
                to = HANDLERS[it.name](self, it, *it.operands)
                if to and to <= self.at and self.jumped and it.name[0] == "j":
                    self.jumped(self, to)
                self.at = to or it.next
            except (Unknown, KeyError, TypeError) as error:
                raise Unknown(f"{it.text}: {error}") from error

    def run_other(self, function):
        """Does what a function does, and returns from it. What a call does not preserve is forgotten."""
        result = function(self)
        top = concrete(self.registers[RSP])
        self.forget(set(range(16)) - set(KEPT))
        self.memory.forget(top - CLOBBERED, top, self.calls)
        if result is not None:
            self.registers[RAX] = result
        self.at = concrete(self.pop())

    def push(self, value):
        self.registers[RSP] = value_of(concrete(self.registers[RSP]) - 8, 8)
        self.memory.store(number_of(self.registers[RSP]), value, 8)

    def pop(self):
        at = concrete(self.registers[RSP])
        self.registers[RSP] = value_of(at + 8, 8)
        return self.memory.load(at, 8)
