"""The instructions of x86-64 that occur, by their names in Intel's manual, as functions of symbolic words. The names of
AVX begin with a `v`."""

from functools import reduce

from tools.tests.compiled import words
from tools.tests.compiled.machine import CONDITIONS, EXTERNALS, HANDLERS, OPPOSITES, RAX, RBX, RCX, RDI, RDX, RSI
from tools.tests.compiled.memory import (
    LOW, concrete, elements, joined, number_of, parts, shifted, signed, total, value_of, vector_of,
)
from tools.tests.compiled.program import Unknown
from tools.tests.compiled.words import (
    ALL, WIDE, add, conj, disj, is_zero, rotate, shift_left, shift_right, spread, subtract, times, wide_sum, xor,
)

NOTHING = ("nop", "endbr64", "fldz", "fstp")  # the x87's registers are not modelled, and nothing here reads them
HANDLERS |= dict.fromkeys(NOTHING, lambda m, it, *_: None)


def handles(*names):
    def put(function):
        HANDLERS.update(dict.fromkeys(names, function))
        return function

    return put


# ---- Instructions on vectors ----


def computes(names, function, reads=False):
    """Instructions that put a function of their operands' words into the first one, and change no flag; also with a `v`
    before the name. With `reads`, the first operand is the first argument, unless there is a `v`."""

    def run(m, it, to, *of):
        of = (to, *of) if reads and not it.is_vex else of
        m.put(to, tuple(function(*map(m.get, of))), it.is_vex)

    HANDLERS.update({v + name: run for name in names.split() for v in ("", "v")})


def words_wise(function):
    return lambda x, y: map(function, x, y)


def each(size, function):
    """A function of each element."""
    return lambda *of: vector_of([function(*some) for some in zip(*(elements(it, size) for it in of))], size)


def by_number(size, function):
    """A function of each element, and of a number."""
    return lambda x, k: vector_of([conj(function(it, k[0]), LOW[size]) for it in elements(x, size)], size)


def by_lane(size, function):
    """A function of the elements in each lane of 16 bytes."""

    def run(*of):
        *vectors, k = of if len(of[-1]) == 1 else (*of, ())
        lanes = zip(*(parts(it, 4) for it in vectors))
        return joined(vector_of(function(*(elements(it, size) for it in lane), *k), size) for lane in lanes)

    return run


def interleaved(x, y):
    return [it for pair in zip(x, y) for it in pair]


def unsigned_minimum(x):  # only of numbers that need none
    if words.bits_of(x) > 0xFF:
        raise Unknown("a saturated byte")
    return x


def sum_of_bits(bits):
    return words.xor_of(shift_left(it, i) for i, it in enumerate(bits))


def arithmetic_right(x, k):
    """Of two bytes."""
    return disj(shift_right(x, k), spread(shift_right(x, 15), 0xFFFF & ~(0xFFFF >> k)))


def boolean(x, y, z, k):
    """The function of three bits with the value bit 4x + 2y + z of k, as its polynomial."""
    values, made = words.moebius([k[0] >> i & 1 for i in range(8)]), [0] * len(x)
    for i in words.positions(sum(it << i for i, it in enumerate(values))):
        its = [it for bit, it in ((4, x), (2, y), (1, z)) if i & bit]
        made = [xor(it, reduce(conj, some, ALL)) for it, some in zip(made, zip(*its) if its else [()] * len(x))]
    return made


computes("mov movabs movzx movdqa movdqu movaps movups movapd movdqa64 movdqu64", lambda x: x)
computes("movd", lambda x: x[:1])
computes("movq", lambda x: x[:2])
computes("movlhps", lambda x, y: (*x[:2], *y[:2]), reads=True)
computes("paddd", words_wise(add), reads=True)
computes("pxor xorps pxord pxorq", words_wise(xor), reads=True)
computes("pand andps pandd", words_wise(conj), reads=True)
computes("por orps pord", words_wise(disj), reads=True)
computes("pandn", words_wise(lambda a, b: conj(xor(a, ALL), b)), reads=True)
computes("paddb", each(1, lambda a, b: conj(add(a, b), 0xFF)), reads=True)
computes("paddw", each(2, lambda a, b: conj(add(a, b), 0xFFFF)), reads=True)
computes("paddq", each(8, wide_sum), reads=True)
computes("psubw", each(2, lambda a, b: conj(subtract(a, b), 0xFFFF)), reads=True)
for size, letter in ((1, "b"), (4, "d")):
    computes(f"pcmpeq{letter}", each(size, lambda a, b, mask=LOW[size]: spread(is_zero(xor(a, b)), mask)), reads=True)
computes("pslld", by_number(4, shift_left), reads=True)
computes("psrld", by_number(4, shift_right), reads=True)
computes("prold", by_number(4, rotate))
computes("psllw", by_number(2, shift_left), reads=True)
computes("psrlw", by_number(2, shift_right), reads=True)
computes("psraw", by_number(2, arithmetic_right), reads=True)
for size, letters in ((1, "bw"), (2, "wd"), (4, "dq"), (8, "qdq")):
    computes(f"punpckl{letters}", by_lane(size, lambda x, y: interleaved(x, y)[: len(x)]), reads=True)
    computes(f"punpckh{letters}", by_lane(size, lambda x, y: interleaved(x, y)[len(x) :]), reads=True)
HANDLERS["unpcklps"] = HANDLERS["punpckldq"]
computes("pshufd", by_lane(4, lambda x, k: [x[k >> 2 * i & 3] for i in range(4)]))
computes("shufps", by_lane(4, lambda x, y, k: [(x, x, y, y)[i][k >> 2 * i & 3] for i in range(4)]), reads=True)
computes("pshuflw", by_lane(2, lambda x, k: [x[k >> 2 * i & 3] for i in range(4)] + x[4:]))
computes("pshufhw", by_lane(2, lambda x, k: x[:4] + [x[4 + (k >> 2 * i & 3)] for i in range(4)]))
computes("pshufb", by_lane(1, lambda x, y: [0 if concrete((i,)) & 0x80 else x[i & 15] for i in y]), reads=True)
computes("palignr", by_lane(1, lambda x, y, k: (y + x + [0] * 16)[k : k + 16]), reads=True)
computes("pblendw", by_lane(2, lambda x, y, k: [(x, y)[k >> i & 1][i] for i in range(8)]), reads=True)
computes("packuswb", lambda x, y: vector_of([*map(unsigned_minimum, elements(x, 2) + elements(y, 2))], 1), reads=True)
computes("extracti128 extractf128 extracti32x4", lambda x, k: parts(x, 4)[k[0]])
computes("inserti128 insertf128 inserti32x4", lambda x, y, k: joined([(x[:4], y)[not k[0]][:4], (x[4:], y)[k[0]][:4]]))
computes("pextrw", lambda x, k: (elements(x, 2)[k[0] & 7],))
computes("pmovmskb", lambda x: (sum_of_bits([shift_right(it, 7) for it in elements(x, 1)]),))
computes("movmskps", lambda x: (sum_of_bits([shift_right(it, 31) for it in x]),))


@handles("movss", "movsd")
def movss(m, it, to, of):
    count = 1 if it.name == "movss" else 2
    x = m.get(of)[:count]
    m.put(to, (*x, *m.get(to)[count:]) if to.vector is not None and of.vector is not None else x)


@handles("pinsrw")
def pinsrw(m, it, to, of, k):
    its = elements(m.get(to), 2)
    its[k.number[0] & 7] = conj(m.get(of)[0], 0xFFFF)
    m.put(to, vector_of(its, 2))


@handles("vpternlogd", "vpternlogq")
def vpternlogd(m, it, to, y, z, k):
    m.put(to, tuple(boolean(*map(m.get, (to, y, z, k)))), is_vex=True)


@handles("vzeroupper")
def vzeroupper(m, it):
    """Of the first 16. What is unknown in them may be anything."""
    m.vectors |= {i: value[:4] + (0,) * 12 for i, value in m.vectors.items() if i < 16}


def sigma(x, *rotations, shift=32):
    return words.xor_of([shift_right(x, shift), *(rotate(x, -k) for k in rotations)])


computes("sha256msg1", lambda x, y: (add(a, sigma(b, 7, 18, shift=3)) for a, b in zip(x, (*x[1:], y[0]))), reads=True)


@handles("sha256msg2")
def sha256msg2(m, it, to, of):
    made = list(m.get(to))
    for i in range(4):
        made[i] = add(made[i], sigma((*m.get(of)[2:], *made)[i], 17, 19, shift=10))
    m.put(to, tuple(made))


@handles("sha256rnds2")
def sha256rnds2(m, it, to, of, *_):
    (h, g, d, c), (f, e, b, a) = m.get(to), m.get(of)
    for word in m.vector(0)[:2]:
        t1 = add(add(add(h, word), sigma(e, 6, 11, 25)), xor(conj(e, f), conj(xor(e, ALL), g)))
        t2 = add(sigma(a, 2, 13, 22), xor(xor(conj(a, b), conj(a, c)), conj(b, c)))
        a, b, c, d, e, f, g, h = add(t1, t2), a, b, c, add(d, t1), e, f, g
    m.put(to, (f, e, b, a))


# ---- Instructions on general registers ----


def calculates(names, function, reads=True, writes=True, flags="unknown"):
    """Instructions that put a function of the size and their operands' words into the first one. The flags are those of
    the result ("logic"), of a sum or a difference of the operands, unchanged, or not known."""

    def run(m, it, to, *of):
        values = [m.get(op) for op in ((to, *of) if reads else of)]
        made = function(to.size, *values) if writes or flags == "logic" else None
        if flags:
            m.set_flags(flags, to.size, *((made,) if flags == "logic" else values))
        if writes:
            m.put(to, made)

    HANDLERS.update(dict.fromkeys(names.split(), run))


def bitwise(function):
    return lambda size, x, y: tuple(map(function, x, y))


def concatenated(high, low, k):
    """The high half of two values side by side that are shifted to the left by k bits."""
    return tuple(map(xor, shifted(high, k), shifted(low, k - 32 * len(low))))


def count(size, k):
    """The number of bits that an instruction of this size shifts by."""
    return concrete(k) & (63 if size == 8 else 31)


def needs_word(size):
    if size < 4:
        raise Unknown("an operand of one or two bytes")
    return size


def sign_extended(size, x):
    made = signed(concrete(x), 4)
    return value_of(made, size)


def lowest_bits(size, x, k):
    mask = value_of((1 << min(concrete(k) & 0xFF, 8 * size)) - 1, size)
    return tuple(map(conj, x, mask))


calculates("add", total, flags="add")
calculates("sub", lambda size, x, y: total(size, x, y, -1), flags="sub")
calculates("cmp", None, flags="sub", writes=False)
calculates("and", bitwise(conj), flags="logic")
calculates("or", bitwise(disj), flags="logic")
calculates("xor", bitwise(xor), flags="logic")
calculates("test", bitwise(conj), flags="logic", writes=False)
calculates("andn", bitwise(lambda a, b: conj(xor(a, ALL), b)), flags="logic", reads=False)
calculates("not", lambda size, x: tuple(map(xor, x, value_of(-1, size))), flags=None)
calculates("movsxd", sign_extended, flags=None, reads=False)
calculates("bzhi", lowest_bits, reads=False)
calculates("shlx", lambda size, x, k: shifted(x, count(size, k)), flags=None, reads=False)
calculates("shrx", lambda size, x, k: shifted(x, -count(size, k)), flags=None, reads=False)
calculates("shld", lambda size, x, y, k: concatenated(x, y, count(needs_word(size), k)))
calculates("ror", lambda size, x, k: concatenated(x, x, 8 * needs_word(size) - count(size, k)))
calculates("rol", lambda size, x, k: concatenated(x, x, count(needs_word(size), k)))
calculates("bswap", lambda size, x: tuple(map(words.swapped, reversed(x))), flags=None)


@handles("lea")
def lea(m, it, to, of):
    m.put(to, m.address(of, to.size))


@handles("inc", "dec")
def inc(m, it, to):
    x, one, is_sum = m.get(to), value_of(1, to.size), it.name == "inc"
    m.set_flags("add" if is_sum else "sub", to.size, x, one, keeps_carry=True)
    m.put(to, total(to.size, x, one, 1 if is_sum else -1))


@handles("neg")
def neg(m, it, to):
    zero, x = value_of(0, to.size), m.get(to)
    m.set_flags("sub", to.size, zero, x)
    m.put(to, total(to.size, zero, x, -1))


@handles("adc", "sbb")
def adc(m, it, to, of):
    carry, sign = m.condition("b"), 1 if it.name == "adc" else -1
    x, y = m.get(to), m.get(of)
    if sign == -1 and to.register is not None and to.register == of.register:
        x = y = value_of(0, to.size)  # of equal values
    m.set_flags("add" if sign == 1 else "sub", to.size, x, y, (carry,))
    m.put(to, total(to.size, x, y, sign, carry))


@handles("imul")
def imul(m, it, to, *of):
    (x, y), size = map(m.get, of if len(of) == 2 else (to, *of)), to.size
    if number_of(y) is None:
        x, y = y, x
    k = concrete(y)
    m.put(to, wide_sum((0, 0), x, k) if size == 8 else (conj(times(x[0], k), LOW[size]),))
    m.set_flags("unknown", size)
    if number_of(x) is not None:
        exact = signed(number_of(x), size) * signed(k, size)
        m.set_flags("multiply", size, (int(exact != signed(exact & LOW[size], size)),))


@handles("mul", "mulx")
def mul(m, it, *operands):
    size = needs_word(operands[-1].size)
    x, y = m.registers[RDX if it.name == "mulx" else RAX][: size // 4], m.get(operands[-1])
    if number_of(y) is None:
        x, y = y, x
    k = concrete(y)
    if number_of(x) is None and size == 8 and words.exact(x) and words.bounds(*words.exact(x))[1] * k < WIDE:
        low, high = wide_sum((0, 0), x, k), (0, 0)
    else:
        low, high = (value_of(concrete(x) * k >> bits, size) for bits in (0, 8 * size))
    if it.name == "mulx":
        m.put(operands[1], low)
        return m.put(operands[0], high)
    m.registers[RAX], m.registers[RDX] = (*low, 0)[:2], (*high, 0)[:2]
    m.set_flags("multiply", size, (int(concrete(high) != 0),))


@handles("div")
def div(m, it, of):
    high, low = (concrete(m.registers[i][: needs_word(of.size) // 4]) for i in (RDX, RAX))
    quotient, rest = divmod(high << 8 * of.size | low, concrete(m.get(of)))
    m.registers[RAX], m.registers[RDX] = value_of(quotient, 8), value_of(rest, 8)
    m.set_flags("unknown", 8)


@handles("shl", "shr", "sar")
def shl(m, it, to, of=None):
    x, k = m.get(to), count(to.size, m.get(of)) if of else 1
    if it.name == "sar":
        m.put(to, value_of(signed(concrete(x), to.size) >> k, to.size))
        return m.set_flags("unknown", to.size)
    if k and it.name == "shl" and type(x[0]) is words.Word and x[0].made_of[0] == "low":  # a sum stays one
        m.set_flags("unknown", to.size)
        return m.put(to, wide_sum((0, 0), x, 1 << k))
    if k:
        carry = shifted(x, k - 8 * to.size if it.name == "shl" else 1 - k)[0]
        x = tuple(conj(it, LOW[min(to.size, 4)]) for it in shifted(x, k if it.name == "shl" else -k))
        m.set_flags("shift", to.size, x)
        m.carry = "carry", 8, (conj(carry, 1),)
    m.put(to, x)


@handles("xchg")
def xchg(m, it, a, b):
    x, y = m.get(a), m.get(b)
    m.put(a, y)
    m.put(b, x)


@handles("cpuid")
def cpuid(m, it):
    """A processor with SSSE3 and SSE4.1; and with SHA-NI or not."""
    leaves = {0: (7, 0, 0, 0), 1: (0, 0, 1 << 9 | 1 << 19, 1 << 26), 7: (0, m.has_sha << 29, 0, 0)}
    for i, number in zip((RAX, RBX, RCX, RDX), leaves[concrete(m.registers[RAX])]):
        m.registers[i] = value_of(number, 8)


@handles("call")
def call(m, it, to):
    at = concrete(m.get(to))
    m.push(value_of(it.next, 8))
    return at


HANDLERS["push"] = lambda m, it, of: m.push(m.get(of))
HANDLERS["pop"] = lambda m, it, to: m.put(to, m.pop())
HANDLERS["jmp"] = lambda m, it, to: concrete(m.get(to))
HANDLERS["ret"] = lambda m, it: concrete(m.pop())


def on_condition(code):
    HANDLERS["j" + code] = lambda m, it, to: number_of(m.get(to)) if m.holds(code) else None
    HANDLERS["set" + code] = lambda m, it, to: m.put(to, (m.condition(code),))
    HANDLERS["cmov" + code] = lambda m, it, to, of: m.put(to, (m.get(to), m.get(of))[m.holds(code)])


for code in (*CONDITIONS, *OPPOSITES):
    on_condition(code)


# ---- Functions of other libraries: what they return ----


def copy(m):
    size = concrete(m.registers[RDX])
    m.store(m.registers[RDI], m.load(m.registers[RSI], size), size)
    return m.registers[RDI]


def fill(m):
    to, size = (concrete(m.registers[i]) for i in (RDI, RDX))
    m.memory.store(to, vector_of(elements(m.registers[RSI], 1)[:1] * size, 1), size)
    return value_of(to, 8)


def compare(m):
    """Whether bytes differ. They are none that are symbolic."""
    x, y = (m.memory.bytes(concrete(m.registers[i]), concrete(m.registers[RDX])) for i in (RDI, RSI))
    return value_of([concrete((it,)) for it in x] != [concrete((it,)) for it in y], 8)


EXTERNALS |= {"memcpy": copy, "memmove": copy, "memset": fill, "bcmp": compare}
