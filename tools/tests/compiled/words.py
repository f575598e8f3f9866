"""Symbolic words of 32 bits in a normal form: two words that are equal for every input are nearly always one object.

The code is run on variables in place of numbers, and what it leaves in memory is a formula of these variables. Whether
that is the formula of the definition need not be searched for, if both are written in a normal form as they are made:

A word is an int or a `Word`, which is a polynomial over GF(2), bit by bit: the exclusive or of monomials, each under a
mask, where a monomial is the `and` of atoms, each rotated to the left. A boolean function has one polynomial, however
it is written, and so have shifts, rotations, masks, packed bytes and their order. An atom is a variable; or a sum
modulo 2^32, by the coefficients of the words in it; or the value of another function, which is known by its arguments.
Words that are one object are equal. The opposite need not be so: then a check fails that should not.
"""

from contextlib import contextmanager
from functools import cache, reduce

ALL = 0xFFFFFFFF
WIDE = 1 << 64
MAX_MONOMIALS = 512  # a conjunction with more is kept as an atom
FEW_BITS = 8  # a function of so few bits is computed by cases

ATOMS = []  # each atom, by its number
WORDS = {}  # each word, by what it is made of
BELOW = {}  # variables that are below a number (check.py: a loop's counter)


class Word:
    """`polynomial` has the mask of each monomial, a sorted tuple of factors. A factor is 32 * number + rotation of an
    atom; or ~number of a uniform atom, whose 32 bits are equal, so that no rotation changes it. `bits` is a mask of the
    bits that can be 1."""

    __slots__ = ("polynomial", "bits", "made_of")

    def __init__(self, polynomial, *made_of):
        self.polynomial, self.made_of, self.bits = polynomial, made_of, 0
        for mask in polynomial.values():
            self.bits |= mask

    __xor__ = __rxor__ = lambda x, y: xor(x, y)
    __and__ = __rand__ = lambda x, y: conj(x, y)
    __or__ = __ror__ = lambda x, y: disj(x, y)
    __add__ = __radd__ = lambda x, y: add(x, y)
    __lshift__ = lambda x, k: shift_left(x, k)
    __rshift__ = lambda x, k: shift_right(x, k)


def atom(*made_of, uniform=False):
    """The atom that is made of these, with the bits that are assumed."""
    if made_of not in WORDS:
        WORDS[made_of] = Word({(~len(ATOMS) if uniform else 32 * len(ATOMS),): ALL}, *made_of)
        ATOMS.append(WORDS[made_of])
    return WORDS[made_of]


def atom_of(factor):
    return ATOMS[~factor if factor < 0 else factor >> 5]


def atoms_of(some_words):
    return {atom_of(factor) for word in some_words for monomial in polynomial_of(word) for factor in monomial}


@contextmanager
def assumed(it, mask, value):
    """Meanwhile these bits of an atom are those of a number, wherever it is made again."""
    before, WORDS[it.made_of] = WORDS[it.made_of], xor(conj(it, ~mask & ALL), value)
    try:
        yield
    finally:
        WORDS[it.made_of] = before


def named(it, *made_of):
    """A variable that stands for an atom from now on, wherever it is made again. So the sums it is in stay short."""
    WORDS[it.made_of] = atom(*made_of)
    return WORDS[it.made_of]


def forget():
    """Forgets all words, which saves memory."""
    for it in (ATOMS, WORDS, BELOW):
        it.clear()
    for it in (_xor, _conj, _rotate, is_zero):
        it.cache_clear()


def polynomial_of(word):
    return word.polynomial if type(word) is Word else {(): word} if word else {}


def word_of(polynomial):
    """The word of a polynomial, which has no mask of 0."""
    if not polynomial:
        return 0
    if len(polynomial) == 1:
        [(monomial, mask)] = polynomial.items()
        if not monomial:
            return mask
        if mask == ALL and len(monomial) == 1 and (monomial[0] < 0 or monomial[0] % 32 == 0):
            return atom_of(monomial[0])
    key = frozenset(polynomial.items())
    if key not in WORDS:
        WORDS[key] = Word(polynomial, "polynomial")
    return WORDS[key]


def bits_of(x):
    return x if type(x) is int else x.bits


# ---- Boolean functions, shifts and rotations ----


def xor(x, y):
    return x ^ y if type(x) is type(y) is int else _xor(x, y)


@cache
def _xor(x, y):
    made = dict(polynomial_of(x))
    for monomial, mask in polynomial_of(y).items():
        mask ^= made.pop(monomial, 0)
        if mask:
            made[monomial] = mask
    return word_of(made)


def xor_of(some):
    return reduce(xor, some, 0)


def conj(x, y):
    """The `and` of two words."""
    return x & y if type(x) is type(y) is int else _conj(x, y)


@cache
def _conj(x, y):
    made = {}
    for first, mask in polynomial_of(x).items():
        for second, other in polynomial_of(y).items():
            if mask & other:
                monomial = tuple(sorted({*first, *second}))
                made[monomial] = made.get(monomial, 0) ^ mask & other
    made = {monomial: mask for monomial, mask in made.items() if mask}
    return word_of(made) if len(made) <= MAX_MONOMIALS else atom("and", frozenset((x, y)))


def disj(x, y):
    """The `or` of two words."""
    return x | y if type(x) is type(y) is int else xor(xor(x, y), conj(x, y))


def rotate(x, k, mask=ALL):
    """The word rotated to the left by k bits, under a mask."""
    return turned(x, k % 32) & mask if type(x) is int else _rotate(x, k % 32, mask)


def turned(number, k):
    return (number << k | number >> 32 - k) & ALL


@cache
def _rotate(x, k, mask):
    made = {}
    for monomial, bits in x.polynomial.items():
        if bits := turned(bits, k) & mask:
            made[tuple(sorted(it if it < 0 else it & ~31 | it + k & 31 for it in monomial))] = bits
    return word_of(made)


def shift_left(x, k):
    return rotate(x, k, ALL << k & ALL) if k < 32 else 0


def shift_right(x, k):
    return rotate(x, -k, ALL >> k) if k < 32 else 0


def swapped(x):
    """The word with its bytes in the opposite order."""
    return xor(rotate(x, 8, 0x00FF00FF), rotate(x, 24, 0xFF00FF00))


# ---- Sums ----


def add(x, y):
    if type(x) is type(y) is int:
        return x + y & ALL
    if not bits_of(x) & bits_of(y):
        return xor(x, y)  # nothing is carried
    made = by_cases(lambda a, b: a + b & ALL, x, y)
    return made if made is not None else sum_of(*merged(addends_of(x), addends_of(y), 1, ALL))


def times(x, number):
    """The product with a number."""
    if type(x) is int:
        return x * number & ALL
    made = by_cases(lambda a: a * number & ALL, x)
    return made if made is not None else sum_of(*merged(({}, 0), addends_of(x), number, ALL))


def subtract(x, y):
    return add(x, times(y, ALL))


def merged(x, y, factor, mask):
    """The addends and the constant of x + factor * y."""
    made = dict(x[0])
    for it, coefficient in y[0].items():
        if coefficient := made.pop(it, 0) + coefficient * factor & mask:
            made[it] = coefficient
    return made, x[1] + y[1] * factor & mask


def addends_of(x):
    if type(x) is int:
        return {}, x
    return (dict(x.made_of[1]), x.made_of[2]) if x.made_of[0] == "sum" else ({x: 1}, 0)


def sum_of(addends, constant):
    if not addends:
        return constant
    if not constant and list(addends.values()) == [1]:
        return next(iter(addends))
    return atom("sum", frozenset(addends.items()), constant)


# ---- Functions of few bits, by cases ----


def positions(mask):
    return [i for i in range(mask.bit_length()) if mask >> i & 1]


def bit_at(factor, i):
    """The bit of an atom that is bit i of a factor, as a factor, for bit 0."""
    return factor if factor < 0 else factor & ~31 | factor - i & 31


def few_bits(*some):
    """The bits of atoms that these words are functions of; None if they are not few."""
    found = set()
    for word in some:
        for monomial, mask in polynomial_of(word).items():
            if monomial and (mask.bit_count() > FEW_BITS or len(found) > FEW_BITS):
                return None
            found.update(bit_at(factor, i) for i in positions(mask) for factor in monomial)
    return sorted(found) if len(found) <= FEW_BITS else None


def moebius(values):
    """The coefficients of a polynomial over GF(2) by its values, or its values by its coefficients: the exclusive or of
    those whose number has no other bits."""
    for bit in (1 << i for i in range(len(values).bit_length() - 1)):
        values = [it ^ (values[n ^ bit] if n & bit else 0) for n, it in enumerate(values)]
    return values


def values_of(word, bits):
    """The value of a word in each case: bit i of the case's number is the value of the bit at index i."""
    made = [0] * (1 << len(bits))
    for monomial, mask in polynomial_of(word).items():
        for i in positions(mask):
            made[sum({1 << bits.index(bit_at(factor, i)) for factor in monomial})] ^= 1 << i
    return moebius(made)


def by_cases(function, *some):
    """A function of words that are functions of few bits; None if they are not."""
    if (bits := few_bits(*some)) is None:
        return None
    values = [function(*each) for each in zip(*(values_of(it, bits) for it in some))]
    made = {}
    for case, coefficient in enumerate(moebius(values)):
        its = [bits[i] for i in positions(case)]
        for i in positions(coefficient):
            monomial = tuple(sorted(it if it < 0 else it & ~31 | it + i & 31 for it in its))
            made[monomial] = made.get(monomial, 0) | 1 << i
    return word_of(made)


# ---- Sums modulo 2^64, such as addresses. A value of 64 bits is a pair of words, the low one first ----


def wide(number):
    return number & ALL, number >> 32 & ALL


def wide_addends(value):
    """The coefficients of pairs in a pair, and a constant."""
    low, high = value
    if type(low) is type(high) is int:
        return {}, low | high << 32
    if type(low) is type(high) is Word and (low.made_of[0], high.made_of) == ("low", ("high", *low.made_of[1:])):
        return dict(low.made_of[1]), low.made_of[2]
    if high == 0:  # the bits that are constant, and how far the others are shifted, are no part of the pair
        constant = low.polynomial.get((), 0)
        rest = xor(low, constant)
        if not rest.bits & constant:
            k = (rest.bits & -rest.bits).bit_length() - 1
            return {(shift_right(rest, k), 0): 1 << k}, constant
    return {value: 1}, 0


def wide_sum(x, y, factor=1):
    """x + factor * y."""
    addends, constant = merged(wide_addends(x), wide_addends(y), factor, WIDE - 1)
    if not addends:
        return wide(constant)
    if not constant and list(addends.values()) == [1]:
        return next(iter(addends))
    key = frozenset(addends.items()), constant
    return atom("low", *key), atom("high", *key)


def greatest(pair):
    return BELOW[pair[0]] - 1 if pair[0] in BELOW else bits_of(pair[0]) | bits_of(pair[1]) << 32


def bounds(addends, constant):
    """The least and the greatest number that this sum can be if nothing is carried out of it."""
    ends = [(it if it < WIDE // 2 else it - WIDE) * greatest(pair) for pair, it in addends.items()]
    return constant + sum(min(it, 0) for it in ends), constant + sum(max(it, 0) for it in ends)


def exact(value):
    """The addends and the constant of a value so that they are its number, without `modulo 2^64`; or None."""
    addends, constant = wide_addends(value)
    low, high = bounds(addends, constant)
    return (addends, constant - (low & -WIDE)) if low // WIDE == high // WIDE else None


def difference(x, y):
    """The least and the greatest number that x - y can be, of numbers below 2^64."""
    x, y = exact(x), exact(y)
    if x is None or y is None:
        return 1 - WIDE, WIDE - 1
    return bounds(merged(x, y, -1, WIDE - 1)[0], x[1] - y[1])


# ---- Comparisons. A bit is a word that is 0 or 1 ----


def bit_of(word, i):
    return rotate(word, -i, 1)


def spread(bit, mask):
    """The mask if the bit is 1, otherwise 0."""
    return xor_of(shift_left(bit, i) for i in positions(mask))


def product(bits):
    return reduce(conj, bits, 1)


@cache
def is_zero(word):
    """1 if all bits are 0, otherwise 0: the product of this for each bit."""
    bits = few_bits(word)
    values = values_of(word, bits) if bits else [0]
    if len(values) > 2:
        if values.count(0) != 1:
            return by_cases(lambda a: int(a == 0), word)
        return product(opposite_of(word_of({(it,): 1}) ^ (values.index(0) >> i & 1)) for i, it in enumerate(bits))
    return product(opposite_of(bit_of(word, i)) for i in positions(bits_of(word)))


def opposite_of(bit):
    """1 if the bit is 0, otherwise 0. An atom of its own, unless it consists of such atoms: a product has no others."""
    opposite = xor(bit, 1)
    if all(factor < 0 for monomial in polynomial_of(opposite) for factor in monomial):
        return opposite
    return conj(atom("is zero", bit, uniform=True), 1)


def is_same(x, y):
    """1 if two values of 64 bits are equal, otherwise 0."""
    a, b = exact(x), exact(y)
    if a and b:
        addends = merged(a, b, -1, WIDE - 1)[0]
        if len(addends) == 1:  # pair * factor = number
            [(pair, factor)], number = addends.items(), b[1] - a[1]
            number, rest = divmod(number, factor if factor < WIDE // 2 else factor - WIDE)
            if rest or not 0 <= number <= greatest(pair):
                return 0
            x, y = pair, wide(number)
    return product(map(is_zero, map(xor, x, y)))


def chosen(index, column):
    """The word at this index."""
    if len(set(column)) == 1:
        return column[0]
    return column[index] if type(index) is int else atom("choice", index, tuple(column))
