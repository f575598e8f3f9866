"""Values, which are tuples of words (words.py), the low one first; and a memory whose addresses are numbers. A value of
8 or 16 bits is one word."""

from tools.tests.compiled import words
from tools.tests.compiled.program import Unknown
from tools.tests.compiled.words import ALL, add, atom, conj, rotate, shift_left, shift_right, times, wide, wide_sum, xor

MAX_PLACES = 64  # of an address with an index

# ---- Values ----

LOW = {size: (1 << 8 * size) - 1 for size in (1, 2, 4, 8)}  # the numbers below which a value of a size is


def value_of(number, size):
    """The value of this size in bytes."""
    return wide(number) if size == 8 else (number & LOW[size],)


def number_of(value):
    """The number, or None if the value is symbolic."""
    if any(type(word) is not int for word in value):
        return None
    return sum(word << 32 * i for i, word in enumerate(value))


def concrete(value):
    number = number_of(value)
    if number is None:
        raise Unknown("a symbolic address, target or operand")
    return number


def signed(number, size):
    return number - (1 << 8 * size) if number >> 8 * size - 1 else number


def total(size, x, y, factor=1, carry=0):
    """x + factor * (y + carry)."""
    if size == 8:
        return wide_sum(wide_sum(x, y, factor), (carry, 0), factor)
    return (conj(add(x[0], times(add(y[0], carry), factor & ALL)), LOW[size]),)


def shifted(value, k):
    """The value as one number, shifted to the left by k bits, or to the right by -k."""
    far, k = divmod(k, 32)
    low, high = ([value[i] if 0 <= i < len(value) else 0 for i in range(-at, len(value) - at)] for at in (far + 1, far))
    return tuple(xor(shift_left(y, k), shift_right(x, 32 - k)) for x, y in zip(low, high))


def parts(value, size):
    return [value[at : at + size] for at in range(0, len(value), size)]


def joined(some_parts):
    return tuple(it for part in some_parts for it in part)


def elements(value, size):
    """The words of a vector, or its bytes, its pairs of bytes, or its pairs of words."""
    if size >= 4:
        return list(value) if size == 4 else parts(value, size // 4)
    return [rotate(word, -i, LOW[size]) for word in value for i in range(0, 32, 8 * size)]


def vector_of(some, size):
    """The vector of these elements."""
    if size >= 4:
        return tuple(some) if size == 4 else joined(some)
    made, count = [0] * -(-len(some) * size // 4), 4 // size
    for i, it in enumerate(some):
        made[i // count] = xor(made[i // count], shift_left(it, i % count * 8 * size))
    return tuple(made)


# ---- Memory ----


class Region:
    """Addresses that are mapped. The words are those of `content`, or else variables with the region's name. If it is a
    `table`, the words at an address with an index are variables too, by that address."""

    def __init__(self, name, start, size, content=None, writable=False):
        self.name, self.start, self.end, self.content, self.writable = name, start, start + size, content, writable
        self.table, self.written = None, {}


class Memory(dict):
    """Each word that was used, by its address divided by four."""

    def __init__(self, regions):
        super().__init__()
        self.regions, self.forgotten = regions, {}

    def __missing__(self, index):
        it = self.region(max(4 * index, *(it.start for it in self.regions if it.start < 4 * index + 4)), 1)
        at = 4 * index - it.start
        if it.content:
            self[index] = int.from_bytes(it.content[at : at + 4], "little")
        else:
            self[index] = atom(it.name, at // 4, self.forgotten.get(index))
        return self[index]

    def forget(self, start, end, when):
        """From now on the words that were used here are other variables."""
        for index in range(start // 4, end // 4):
            if index in self:
                del self[index]
                self.forgotten[index] = when

    def region(self, start, size, writes=False):
        for it in self.regions:
            if it.start <= start and start + size <= it.end and it.writable >= writes:
                return it
        raise Unknown(f"{'writes' if writes else 'reads'} {size} bytes at {start:#x}")

    def load(self, start, size):
        if size:
            self.region(start, size)
        if start % 4 == size % 4 == 0:
            return tuple(self[index] for index in range(start // 4, (start + size) // 4))
        return vector_of([rotate(self[at // 4], -(at % 4 * 8), 0xFF) for at in range(start, start + size)], 1)

    def bytes(self, start, size):
        return elements(self.load(start, size), 1)[:size]

    def store(self, start, value, size):
        if size:
            self.region(start, size, writes=True)
        if start % 4 == size % 4 == 0:
            self.update(zip(range(start // 4, (start + size) // 4), value))
        else:
            for at, it in zip(range(start, start + size), elements(value, 1)):
                others = conj(self[at // 4], ~(0xFF << at % 4 * 8) & ALL)
                self[at // 4] = xor(others, shift_left(it, at % 4 * 8))

    def at_index(self, address, size, value=None):
        """Reads or writes at an address with an index."""
        found = words.exact(address)
        if not found or len(found[0]) != 1 or size % 4:
            raise Unknown("an address that depends on more than an index")
        low, high = words.bounds(*found)
        region = self.region(low, high - low + size, value is not None)
        [(index, step)], constant = found[0].items(), found[1]
        if region.table is None:
            if value is not None or words.greatest(index) >= MAX_PLACES:
                raise Unknown("an address with an index")
            places = range(constant, constant + step * (words.greatest(index) + 1), step)
            return tuple(words.chosen(index[0], it) for it in zip(*(self.load(at, size) for at in places)))
        if region.written and region.table != (index, step):
            raise Unknown("a table that is read at one index and written at another")
        places = [(constant - region.start) // 4 + i for i in range(size // 4)]
        if value is not None:
            region.table = index, step
            return region.written.update(zip(places, value))
        return tuple(region.written.get(at) or atom(region.name, index, step, at) for at in places)
