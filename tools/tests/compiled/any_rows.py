"""A derivation or a verification with any number of rows, by induction on the code: it takes the same time for each N.

Two loops take as many iterations as N is large: the first writes the table, and the second walks over it. The run has
three kinds of pieces:

- From the call, or from the end of a loop, to the second time that the code jumps back to the begin of a loop. The
  first time and the second are compared. A number that changed is a counter: at time k it is its first value and k
  times the change. Other words that changed, and the whole table, may be anything from now on.
- One iteration from this state, where k is a variable below the last one. It has to end in this state with k + 1 in
  place of k; and it has to do with the variables in the buffers what the definition does with rows.
- The last iteration, from this state with the last k, and what follows.

The chunks are interleaved: a row, and X, is a row of each chunk, one after another. Of a thin table, which has one row
in 2^s, the code branches by the last s bits of an index: then a piece is run once for each value of them.
"""

from tools.tests.compiled import definition, words
from tools.tests.compiled.calls import AFTER, Call, Case, Derivation, Verification, expect
from tools.tests.compiled.definition import LITTLE, bytes_of, words_of
from tools.tests.compiled.machine import Branch
from tools.tests.compiled.memory import Memory, number_of, parts, shifted, signed, total
from tools.tests.compiled.program import Unknown
from tools.tests.compiled.words import ALL, atom, wide, wide_sum

# The index in standard order of each word of a block as the code keeps it: a diagonal is a vector.
ORDER = [(4 * d + 5 * k) % 16 for d in range(4) for k in range(4)]
LONG = 1 << 16  # a loop with more iterations than this depends on N


class Arrived(Exception):
    """The code jumps back to the begin of a long loop."""


def kept(x):
    return [x[at + i] for at in range(0, len(x), 16) for i in ORDER]


def standard(x):
    return [x[at + ORDER.index(i)] for at in range(0, len(x), 16) for i in range(16)]


class AnyRows(Case):
    def in_any_rows(self, compression, level):
        self.prove(compression, Derivation(Call(compression, level), self, tables=self.params[2]))

    def thin(self, s, compression, level):
        self.prove(compression, Derivation(Call(compression, level), self, "proved_scrypt_kdf_thin", s=s))

    def verified(self, form, compression, level):
        for is_equal in (False, True):
            self.prove(compression, Verification(Call(compression, level), self, [is_equal], form))

    def in_batch(self, compression, level):
        for pattern in ([False, True, False, True], [True, False, True, False]):
            self.prove(compression, Verification(Call(compression, level), self, pattern))

    def prove(self, compression, entry):
        self.entry, self.call, self.heads = entry, entry.call, compression.heads
        self.machine, self.memory, self.s, self.n = entry.call.machine, entry.call.memory, entry.s, 1 << self.params[0]
        self.indexes, self.branches, self.states, self.chunks = [], set(), 0, len(entry.begin)
        self.size, self.count = self.chunks * entry.size, self.chunks * entry.size // 4
        [self.region] = [it for it in self.memory.regions if it.name == "table"]
        fill, written = self.begin()
        rows = self.fill(fill, written)
        walk = self.first_steps(fill, rows)
        self.walk(walk)
        self.paths(lambda: self.end(walk))
        indexes = {it for index in self.indexes for it in words.atoms_of(index)}
        expect(indexes.issuperset(words.atoms_of(sum(self.branches, ()))), "a symbolic branch")
        self.call.check_reports([*self.indexes, *self.branches])

    # The pieces

    def begin(self):
        """The call, and the rows that the loop has written when it jumps for the first time."""
        times = self.to_loop(2, self.call.run, self.entry.name, *self.entry.given)
        memory, place = times[0][2], self.entry.table // 4
        written = sum(map(self.is_in_table, memory)) // self.count
        row = kept(words_of(sum(self.entry.begin, []), LITTLE))
        self.expect_rows([memory[place + i] for i in range(written * self.count)], row)
        return Loop(self.head, times), written

    def fill(self, loop, written):
        """An iteration of the first loop: it reads row k, and writes those after it. Returns the last row's number."""
        k, _ = self.iterate(loop)
        its, (index, step) = self.region.written, self.region.table
        places = range(written * self.count, written * self.count + step // 4)
        expect(index == (k, 0) and sorted(its) == [*places], "the table")
        row = [atom("table", index, step, at - self.count) for at in places[: self.count]]
        self.expect_rows([*row, *(its[at] for at in places)], row)
        return written + step // self.size * loop.last - 1

    def first_steps(self, fill, rows):
        """The last iteration of the first loop, the other rows, and the steps until the second loop jumps."""
        expect(rows < self.n >> self.s, "the number of rows")
        reports = dict(self.machine.reports)
        walk = Loop(*self.discovered(fill))
        self.machine.reports, self.branches = reports, set()

        def piece():
            self.set_state(fill, wide(fill.last))
            row = self.row(rows)
            self.to_loop(1, self.machine.run, fill.head)
            expect(self.head == walk.head, "the second loop")
            row = self.expect_rows(sum(map(self.row, range(rows, self.n >> self.s)), []), row)
            x, walked, steps = self.x(self.memory), self.walked(self.mixed(row), 1), 1
            while walked != x:
                expect(steps < 4, "the first steps")
                walked, steps = self.walked(walked, 1), steps + 1
            expect(walk.steps in (None, steps), "the number of steps")
            walk.steps = steps
            walk.loose |= self.differences(walk, (0, 0))

        self.paths(piece)
        return walk

    def discovered(self, fill):
        """The second loop, on the path of one value of each index that the code branches by."""
        self.set_state(fill, wide(fill.last))
        try:
            times = self.to_loop(2, self.machine.run, fill.head)
        except Branch as branch:
            [it] = self.branched(branch)
            with words.assumed(it, (1 << self.s) - 1, 1):
                return self.discovered(fill)
        return self.head, times

    def walk(self, loop):
        """An iteration of the second loop, which has to be so many steps as before it."""

        def piece():
            _, before = self.iterate(loop)
            expect(self.walked(self.x(before), loop.steps) == self.x(self.memory), "a step")

        loose = None
        while loose != loop.loose:
            loose = set(loop.loose)
            self.paths(piece)

    def end(self, loop):
        """The last iteration, and what follows."""
        left = self.n - loop.steps * (loop.last + 1)
        expect(0 <= left < 8, "the number of steps")
        self.set_state(loop, wide(loop.last))
        mixed = bytes_of(standard(self.walked(self.x(self.memory), left)), LITTLE)
        if self.entry.pattern:
            self.entry.expect(mixed)
        self.machine.jumped = None
        self.machine.run(loop.head)
        self.entry.check(self.call.status(), mixed)

    # Rows

    def each(self, function, *rows):
        """A function of each chunk."""
        each = zip(*(parts(standard(it), self.count // self.chunks) for it in rows))
        return kept(sum((function(*it) for it in each), []))

    def mixed(self, row, count=None):
        for _ in range(1 << self.s if count is None else count):
            row = self.each(definition.block_mix, row)
        return row

    def walked(self, x, steps):
        """X after so many steps of the walk, with the rows that are read."""
        for _ in range(steps):
            row = []
            for it in parts(standard(x), self.count // self.chunks):
                low, high = it[-16] & self.n - 1 & ALL, it[-15] & self.n - 1 >> 32
                missing = low & (1 << self.s) - 1
                if type(missing) is not int:
                    raise Branch([(low,)])
                self.indexes.append(shifted((low, high), -self.s))
                [index] = words.wide_addends(self.indexes[-1])[0]
                row += [atom("table", index, self.size, len(row) + i) for i in range(len(it))]
            x = self.each(definition.step, x, self.mixed(row, missing))
        return x

    def x(self, memory):
        return [memory[self.entry.scratch // 4 + i] for i in range(self.count)]

    def row(self, i):
        return list(self.memory.load(self.entry.table + i * self.size, self.size))

    def expect_rows(self, rows, row):
        """Expects these rows, of which this one is the first. Returns the last one."""
        for i, it in enumerate(parts(rows, self.count)):
            row = self.mixed(row) if i else row
            expect(it == row, "a row")
        return row

    def is_in_table(self, at):
        return self.entry.table <= 4 * at < self.region.end - AFTER

    # Paths

    def branched(self, branch):
        """The atom that the code branches by."""
        atoms = words.atoms_of(sum(branch.args[0], ()))
        if not self.s or len(atoms) != 1:
            raise Unknown("a symbolic branch")
        self.branches.update((*it, 0)[:2] for it in branch.args[0])
        return atoms

    def paths(self, piece):
        """Runs a piece on each path."""
        try:
            piece()
        except Branch as branch:
            [it] = self.branched(branch)
            for value in range(1 << self.s):
                with words.assumed(it, (1 << self.s) - 1, value):
                    self.paths(piece)

    # Loops

    def to_loop(self, count, run, *given):
        """Runs until the code jumps back so many times to the begin of a long loop that uses the table. Returns for
        each time what is left to count, the registers and the memory."""
        times = []

        def jumped(m, to):
            kind, size, *operands = m.flags
            left = 0
            if kind in ("add", "sub") and None not in map(number_of, operands):
                left = abs(signed(number_of(total(size, *operands, 1 if kind == "add" else -1)), size))
            if to in self.heads or left > LONG and any(map(self.is_in_table, m.memory)):
                self.heads.add(to)
                self.head = to
                times.append((left, list(m.registers), dict(m.memory)))
                if len(times) == count:
                    raise Arrived

        self.machine.jumped = jumped
        try:
            run(*given)
        except Arrived:
            return times
        expect(False, "a loop is not found")

    def state(self, loop, k, anything):
        """The registers and the memory at time k."""
        (_, registers, memory), (_, others, later) = loop.times

        def value(place, a, b):
            if place not in loop.loose and a != b and None not in (number_of(a), number_of(b)):
                return wide_sum(a, k, number_of(b) - number_of(a))
            is_loose = place in loop.loose
            is_kept = [x == y and not is_loose for x, y in zip(a, b)]
            return tuple(x if it else anything(place, i) for i, (x, it) in enumerate(zip(a, is_kept)))

        made = {}
        for at in {it & ~1 for it in later if not self.is_in_table(it)} | {it for it in loop.loose if it > 16}:
            pairs = (tuple(it[i] if i in it else self.initial(i) for i in (at, at + 1)) for it in (memory, later))
            made |= zip((at, at + 1), value(at, *pairs))
        return [value(i, *it) for i, it in enumerate(zip(registers, others))], made

    def initial(self, at):
        """The word at an address that was not used yet; 0 outside of all regions."""
        memory = Memory(self.memory.regions)
        memory.forgotten = self.memory.forgotten
        try:
            return memory[at]
        except Unknown:
            return 0

    def set_state(self, loop, k):
        registers, memory = self.state(loop, k, lambda *place: atom("any", loop.head, k, *place))
        self.machine.forget(())
        self.machine.registers = registers
        self.memory.clear()
        self.memory.update(memory)
        self.region.table, self.region.written = (), {}
        return memory

    def differences(self, loop, k):
        """The registers and pairs of words that are not as at time k."""
        wanted, its = self.state(loop, k, lambda *place: None)
        different = {i for i, (a, b) in enumerate(zip(self.machine.registers, wanted))
                     if any(y not in (None, x) for x, y in zip(a, b))}
        for at, it in self.memory.items():
            if not self.is_in_table(at) and (its[at] not in (None, it) if at in its else it != self.initial(at)):
                different.add(at & ~1)
        return different

    def iterate(self, loop):
        """Runs an iteration from any time but the last. Returns the time, and the memory before it. What is not as it
        was may be anything: then all is run again."""
        left, then = (it[0] for it in loop.times)
        loop.last = left // (left - then) - 1
        k = atom("time", loop.head)
        words.BELOW[k] = loop.last
        while True:
            before = self.set_state(loop, (k, 0))
            self.to_loop(1, self.machine.run, loop.head)
            expect(self.head == loop.head, "the loop")
            different = self.differences(loop, wide_sum((k, 0), (1, 0)))
            self.indexes.append((k, 0))
            if not different:
                return k, before
            expect(self.s and not different <= loop.loose, "the state at k + 1")
            loop.loose |= different


class Loop:
    """A loop of the code: its begin, the states at the first two times, and the places that may be anything."""

    def __init__(self, head, times):
        self.head, self.times, self.loose, self.last, self.steps = head, times, set(), 0, None
