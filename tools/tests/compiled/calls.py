"""Calls of the library with symbolic contents of their buffers, and what they have to leave by RFC 7914."""

import hashlib
import re

from tools.tests import crypt64, phc
from tools.tests.compiled import definition, words, x86_64
from tools.tests.compiled.definition import LITTLE, bytes_of, compress, compressed, pbkdf2, words_of
from tools.tests.compiled.machine import CLOBBERED, KEPT, RAX, RDI, RDX, RETURN, RSI, RSP, Machine
from tools.tests.compiled.memory import Region, concrete, number_of, parts, value_of, vector_of
from tools.tests.compiled.words import ALL, WIDE, atom, conj, is_zero, product, swapped, xor

LEVELS = "x86-64", "x86-64-avx2", "x86-64-avx512vl"  # as in scrypt_version's text
STACK = 0x2FFD_5A5B_E7F0
AFTER = 16  # bytes after each buffer, which have to stay as they are
OK, MISMATCH, TOO_COSTLY, KEY_TOO_SHORT = 0, 1, 14, 15


class Wrong(Exception):
    """Where the code differs from the definition."""


def expect(it, what):
    if not it:
        raise Wrong(what)


class Compression:
    """The function that compresses blocks: sha2::sha256::compress256. At the addresses of each call it is run once for
    any state and any blocks, without and with the processor's instructions for SHA-256, and has to give the standard's
    next state. Then a call's result is known by its arguments, as in the definition.

    Also what runs of one program have in common: the begins of its long loops, and in `found` each address and
    condition that depends on an index."""

    def __init__(self, program, checked=(), heads=()):
        self.program, self.checked, self.heads, self.names, self.found = program, set(checked), set(heads), 0, {}
        self.cuts = dict.fromkeys(program.functions["sha2::sha256::compress256"], self)

    def __call__(self, m):
        places = [concrete(m.registers[i]) for i in (RDI, RSI, RDX, RSP)]
        if (m.at, *places) not in self.checked:
            for has_sha in (False, True):
                self.check(m.at, has_sha, *places)
            self.checked.add((m.at, *places))
        state, blocks, count, top = places
        m.memory.region(top - CLOBBERED, CLOBBERED, writes=True)
        made = m.memory.load(state, 32)
        for at in range(blocks, blocks + 64 * count, 64):
            made = compressed(made, list(map(swapped, m.memory.load(at, 64))))
        m.memory.store(state, tuple(made), 32)

    def named(self, it):
        self.names += 1
        return words.named(it, "name", self.names) if type(it) is words.Word and it.made_of[0] == "sum" else it

    def check(self, at, has_sha, *places):
        state, blocks, count, top = places
        regions = [Region("state", state, 32, writable=True), Region("blocks", blocks, 64 * count)]
        frame = Region("frame", top - CLOBBERED, CLOBBERED + 8, writable=True)
        m = Machine(self.program, [*regions, frame], (), has_sha)
        for i, it in zip((RDI, RSI, RDX, RSP), places):
            m.registers[i] = value_of(it, 8)
        m.memory.store(top, value_of(RETURN, 8), 8)
        wanted, kept = m.memory.load(state, 32), list(m.registers)
        for i in range(count):
            wanted = compress(wanted, list(map(swapped, m.memory.load(blocks + 64 * i, 64))), self.named)
        m.run(at)
        kept[RSP] = value_of(top + 8, 8)
        expect(m.memory.load(state, 32) == tuple(wanted) and not m.reports, "SHA-256")
        expect(all(m.registers[i] == kept[i] for i in KEPT), "SHA-256 changes a register")


class Call:
    """The library at a level, and the buffers of a call."""

    def __init__(self, compression, level):
        self.program, self.found, self.next, self.ends = compression.program, compression.found, 0x3E3B_5D6C_9000, []
        self.machine = Machine(self.program, [Region("stack", STACK - 0x8000, 0x8000, writable=True)], compression.cuts)
        self.memory = self.machine.memory
        for name in ("TAKEN", "FOUND"):  # the level that is chosen at run time, and what the processor has
            [at] = self.program.functions[f"support::level::{name}"]
            self.memory.store(at, (LEVELS.index(level),), 1)

    def buffer(self, name, size, unit=1, odd=0, content=None, writable=True):
        """The arguments for a buffer: its address, and its length in units of so many bytes."""
        start = self.next + (odd or unit // 4 * 4)  # a table is at no multiple of more than its unit
        self.next += (size + AFTER + 0x1FFF) & ~0xFFF
        content = content and content + bytes(AFTER)
        self.memory.regions.insert(0, Region(name, start, size + AFTER, content, writable))
        self.ends.append((start + size, self.memory.bytes(start + size, AFTER)))
        return start, size // unit

    def given(self, name, size, odd=0):
        """The arguments for a buffer that is only read, and its bytes."""
        buffer = self.buffer(name, size, odd=odd, writable=False)
        return buffer, self.memory.bytes(*buffer)

    def run(self, name, *arguments):
        self.machine.registers[RSP] = value_of(STACK, 8)
        self.machine.call(self.program.functions[name][0], *arguments)
        return self.status()

    def status(self):
        """What the call returned."""
        expect(self.machine.keeps(), "a register is not preserved")
        expect(all(self.memory.bytes(at, AFTER) == it for at, it in self.ends), "bytes after a buffer")
        return self.machine.registers[RAX][0]

    def check(self, buffer, wanted, what):
        expect(self.memory.bytes(buffer[0], len(wanted)) == wanted, what)

    def check_reports(self, indexes):
        """What is symbolic in an address or a condition is one of these indexes, which are pairs of words."""
        indexes = {it for index in indexes for it in words.wide_addends(index)[0]}
        for at, what, operands in self.machine.reports:
            pairs = [(*it, 0)[:2] for it in operands]
            known = all(indexes.issuperset(words.wide_addends(it)[0]) for it in pairs)
            text = self.program.externals.get(at) or self.program.instruction(at).text
            expect(known, f"a symbolic {what} at {text}")
            if any(it[0] not in words.BELOW for pair in pairs for it in words.wide_addends(pair)[0]):  # no counter
                self.found[at, what, text] = None


class Derivation:
    """A call of this name, which derives a key in buffers: scrypt_key_with_buffers or, with `s`, scrypt_key_thin; or
    scrypt_key, which allocates them.

    As in `Verification`, `given` has its arguments, `begin` the chunks of B before they are mixed, and `size` is that
    of a row. `table` and `scratch` are the addresses of these buffers."""

    def __init__(self, call, case, name="proved_scrypt_kdf_with_buffers", tables=1, s=None):
        self.call, self.name, self.pattern, self.key_len = call, name, (), case.key_len
        (log_n, _, p), self.params, self.size, self.s = case.params, case.params, 128 * case.params[1], s or 0
        (password, self.password), (salt, salts) = (call.given(*it, case.odd) for it in case.texts)
        self.output = call.buffer("output", case.key_len, odd=case.odd)
        self.given = *password, *salt, *case.params, *(() if s is None else (s,)), *self.output
        self.chunks, self.wipes = None, True
        if name.startswith("proved"):
            self.chunks = call.buffer("chunks", p * self.size, odd=case.odd)
            table = call.buffer("table", tables * self.size << log_n - self.s, 4)
            scratch = call.buffer("scratch", tables * (3 if s else 2) * self.size, 4)
            self.given += *self.chunks, *table, *scratch
            self.table, self.scratch = table[0], scratch[0]
        self.begin = parts(pbkdf2(self.password, salts, p * self.size), self.size)

    def check(self, status, mixed):
        expect(status == OK, f"the status is {status}")
        if self.chunks:
            self.call.check(self.chunks, [0] * len(mixed) if self.wipes else mixed, "the chunks")
        self.call.check(self.output, pbkdf2(self.password, mixed, self.key_len), "the key")


class Verification:
    """A call of scrypt_verify_limited_with_buffers, or with several passwords of scrypt_verify_batch_with_buffers: OK
    if all bits of the keys are equal, and otherwise a mismatch. `pattern` says which keys are equal in this run.

    The key of a PHC string becomes symbolic when it has been read; that of `$7$` is one key."""

    def __init__(self, call, case, pattern, form=phc.text):
        self.call, self.params, self.pattern, self.key_len = call, case.params, pattern, case.key_len
        self.s, self.size, (log_n, _, p), count = 0, 128 * case.params[1], case.params, len(pattern)
        self.passwords, self.read, self.stored, self.begin, self.right, logins = [], [], [], [], [], []
        for i in range(count):
            read = (hashlib.sha512(f"{case} {i}".encode()).digest() * 2)[: case.key_len]
            salt = bytes(range(65 + i, 65 + i + case.texts[1][1]))
            text = (form(salt, read, *case.params) if form is phc.text else
                    crypt64.text(salt.decode(), read, *case.params)).encode()
            password, its = call.given(f"password {i}", case.texts[0][1])
            logins += [*password, *call.buffer(f"text {i}", len(text), content=text, writable=False), 0]
            stored = bytes_of([atom("stored", i, k) for k in range(-(-case.key_len // 4))], LITTLE)[: case.key_len]
            self.passwords.append(its)
            self.read.append(read)
            self.stored.append(stored if form is phc.text else list(read))
            self.begin += parts(pbkdf2(its, list(salt), p * self.size), self.size)
        chunks = self.chunks = call.buffer("chunks", count * p * self.size)
        rows = ("table", 1 << log_n), ("scratch", 2)
        table, scratch = (call.buffer(it, count * n * self.size, 4) for it, n in rows)
        self.table, self.scratch, buffers = table[0], scratch[0], (*chunks, *table, *scratch)
        if count == 1:
            self.name, self.given = "proved_scrypt_verify_limited_with_buffers", (
                *logins[:-1], case.max_mem, WIDE - 1, case.min_key_len, *buffers)
        else:
            salt, _ = call.given("decoy", 8)
            self.statuses = call.buffer("statuses", 4 * count)
            self.name, self.given = "proved_scrypt_verify_batch_with_buffers", (
                *logins, *salt, *case.params, case.key_len, self.statuses[0], *buffers)
        comparing = call.program.functions["scrypt::comparing::is_derived_key"]
        call.machine.before = dict.fromkeys(comparing, self.comparing)

    def comparing(self, m):
        """Replaces each copy on the stack of the keys that were read, when two keys are to be compared."""
        start, there = concrete(m.registers[RSP]), bytearray()
        m.before[number_of(m.memory.load(start, 8))] = self.compared
        for index in range(start // 4, STACK // 4):
            word = m.memory.get(index)
            there += word.to_bytes(4, "little") if type(word) is int else bytes(4)
        for read, stored in zip(self.read, self.stored):
            for it in re.finditer(re.escape(read), there):
                m.memory.store(start + it.start(), vector_of(stored, 1), len(read))

    def expect(self, mixed):
        """Takes what follows the walk, before it is run: a comparison has to return whether all bits are equal."""
        each = zip(self.passwords, parts(mixed, len(mixed) // len(self.passwords)), self.stored)
        self.right = [product(map(is_zero, map(xor, pbkdf2(its, chunks, self.key_len), stored)))
                      for its, chunks, stored in each]

    def compared(self, m):
        """Decides what a comparison has returned, so that nothing symbolic is left for conditions."""
        low, high = m.registers[RAX]
        is_equal = dict(zip(self.right, self.pattern)).get(conj(low, 0xFF))
        expect(is_equal is not None, "a comparison that is not of all bits")
        m.registers[RAX] = xor(conj(low, ~0xFF & ALL), int(is_equal)), high

    def check(self, status, mixed):
        statuses = [status] if len(self.right) == 1 else self.call.memory.load(self.statuses[0], 4 * len(self.right))
        for is_equal, status in zip(self.pattern, statuses):
            expect(status == (OK if is_equal else MISMATCH), "the verdict")
        self.call.check(self.chunks, [0] * len(mixed), "the chunks")


class Case:
    """A password and a salt of these lengths, parameters, the length of the key, and how far the addresses of bytes are
    from a multiple of a page."""

    def __init__(self, password_len, salt_len, log_n, r, p, key_len, odd=0):
        self.texts, self.params = (("password", password_len), ("salt", salt_len)), (log_n, r, p)
        self.key_len, self.odd, self.max_mem, self.min_key_len = key_len, odd, WIDE - 1, 0

    def __str__(self):
        log_n, r, p = self.params
        return f"N = {1 << log_n}, r = {r}, p = {p}"

    def run(self, entry):
        """Runs a call whose number of rows is small."""
        indexes, mixed = [], []
        for chunk in entry.begin:
            mixed += bytes_of(definition.ro_mix(words_of(chunk, LITTLE), 1 << self.params[0], indexes), LITTLE)
        if entry.pattern:
            entry.expect(mixed)
        entry.check(entry.call.run(entry.name, *entry.given), mixed)
        entry.call.check_reports([(it & (1 << self.params[0]) - 1, 0) for it in indexes])

    def in_buffers(self, tables, compression, level):
        self.run(Derivation(Call(compression, level), self, tables=tables))

    def allocated(self, compression, level):
        """The public call scrypt_key, with the C around the proved one."""
        call = Call(compression, level)
        x86_64.EXTERNALS["malloc"] = lambda m: value_of(call.buffer("heap", concrete(m.registers[RDI]))[0], 8)
        x86_64.EXTERNALS["free"] = lambda m: None
        self.run(Derivation(call, self, "scrypt_key"))

    def verified(self, form, compression, level):
        for is_equal in (False, True):
            self.run(Verification(Call(compression, level), self, [is_equal], form))

    def in_batch(self, compression, level):
        for pattern in ([False, True, False, True], [True, False, True, False]):
            self.run(Verification(Call(compression, level), self, pattern))

    def limited(self, compression, level):
        """The limits on memory, and on the length of the key: at the limit, and one below what the hash takes."""
        log_n, r, p = self.params
        mem = 128 * r * (p + (1 << log_n) + 2)
        for self.max_mem, self.min_key_len, wanted in ((mem, self.key_len, None), (mem - 1, 0, TOO_COSTLY),
                                                       (mem, self.key_len + 1, KEY_TOO_SHORT)):
            entry = Verification(Call(compression, level), self, [True])
            if wanted:
                expect(entry.call.run(entry.name, *entry.given) == wanted, "a limit")
                expect(not entry.call.machine.reports, "a symbolic address or condition")
            else:
                self.run(entry)

    def in_steps(self, count, compression, level):
        """scrypt_key_begin, scrypt_key_step until it is at the end, and scrypt_key_finish."""
        call = Call(compression, level)
        it = Derivation(call, self)
        password, salt, params = it.given[:2], it.given[2:4], self.params
        (output, chunks, buffers), p = (it.given[7:9], it.given[9:11], it.given[11:]), params[2]
        [at] = call.buffer("progress", 24)[:1]
        expect(call.run("proved_scrypt_key_begin", *password, *salt, *params, *chunks, *buffers, at) == OK, "begin")
        done = lambda: number_of(call.memory.load(at, 8))
        for _ in range(p << self.params[0] + 1):
            if done() == p:
                break
            status = call.run("proved_scrypt_key_step", *params, count, *chunks, *buffers, at)
            expect(status == OK, "a step")
        it.name, it.given, it.wipes = "proved_scrypt_key_finish", (*password, *params, *chunks, at, *output), False
        self.run(it)
