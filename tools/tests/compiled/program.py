"""A shared library for x86-64: its image in memory, the addresses of its functions, and its instructions, as objdump
writes them."""

import re
import struct
import subprocess
import tempfile
from pathlib import Path

from tools.tests.compiled.words import wide

NAMES = ("rax", "rcx", "rdx", "rbx", "rsp", "rbp", "rsi", "rdi", *(f"r{i}" for i in range(8, 16)))
SIZES = {"BYTE": 1, "WORD": 2, "DWORD": 4, "QWORD": 8, "XMMWORD": 16, "YMMWORD": 32, "ZMMWORD": 64}
PREFIXES = re.compile("^((data16|addr32|cs|ds|bnd|notrack) )*")
PLACE = re.compile(r"(?:(\w+) PTR )?(fs:)?(?:\[(.*)\]|(?<=:)(0x\w+))")
PART = re.compile(r"(?P<sign>[-+]?)(?P<what>\w+)(?:\*(?P<scale>\d))?")
THREAD = 0x0D5E_7F4A_6000  # the data of the thread, where fs points


# The names of the instructions whose places of 16 bytes and more have to be aligned.
ALIGNED = re.compile("(?!v|movu|movdqu|lddqu)|vmov(ap|dqa)")


class Unknown(Exception):
    """What is not run here."""


def output(*command):
    return subprocess.check_output(command, text=True).splitlines()


class Program:
    """A function of another library has an address of its own. `decoded` has the instructions that were run."""

    BASE, EXTERNAL = 0x1A5B_7C39_3000, 0x1B3A_6D4C_5000

    def __init__(self, path):
        elf = Path(path).read_bytes()
        self.image, self.functions, self.externals, self.decoded = bytearray(), {}, {}, {}
        (at,), (count,) = struct.unpack_from("<Q", elf, 32), struct.unpack_from("<H", elf, 56)
        for i in range(count):
            kind, _, offset, start, _, stored, size, _ = struct.unpack_from("<IIQQQQQQ", elf, at + 56 * i)
            if kind == 1:  # a segment that is loaded
                self.image.extend(bytes(start + size - len(self.image)))
                self.image[start : start + stored] = elf[offset : offset + stored]
        for line in output("nm", "-C", "--defined-only", path):  # rustc's hash is no part of a name
            name = re.sub("::<#.*", "", line[19:])
            self.functions.setdefault(name, []).append(self.BASE + int(line[:16], 16))
        self.starts = sorted((at, name) for name, places in self.functions.items() for at in places)
        for line in output("readelf", "-rW", path):
            place, _, kind, value, name, *_ = *line.split(), "", "", "", "", ""
            if kind.startswith("R_X86_64_"):
                target = self.BASE + int(value or "0", 16)
                if kind != "R_X86_64_RELATIVE":
                    target = self.EXTERNAL + 16 * len(self.externals)
                    self.externals[target] = name.partition("@")[0] or kind
                self.patch(self.BASE + int(place, 16), target.to_bytes(8, "little"))
        self.texts = self.disassembled("-d", f"--adjust-vma={self.BASE:#x}", path)

    @staticmethod
    def disassembled(*what):
        """The text of each instruction, and the address after it, by its address."""
        lines = (it.split("\t") for it in output("objdump", "-M", "intel", "-wz", *what) if ":\t" in it[:20])
        return {int(it[0][:-1], 16): (it[2].strip(), int(it[0][:-1], 16) + len(it[1].split()))
                for it in lines if len(it) > 2}

    def code(self, it):
        """The bytes of an instruction."""
        return bytes(self.image[it.at - self.BASE : it.next - self.BASE])

    def patch(self, at, code):
        self.image[at - self.BASE : at - self.BASE + len(code)] = code
        self.decoded.pop(at, None)

    def replace(self, at, code):
        """Puts other instructions at an address."""
        self.patch(at, code)
        with tempfile.NamedTemporaryFile() as file:
            file.write(self.image[at - self.BASE : at - self.BASE + 256])
            file.flush()
            new = self.disassembled("-D", "-bbinary", "-mi386:x86-64", f"--adjust-vma={at:#x}", file.name)
        self.texts.update((it, text) for it, text in new.items() if it < at + max(len(code), 16))

    def instruction(self, at):
        if at not in self.decoded:
            if at not in self.texts:
                raise Unknown(f"no instruction at {at:#x}")
            self.decoded[at] = Instruction(at, *self.texts[at])
        return self.decoded[at]


def plain(it):
    """objdump's text of an instruction without the address, prefixes that change nothing, and a comment."""
    return re.sub(" +", " ", PREFIXES.sub("", it.text.partition(": ")[2].partition("#")[0])).strip()


def assembled(text, at):
    """The code of this text at an address."""
    text = re.sub(" <.*>", "", text)
    with tempfile.TemporaryDirectory() as folder:
        made = Path(folder) / "made"
        subprocess.run(["as", "-o", f"{made}.o"], input=f".intel_syntax noprefix\n{text}\n".encode(), check=True)
        subprocess.run(["ld", f"-Ttext={at:#x}", "-e0", "--oformat=binary", "-o", made, f"{made}.o"], check=True)
        return made.read_bytes()


def general(name):
    """The number of a general register by its name, its size, and its first bit."""
    for number, it in enumerate(NAMES):
        if number >= 8:
            names = it, it + "d", it + "w", it + "b"
        else:
            low = it[1] if number < 4 else it[1:]
            names = it, "e" + it[1:], it[1:], low + "l", low + "h"
        if name in names:
            return number, (8, 4, 2, 1, 1)[names.index(name)], 8 * (names.index(name) == 4)
    raise Unknown(f"the operand {name}")


class Operand:
    """A number, a general register from a bit on, a vector, or a place in memory; with its size in bytes. `size` is
    that of the first operand, which a number has too."""

    def __init__(self, text, size, after):
        self.size, self.number, self.register, self.vector, self.bit = size, None, None, None, 0
        if place := PLACE.fullmatch(text):
            self.size = SIZES.get(place[1], 0)
            self.read_place(place, after)
        elif text[1:3] == "mm":
            if "{" in text:
                raise Unknown("a masked instruction")
            self.vector, self.size = int(text[3:]), SIZES[text[:3].upper() + "WORD"]
        elif text[0].isdigit():
            number = int(text, 16)
            self.number = wide(number) if size == 8 else (number & (1 << 8 * min(size, 4)) - 1,)
        else:
            self.register, self.size, self.bit = general(text)

    def read_place(self, place, after):
        self.base, self.index, self.scale, self.at = None, None, 1, int(place[4] or "0", 16) + THREAD * bool(place[2])
        self.is_relative = False
        for it in PART.finditer(place[3] or ""):
            if it["what"][0].isdigit():
                self.at += int(it["sign"] + it["what"], 16)
            elif it["what"] == "rip":
                self.at, self.is_relative = self.at + after, True
            elif it["scale"]:
                self.index, self.scale = NAMES.index(it["what"]), int(it["scale"])
            else:
                self.base = NAMES.index(it["what"])

    @property
    def is_memory(self):
        return self.number is self.register is self.vector is None


class Instruction:
    """An instruction, from its address, objdump's text and the address after it."""

    def __init__(self, at, text, after):
        self.at, self.next, self.text, self.operands = at, after, f"{at:#x}: {text}", []
        text = PREFIXES.sub("", text.partition("#")[0]).strip()
        self.name, _, operands = text.partition(" ")
        self.is_vex, is_jump = self.name[0] == "v", self.name[0] == "j" or self.name == "call"
        if self.name == "nop" or self.name[0] == "f":
            return
        for it in filter(None, operands.strip().partition(" <")[0].split(",")):
            size = self.operands[0].size if self.operands else 8
            it = "0x" + it if is_jump and re.fullmatch("[0-9a-f]+", it) else it
            self.operands.append(Operand(it, size, after))
            self.operands[-1].is_aligned = bool(ALIGNED.match(self.name))
