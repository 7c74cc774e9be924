#!/usr/bin/env python3
"""Makes a WebAssembly module whose memory has 32-bit addresses of one with 64-bit addresses: page/narrow.py IN OUT.

An address is shortened where it is used, so all other numbers stay as wide as they are, and functions take and return what they
did. One above 32 bits ends with a trap, as it would in any memory of 4 GiB: it is compared first, unless it is in a local that was.
To grow beyond 4 GiB returns -1. Browsers run such a module from earlier versions on. The encoding is that of the WebAssembly Core
Specification 3.0, chapter 5. What isn't expected ends with an error.
"""
import sys

WRAP, EXTEND, EXTEND_SIGNED = b"\xa7", b"\xad", b"\xac"  # i32.wrap_i64, i64.extend_i32_u, i64.extend_i32_s
GET, SET, TEE = b"\x20", b"\x21", b"\x22"  # local.get, local.set, local.tee
TRAP_WIDE = b"\x42\xff\xff\xff\xff\x0f\x56\x04\x40\x00\x0b"  # i64.const 2^32 - 1, i64.gt_u, if, unreachable, end
TOO_MANY = b"\x42\x81\x80\x04"  # i64.const 65537: one page more than 4 GiB has
UP_TO_ALL = b"\x42\x80\x80\x04\x58\x1b"  # i64.const 65536, i64.le_u, select
KINDS = {"i32": 0x7F, "i64": 0x7E, "f32": 0x7D, "f64": 0x7C, "v128": 0x7B}
# What the instructions that store take from above the address, by their codes.
STORED = dict(zip(range(0x36, 0x3F), ("i32", "i64", "f32", "f64", "i32", "i32", "i64", "i64", "i64")))
# Instructions of one operand in LEB128: blocks, jumps, calls, constants, locals and globals; and those of none.
WITH_ONE = {0x02, 0x03, 0x04, 0x0C, 0x0D, 0x10, 0x41, 0x42, 0xD0, 0xD2, *range(0x20, 0x25)}
WITH_NONE = {0x00, 0x01, 0x05, 0x0B, 0x0F, 0x1A, 0x1B, 0xD1, *range(0x45, 0xC5)}
# How many numbers an instruction takes that leaves one: constants and global.get, those of two, of one, and select.
TAKES = {0x1B: 3, **dict.fromkeys((0x23, *range(0x41, 0x45)), 0), **dict.fromkeys(range(0x46, 0xA7), 2), **dict.fromkeys(
    (*range(0x28, 0x36), 0x45, 0x50, *range(0x67, 0x6A), *range(0x79, 0x7C), *range(0x8B, 0x92), *range(0x99, 0xA0), *range(0xA7, 0xC5)), 1)}


def leb(value):
    """A number that isn't negative, in unsigned LEB128."""
    out = bytearray()
    while value > 0x7F:
        out.append(value & 0x7F | 0x80)
        value >>= 7
    return bytes(out) + bytes([value])


def signed_leb(value):
    """A number that isn't negative, in signed LEB128."""
    short = leb(value)
    return short if short[-1] < 0x40 else short[:-1] + bytes([short[-1] | 0x80, 0])


class Reader:
    """Reads bytes from a place on."""

    def __init__(self, data):
        self.data, self.at = data, 0

    def take(self, count):
        self.at += count
        return self.data[self.at - count:self.at]

    def byte(self):
        return self.take(1)[0]

    def number(self):
        """A number in LEB128, as if it weren't negative."""
        value = shift = 0
        while True:
            byte = self.byte()
            value |= (byte & 0x7F) << shift
            shift += 7
            if byte < 0x80:
                return value

    def since(self, start):
        return self.data[start:self.at]


class Code:
    """The code of a function so far, and the locals that are added to those that it has. Of the numbers on top of the stack it is
    known which local has each, None being of none, and of the locals which have at most 32 bits. What isn't known is left out."""

    def __init__(self, locals_before):
        self.before, self.added, self.out = locals_before, [], bytearray()
        self.top, self.short = [], set()

    def put(self, *parts):
        for part in parts:
            self.out += part

    def local(self, name):
        """The number of an added local, by its kind and a number behind it."""
        if name not in self.added:
            self.added.append(name)
        return leb(self.before + self.added.index(name))

    def keep(self, *names):
        for name in names:
            self.put(SET, self.local(name))

    def get(self, name):
        self.put(GET, self.local(name))

    def follow(self, byte, operand):
        """What is known after an instruction of the module. Another way may lead to a loop, an else and an end."""
        if byte in (0x21, 0x22):
            self.short.discard(operand)
            self.top = [None if one == operand else one for one in self.top[:-1]]
        if byte in (0x20, 0x22):
            self.top.append(operand)
        elif byte in TAKES:
            self.top = self.top[:max(len(self.top) - TAKES[byte], 0)] + [None]
        elif byte != 0x21:
            self.top = []
        if byte in (0x03, 0x05, 0x0B):
            self.short = set()

    def shorten(self, local=None):
        """Shortens the number on top, which the local has if there is one."""
        if local is None:
            self.put(TEE, self.local("i64 3"), TRAP_WIDE)
            self.get("i64 3")
        elif local not in self.short:
            self.put(GET, leb(local), TRAP_WIDE)
            self.short.add(local)
        self.put(WRAP)


def put_access(reader, start, code, stored=None):
    """An access to memory: the address is below what is stored, and its operands are as short as they can be."""
    instruction, below = reader.since(start), 2 if stored else 1
    if stored:
        code.keep(stored)
    code.shorten(code.top[-below] if len(code.top) >= below else None)
    if stored:
        code.get(stored)
    alignment, offset = reader.number(), reader.number()
    if offset >= 1 << 32:
        raise ValueError("an offset has more than 32 bits")
    code.put(instruction, leb(alignment), leb(offset))


def put_bulk(reader, start, code):
    """What follows the prefix FC: conversions, and copies and fills of memory, which take two or three numbers."""
    kind = reader.number()
    if kind == 10:
        reader.take(2)
        code.keep("i64", "i64 2")
        code.shorten()
        code.get("i64 2")
        code.shorten()
        code.get("i64")
        code.shorten()
    elif kind == 11:
        reader.take(1)
        code.keep("i64", "i32")
        code.shorten()
        code.get("i32")
        code.get("i64")
        code.shorten()
    elif kind > 7:
        raise ValueError(f"instruction FC {kind} isn't expected")
    code.put(reader.since(start))


def put_vector(reader, start, code):
    """What follows the prefix FD: vectors of 128 bits."""
    kind = reader.number()
    if kind <= 11 or kind in (92, 93):
        return put_access(reader, start, code, "v128" if kind == 11 else None)
    if 84 <= kind <= 91:
        put_access(reader, start, code, "v128")
        return code.put(reader.take(1))
    if kind in (12, 13):
        reader.take(16)
    elif 21 <= kind <= 34:
        reader.take(1)
    elif kind > 255:
        raise ValueError(f"instruction FD {kind} isn't expected")
    code.put(reader.since(start))


def put_instruction(reader, code):
    """An instruction, and what is known after it."""
    start = reader.at
    byte = reader.byte()
    operand = Reader(reader.data[reader.at:reader.at + 10]).number() if byte in WITH_ONE else None
    put_narrow(reader, start, byte, code)
    code.follow(byte, operand)


def put_narrow(reader, start, byte, code):
    if 0x28 <= byte <= 0x3E:
        return put_access(reader, start, code, STORED.get(byte))
    if byte == 0xFC:
        return put_bulk(reader, start, code)
    if byte == 0xFD:
        return put_vector(reader, start, code)
    if byte == 0x3F:  # memory.size
        return code.put(b"\x3f", reader.take(1), EXTEND)
    if byte == 0x40:  # memory.grow
        code.put(TEE, code.local("i64 3"), TOO_MANY)
        code.get("i64 3")
        return code.put(UP_TO_ALL, WRAP, b"\x40", reader.take(1), EXTEND_SIGNED)
    if byte == 0x11:  # call_indirect, whose table has 32-bit numbers too
        code.shorten()
        return code.put(b"\x11", leb(reader.number()), leb(reader.number()))
    if byte in WITH_ONE:
        reader.number()
    elif byte == 0x0E:  # br_table
        for _ in range(reader.number() + 1):
            reader.number()
    elif byte == 0x1C:  # select with types
        reader.take(reader.number())
    elif byte in (0x43, 0x44):  # constants of 32 and of 64 bits
        reader.take(4 if byte == 0x43 else 8)
    elif byte not in WITH_NONE:
        raise ValueError(f"instruction {byte:02X} isn't expected")
    code.put(reader.since(start))


def narrow_function(data, parameters):
    reader, groups, count = Reader(data), [], parameters
    for _ in range(reader.number()):
        start = reader.at
        count += reader.number()
        reader.byte()
        groups.append(reader.since(start))
    code = Code(count)
    while reader.at < len(data):
        put_instruction(reader, code)
    groups += [b"\x01" + bytes([KINDS[name.split()[0]]]) for name in code.added]
    return leb(len(groups)) + b"".join(groups) + bytes(code.out)


def narrow_limits(reader):
    """The sizes of a memory or a table, without the flag of 64-bit addresses."""
    flags = reader.byte()
    least = reader.number()
    return bytes([flags & ~4]) + leb(least) + (leb(min(reader.number(), 1 << 16)) if flags & 1 else b"")


def narrow_offset(reader):
    """A constant offset."""
    kind, value, end = reader.byte(), reader.number(), reader.byte()
    if kind not in (0x41, 0x42) or end != 0x0B or value >= 1 << 31:
        raise ValueError("an offset isn't a constant below 2^31")
    return b"\x41" + signed_leb(value) + b"\x0b"


def narrow_segments(reader, is_data):
    """Segments of data, or of elements, which are lists of functions."""
    count = reader.number()
    out = leb(count)
    for _ in range(count):
        flag = reader.number()
        if flag > (1 if is_data else 0):
            raise ValueError(f"a segment of kind {flag} isn't expected")
        out += leb(flag) + (b"" if flag else narrow_offset(reader))
        start, length = reader.at, reader.number()
        for _ in range(0 if is_data else length):
            reader.number()
        if is_data:
            reader.take(length)
        out += reader.since(start)
    return out


def parameter_counts(reader):
    """How many parameters each type of functions has."""
    counts = []
    for _ in range(reader.number()):
        reader.byte()
        counts.append(reader.number())
        reader.take(counts[-1])
        reader.take(reader.number())
    return counts


def narrow(data):
    """The module with 32-bit addresses."""
    if data[:8] != b"\0asm\1\0\0\0":
        raise ValueError("it is no WebAssembly module")
    module, out, types, functions = Reader(data), bytearray(), [], []
    out += module.take(8)
    while module.at < len(data):
        kind = module.byte()
        section = module.take(module.number())
        reader = Reader(section)
        if kind == 1:
            types = parameter_counts(reader)
        elif kind == 3:
            functions = [reader.number() for _ in range(reader.number())]
        elif kind in (4, 5):
            count = reader.number()
            section = leb(count) + b"".join((reader.take(1) if kind == 4 else b"") + narrow_limits(reader) for _ in range(count))
        elif kind in (9, 11):
            section = narrow_segments(reader, kind == 11)
        elif kind == 10:
            reader.number()
            bodies = [narrow_function(reader.take(reader.number()), types[one]) for one in functions]
            section = leb(len(bodies)) + b"".join(leb(len(body)) + body for body in bodies)
        out += bytes([kind]) + leb(len(section)) + section
    return bytes(out)


def main():
    if len(sys.argv) != 3:
        sys.exit("usage: page/narrow.py IN OUT")
    with open(sys.argv[1], "rb") as file:
        data = file.read()
    try:
        made = narrow(data)
    except (ValueError, IndexError) as why:
        sys.exit(f"narrow: {sys.argv[1]}: {why}")
    with open(sys.argv[2], "wb") as file:
        file.write(made)


if __name__ == "__main__":
    main()
