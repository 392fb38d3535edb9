#!/usr/bin/env python3
"""narrow.py IN.wasm OUT.wasm: gives a module with 64-bit addresses 32-bit ones, so that each browser of the last years runs it.

Where an instruction takes an address, the address is cut to its low 32 bits just before. Nothing else changes: pointers stay
numbers of 64 bits, inside and in the exports. The module must not lie at 4 GiB or beyond, which its limits below make sure of.
Each instruction that is not known here ends the program with an error.
"""

import sys

I32, I64, F32, F64 = 0x7F, 0x7E, 0x7D, 0x7C
WRAP, EXTEND_UNSIGNED, EXTEND_SIGNED = b"\xa7", b"\xad", b"\xac"
LOADS, STORES = range(0x28, 0x36), range(0x36, 0x3F)
# What each store writes, from i32.store to i64.store32.
STORED = dict(zip(STORES, (I32, I64, F32, F64, I32, I32, I64, I64, I64)))
# Instructions with no operand in the code: unreachable, nop, else, end, return, drop, select, comparisons and arithmetic.
PLAIN = {0x00, 0x01, 0x05, 0x0B, 0x0F, 0x1A, 0x1B, *range(0x45, 0xC5)}
# Those with one number: block, loop, if, br, br_if, call, locals, globals, i32.const and i64.const.
WITH_NUMBER = {0x02, 0x03, 0x04, 0x0C, 0x0D, 0x10, *range(0x20, 0x25), 0x41, 0x42}
BR_TABLE, CALL_INDIRECT, TYPED_SELECT, MEMORY_SIZE, MEMORY_GROW = 0x0E, 0x11, 0x1C, 0x3F, 0x40
F32_CONST, F64_CONST, MORE, COPY, FILL = 0x43, 0x44, 0xFC, 10, 11
# Pages of memory at most: the last 16 MiB below 4 GiB are never there, so that a stack that runs over ends in a trap.
MOST_PAGES = 65536 - 256


def refuse(why):
    sys.exit(f"narrow.py: {why}")


class Reader:
    """Bytes that are read from front to back."""

    def __init__(self, data):
        self.data, self.at = data, 0

    def more(self):
        return self.at < len(self.data)

    def take(self, count):
        self.at += count
        return self.data[self.at - count : self.at]

    def byte(self):
        return self.take(1)[0]

    def number(self):
        """The next number without a sign."""
        value = shift = 0
        while True:
            byte = self.byte()
            value |= (byte & 127) << shift
            shift += 7
            if byte < 128:
                return value

    def numbers(self, count):
        """The bytes of the next numbers."""
        start = self.at
        for _ in range(count):
            while self.byte() > 127:
                pass
        return self.data[start : self.at]


def number(value):
    """A number without a sign, in as few bytes as go."""
    out = bytearray()
    while value > 127:
        out.append(value & 127 | 128)
        value >>= 7
    out.append(value)
    return bytes(out)


def with_length(data):
    return number(len(data)) + data


def constant(value):
    """The instruction i32.const."""
    value -= (value & 1 << 31) << 1
    out = bytearray(b"\x41")
    while not -64 <= value < 64:
        out.append(value & 127 | 128)
        value >>= 7
    out.append(value & 127)
    return bytes(out)


class Body:
    """A function's body, with its locals; those that hold a value while an address below it is cut come last."""

    def __init__(self, code, parameters, has_wide_table):
        self.code, self.has_wide_table = Reader(code), has_wide_table
        self.groups, self.first, self.held = bytearray(), parameters, {}
        self.group_count = self.code.number()
        for _ in range(self.group_count):
            start = self.code.at
            self.first += self.code.number()
            self.code.byte()
            self.groups += code[start : self.code.at]

    def narrowed(self):
        out = bytearray()
        while self.code.more():
            out += self.instruction()
        for kind, _ in self.held:
            self.groups += bytes([1, kind])
        return number(self.group_count + len(self.held)) + bytes(self.groups) + bytes(out)

    def cut_below(self, *kinds):
        """Cuts the address that lies below values of these kinds, which are the topmost last."""
        held = [self.held.setdefault((kind, place), self.first + len(self.held)) for place, kind in enumerate(kinds)]
        put = b"".join(b"\x21" + number(it) for it in reversed(held))
        return put + WRAP + b"".join(b"\x20" + number(it) for it in held)

    def instruction(self):
        code, start = self.code, self.code.at
        what = code.byte()
        if what in PLAIN:
            return bytes([what])
        if what in WITH_NUMBER:
            return bytes([what]) + code.numbers(1)
        if what in LOADS or what in STORES:
            before = WRAP if what in LOADS else self.cut_below(STORED[what])
            align, offset = code.numbers(1), code.number()
            if offset >> 32:
                refuse("an offset of 4 GiB or more")
            # The linker pads offsets to ten bytes, which are too many for 32 bits.
            return before + bytes([what]) + align + number(offset)
        if what == BR_TABLE:
            code.numbers(code.number() + 1)
            return code.data[start : code.at]
        if what == CALL_INDIRECT:
            return (WRAP if self.has_wide_table else b"") + bytes([what]) + code.numbers(2)
        if what == TYPED_SELECT:
            return bytes([what]) + with_length(code.take(code.number()))
        if what == MEMORY_SIZE:
            return bytes([what]) + code.take(1) + EXTEND_UNSIGNED
        if what == MEMORY_GROW:
            return WRAP + bytes([what]) + code.take(1) + EXTEND_SIGNED
        if what in (F32_CONST, F64_CONST):
            return bytes([what]) + code.take(4 if what == F32_CONST else 8)
        if what == MORE:
            return self.further(code.number())
        refuse(f"the instruction {what:#x}")

    def further(self, what):
        """An instruction of two bytes."""
        if what < 8:
            # From a float to an integer, to its ends where it is beyond them.
            return bytes([MORE, what])
        if what == COPY:
            # Place, source and count: the count is cut, then the source below it, then the place below both.
            return WRAP + self.cut_below(I32) + self.cut_below(I32, I32) + bytes([MORE, what]) + self.code.take(2)
        if what == FILL:
            return WRAP + self.cut_below(I32, I32) + bytes([MORE, what]) + self.code.take(1)
        refuse(f"the instruction 0xfc {what}")


def limits(section, most):
    """Limits without the mark of 64 bits, and whether they had it."""
    flags, least = section.byte(), section.number()
    if flags & 1:
        most = min(most, section.number())
    if least > most:
        refuse("the module needs more memory than there may be")
    return b"\x01" + number(least) + number(most), bool(flags & 4)


def segments(section, of_elements):
    """Segments of data or of elements, whose places are constants."""
    count = section.number()
    out = bytearray(number(count))
    for _ in range(count):
        if section.number() != 0 or section.byte() != 0x42:
            refuse("a segment that does not lie at a constant of 64 bits")
        out += b"\x00" + constant(section.number()) + section.take(1)
        length = section.number()
        out += number(length) + (section.numbers(length) if of_elements else section.take(length))
    return bytes(out)


class Module:
    """A module, section by section."""

    def __init__(self):
        self.parameters, self.types, self.has_wide_table = [], [], False

    def section(self, kind, data):
        section = Reader(data)
        if kind == 1:
            self.read_types(section)
        elif kind == 2 and section.number():
            refuse("the module imports something of its host")
        elif kind == 3:
            self.types = [section.number() for _ in range(section.number())]
        elif kind == 4:
            if section.number() != 1:
                refuse("more than one table")
            of = section.take(1)
            narrow, self.has_wide_table = limits(section, 2**32 - 1)
            return b"\x01" + of + narrow
        elif kind == 5:
            if section.number() != 1:
                refuse("more than one memory")
            return b"\x01" + limits(section, MOST_PAGES)[0]
        elif kind in (9, 11):
            return segments(section, kind == 9)
        elif kind == 10:
            bodies = [section.take(section.number()) for _ in range(section.number())]
            narrow = [Body(it, self.parameters[own], self.has_wide_table).narrowed() for it, own in zip(bodies, self.types)]
            return number(len(narrow)) + b"".join(map(with_length, narrow))
        return data

    def read_types(self, section):
        """The number of each type's parameters."""
        for _ in range(section.number()):
            if section.byte() != 0x60:
                refuse("a type that is no function's")
            self.parameters.append(len(section.take(section.number())))
            section.take(section.number())


def narrowed(data):
    whole, module = Reader(data), Module()
    out = bytearray(whole.take(8))
    while whole.more():
        kind = whole.byte()
        out += bytes([kind]) + with_length(module.section(kind, whole.take(whole.number())))
    return bytes(out)


if __name__ == "__main__":
    if len(sys.argv) != 3:
        refuse("usage: narrow.py IN.wasm OUT.wasm")
    with open(sys.argv[1], "rb") as wide:
        made = narrowed(wide.read())
    with open(sys.argv[2], "wb") as out:
        out.write(made)
