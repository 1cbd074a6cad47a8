"""Gives a WebAssembly module that was linked for 64-bit memory a 32-bit table.

`wasm-opt --memory64-lowering` makes a 32-bit memory of a 64-bit one, and refuses a 64-bit table. This script makes the table a
32-bit one, with the offset of its elements, and wraps the index of each indirect call to 32 bits just before the call. All else
stays as it is, byte for byte.
"""

HEADER = 8
TABLES, ELEMENTS, CODE = 4, 9, 10
IS_64_BIT = 4
I32_CONST, I64_CONST, WRAP = 0x41, 0x42, b"\xa7"
CALL_INDIRECT, BR_TABLE, SELECT_TYPED, F32_CONST, F64_CONST, MANY = 0x11, 0x0E, 0x1C, 0x43, 0x44, 0xFC
BLOCKS = (0x02, 0x03, 0x04)
ONE_NUMBER = {*BLOCKS, 0x0C, 0x0D, 0x10, *range(0x20, 0x27), 0x3F, 0x40, I32_CONST, I64_CONST, 0xD0, 0xD2}
TWO_NUMBERS = {*range(0x28, 0x3F)}
NO_NUMBER = {0x00, 0x01, 0x05, 0x0B, 0x0F, 0x1A, 0x1B, 0xD1, *range(0x45, 0xC5)}
# How many numbers stand behind each of the operations that begin with MANY; none for operations on numbers alone.
OF_MANY = {8: 2, 9: 1, 10: 2, 11: 1, 12: 2, 13: 1, 14: 2, 15: 1, 16: 1, 17: 1}


class Module:
    """Reads a module from a place on."""

    def __init__(self, module):
        self.module = module

    def number(self, at):
        """The unsigned number in LEB128 that stands there, and the place behind it."""
        value = shift = 0
        while True:
            byte = self.module[at]
            value |= (byte & 127) << shift
            shift, at = shift + 7, at + 1
            if byte < 128:
                return value, at

    def behind(self, at, numbers=1):
        """The place behind this many numbers."""
        for _ in range(numbers):
            at = self.number(at)[1]
        return at

    def behind_instruction(self, at):
        """The place behind an instruction other than an indirect call."""
        code, at = self.module[at], at + 1
        if code in ONE_NUMBER:
            return self.behind(at)
        if code in TWO_NUMBERS:
            return self.behind(at, 2)
        if code in NO_NUMBER:
            return at
        if code in (BR_TABLE, SELECT_TYPED):
            count, at = self.number(at)
            return self.behind(at, count + (code == BR_TABLE))
        if code in (F32_CONST, F64_CONST):
            return at + (4 if code == F32_CONST else 8)
        if code == MANY:
            code, at = self.number(at)
            return self.behind(at, OF_MANY.get(code, 0))
        raise ValueError(f"instruction {code:#x} is not known")

    def narrow_body(self, at, end):
        """The body of a function, with each index of an indirect call wrapped."""
        made, begun = b"", at
        locals_, at = self.number(at)
        for _ in range(locals_):
            at = self.behind(at) + 1
        while at < end:
            if self.module[at] == CALL_INDIRECT:
                made += self.module[begun:at] + WRAP
                begun, at = at, self.behind(at + 1, 2)
            else:
                at = self.behind_instruction(at)
        return made + self.module[begun:end]

    def narrow_code(self, at):
        count, at = self.number(at)
        made = leb128(count)
        for _ in range(count):
            size, at = self.number(at)
            body = self.narrow_body(at, at + size)
            made, at = made + leb128(len(body)) + body, at + size
        return made


def leb128(value):
    made = b""
    while value > 127:
        made, value = made + bytes([value & 127 | 128]), value >> 7
    return made + bytes([value])


def narrow(module):
    """The same module with a 32-bit table. It has one table, and one list of its elements."""
    it, made, at = Module(module), module[:HEADER], HEADER
    while at < len(module):
        kind, (size, begun) = module[at], it.number(at + 1)
        at = begun + size
        section = module[begun:at]
        if kind == TABLES:
            if section[0] != 1 or not section[2] & IS_64_BIT:
                raise ValueError("there is not one table of 64 bits")
            section = section[:2] + bytes([section[2] & ~IS_64_BIT]) + section[3:]
        elif kind == ELEMENTS:
            if section[:3] != bytes([1, 0, I64_CONST]):
                raise ValueError("there is not one list of elements at an offset of 64 bits")
            section = section[:2] + bytes([I32_CONST]) + section[3:]
        elif kind == CODE:
            section = it.narrow_code(begun)
        made += bytes([kind]) + leb128(len(section)) + section
    return made
