"""Gives a WebAssembly module of 64-bit memory a function table with 32-bit indices: each
call_indirect gets an i32.wrap_i64 in front of it. Binaryen's --memory64-lowering expects that."""

TABLE, ELEMENTS, CODE = 4, 9, 10
WRAP = b"\xa7"
# The instructions by what follows them: a number; two numbers (a memory access); nothing.
NUMBER = {0x02, 0x03, 0x04, 0x0C, 0x0D, 0x10, *range(0x20, 0x27), 0x3F, 0x40, 0x41, 0x42, 0xD0,
          0xD2}
ACCESS = set(range(0x28, 0x3F))
NOTHING = {0x00, 0x01, 0x05, 0x0B, 0x0F, 0x1A, 0x1B, 0xD1, *range(0x45, 0xC5)}
BRANCH_TABLE, CALL_INDIRECT, TYPED_SELECT, F32, F64, BULK = 0x0E, 0x11, 0x1C, 0x43, 0x44, 0xFC


class Fault(Exception):
    """What this can't read."""


class Reader:
    """Bytes, and a place in them."""

    def __init__(self, data, place=0):
        self.data = data
        self.place = place

    def byte(self):
        self.place += 1
        return self.data[self.place - 1]

    def number(self):
        value = shift = 0
        while True:
            byte = self.byte()
            value |= (byte & 127) << shift
            shift += 7
            if byte < 128:
                return value

    def skip(self, numbers):
        for _ in range(numbers):
            self.number()


def encoded(number):
    """A number as LEB128."""
    out = bytearray()
    while number > 127:
        out.append(number & 127 | 128)
        number >>= 7
    out.append(number)
    return bytes(out)


def skip_operands(reader, code):
    """Reads what follows the code of an instruction."""
    if code in NUMBER:
        reader.number()
    elif code in ACCESS:
        reader.skip(2)
    elif code == BRANCH_TABLE:
        reader.skip(reader.number() + 1)
    elif code == CALL_INDIRECT:
        reader.skip(2)
    elif code == TYPED_SELECT:
        reader.skip(reader.number())
    elif code in (F32, F64):
        reader.place += 4 if code == F32 else 8
    elif code == BULK:
        kind = reader.number()
        reader.skip(2 if kind in (8, 10, 12, 14) else 1 if kind in (9, 11, 13, 15, 16, 17) else 0)
    elif code not in NOTHING:
        raise Fault(f"the instruction {code:#x}")


def body(reader, end):
    """The instructions up to `end`, with the wraps."""
    out, begun = bytearray(), reader.place
    while reader.place < end:
        at = reader.place
        code = reader.byte()
        skip_operands(reader, code)
        if code == CALL_INDIRECT:
            out += reader.data[begun:at] + WRAP
            begun = at
    return bytes(out) + reader.data[begun:end]


def tables(reader):
    """The section of tables, with the flag of 64-bit indices removed."""
    count = reader.number()
    out = bytearray(encoded(count))
    for _ in range(count):
        out.append(reader.byte())
        flags = reader.byte()
        out.append(flags & ~4)
        for _ in range(1 + (flags & 1)):
            out += encoded(reader.number())
    return bytes(out)


def elements(reader):
    """The section of elements, whose offsets become constants of 32 bits."""
    count = reader.number()
    out = bytearray(encoded(count))
    for _ in range(count):
        flags, constant = reader.number(), reader.byte()
        if flags != 0 or constant != 0x42:
            raise Fault(f"elements of kind {flags}, or whose offset is no constant")
        begun = reader.place
        reader.number()
        reader.byte()
        reader.skip(reader.number())
        out += encoded(flags) + b"\x41" + reader.data[begun:reader.place]
    return bytes(out)


def functions(reader):
    """The section of code."""
    count = reader.number()
    out = bytearray(encoded(count))
    for _ in range(count):
        size = reader.number()
        begun, end = reader.place, reader.place + size
        for _ in range(reader.number()):
            reader.skip(2)
        code = reader.data[begun:reader.place] + body(reader, end)
        out += encoded(len(code)) + code
    return bytes(out)


def with_table32(data):
    """The module with 32-bit indices."""
    change = {TABLE: tables, ELEMENTS: elements, CODE: functions}
    out, reader = bytearray(data[:8]), Reader(data, 8)
    while reader.place < len(data):
        kind, size = reader.byte(), reader.number()
        end = reader.place + size
        section = change[kind](reader) if kind in change else data[reader.place:end]
        out += bytes([kind]) + encoded(len(section)) + section
        reader.place = end
    return bytes(out)
