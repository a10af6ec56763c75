"""Lowers a WebAssembly module with 64-bit memory to one with 32-bit memory, which every browser has: `lowered(module)`.

The code goes on computing with addresses of 64 bits. Before each instruction that reaches memory, or calls through a
table, the address is cut to its low 32 bits; memory and tables lose the mark that says 64. So the lowered module does
what the first one does, as long as no address is past 4 GiB: such an address would trap before, and is cut now. The
page's memory never grows as far as that. What this file does not know, it refuses."""
import sys
from pathlib import Path
from typing import Callable, Dict, List, Tuple

I32, I64, F32, F64 = 0x7F, 0x7E, 0x7D, 0x7C
LAST = 1 << 32
END, ELSE, UNREACHABLE = 0x0B, 0x05, b"\x00"
LOCAL_GET, LOCAL_SET = b"\x20", b"\x21"
CUT, WIDEN, WIDEN_SIGNED = b"\xa7", b"\xad", b"\xac"
# What a store takes besides its address.
STORED = {0x36: I32, 0x37: I64, 0x38: F32, 0x39: F64, 0x3A: I32, 0x3B: I32, 0x3C: I64, 0x3D: I64, 0x3E: I64}
TABLES, MEMORIES, ELEMENTS, CODE, DATA = 4, 5, 9, 10, 11
# The types of a section's entries, and the functions by their types.
TYPES, FUNCTIONS = 1, 3


class Unknown(Exception):
    """The module has something that no module of the page has."""


def unsigned(number: int) -> bytes:
    """A number as LEB128."""
    written = bytearray()
    while number > 127:
        written.append(number & 127 | 128)
        number >>= 7
    return bytes([*written, number])


def signed(number: int) -> bytes:
    """A number with a sign as LEB128."""
    written = bytearray()
    while not -64 <= number < 64:
        written.append(number & 127 | 128)
        number >>= 7
    return bytes([*written, number & 127])


class Reader:
    """Bytes that are read from the front."""

    def __init__(self, data: bytes) -> None:
        self.data, self.at = data, 0

    def is_left(self) -> bool:
        return self.at < len(self.data)

    def byte(self) -> int:
        self.at += 1
        return self.data[self.at - 1]

    def take(self, count: int) -> bytes:
        self.at += count
        return self.data[self.at - count : self.at]

    def number(self) -> int:
        """A number in LEB128. Of one with a sign the sign is left out, which is enough to step over it."""
        number = shift = 0
        while True:
            byte = self.byte()
            number |= (byte & 127) << shift
            shift += 7
            if byte < 128:
                return number

    def signed(self) -> int:
        """A number with a sign, in LEB128."""
        began = self.at
        number = self.number()
        bits = 7 * (self.at - began)
        return number - (1 << bits) if number >> (bits - 1) else number

    def since(self, began: int) -> bytes:
        return self.data[began : self.at]


class Temporaries:
    """The local names that a function has more than before: each is made where it is used first."""

    def __init__(self, first: int) -> None:
        self.first = first
        self.kinds: List[int] = []
        self.names: Dict[str, int] = {}

    def of(self, name: str, kind: int) -> bytes:
        """The index of the local called so."""
        if name not in self.names:
            self.names[name] = self.first + len(self.kinds)
            self.kinds.append(kind)
        return unsigned(self.names[name])

    def declared(self) -> List[bytes]:
        return [bytes([1, kind]) for kind in self.kinds]


class Code:
    """Instructions of 64-bit memory, read one by one, and written for 32-bit memory."""

    def __init__(self, reader: Reader, temporaries: Temporaries, wide_tables: List[bool]) -> None:
        self.reader, self.temporaries, self.wide_tables = reader, temporaries, wide_tables
        self.written = bytearray()
        self.depth = 0

    def until_end(self) -> bytes:
        """All up to the `end` of the function."""
        while self.depth >= 0:
            began = self.reader.at
            code = self.reader.byte()
            if code in STORED or 0x28 <= code <= 0x35:
                self.reach(code)
            elif code in SPECIAL:
                SPECIAL[code](self, began)
            else:
                self.step_over(code)
                self.written += self.reader.since(began)
        return bytes(self.written)

    def step_over(self, code: int) -> None:
        """Reads what an instruction that stays as it is has behind its code."""
        if code in (0x02, 0x03, 0x04):
            self.depth += 1
            self.reader.number()
        elif code == END:
            self.depth -= 1
        elif code in (0x0C, 0x0D, 0x10, 0x20, 0x21, 0x22, 0x23, 0x24, 0x41, 0x42, 0xD2):
            self.reader.number()
        elif code == 0x0E:
            for _ in range(self.reader.number() + 1):
                self.reader.number()
        elif code == 0x1C:
            self.reader.take(self.reader.number())
        elif code in (0x43, 0x44):
            self.reader.take(4 if code == 0x43 else 8)
        elif not (code in (0x00, 0x01, ELSE, 0x0F, 0x1A, 0x1B) or 0x45 <= code <= 0xC4):
            raise Unknown(f"instruction {code:#x}")

    def keep(self, name: str, kind: int) -> None:
        self.written += LOCAL_SET + self.temporaries.of(name, kind)

    def give(self, name: str, kind: int) -> None:
        self.written += LOCAL_GET + self.temporaries.of(name, kind)

    def reach(self, code: int) -> None:
        """A load or a store. An offset past 4 GiB trapped before, and traps now."""
        align, offset = self.reader.number(), self.reader.number()
        kind = STORED.get(code)
        if kind is not None:
            self.keep(f"stored {kind}", kind)
        self.written += CUT
        if kind is not None:
            self.give(f"stored {kind}", kind)
        if offset >= LAST:
            self.written += UNREACHABLE
        self.written += bytes([code]) + unsigned(align) + unsigned(offset if offset < LAST else 0)

    def call_indirect(self, began: int) -> None:
        self.reader.number()
        is_wide = self.wide_tables[self.reader.number()]
        self.written += (CUT if is_wide else b"") + self.reader.since(began)

    def memory_size(self, began: int) -> None:
        self.reader.byte()
        self.written += self.reader.since(began) + WIDEN

    def memory_grow(self, began: int) -> None:
        """Where memory does not grow, the answer is -1 in 64 bits too."""
        self.reader.byte()
        self.written += CUT + self.reader.since(began) + WIDEN_SIGNED

    def many_bytes(self, began: int) -> None:
        """What begins with 0xFC: `memory.copy`, `memory.fill`, and roundings, which stay."""
        which = self.reader.number()
        if which == 10:
            self.reader.take(2)
            self.keep("count", I64)
            self.keep("source", I64)
            self.written += CUT
            self.give("source", I64)
            self.written += CUT
        elif which == 11:
            self.reader.byte()
            self.keep("count", I64)
            self.keep("filled", I32)
            self.written += CUT
            self.give("filled", I32)
        elif which > 7:
            raise Unknown(f"instruction 0xfc {which}")
        if which > 7:
            self.give("count", I64)
            self.written += CUT
        self.written += self.reader.since(began)


SPECIAL: Dict[int, Callable[[Code, int], None]] = {
    0x11: Code.call_indirect,
    0x3F: Code.memory_size,
    0x40: Code.memory_grow,
    0xFC: Code.many_bytes,
}


class Module:
    """What the sections of a module tell about its functions and tables."""

    def __init__(self) -> None:
        self.parameters: List[int] = []
        self.functions: List[int] = []
        self.wide_tables: List[bool] = []

    def section(self, number: int, body: bytes) -> bytes:
        """A section for 32-bit memory."""
        reader = Reader(body)
        if number == TYPES:
            self.parameters = [self.read_type(reader) for _ in range(reader.number())]
        elif number == FUNCTIONS:
            self.functions = [reader.number() for _ in range(reader.number())]
        each = {
            TABLES: self.table,
            MEMORIES: lambda reader: limits(reader)[0],
            ELEMENTS: element,
            DATA: data,
        }.get(number)
        if number == CODE:
            count = reader.number()
            return unsigned(count) + b"".join(self.function(reader, which) for which in range(count))
        if number == 2 and reader.number():
            raise Unknown("an import")
        if each is None:
            return body
        count = reader.number()
        return unsigned(count) + b"".join(each(reader) for _ in range(count))

    @staticmethod
    def read_type(reader: Reader) -> int:
        """How many parameters a type has."""
        if reader.byte() != 0x60:
            raise Unknown("a type that is none of a function")
        count = reader.number()
        reader.take(count)
        reader.take(reader.number())
        return count

    def table(self, reader: Reader) -> bytes:
        kind = reader.take(1)
        written, is_wide = limits(reader)
        self.wide_tables.append(is_wide)
        return kind + written

    def function(self, reader: Reader, which: int) -> bytes:
        """The body of a function: its local names, with the temporaries behind them, and its code."""
        inside = Reader(reader.take(reader.number()))
        first, declared = self.parameters[self.functions[which]], []
        for _ in range(inside.number()):
            began = inside.at
            first += inside.number()
            inside.byte()
            declared.append(inside.since(began))
        temporaries = Temporaries(first)
        code = Code(inside, temporaries, self.wide_tables).until_end()
        if inside.is_left():
            raise Unknown("code behind the end of a function")
        declared += temporaries.declared()
        body = unsigned(len(declared)) + b"".join(declared) + code
        return unsigned(len(body)) + body


def limits(reader: Reader) -> Tuple[bytes, bool]:
    """The limits of a memory or a table without the mark for 64 bits, and whether it was there."""
    mark, least = reader.byte(), reader.number()
    most = unsigned(min(reader.number(), 65536)) if mark & 1 else b""
    if mark & ~5 or least > 65536:
        raise Unknown("a memory or a table of another kind")
    return bytes([mark & 1]) + unsigned(least) + most, bool(mark & 4)


def offset(reader: Reader) -> bytes:
    """The place where data or elements begin: a constant, of 32 bits now."""
    if reader.byte() not in (0x41, 0x42):
        raise Unknown("an offset that is no constant")
    place = reader.signed()
    if not 0 <= place < LAST >> 1 or reader.byte() != END:
        raise Unknown("an offset past 2 GiB, or a sum")
    return b"\x41" + signed(place) + bytes([END])


def element(reader: Reader) -> bytes:
    if reader.number() != 0:
        raise Unknown("elements that are not put into the table at once")
    place, began = offset(reader), reader.at
    for _ in range(reader.number()):
        reader.number()
    return b"\0" + place + reader.since(began)


def data(reader: Reader) -> bytes:
    if reader.number() != 0:
        raise Unknown("data that is not put into memory at once")
    place, began = offset(reader), reader.at
    reader.take(reader.number())
    return b"\0" + place + reader.since(began)


def lowered(module: bytes) -> bytes:
    """The same module with 32-bit memory."""
    reader, told = Reader(module), Module()
    if reader.take(8) != b"\0asm\1\0\0\0":
        raise Unknown("no module")
    written = bytearray(module[:8])
    while reader.is_left():
        number = reader.byte()
        body = told.section(number, reader.take(reader.number()))
        written += bytes([number]) + unsigned(len(body)) + body
    return bytes(written)


if __name__ == "__main__":
    Path(sys.argv[2]).write_bytes(lowered(Path(sys.argv[1]).read_bytes()))
