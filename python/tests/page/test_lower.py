"""The lowering of a module to 32-bit memory: numbers, instructions, sections, and what it refuses."""
import shutil
import subprocess
import sys
import tempfile
import unittest
from pathlib import Path
from typing import List

TOP = Path(__file__).resolve().parents[3]
sys.path.insert(0, str(TOP / "tools/page"))
import lower  # noqa: E402

HEAD = b"\0asm\1\0\0\0"
# The type (i64) -> i64, one function of it, and its export as `f`.
TYPE, FUNCTION, EXPORT = b"\1\6\1\x60\1\x7e\1\x7e", b"\3\2\1\0", b"\7\5\1\1f\0\0"
MEMORY = b"\5\3\1\4\1"
GET_0 = b"\x20\0"


def section(number: int, body: bytes) -> bytes:
    return bytes([number]) + lower.unsigned(len(body)) + body


def code(instructions: bytes, locals_: bytes = b"\0") -> bytes:
    """The section of one function with these instructions."""
    body = locals_ + instructions + b"\x0b"
    return section(10, b"\1" + lower.unsigned(len(body)) + body)


def module(instructions: bytes, *before: bytes) -> bytes:
    return HEAD + TYPE + FUNCTION + b"".join(before or (MEMORY,)) + EXPORT + code(instructions)


class Numbers(unittest.TestCase):
    def test_written(self) -> None:
        self.assertEqual(lower.unsigned(0), b"\0")
        self.assertEqual(lower.unsigned(127), b"\x7f")
        self.assertEqual(lower.unsigned(128), b"\x80\x01")
        self.assertEqual(lower.unsigned(624485), b"\xe5\x8e\x26")
        self.assertEqual(lower.signed(63), b"\x3f")
        self.assertEqual(lower.signed(64), b"\xc0\0")
        self.assertEqual(lower.signed(-1), b"\x7f")
        self.assertEqual(lower.signed(-123456), b"\xc0\xbb\x78")

    def test_read(self) -> None:
        self.assertEqual(lower.Reader(b"\xe5\x8e\x26").number(), 624485)
        self.assertEqual(lower.Reader(b"\xc0\xbb\x78").signed(), -123456)
        self.assertEqual(lower.Reader(b"\xc0\0").signed(), 64)


class Instructions(unittest.TestCase):
    def becomes(self, before: bytes, after: bytes, locals_: bytes = b"\0") -> None:
        """The instructions become these, with these local names; the memory has lost its mark."""
        wanted = HEAD + TYPE + FUNCTION + b"\5\3\1\0\1" + EXPORT + code(after, locals_)
        self.assertEqual(lower.lowered(module(before)), wanted)

    def test_what_reaches_no_memory_stays(self) -> None:
        for it in (GET_0, b"\x02\x40\x0c\0\x0b" + GET_0, b"\x42\x80\x80\x80\x80\x10", b"\x44" + b"\x0b" * 8 + b"\x1a" + GET_0):
            self.becomes(it, it)

    def test_load(self) -> None:
        self.becomes(GET_0 + b"\x29\3\x10", GET_0 + b"\xa7\x29\3\x10")

    def test_load_past_the_end_traps(self) -> None:
        far = lower.unsigned(1 << 32)
        self.becomes(GET_0 + b"\x29\3" + far, GET_0 + b"\xa7\0\x29\3\0")

    def test_store_keeps_its_value_in_a_local(self) -> None:
        before = GET_0 + GET_0 + b"\x37\3\0" + GET_0
        after = GET_0 + GET_0 + b"\x21\1\xa7\x20\1\x37\3\0" + GET_0
        self.becomes(before, after, b"\1\1\x7e")

    def test_fill_and_copy(self) -> None:
        fill = GET_0 + b"\x41\0" + GET_0 + b"\xfc\x0b\0" + GET_0
        cut = GET_0 + b"\x41\0" + GET_0 + b"\x21\1\x21\2\xa7\x20\2\x20\1\xa7\xfc\x0b\0" + GET_0
        self.becomes(fill, cut, b"\2\1\x7e\1\x7f")
        copy = GET_0 * 3 + b"\xfc\x0a\0\0" + GET_0
        cut = GET_0 * 3 + b"\x21\1\x21\2\xa7\x20\2\xa7\x20\1\xa7\xfc\x0a\0\0" + GET_0
        self.becomes(copy, cut, b"\2\1\x7e\1\x7e")

    def test_size_and_grow(self) -> None:
        self.becomes(b"\x3f\0", b"\x3f\0\xad")
        self.becomes(GET_0 + b"\x40\0", GET_0 + b"\xa7\x40\0\xac")

    def test_unknown(self) -> None:
        for it in (b"\xfd\0", b"\xfe\0\2\0", b"\xfc\x08\0\0", b"\xd0\x70"):
            with self.assertRaises(lower.Unknown):
                lower.lowered(module(it))


class Sections(unittest.TestCase):
    def test_data_and_table(self) -> None:
        """Offsets have 32 bits; a call through a table of 64 bits cuts its place, through one of 32 bits it does not."""
        call, data = GET_0 + GET_0 + b"\x11\0\0", section(11, b"\1\0\x42\x10\x0b\2hi")
        for mark, cut in ((5, b"\xa7"), (1, b"")):
            table = section(4, b"\1\x70" + bytes([mark]) + b"\1\1")
            after = lower.lowered(module(call, table, MEMORY) + data)
            self.assertIn(section(4, b"\1\x70\1\1\1"), after)
            self.assertIn(code(GET_0 + GET_0 + cut + b"\x11\0\0"), after)
            self.assertTrue(after.endswith(section(11, b"\1\0\x41\x10\x0b\2hi")))

    def test_elements(self) -> None:
        self.assertEqual(lower.element(lower.Reader(b"\0\x42\1\x0b\1\0")), b"\0\x41\1\x0b\1\0")

    def test_refused(self) -> None:
        bad: List[bytes] = [b"MZ", HEAD + section(2, b"\1"), module(GET_0, section(5, b"\1\6\1\2"))]
        bad.append(module(GET_0) + section(11, b"\1\0\x23\0\x0b\0"))
        for it in bad:
            with self.assertRaises(lower.Unknown):
                lower.lowered(it)


class Runs(unittest.TestCase):
    @unittest.skipUnless(shutil.which("node"), "node runs the module")
    def test_runs(self) -> None:
        """A store, a load and a `grow` of 64-bit memory run in an engine that is given 32-bit memory."""
        store = b"\x42\x80\x08" + GET_0 + b"\x37\3\0"
        grow = b"\x42\3\x40\0"
        load = b"\x42\x80\x08\x29\3\0"
        instructions = store + load + b"\x42\xc0\x84\x3d\x7e" + grow + b"\x7c"
        with tempfile.TemporaryDirectory() as room:
            file = Path(room) / "it.wasm"
            file.write_bytes(lower.lowered(module(instructions)))
            script = "const bytes = require('fs').readFileSync(process.argv[1]);"
            script += "console.log(String(new WebAssembly.Instance(new WebAssembly.Module(bytes)).exports.f(7n)))"
            ran = subprocess.run(["node", "-e", script, file], capture_output=True, text=True, check=False)
        # 7 times a million, and the one page that memory had before.
        self.assertEqual((ran.stdout, ran.stderr), ("7000001\n", ""))


if __name__ == "__main__":
    unittest.main()
