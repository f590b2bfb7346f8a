"""Many texts in one call: lists, buffers, changes by other threads, results, numpy and pandas."""

import collections
import faulthandler
import gc
import importlib.util
import mmap
import random
import sys
import tempfile
import threading
import time
import types
import unittest
from array import array
from collections.abc import Callable, Iterator
from itertools import accumulate

import byte_unit
from byte_unit import ByteUnitError, Column

# Texts, and the code and the size of each.
TEXTS = ["1 KB", "", "1.5 KiB", "1 x", "999 RB", "é", "1" * 40, "1000 RB", "9 b", "\ud800", "18446744073709551615"]
CODES = [0, 1, 0, 5, 0, 2, 3, 4, 0, 6, 0]
SIZES = [1000, None, 1536, None, 999 * 10**27, None, None, None, 2, None, 2**64 - 1]
HAS_NUMPY = importlib.util.find_spec("numpy") is not None
HAS_PANDAS = importlib.util.find_spec("pandas") is not None


def layout(texts: list[bytes], code: str, start: int = 0) -> tuple[bytes, "array[int]"]:
    """Returns texts in Arrow's layout, the first at `start`."""
    offsets = array(code, accumulate(map(len, texts), initial=start))
    return b"\xff" * start + b"".join(texts), offsets


def encoded(texts: list[str]) -> list[bytes]:
    """Returns texts as bytes, also one with a lone surrogate, which is then not UTF-8."""
    return [text.encode("utf-8", "surrogatepass") for text in texts]


class Lists(unittest.TestCase):
    def test_codes_and_sizes(self) -> None:
        for texts in (TEXTS, tuple(TEXTS), iter(TEXTS), dict.fromkeys(TEXTS).keys(), encoded(TEXTS)):
            column = byte_unit.parse_many(texts)
            self.assertEqual(list(column.codes), CODES)
            self.assertEqual(column.ints(), SIZES)
            self.assertEqual(len(column), len(TEXTS))
            self.assertEqual(column.sizes, b"".join((size or 0).to_bytes(16, "little") for size in SIZES))

    def test_flags(self) -> None:
        self.assertEqual(byte_unit.parse_many(["9 b", "1 kb"], ignore_case=True).ints(), [9, 1000])
        self.assertEqual(byte_unit.parse_many(["9 b", "1 KB"], bits=True).ints(), [9, 8000])
        self.assertEqual(byte_unit.parse_many(["9 K", "1 KiB"], binary=True).ints(), [9216, 1024])
        for flag in ("bits", "ignore_case", "binary", "words"):
            with self.assertRaises(TypeError):
                byte_unit.parse_many([], **{flag: 1})
            with self.assertRaises(TypeError):
                byte_unit.parse_buffers(b"", array("q"), **{flag: 1})

    def test_types(self) -> None:
        for wrong in ("1 KB", b"1 KB", 3, None, bytearray(b"1"), object()):
            with self.subTest(wrong=wrong), self.assertRaises(TypeError):
                byte_unit.parse_many(wrong)
        for text in ("1 KB", b"1 KB"):
            message = f"^texts must be an iterable of texts, not one {type(text).__name__}$"
            with self.subTest(text), self.assertRaisesRegex(TypeError, message):
                byte_unit.parse_many(text)
        for wrong in (1, 1.5, float("inf"), ["1"], bytearray(b"1"), object()):
            message = rf"texts\[1\] must be str, bytes or null, not {type(wrong).__name__}$"
            with self.subTest(wrong=wrong), self.assertRaisesRegex(TypeError, message):
                byte_unit.parse_many(["1", wrong])
        for mapping in ({"1 KB": "2 KB"}, types.MappingProxyType({}), collections.UserDict()):
            message = rf"not {type(mapping).__name__}: pass its keys\(\) or its values\(\)$"
            with self.subTest(mapping), self.assertRaisesRegex(TypeError, message):
                byte_unit.parse_many(mapping)

    def test_an_error_of_the_iterable(self) -> None:
        def texts() -> "Iterator[str]":
            yield "1 KB"
            raise KeyError("no more")

        with self.assertRaises(KeyError):
            byte_unit.parse_many(texts())


class Buffers(unittest.TestCase):
    def test_offsets(self) -> None:
        texts = encoded(TEXTS)
        for code in "iq":
            for start in (0, 7):
                data, offsets = layout(texts, code, start)
                for given in (data, bytearray(data), memoryview(data), array("B", data)):
                    self.assertEqual(byte_unit.parse_buffers(given, offsets), byte_unit.parse_many(TEXTS))

    def test_offsets_at_each_address(self) -> None:
        for code in "iq":
            data, offsets = layout(encoded(TEXTS), code)
            for start in range(9):
                raw = memoryview(bytes(start) + offsets.tobytes())[start:].cast(code)
                self.assertEqual(byte_unit.parse_buffers(data, raw).ints(), SIZES)

    def test_many_pieces(self) -> None:
        """More texts than the 1024 that are copied at a time, and texts that are longer than those before them."""
        for count in (1023, 1024, 1025, 2048, 5000):
            texts = [b" " * (i % 1500 * 9 if i % 100 == 0 else 0) + b"%d KB" % i for i in range(count)]
            for code in "iq":
                data, offsets = layout(texts, code, 3)
                self.assertEqual(byte_unit.parse_buffers(data, offsets).ints(), [1000 * i for i in range(count)])
                for place in {min(place, count) for place in (0, 1, 1022, 1023, 1024, 1025, 2047, 2048, 5000)}:
                    for wrong in (-1, offsets[place] - 10**5, len(data) + 1, 2**31 - 1, -(2**31)):
                        changed = offsets[:]
                        changed[place] = wrong
                        with self.subTest(count, place=place, wrong=wrong), self.assertRaises(ByteUnitError):
                            byte_unit.parse_buffers(data, changed)

    def test_views(self) -> None:
        data, offsets = layout(encoded(TEXTS), "q")
        raw = memoryview(offsets.tobytes())
        self.assertEqual(byte_unit.parse_buffers(data, raw.cast("q")), byte_unit.parse_many(TEXTS))
        part = memoryview(offsets)[2:6]
        self.assertEqual(byte_unit.parse_buffers(data, part).ints(), SIZES[2:5])

    def test_a_mapped_file(self) -> None:
        data, offsets = layout(encoded(TEXTS), "i")
        with tempfile.TemporaryFile() as file:
            file.write(data)
            file.flush()
            with mmap.mmap(file.fileno(), 0, access=mmap.ACCESS_READ) as mapped:
                self.assertEqual(byte_unit.parse_buffers(mapped, offsets).ints(), SIZES)

    def test_data_above_2_gib(self) -> None:
        """An offset of 32 bits is signed."""
        start, how = 2**31, {"flags": mmap.MAP_PRIVATE | mmap.MAP_ANONYMOUS, "prot": mmap.PROT_READ}
        with mmap.mmap(-1, start + 8, **how) as zeros:
            self.assertEqual(byte_unit.parse_buffers(zeros, array("q", [start, start + 8])).codes, b"\2")
            with self.assertRaises(ByteUnitError):
                byte_unit.parse_buffers(zeros, array("i", [-start, -start + 8]))

    def test_nothing(self) -> None:
        for code in "iq":
            for entries in ([], [0], [3]):
                column = byte_unit.parse_buffers(b"abc", array(code, entries))
                self.assertEqual((len(column), column.sizes, column.codes), (0, b"", b""))
        self.assertEqual(byte_unit.parse_buffers(b"", array("i", [0, 0])).codes, b"\1")

    def test_offsets_out_of_range(self) -> None:
        rows = [[-1, 0], [0, -1], [0, 4], [2, 1], [0, 3, 2], [0, 1, 4], [4], [-1], [0, 2**31 - 1], [-(2**31), 3]]
        for code in "iq":
            for entries in rows:
                with self.subTest(code, entries=entries), self.assertRaises(ByteUnitError):
                    byte_unit.parse_buffers(b"123", array(code, entries))
        for entries in ([0, 2**63 - 1], [0, 2**32], [0, 2**32 + 3], [-(2**63), 3]):
            with self.assertRaises(ByteUnitError):
                byte_unit.parse_buffers(b"123", array("q", entries))

    def test_types(self) -> None:
        good = array("q", [0, 1])
        for wrong in (None, "1", 1, [0, 1], object()):
            with self.subTest(wrong=wrong), self.assertRaises(TypeError):
                byte_unit.parse_buffers(wrong, good)
            with self.subTest(wrong=wrong), self.assertRaises(TypeError):
                byte_unit.parse_buffers(b"1", wrong)
        for code in "bBhHILQfd":
            with self.subTest(code), self.assertRaises(TypeError):
                byte_unit.parse_buffers(b"1", array(code, [0, 1]))
        with self.assertRaises(TypeError):
            byte_unit.parse_buffers(b"1", memoryview(bytes(17))[1:])
        with self.assertRaises(ByteUnitError):
            byte_unit.parse_buffers(memoryview(b"1234")[::2], good)
        with self.assertRaises(ByteUnitError):
            byte_unit.parse_buffers(b"1", memoryview(array("q", [0, 0, 1]))[::2])
        released = memoryview(b"1")
        released.release()
        with self.assertRaises(ByteUnitError):
            byte_unit.parse_buffers(released, good)


class Changes(unittest.TestCase):
    """Another thread changes a buffer during the call."""

    @classmethod
    def setUpClass(cls) -> None:
        faulthandler.enable()  # says where, if the interpreter ends

    def call_while(self, change: "Callable[[], None]", call: "Callable[[], Column]") -> "list[Column | None]":
        """Returns what the calls of two seconds return, while another thread changes something. `None` is an error."""
        results: list[Column | None] = []
        end = time.monotonic() + 2

        def changes() -> None:
            while time.monotonic() < end:
                change()

        worker = threading.Thread(target=changes)
        worker.start()
        while time.monotonic() < end:
            try:
                results.append(call())
            except ByteUnitError:
                results.append(None)
        worker.join(60)
        return results

    def test_validity(self) -> None:
        data, offsets = layout([b"1.5 KiB"] * 20_000, "q")
        bits = bytearray(b"\xff" * 2500)

        def change() -> None:
            bits[:] = bytes(2500)
            bits[:] = b"\xff" * 2500

        for column in self.call_while(change, lambda: byte_unit.parse_buffers(data, offsets, validity=bits)):
            self.assertTrue(column and set(column.codes) <= {0, 7} and not any(column.codes.strip(b"\0\7")))

    def test_strict_data(self) -> None:
        """The text of an error is that which was rejected, or what is there by then."""
        data, offsets = layout([b"1.5 KiB"] * 5000, "q")
        changing = bytearray(data)

        def change() -> None:
            changing[:] = b"\xf0.5 KiB" * 5000
            changing[:] = data

        seen = self.call_while(change, lambda: byte_unit.parse_buffers(changing, offsets, errors="raise"))
        self.assertTrue(all(column is None or column.sum() == 5000 * 1536 for column in seen))

    def test_lists(self) -> None:
        """The texts are those of the list when the call began."""
        texts: list[str | None] = ["1.5 KiB", None] * 40_000
        changing, wanted = texts[:], byte_unit.parse_many(texts)

        def change() -> None:
            changing.clear()
            changing.extend(texts)

        seen = self.call_while(change, lambda: byte_unit.parse_many(changing))
        self.assertTrue(all(column in (wanted, byte_unit.parse_many([])) for column in seen))
        self.assertIn(wanted, seen)

    def test_lists_that_gc_shows(self) -> None:
        """What the call keeps of a list is no list that another thread could find and clear."""
        texts = ["1.5 KiB"] * 100_000
        wanted = byte_unit.parse_many(texts)

        def change() -> None:
            for found in gc.get_objects():
                if type(found) is list and len(found) == len(texts) and found is not texts:
                    found.clear()

        seen = self.call_while(change, lambda: byte_unit.parse_many(texts))
        self.assertEqual(set(seen), {wanted})

    def test_objects_that_gc_shows(self) -> None:
        """Another thread may keep all objects, as profilers of memory do."""
        kept: list[object] = []
        self.addCleanup(sys.setswitchinterval, sys.getswitchinterval())
        sys.setswitchinterval(1e-5)

        def change() -> None:
            kept[:] = gc.get_objects()

        seen = self.call_while(change, lambda: byte_unit.parse_many("1.5 KiB" for _ in range(1000)))
        self.assertEqual({column.sum() for column in seen}, {1000 * 1536})

    def test_offsets(self) -> None:
        for code, huge in (("q", 2**63 - 1), ("q", -(2**63)), ("i", 2**31 - 1)):
            data, offsets = layout([b"1.5 KiB"] * 20_000, code)
            right, wrong = offsets[:], array(code, [huge]) * len(offsets)
            wanted = byte_unit.parse_buffers(data, offsets)

            def change() -> None:
                offsets[:] = wrong
                offsets[:] = right

            seen = self.call_while(change, lambda: byte_unit.parse_buffers(data, offsets))
            self.assertTrue(all(column in (None, wanted) for column in seen))
            self.assertIn(wanted, seen)

    def test_data(self) -> None:
        texts = [b"1.5 KiB", b"1.5\xf0\x9f\x98\x80", b"      \xf0", b"\x80\x80\x80\x80\x80\x80\x80"]
        data, offsets = layout(texts[:1] * 20_000, "q")
        changing = bytearray(data)
        rng = random.Random(1)
        others = [text * 20_000 for text in texts]

        def change() -> None:
            changing[:] = rng.choice(others)

        for column in self.call_while(change, lambda: byte_unit.parse_buffers(changing, offsets)):
            self.assertTrue(column and set(column.codes) <= {0, 2, 5, 6})


@unittest.skipUnless(HAS_NUMPY, "numpy is not installed")
class Numpy(unittest.TestCase):
    def test_arguments(self) -> None:
        import numpy

        data, offsets = layout(encoded(TEXTS), "q")
        raw = numpy.frombuffer(data, numpy.uint8)
        for dtype in (numpy.int32, numpy.int64):
            self.assertEqual(byte_unit.parse_buffers(raw, numpy.array(offsets, dtype)).ints(), SIZES)
        for dtype in (numpy.uint32, numpy.uint64, numpy.int16, numpy.float64, ">i8"):
            with self.subTest(dtype), self.assertRaises(TypeError):
                byte_unit.parse_buffers(raw, numpy.array(offsets, dtype))
        with self.assertRaises(ByteUnitError):
            byte_unit.parse_buffers(raw, numpy.zeros(10, numpy.int64)[::2])
        with self.assertRaises(TypeError):
            byte_unit.parse_buffers(raw, numpy.zeros((2, 2), numpy.int64))
        for dtype in ("<i4", "<i8"):
            shifted = numpy.frombuffer(bytes(3) + numpy.array(offsets, dtype).tobytes(), dtype, offset=3)
            self.assertEqual(byte_unit.parse_buffers(raw, shifted).ints(), SIZES)
        self.assertEqual(byte_unit.parse_many(numpy.array(["1 KB", "2 KB"])).ints(), [1000, 2000])
        self.assertEqual(byte_unit.parse_many(numpy.array([b"1 KB", b"2 KB"])).ints(), [1000, 2000])
        self.assertEqual(byte_unit.text(numpy.int64(1536)), "1.5 KiB")


@unittest.skipUnless(HAS_PANDAS, "pandas is not installed")
class Pandas(unittest.TestCase):
    def test_frames(self) -> None:
        import pandas

        with self.assertRaisesRegex(TypeError, "not DataFrame: pass one of its columns$"):
            byte_unit.parse_many(pandas.DataFrame({"1 KB": ["2 KB"]}))
        named = pandas.Series(["1 KB"], ["columns"])  # whose attribute `columns` is the text
        self.assertEqual(byte_unit.parse_many(named).ints(), [1000])


if __name__ == "__main__":
    unittest.main()
