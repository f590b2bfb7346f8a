"""What a column of many texts gives: nulls, errors, numbers of each kind, sums, a sequence; with numpy."""

import contextlib
import copy
import importlib.util
import math
import pickle
import random
import unittest
from array import array
from collections.abc import Sequence
from itertools import accumulate
from typing import Any

import byte_unit
from byte_unit import ByteUnitError, Column, SizeError

HAS_NUMPY = importlib.util.find_spec("numpy") is not None
LONG = "0" * 75 + "1 KiB"  # 80 characters, as many as a message repeats
# Texts, and the code and the size of each; sizes at the ends of the ranges of floats, int64 and 64 bits.
TEXTS = ["1 KB", "", None, "1 x", b"2 KB", "\ud800", b"\xff", LONG, float("nan"), str(10**30 - 1), "1000 RB"]
CODES = [0, 1, 7, 5, 0, 6, 6, 0, 7, 0, 4]
SIZES = [1000, None, None, None, 2000, None, None, 1024, None, 10**30 - 1, None]
EDGES = [0, 1, 2**53, 2**53 + 1, 2**63 - 1, 2**63, 2**64 - 1, 2**64, 2**64 + 1, 10**30 - 1]


def given(error: SizeError) -> str | bytes:
    """Returns the text as it was passed."""
    return error.text if error.data is None else error.data


def column_of(sizes: list[int | None]) -> Column:
    """Returns a column of these sizes."""
    return byte_unit.parse_many([None if size is None else str(size) for size in sizes])


class Listed:
    """An array that is no sequence."""

    def __init__(self, items: Any) -> None:
        self.items = items

    def __iter__(self) -> Any:
        raise AssertionError("it has a list")

    def tolist(self) -> Any:
        return self.items


class Named(Column):
    """A subclass, as a caller may write one."""


class Nulls(unittest.TestCase):
    def test_codes(self) -> None:
        column = byte_unit.parse_many(TEXTS)
        self.assertEqual(list(column.codes), CODES)
        self.assertEqual(column.ints(), SIZES)
        self.assertEqual(column.sizes, b"".join((size or 0).to_bytes(16, "little") for size in SIZES))
        self.assertEqual(bytes(column.mask()), bytes(code != 0 for code in CODES))
        self.assertEqual(byte_unit.ERROR_NAMES[7], "null")
        self.assertEqual([byte_unit.ERROR_NAMES[code] for code in CODES[1:4]], ["no_value", "null", "unit"])

    def test_an_array_by_tolist(self) -> None:
        """Of an array, as those of numpy and pyarrow are, its list is parsed."""
        self.assertEqual(byte_unit.parse_many(Listed(["1 KB", None])).ints(), [1000, None])
        for wrong in ("1 KB", b"1 KB", 1, None, [["1 KB"]]):
            with self.subTest(wrong), self.assertRaises(TypeError):
                byte_unit.parse_many(Listed(wrong))

    def test_all_are_null(self) -> None:
        column = byte_unit.parse_many([None] * 3)
        self.assertEqual((column.codes, column.sizes, column.validity()), (b"\7" * 3, bytes(48), b"\0"))
        self.assertEqual((column_of([]).validity(), column_of([1] * 8).validity()), (b"", b"\xff"))
        self.assertEqual((column.ints(), column.sum(), column.min(), column.max()), ([None] * 3, 0, None, None))
        self.assertEqual((list(column.errors()), column.int64().tolist()), ([], [0] * 3))

    def test_more_than_a_piece(self) -> None:
        """Texts are copied 65,536 at a time, or 4 MB, and parsed without the GIL if there are 4,096 or more."""
        for count in (4095, 4096, 65535, 65536, 65537, 140_000):
            texts: list[str | None] = [f"{i} B" for i in range(count)]
            for null in {0, 1, 65535, 65536, count - 1} & set(range(count)):
                texts[null] = None
            sizes = [None if text is None else i for i, text in enumerate(texts)]
            self.assertEqual(byte_unit.parse_many(texts).ints(), sizes)
        long = ["0" * 3_000_000 + "7", None, "8", "0" * 5_000_000 + "9", "", "é"]
        self.assertEqual(byte_unit.parse_many(long * 3).ints(), [7, None, 8, 9, None, None] * 3)

    def test_validity(self) -> None:
        texts = [b"%d KB" % i for i in range(3000)]
        data, offsets = b"".join(texts), array("q", accumulate(map(len, texts), initial=0))
        rng = random.Random(1)
        for start in (0, 1, 7, 8, 13):
            valid = [rng.random() < 0.7 for _ in texts]
            bits = sum(1 << start + i for i, is_valid in enumerate(valid) if is_valid)
            for spare in (0, 1, 9):
                packed = bits.to_bytes((start + len(texts) + 7) // 8 + spare, "little")
                for given in (packed, bytearray(packed), memoryview(bytes(3) + packed)[3:]):
                    column = byte_unit.parse_buffers(data, offsets, validity=given, validity_offset=start)
                    self.assertEqual(column.ints(), [i * 1000 if valid[i] else None for i in range(len(texts))])
                    self.assertEqual(set(column.codes), {0, 7})
            if start == 0:
                self.assertEqual(column.validity(), packed[: len(column.validity())])
            self.assertEqual(column.sizes, column_of(column.ints()).sizes)  # that of a null is zero

    def test_buffers_are_released(self) -> None:
        """They can grow again after the call, whether it returns or not."""
        for text, bits in ((b"12", b"\3"), (b"1x", b"\3"), (b"12", b"")):
            data, offsets, validity = bytearray(text), array("q", [0, 1, 2]), bytearray(bits)
            with contextlib.suppress(ByteUnitError):
                byte_unit.parse_buffers(data, offsets, validity=validity, errors="raise")
            for buffer in (data, offsets, validity):
                buffer.append(1)  # type: ignore[attr-defined]

    def test_validity_that_does_not_fit(self) -> None:
        offsets = array("q", [0, 1, 2])
        starts = [7, 8, -1, 2**62, 2**63 - 1, 2**63, 2**64, -(2**70)]
        for bits, start in [(b"", 0), *((b"\3", start) for start in starts)]:
            with self.subTest(bits, start=start), self.assertRaisesRegex(ByteUnitError, "a bit for each text"):
                byte_unit.parse_buffers(b"12", offsets, validity=bits, validity_offset=start)
        for wrong in (3, "1", [1], object()):
            with self.assertRaises(TypeError):
                byte_unit.parse_buffers(b"12", offsets, validity=wrong)
            with self.assertRaises(TypeError):
                byte_unit.parse_buffers(b"12", offsets, validity=b"\3", validity_offset=str(wrong))
        with self.assertRaises(ByteUnitError):
            byte_unit.parse_buffers(b"12", offsets, validity=memoryview(b"1234")[::2])
        for entries in ([], [0]):
            self.assertEqual(len(byte_unit.parse_buffers(b"", array("q", entries), validity=b"")), 0)


class Raised(unittest.TestCase):
    def caught(self, call: Any, *arguments: object, **named: object) -> SizeError:
        with self.assertRaises(SizeError) as caught:
            call(*arguments, **named, errors="raise")
        return caught.exception

    def test_row_text_and_reason(self) -> None:
        rows = [(0, "1 x"), (2, ""), (1, b"\xff"), (1, "\ud800"), (1, "x" * 80), (1, "x" * 81), (0, b"x" * 99)]
        for row, wrong in [*rows, (70_000, "1000.5 RB")]:
            texts: list[Any] = ["1", None, "2", *["3"] * 70_000]
            texts[row] = wrong
            error = self.caught(byte_unit.parse_many, [*texts, "y"])
            with self.subTest(wrong), self.assertRaises(SizeError) as single:
                byte_unit.parse(wrong)
            self.assertEqual(str(error), f"texts[{row}]: {single.exception}")
            self.assertEqual((error.row, given(error), error.name), (row, wrong, single.exception.name))
            self.assertEqual(error.args, single.exception.args)
            self.assertEqual((single.exception.row, given(single.exception)), (None, wrong))

    def test_buffers(self) -> None:
        texts = [b"1 KB"] * 2500
        rows = [(0, b"1 x", "1 x"), (1023, "ö".encode(), "ö"), (1024, b"", ""), (2499, b"\xff", b"\xff")]
        for row, wrong, text in [*rows, (1500, b"x" * 5000, "x" * 5000)]:
            many = [*texts[:row], wrong, *texts[row:], b"later"]
            data, offsets = b"##" + b"".join(many), array("q", accumulate(map(len, many), initial=2))
            error = self.caught(byte_unit.parse_buffers, data, offsets)
            self.assertEqual((error.row, given(error)), (row, text))
            self.assertTrue(str(error).startswith(f"texts[{row}]: {text[:80]!r}"))
            bits = ((1 << len(many)) - 1 ^ 1 << row).to_bytes(400, "little")
            error = self.caught(byte_unit.parse_buffers, data, offsets, validity=bits)
            self.assertEqual((error.row, error.text), (len(many) - 1, "later"))

    def test_flags(self) -> None:
        error = self.caught(byte_unit.parse_many, ["1Kx"], ignore_case=True)
        self.assertEqual((error.expected, error.number), ("B", None))

    def test_nothing_is_rejected(self) -> None:
        for texts in ([], [None], ["1", None, b"2"]):
            self.assertEqual(byte_unit.parse_many(texts, errors="raise"), byte_unit.parse_many(texts))
        column = byte_unit.parse_buffers(b"12", array("i", [0, 1, 2]), errors="raise")
        self.assertEqual(column.ints(), [1, 2])

    def test_types(self) -> None:
        for call in (lambda errors: byte_unit.parse_many([], errors=errors),
                     lambda errors: byte_unit.parse_buffers(b"", array("q"), errors=errors)):  # fmt: skip
            for wrong in ("", "ignore", "RAISE"):
                with self.assertRaisesRegex(ByteUnitError, "errors must be one of 'coerce', 'raise', not"):
                    call(wrong)
            for other in (None, True, b"raise"):
                with self.assertRaisesRegex(TypeError, "errors must be str, not"):
                    call(other)
        with self.assertRaisesRegex(TypeError, "str, bytes or null"):
            byte_unit.parse_many(["x", 1], errors="raise")

    def test_copies(self) -> None:
        error = self.caught(byte_unit.parse_many, ["1", "1000.5 RB"])
        for other in (copy.copy(error), copy.deepcopy(error), pickle.loads(pickle.dumps(error))):
            self.assertEqual((other.args, str(other)), (error.args, str(error)))
            self.assertEqual((other.row, other.text, other.number), (1, "1000.5 RB", error.number))


class Errors(unittest.TestCase):
    def test_names(self) -> None:
        wanted = [(row, byte_unit.ERROR_NAMES[code]) for row, code in enumerate(CODES) if code not in (0, 7)]
        self.assertEqual(list(byte_unit.parse_many(TEXTS).errors()), wanted)

    def test_reasons(self) -> None:
        column = byte_unit.parse_many(TEXTS)
        rejected = list(column.errors(TEXTS))
        self.assertEqual([(row, error.name) for row, error in rejected], list(column.errors()))
        for row, error in rejected:
            self.assertEqual((given(error), error.args[0]), (TEXTS[row], byte_unit.explain(TEXTS[row])))
        texts = ["1Kx", "9 b"]
        column = byte_unit.parse_many(iter(texts), ignore_case=True)
        self.assertEqual([error.expected for _, error in column.errors(iter(texts), ignore_case=True)], ["B"])
        column = byte_unit.parse_many(["900 RB"], binary=True)
        self.assertEqual([error.name for _, error in column.errors(["900 RB"], binary=True)], ["exceeded_bounds"])
        column = byte_unit.parse_many(["1000 RBytes"], words=True)
        self.assertEqual([error.name for _, error in column.errors(["1000 RBytes"], words=True)], ["exceeded_bounds"])

    def test_other_texts(self) -> None:
        column = byte_unit.parse_many(["1", "x"])
        for texts in (["1", "2"], ["1"], ["1", "x", "y"]):
            with self.subTest(texts), self.assertRaises(ValueError):
                list(column.errors(texts))


class Numbers(unittest.TestCase):
    def test_sums(self) -> None:
        rng = random.Random(1)
        for count in (0, 1, 2, 1000):
            sizes = [rng.choice([None, *EDGES, rng.randrange(10**30)]) for _ in range(count)]
            numbers = [size for size in sizes if size is not None]
            column = column_of(sizes)
            self.assertEqual(column.sum(), sum(numbers))
            self.assertEqual((column.min(), column.max()), (min(numbers, default=None), max(numbers, default=None)))

    def test_sum_past_64_and_128_bits(self) -> None:
        self.assertEqual(byte_unit.parse_many(["1 TB"] * 9_300_000).sum(), 9_300_000 * 10**12)
        most = Column(b"\xff" * 16 * 5000, bytes(5000))
        self.assertEqual((most.sum(), most.max()), (5000 * (2**128 - 1), 2**128 - 1))

    def test_a_size_beside_an_error_is_none(self) -> None:
        column = Column(b"\xff" * 32, b"\0\5")
        self.assertEqual((column.ints(), column.sum(), column.min()), ([2**128 - 1, None], 2**128 - 1, 2**128 - 1))
        self.assertEqual(Column(b"\xff" * 16, b"\5").int64().tolist(), [-1])
        self.assertTrue(math.isnan(Column(b"\xff" * 16, b"\5").float64()[0]))

    def test_int64(self) -> None:
        for size in EDGES:
            column = column_of([5, None, size])
            large = size >= 2**63
            with self.subTest(size):
                self.assertEqual(column.int64(overflow="null").tolist(), [5, 0, 0 if large else size])
                self.assertEqual(column.int64(overflow="saturate").tolist(), [5, 0, min(size, 2**63 - 1)])
                self.assertEqual(column.mask().tolist(), [False, True, False])
                self.assertEqual(column.mask(hide_large=True).tolist(), [False, True, large])
                if large:
                    with self.assertRaisesRegex(ByteUnitError, rf"^column\[2\]: the size {size} is 2\*\*63 or more$"):
                        column.int64()
                else:
                    view = column.int64()
                    self.assertEqual((view.tolist(), view.strides, view.readonly), ([5, 0, size], (16,), True))
        for overflow in ("raise", "null", "saturate"):
            self.assertEqual(column_of([]).int64(overflow=overflow).tolist(), [])
        for wrong, error in [("coerce", ByteUnitError), ("", ByteUnitError), (None, TypeError), (1, TypeError)]:
            with self.subTest(wrong), self.assertRaises(error):
                column_of([1]).int64(overflow=wrong)
        with self.assertRaisesRegex(TypeError, "^hide_large must be a bool, not int$"):
            column_of([1]).mask(hide_large=1)

    def test_halves_and_floats(self) -> None:
        column = column_of([*EDGES, None])
        low, high = column.uint128()
        self.assertEqual([a + (b << 64) for a, b in zip(low, high, strict=True)], [*EDGES, 0])
        floats = column.float64().tolist()
        self.assertEqual(floats[:-1], [float(size) for size in EDGES])
        self.assertTrue(math.isnan(floats[-1]))
        self.assertEqual([part.tolist() for part in (*column_of([]).uint128(), column_of([]).float64())], [[], [], []])
        rng = random.Random(1)
        sizes = [rng.randrange(10**30) >> rng.randrange(90) for _ in range(3000)]
        sizes += [(rng.randrange(2**52, 2**53) * 2 + 1) << rng.randrange(1, 40) for _ in range(3000)]  # between two
        self.assertEqual(column_of(list(sizes)).float64().tolist(), [float(size) for size in sizes])


class Sequences(unittest.TestCase):
    def test_places(self) -> None:
        column = byte_unit.parse_many(TEXTS)
        self.assertIsInstance(column, Sequence)
        count = len(SIZES)
        for place in range(-count, count):
            self.assertEqual(column[place], SIZES[place])
        for place in (count, -count - 1, 2**70):
            with self.assertRaises(IndexError):
                column[place]
        for wrong in ("0", None, 1.0, (0, 1)):
            with self.assertRaises(TypeError):
                column[wrong]

    def test_slices(self) -> None:
        column = byte_unit.parse_many(TEXTS)
        ends = [None, *range(-13, 14)]
        for step in (None, 1, 2, 3, 20, 2**63, 2**70, -1, -2, -20, -(2**63), -(2**70)):
            for start in ends:
                for stop in ends:
                    part = column[start:stop:step]
                    self.assertEqual(part.ints(), SIZES[start:stop:step])
                    self.assertEqual(list(part.codes), CODES[start:stop:step])
        with self.assertRaises(ValueError):
            column[::0]

    def test_iteration(self) -> None:
        for count in (0, 1, 1023, 1024, 1025, 5000):
            sizes = [None if i % 7 == 0 else i for i in range(count)]
            column = column_of(sizes)
            self.assertEqual((list(column), list(reversed(column))), (sizes, sizes[::-1]))
        self.assertEqual((column.index(8), column.count(8), 8 in column, 7 in column), (8, 1, True, False))
        self.assertTrue(None in column and column_of([5]) and not column_of([]))

    def test_repr(self) -> None:
        self.assertEqual(repr(byte_unit.parse_many(TEXTS)), "<Column: 11 texts, 5 rejected, 2 null>")
        self.assertLess(len(repr(byte_unit.parse_many(["1 KB"] * 100_000))), 60)

    def test_comparison(self) -> None:
        column, other = byte_unit.parse_many(TEXTS), byte_unit.parse_many(TEXTS)
        self.assertEqual((column, hash(column)), (other, hash(other)))
        self.assertNotEqual(column, byte_unit.parse_many(["", *TEXTS[1:]]))
        self.assertNotEqual(byte_unit.parse_many([None]), byte_unit.parse_many([""]))
        self.assertNotEqual(byte_unit.parse_many(["1 KB"]), byte_unit.parse_many(["2 KB"]))
        self.assertNotEqual(column, column.ints())
        for version in range(pickle.HIGHEST_PROTOCOL + 1):
            self.assertEqual(pickle.loads(pickle.dumps(column, version)), column)

    def test_a_subclass(self) -> None:
        """A copy has its class; `match` takes its parts in their order."""
        column = Named(bytes(32), b"\0\1")
        for other in (copy.copy(column), copy.deepcopy(column), pickle.loads(pickle.dumps(column))):
            self.assertEqual((type(other), other), (Named, column))
        match column:
            case Column(sizes, codes):
                self.assertEqual((sizes, codes), (column.sizes, column.codes))

    def test_a_column_cannot_be_changed(self) -> None:
        column = byte_unit.parse_many(TEXTS)
        for name in ("sizes", "codes", "other"):
            with self.assertRaises(AttributeError):
                setattr(column, name, b"")
        for view in (column.int64(overflow="null"), column.mask(), column.float64(), *column.uint128()):
            with self.assertRaises(TypeError):
                view[0] = view[1]
        with self.assertRaises(TypeError):
            Column(bytearray(16), b"\0")  # type: ignore[arg-type]
        for sizes, codes in ((15, 1), (17, 1), (16, 0), (16, 2)):
            with self.assertRaises(ByteUnitError):
                Column(bytes(sizes), bytes(codes))


@unittest.skipUnless(HAS_NUMPY, "numpy is not installed")
class Numpy(unittest.TestCase):
    def test_arrays_of_texts(self) -> None:
        import numpy

        words = ["1 KB", "2 KiB", "x", "9 ö"]
        for made in (numpy.array(words), numpy.array(words, ">U4"), numpy.array(words, object)):
            self.assertEqual(byte_unit.parse_many(made).ints(), [1000, 2048, None, None])
            self.assertEqual(byte_unit.parse_many(made[::-2]).ints(), [None, 2048])
        masked = numpy.ma.array(words, mask=[0, 1, 0, 0])
        self.assertEqual(list(byte_unit.parse_many(masked).codes), [0, 7, 2, 5])
        nulls = numpy.array(["1", None, numpy.nan, numpy.float64("nan")], object)
        self.assertEqual(list(byte_unit.parse_many(nulls).codes), [0, 7, 7, 7])
        for wrong in (numpy.array("1"), numpy.array([1]), numpy.array([["1"]]), numpy.array([b"1", 2.0], object)):
            with self.assertRaises(TypeError):
                byte_unit.parse_many(wrong)

    def test_validity(self) -> None:
        import numpy

        offsets = numpy.array([0, 1, 2], numpy.int32)
        bits = numpy.packbits([0, 1], bitorder="little")
        self.assertEqual(byte_unit.parse_buffers(b"12", offsets, validity=bits).ints(), [None, 2])
        with self.assertRaises(ByteUnitError):
            byte_unit.parse_buffers(b"12", offsets, validity=numpy.zeros(8, numpy.uint8)[::2])

    def test_results(self) -> None:
        import numpy

        column = column_of([7, None, 2**63])
        self.assertEqual(numpy.asarray(column.mask()).dtype, numpy.bool_)
        self.assertEqual(numpy.asarray(column.int64(overflow="saturate")).dtype, numpy.int64)
        low, high = map(numpy.asarray, column.uint128())
        self.assertEqual((low.tolist(), high.tolist(), low.flags.owndata), ([7, 0, 2**63], [0, 0, 0], False))
        self.assertEqual(numpy.nansum(numpy.asarray(column.float64())), 7 + 2.0**63)


if __name__ == "__main__":
    unittest.main()
