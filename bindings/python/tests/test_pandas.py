"""Series of pandas, if it is installed: texts to sizes, and sizes to texts."""

import importlib.util
import itertools
import subprocess
import sys
import unittest

import byte_unit
from byte_unit import ByteUnitError, SizeError

HAS_PANDAS = importlib.util.find_spec("pandas") is not None
HAS_PYARROW = importlib.util.find_spec("pyarrow") is not None
DTYPES = ["object", "string", "category"] + ["string[pyarrow]"] * HAS_PYARROW
if HAS_PANDAS:
    import numpy
    import pandas

    from byte_unit.pandas import format_sizes, to_sizes


class Imports(unittest.TestCase):
    def test_the_package_imports_neither(self) -> None:
        code = "import sys, byte_unit; print({'numpy', 'pandas', 'typing', 'dataclasses', 'decimal'} & {*sys.modules})"
        words = [sys.executable, "-S", "-c", f"import sys; sys.path[:] = {sys.path!r}; {code}"]
        self.assertEqual(subprocess.check_output(words, text=True), "set()\n")


@unittest.skipUnless(HAS_PANDAS, "pandas is not installed")
class ToSizes(unittest.TestCase):
    def test_dtypes(self) -> None:
        for dtype in DTYPES:
            with self.subTest(dtype):
                quota = pandas.Series(["1 KB", None, "1 x", "", "2 KiB"], list("abcde"), dtype, "quota")
                sizes = to_sizes(quota, errors="coerce")
                self.assertEqual((str(sizes.dtype), sizes.name, list(sizes.index)), ("Int64", "quota", list("abcde")))
                self.assertEqual(sizes.dropna().to_dict(), {"a": 1000, "e": 2048})
                self.assertEqual(list(byte_unit.parse_many(quota).codes), [0, 7, 5, 1, 0])
                sizes["b"] = 5  # neither numbers nor mask is a view
                self.assertEqual(sizes.sum(), 3053)

    def test_nulls(self) -> None:
        texts = ["1", None, float("nan"), numpy.nan, pandas.NA, pandas.NaT, numpy.float64("nan")]
        self.assertEqual(to_sizes(pandas.Series(texts, dtype=object)).isna().tolist(), [False] + [True] * 6)
        self.assertEqual(list(byte_unit.parse_many(texts).codes), [0] + [7] * 6)
        for empty in (pandas.Series([], dtype=object), pandas.Series([None], dtype=object)[:0]):
            self.assertEqual((len(to_sizes(empty)), str(to_sizes(empty).dtype)), (0, "Int64"))
        for wrong in ([1.5], ["1", True], ["1", 2.0**53], [float("inf")], [pandas.Timestamp(0)], ["1", ["2"]]):
            with self.assertRaisesRegex(TypeError, r"^texts\[\d\] must be str, bytes, a whole number or null, not "):
                to_sizes(pandas.Series(wrong))
            self.assertTrue(pandas.isna(to_sizes(pandas.Series(wrong), errors="coerce").iloc[-1]))
        for other in (["1"], numpy.array(["1"]), pandas.Index(["1"]), pandas.DataFrame({"1": ["2"]}), "1", None):
            message = rf"^texts must be a Series of pandas, .*, not [a-z.]*{type(other).__name__}$"
            with self.assertRaisesRegex(TypeError, message):
                to_sizes(other)

    def test_numbers(self) -> None:
        for items, dtype in [(["1 KB", 1536, None, 2.0, numpy.int64(7), numpy.float32(8)], object), ([1536, None, 7], None),
                             ([1536, None], "Int64"), ([0, 2**53 - 1, None], "float64"), ([2**63 - 1], "uint64")]:  # fmt: skip
            wanted = [1000 if item == "1 KB" else pandas.NA if item is None else int(item) for item in items]
            for errors in ("raise", "coerce"):
                self.assertEqual(to_sizes(pandas.Series(items, dtype=dtype), errors=errors).tolist(), wanted)
        mixed = pandas.Series(["1 KB", -1, 10**30, "x", object(), numpy.datetime64("NaT"), "18 EB", 2**63, 5])
        self.assertEqual(to_sizes(mixed, errors="coerce").tolist(), [1000] + [pandas.NA] * 7 + [5])
        large = pandas.Series([10**5000, -(10**5000)], dtype=object)
        self.assertTrue(to_sizes(large, errors="coerce").isna().all())
        self.assertEqual(to_sizes(mixed, errors="coerce", overflow="saturate").tolist()[6:], [2**63 - 1] * 2 + [5])
        with self.assertRaisesRegex(SizeError, r"^texts\[1\]: '-1' is not a size: the character '-' is not a number"):
            to_sizes(mixed[:4])
        with self.assertRaisesRegex(ByteUnitError, r"^texts\[1\]: '9223372036854775808' is 9223372036854775808 bytes"):
            to_sizes(pandas.Series(["1", 2**63]))
        with self.assertRaisesRegex(SizeError, r"^texts\[0\]: '10{30}' is not a size: the value"):
            to_sizes(pandas.Series([10**30, "1"]))
        with self.assertRaises(TypeError):
            to_sizes(mixed, bits=1)

    def test_errors(self) -> None:
        quota = pandas.Series(["1", None, "1 x"], ["a", "b", "c"])
        for errors in ({}, {"errors": "raise"}):
            with self.assertRaisesRegex(SizeError, r"^texts\[2\]: '1 x' is not a size: the character 'x'") as caught:
                to_sizes(quota, **errors)
            self.assertEqual((caught.exception.row, caught.exception.text), (2, "1 x"))
            self.assertEqual(to_sizes(quota[:2], **errors).tolist(), [1, pandas.NA])
        for text in ("1,5 GB", "x", ""):
            with self.assertRaisesRegex(SizeError, rf"^texts\[0\]: '{text}' is not a size: "):
                to_sizes(pandas.Series([text]))
            self.assertEqual(to_sizes(pandas.Series([text, None]), errors="coerce").tolist(), [pandas.NA] * 2)
        reasons = list(byte_unit.parse_many(quota).errors(quota))
        self.assertEqual([(row, error.text) for row, error in reasons], [(2, "1 x")])

    def test_flags(self) -> None:
        quota = pandas.Series(["9 b"])
        self.assertEqual(to_sizes(quota, ignore_case=True).tolist(), [9])
        self.assertEqual(to_sizes(quota, bits=True).tolist(), [9])
        self.assertEqual(to_sizes(pandas.Series(["100 mb"]), ignore_case=True, binary=True).tolist(), [100 * 2**20])
        self.assertEqual(to_sizes(pandas.Series(["5 bytes"]), words=True).tolist(), [5])

    def test_large_sizes(self) -> None:
        for size in (2**63 - 1, 2**63, 2**64, 10**30 - 1):
            quota, large = pandas.Series(["1", None, str(size)]), size >= 2**63
            with self.subTest(size):
                null = to_sizes(quota, overflow="null").tolist()
                self.assertEqual(null, [1, pandas.NA, pandas.NA if large else size])
                self.assertEqual(to_sizes(quota, errors="coerce").tolist(), null)
                self.assertEqual(to_sizes(quota, overflow="saturate").tolist(), [1, pandas.NA, min(size, 2**63 - 1)])
                for errors, bits in itertools.product(("raise", "coerce"), (False, True) if large else ()):
                    with self.assertRaises(ByteUnitError) as caught:
                        to_sizes(quota, errors=errors, bits=bits, overflow=None if errors == "raise" else "raise")
                    kind = "bits" if bits else "bytes"
                    message = f"texts[2]: '{size}' is {size} {kind}, which is 2**63 or more"
                    self.assertEqual(str(caught.exception), message)
        self.assertEqual(byte_unit.parse_many(pandas.Series(["1 EB"] * 20)).sum(), 20 * 10**18)


@unittest.skipUnless(HAS_PANDAS, "pandas is not installed")
class FormatSizes(unittest.TestCase):
    def test_dtypes(self) -> None:
        for dtype in ("Int64", "UInt64", "object", "category"):
            sizes = pandas.Series([1536, None, 0], list("abc"), dtype, "quota")
            texts = format_sizes(sizes)
            with self.subTest(dtype):
                self.assertEqual((str(texts.dtype), texts.name, list(texts.index)), ("string", "quota", list("abc")))
                self.assertEqual(texts.tolist(), ["1.5 KiB", pandas.NA, "0 B"])
        self.assertEqual(format_sizes(pandas.Series([2**63 - 1])).tolist(), [byte_unit.text(2**63 - 1)])
        for size, dtype in itertools.product((2**63 - 1, 10**30 - 1), (object, "category")):
            texts = format_sizes(pandas.Series([size, None], dtype=dtype))
            self.assertEqual(texts.tolist(), [byte_unit.text(size), pandas.NA])
        self.assertEqual(str(format_sizes(pandas.Series([], dtype="Int64")).dtype), "string")

    def test_options(self) -> None:
        sizes = pandas.Series([123456, 1536])
        self.assertEqual(format_sizes(sizes, unit="KiB", precision=1).tolist(), ["120.6 KiB", "1.5 KiB"])
        self.assertEqual(format_sizes(sizes, alternate=False, width=8, sign="plus").tolist(), [" +123456", "   +1536"])
        self.assertEqual(format_sizes(sizes, bits=True, align="right", width=9)[1], "  1.5 Kib")
        self.assertEqual(format_sizes(sizes, unit_type="binary").tolist(), ["120.6 KiB", "1.5 KiB"])
        ties = pandas.Series([1280, 2**20 - 1])
        self.assertEqual(format_sizes(ties, unit_type="binary").tolist(), ["1.2 KiB", "1024.0 KiB"])
        self.assertEqual(format_sizes(ties, unit_type="binary", alternate=True).tolist(), ["1.3 KiB", "1024 KiB"])
        self.assertEqual(format_sizes(ties, unit_type="binary", precision=None)[1], "1023.9990234375 KiB")
        self.assertEqual(format_sizes(ties, unit="KiB", precision=1)[0], "1.2 KiB")
        self.assertEqual(format_sizes(sizes, unit_type="decimal", precision=2, bits=True)[0], "123.46 Kb")
        for wrong in ({"unit": "KiB", "unit_type": "binary"}, {"precison": 1}, {"alternate": None}):
            for of in (sizes, sizes[:0]):
                with self.assertRaises(TypeError):
                    format_sizes(of, **wrong)
        for wrong in ({"unit_type": "iec"}, {"unit": "kib"}, {"precision": -1}, {"sign": "+"}):
            with self.assertRaises(ByteUnitError):
                format_sizes(sizes, **wrong)

    def test_wrong_sizes(self) -> None:
        for wrong in ([-1], [10**30]):
            with self.assertRaises(ByteUnitError):
                format_sizes(pandas.Series(wrong))
        for other in ([1.5], ["1"]):
            with self.assertRaises(TypeError):
                format_sizes(pandas.Series(other, dtype=object))
        for dtype, data in itertools.product(("float64", "float32", "Float64", "Sparse[float64]"), ([], [None], [1.0])):
            sizes = pandas.Series(data, dtype=dtype)
            for series in [sizes] if dtype[0] == "S" else [sizes, sizes.astype("category")]:
                message = "^sizes must be a Series of integers, not of .*[Ff]loat.*: make it Int64 first$"
                with self.subTest(dtype, data=data), self.assertRaisesRegex(TypeError, message):
                    format_sizes(series)
        for other in ([1], numpy.array([1]), pandas.DataFrame({"1": [2]}), 1):
            message = rf"^sizes must be a Series of pandas, .*, not [a-z.]*{type(other).__name__}$"
            with self.assertRaisesRegex(TypeError, message):
                format_sizes(other)

    def test_round_trip(self) -> None:
        sizes = pandas.Series([0, 1, 1536, 10**18 + 1, None], dtype="Int64")
        pandas.testing.assert_series_equal(to_sizes(format_sizes(sizes)), sizes)


if __name__ == "__main__":
    unittest.main()
