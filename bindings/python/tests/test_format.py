"""Texts and units: long texts, numbers of each length, and the edges of the range of each argument."""

import decimal
import math
import random
import unittest
from collections.abc import Callable
from decimal import Decimal
from enum import IntEnum
from fractions import Fraction
from typing import Any

import byte_unit
from byte_unit import ByteUnitError


def passing(name: str, option: str) -> Callable[[Any], object]:
    """Returns what passes a value as an option of a call."""
    unit = ["KiB"] * (name in ("adjusted_text", "from_unit"))
    return lambda value: getattr(byte_unit, name)(1, *unit, **{option: value})


SIZE_CALLS = [byte_unit.text, lambda size: byte_unit.adjusted_text(size, "KiB"), byte_unit.approximate_text,
              byte_unit.appropriate_unit, byte_unit.exact_unit, byte_unit.recoverable_unit]  # fmt: skip
WITH_SPEC = ["text", "adjusted_text", "approximate_text"]
DIGIT_CALLS = [passing(name, option) for name in WITH_SPEC for option in ("width", "precision")]
DIGIT_CALLS += [passing("recoverable_unit", "precision")]
# Names of unit types, numbers that are out of every range, and objects that are no integers.
TYPES = ["binary", "decimal", "both"]
FAR = [-1, -(2**31), -(2**32) + 20, -(2**63), -(2**64), -(2**128), -(10**5000), 2**128, 2**128 + 1, 2**192, 10**5000]
NO_NUMBERS = [1.0, "1", b"1", Decimal(1), [1], object()]


class Choice(IntEnum):
    """A number that is an `int` and has a name."""

    SIZE = 1536


class Index:
    """A number that is no `int`, as those of numpy are."""

    def __index__(self) -> int:
        return 1536


def bits_of(count: "int | Decimal", unit: str) -> Fraction:
    """Returns the number of bits in a number of units."""
    power = "KMGTPEZYR".find(unit[0]) + 1
    return Fraction(count) * (1024 if "i" in unit else 1000) ** power * (8 if unit[-1] == "B" else 1)


class Texts(unittest.TestCase):
    def test_long_texts(self) -> None:
        """The longest one of each call, and one that is longer than the buffer that a call takes first."""
        for width in (257, 65535):
            right = {"width": width, "align": "right"}
            self.assertEqual(byte_unit.text(1, **right), "1 B".rjust(width))
            self.assertEqual(byte_unit.adjusted_text(1, "B", **right), "1 B".rjust(width))
            self.assertEqual(byte_unit.approximate_text(1024, **right), "1.0 KiB".rjust(width))
            self.assertEqual(byte_unit.adjusted_text(1, "KB", precision=width), "0.001".ljust(width + 2, "0") + " KB")

    def test_approximate(self) -> None:
        """The text is that of the appropriate unit."""
        rng = random.Random(1)
        for _ in range(2000):
            size, bits, unit_type = rng.randrange(10 ** rng.randrange(1, 31)), rng.random() < 0.5, rng.choice(TYPES)
            unit = byte_unit.appropriate_unit(size, bits=bits, unit_type=unit_type)
            options = {"bits": bits, "precision": rng.choice([None, 0, 1, 2, 30]), "width": rng.choice([None, 20]),
                       "alternate": rng.random() < 0.5, "sign": rng.choice([None, "minus"])}  # fmt: skip
            text = byte_unit.adjusted_text(size, unit, **options)
            self.assertEqual(byte_unit.approximate_text(size, unit_type=unit_type, **options), text)

    def test_numbers_of_each_length(self) -> None:
        """Compares with Python's fractions."""
        rng = random.Random(3)
        for _ in range(4000):
            size, bits = (rng.randrange(10**30) >> rng.randrange(99) << rng.randrange(9)) % 10**30, rng.random() < 0.5
            for choice in (byte_unit.exact_unit, byte_unit.recoverable_unit):
                count, unit = choice(size, bits=bits, either_kind=rng.random() < 0.5)
                self.assertEqual(bits_of(count, unit), size if bits else 8 * size)
            count, unit = rng.randrange(10 ** rng.randrange(1, 34)), rng.choice(byte_unit.UNITS)
            wanted = math.ceil(bits_of(count, unit) / (1 if bits else 8))
            if wanted < 10**30:
                self.assertEqual(byte_unit.from_unit(count, unit, bits=bits), wanted)
            else:
                with self.assertRaises(ByteUnitError):
                    byte_unit.from_unit(count, unit, bits=bits)

    def test_either_kind(self) -> None:
        """A kilobit is a unit for 125 bytes, but not of their kind."""
        for choice in (byte_unit.exact_unit, byte_unit.recoverable_unit):
            self.assertEqual((choice(125), choice(125, either_kind=True)), ((125, "B"), (1, "Kb")))
            self.assertEqual((choice(8000, bits=True), choice(8000, bits=True, either_kind=True)), ((8, "Kb"), (1, "KB")))

    def test_defaults_and_types(self) -> None:
        self.assertEqual(byte_unit.recoverable_unit(1555), (Decimal("1.555"), "KB"))
        for size, units in ((1536, ["KiB", "KB", "KiB"]), (1000, ["B", "KB", "KB"])):
            for unit_type, unit in zip(TYPES, units, strict=True):
                self.assertEqual(byte_unit.appropriate_unit(size, unit_type=unit_type), unit)

    def test_counts_are_decimals(self) -> None:
        for size, precision, number, unit in [
            (10**30 - 1, 27, "999.999999999999999999999999999", "RB"),
            (1555, 65535, "1.5185546875", "KiB"),
            (7, 0, "7", "B"),
        ]:
            with self.subTest(size, precision=precision), decimal.localcontext(decimal.Context(prec=1)):
                count, seen = byte_unit.recoverable_unit(size, precision=precision)
                self.assertEqual((type(count), str(count), seen), (Decimal, number, unit))
        self.assertIs(type(byte_unit.exact_unit(1000)[0]), int)


class Ranges(unittest.TestCase):
    def test_sizes(self) -> None:
        for call in SIZE_CALLS:
            for size in (0, 1, 2**63 - 1, 2**63, 2**64 - 1, 2**64, 10**30 - 1):
                call(size)
            for size in (10**30, 2**100, *FAR):
                with self.assertRaises(ByteUnitError):
                    call(size)

    def test_digits(self) -> None:
        for call in DIGIT_CALLS:
            for number in (0, 1, 28, 29, 255, 256, 65534, 65535):
                call(number)
            for number in (65536, 2**16 + 2, 2**31, 2**32, 2**32 + 2, 2**64 + 1, *FAR):
                with self.assertRaises(ByteUnitError):
                    call(number)

    def test_numbers_in_messages(self) -> None:
        """A number of at most 256 bits is shown whole."""
        shown = {10**30: str(10**30), 2**256 - 1: str(2**256 - 1), 2**256: "an integer of 257 bits", -1: "-1",
                 1 - 2**256: str(1 - 2**256), -(2**256): "an integer of 257 bits"}  # fmt: skip
        for number, text in shown.items():
            with self.assertRaises(ByteUnitError) as caught:
                byte_unit.text(number)
            self.assertEqual(str(caught.exception), f"size must be from 0 to 10**30 - 1, not {text}")

    def test_counts(self) -> None:
        self.assertEqual(byte_unit.from_unit(10**30 - 1, "B"), 10**30 - 1)
        self.assertEqual(byte_unit.from_unit(8 * 10**30 - 8, "b"), 10**30 - 1)
        for count, unit in [(10**30, "B"), (8 * 10**30 - 7, "b"), (1000, "RB"), (2**128 - 1, "b"), (2**128 - 1, "RiB")]:
            with self.assertRaises(ByteUnitError):
                byte_unit.from_unit(count, unit)
        for count in FAR:
            with self.assertRaisesRegex(ByteUnitError, r"^count must be from 0 to 2\*\*128 - 1, not "):
                byte_unit.from_unit(count, "B")
        for bits in (False, True):
            with self.assertRaises(ByteUnitError) as caught:
                byte_unit.from_unit(10**30, "KB", bits=bits)
            wanted = f"{10**30} KB must be less than 10**30 {'bits' if bits else 'bytes'}"
            self.assertEqual(str(caught.exception), wanted)

    def test_numbers_of_wrong_types(self) -> None:
        calls = [*SIZE_CALLS, *DIGIT_CALLS, lambda count: byte_unit.from_unit(count, "B")]
        for call in calls:
            for wrong in NO_NUMBERS:
                with self.subTest(wrong=wrong), self.assertRaises(TypeError):
                    call(wrong)
        for call in [*SIZE_CALLS, calls[-1]] + [lambda number: byte_unit.recoverable_unit(1, precision=number)]:
            with self.assertRaises(TypeError):
                call(None)

    def test_numbers_of_other_classes(self) -> None:
        for number in (True, Choice.SIZE, Index()):
            self.assertEqual(byte_unit.text(number), byte_unit.text(number.__index__()))

    def test_names(self) -> None:
        calls = [passing("text", "sign"), passing("text", "align"), lambda name: byte_unit.adjusted_text(1, name),
                 lambda name: byte_unit.from_unit(1, name), passing("appropriate_unit", "unit_type"),
                 passing("approximate_text", "unit_type")]  # fmt: skip
        for call in calls:
            for name in ("", "+", "PLUS", "kib", "KiB ", "b\0", "\ud800", "left,"):
                with self.subTest(name=name), self.assertRaises(ByteUnitError):
                    call(name)
            for wrong in (1, b"KiB", ["left"], object()):
                with self.subTest(wrong=wrong), self.assertRaises(TypeError):
                    call(wrong)
        for call in calls[2:]:
            with self.assertRaises(TypeError):
                call(None)

    def test_flags(self) -> None:
        """Each flag of each call is `True` or `False`, and nothing that Python takes for one of them."""
        exact = ["exact_unit", "recoverable_unit"]
        calls = [passing(name, "bits") for name in (*WITH_SPEC, "appropriate_unit", *exact, "from_unit")]
        calls += [passing(name, "alternate") for name in WITH_SPEC] + [passing(name, "either_kind") for name in exact]
        for call in calls:
            for flag in (None, 0, 2, 256, "no"):
                with self.subTest(flag=flag), self.assertRaises(TypeError):
                    call(flag)


if __name__ == "__main__":
    unittest.main()
