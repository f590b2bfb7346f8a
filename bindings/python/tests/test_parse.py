"""Parsing of one text: fields of errors, positions, types and flags. The test vectors have the sizes and messages."""

import unittest
from array import array
from collections.abc import Callable
from decimal import Decimal

import byte_unit
from byte_unit import ByteUnitError, SizeError

# text, flags, name, character, expected, also_expect_no_character, number, message
ERRORS = [
    (" \u2003\n", {}, "no_value", None, "", False, None, "no value can be found (at the end of the text)"),
    ("1.é", {"bits": True}, "not_number", "é", "", False, None, "the character 'é' is not a number (character 3)"),
    ("1" * 40, {}, "number_too_long", None, "", False, None, "value number is too long (character 35)"),
    ("1K😀", {"ignore_case": True}, "unit", "😀", "B", True, None,
     "the character '😀' is incorrect ('B' or no character is expected) (character 3)"),
    ("1000.5 RB", {}, "exceeded_bounds", None, "", False, Decimal("1000.5"),
     "the value 1000.5 exceeds the valid range"),
    ("900 RB", {"binary": True}, "exceeded_bounds", None, "", False, Decimal(900),
     "the value 900 exceeds the valid range"),
    (b"1\xed\xa0\x80", {}, "not_utf8", None, "", False, None, "the text is not UTF-8"),
    ("\udcc3\udca9", {}, "not_utf8", None, "", False, None, "the text is not UTF-8"),
]

# the index of the first wrong character, and the text
POSITIONS = [(2, "1."), (4, "  1.  "), (1, "\u00a0x"), (4, "\u30001 K\u00d6B"), (3, "1 K\U0001f600"), (30, "1." + "0" * 29),
             (None, "1000.5 RB"), (None, "1\ud800"), (None, b"\xff")]  # fmt: skip
UNIT_POSITIONS = [(4, " Kbi "), (1, "K\u00d6B"), (1, "\u3000\u00e9"), (None, "\ud800")]

# texts in words, the flags beside `words`, and their sizes
WORDS = [("5 bytes", {}, 5), ("5bytes", {}, 5), ("10 MegaBytes", {}, 10**7), ("3 kibibits", {}, 384),
         ("3 kibibits", {"bits": True}, 3072), ("64 KBytes", {"binary": True}, 65536), ("20 octets", {}, 20)]  # fmt: skip
# texts that are rejected without words, and their hints
HINTS = [("5 bytes", "write 'B', or read it with the option 'words'"), ("2 gigs", "write 'GB'"),
         ("1 Mbps", "a size has no rate: leave out what it is per second"),
         ("1,024", "digits are not grouped, and the point is '.'"), ("-1", "a size is not negative"),
         (".5", "a size begins with a number as in '12' or '1.5'"), ("5 KBx", None), ("1000 RB", None), ("\ud800", None),
         ("5 b\u00ffte", None)]  # fmt: skip


def caught(call: Callable[..., object], argument: object, **options: object) -> SizeError:
    try:
        call(argument, **options)
    except SizeError as error:
        return error
    raise AssertionError(argument)


class Parse(unittest.TestCase):
    def test_errors(self) -> None:
        for text, flags, *fields, message in ERRORS:
            with self.subTest(text[:40], **flags):
                error = caught(byte_unit.parse, text, **flags)
                seen = [error.name, error.character, error.expected, error.also_expect_no_character, error.number]
                self.assertEqual(seen, fields)
                self.assertEqual((error.args[0], byte_unit.explain(text, **flags)), (message, message))
                self.assertIn(error.name, byte_unit.ERROR_NAMES)

    def check_size(self, text: str, size: int, **flags: bool) -> None:
        """Checks that each call reads the text as the size."""
        with self.subTest(text, **flags):
            self.assertEqual(byte_unit.parse(text, **flags), size)
            self.assertEqual(byte_unit.parse_many([text, None], **flags).ints(), [size, None])
            offsets = array("i", [0, len(text)])
            self.assertEqual(byte_unit.parse_buffers(text.encode(), offsets, **flags)[0], size)
            self.assertIsNone(byte_unit.explain(text, **flags))

    def test_binary_prefixes(self) -> None:
        for text, flags, size in [("10m", {}, 10 * 2**20), ("1.5 KiB", {}, 1536), ("0.1 K", {}, 103),
                                  ("100 mb", {"ignore_case": True}, 100 * 2**20), ("1 Kb", {"bits": True}, 1024)]:  # fmt: skip
            self.check_size(text, size, binary=True, **flags)
        with self.assertRaises(TypeError):
            byte_unit.parse_unit("K", binary=True)

    def test_words(self) -> None:
        for text, flags, size in WORDS:
            self.check_size(text, size, words=True, **flags)
            self.assertEqual(caught(byte_unit.parse, text, **flags).name, "unit")
        for text in ("5 byte s", "5 b\u00fftes"):
            error = caught(byte_unit.parse, text)
            self.assertEqual(caught(byte_unit.parse, text, words=True).args, error.args)
            self.assertEqual(byte_unit.explain(text, words=True), error.args[0])

    def test_hints(self) -> None:
        for text, hint in HINTS:
            with self.subTest(text):
                self.assertEqual(caught(byte_unit.parse, text).hint, hint)
                self.assertEqual(caught(byte_unit.parse, text.encode(errors="surrogatepass")).hint, hint)
        self.assertIsNone(caught(byte_unit.parse_unit, "gigs").hint)
        made = SizeError("a message", "unit")
        self.assertIsNone(made.hint)
        made.text = "5 KB"  # a size
        self.assertIsNone(made.hint)
        self.assertIsNone(caught(byte_unit.parse, "1000 ronnabytes", words=True).hint)  # it is read, and too large
        self.assertEqual(caught(byte_unit.parse_many, ["5 bytes"], errors="raise").hint, HINTS[0][1])

    def test_positions(self) -> None:
        """`text[position]` is the wrong character, or the text ends there, before white space."""
        for call, rows in ((byte_unit.parse, POSITIONS), (byte_unit.parse_unit, UNIT_POSITIONS)):
            for position, text in rows:
                with self.subTest(call.__name__, text=text):
                    error = caught(call, text)
                    self.assertEqual(error.position, position)
                    if position is not None:
                        self.assertEqual(caught(call, text.encode()).position, len(text[:position].encode()))
        column = byte_unit.parse_many(["1", "1 K\u00d6"])
        self.assertEqual([error.position for _, error in column.errors(["1", "1 K\u00d6"])], [3])
        self.assertEqual(caught(byte_unit.parse_many, ["1", "1 K\u00d6"], errors="raise").position, 3)

    def test_types(self) -> None:
        for call in (byte_unit.parse, byte_unit.explain, byte_unit.parse_unit, byte_unit.explain_unit):
            for wrong in (None, 1.5, True, ["1"], bytearray(b"1"), memoryview(b"1"), object()):
                with self.subTest(call.__name__, wrong=wrong), self.assertRaises(TypeError):
                    call(wrong)
            flags = ["bits", "ignore_case"] + ["binary", "words"] * (call in (byte_unit.parse, byte_unit.explain))
            for flag in flags:
                for value in (None, 0, 1, "no", 1.0):
                    with self.subTest(call.__name__, flag=flag, value=value), self.assertRaises(TypeError):
                        call("1", **{flag: value})

        for texts in (byte_unit.explain, byte_unit.parse_unit, byte_unit.explain_unit):
            with self.assertRaises(TypeError):
                texts(1)  # type: ignore[operator]

    def test_numbers(self) -> None:
        class Index:
            def __index__(self) -> int:
                return 1536

        for number in (0, 1536, 2**64 - 1, 2**64, 10**30 - 1):
            for flags in ({}, {"bits": True}, {"binary": True, "ignore_case": True}):
                self.assertEqual(byte_unit.parse(number, **flags), number)
        self.assertEqual(byte_unit.parse(Index()), 1536)
        for number in (-1, 10**30):
            with self.assertRaisesRegex(ByteUnitError, rf"^size must be from 0 to 10\*\*30 - 1, not {number}$"):
                byte_unit.parse(number)
        with self.assertRaisesRegex(TypeError, r"not float, .*: write a str such as '1\.5 GB', or int\(x\) for a whole"):
            byte_unit.parse(1.5)  # type: ignore[arg-type]
        for wrong, name in ((True, "bool"), (Decimal(1), "Decimal")):
            with self.assertRaisesRegex(TypeError, f"^text must be str, bytes or int, not {name}$"):
                byte_unit.parse(wrong)  # type: ignore[arg-type]

    def test_subclasses_of_str(self) -> None:
        class Word(str):
            pass

        self.assertEqual(byte_unit.parse(Word("1.5 KiB")), 1536)
        self.assertEqual(byte_unit.parse_many([Word("1.5 KiB")]).ints(), [1536])

    def test_units(self) -> None:
        for unit in byte_unit.UNITS:
            self.assertEqual(byte_unit.parse_unit(unit), unit)
            self.assertIsNone(byte_unit.explain_unit(unit.encode()))
        for text, flags, reason in [("Kx", {}, "'B' or 'b' or no character"),
                                    ("Kix", {"ignore_case": True, "bits": True}, "'b' or no character")]:  # fmt: skip
            message = f"the character 'x' is incorrect ({reason} is expected) (character {len(text)})"
            error = caught(byte_unit.parse_unit, text, **flags)
            self.assertEqual((error.name, error.args[0], byte_unit.explain_unit(text, **flags)), ("unit", message, message))
        for text in (b"\xff", "\ud800"):
            error = caught(byte_unit.parse_unit, text)
            self.assertEqual(error.args[:2], ("the text is not UTF-8", "not_utf8"))


if __name__ == "__main__":
    unittest.main()
