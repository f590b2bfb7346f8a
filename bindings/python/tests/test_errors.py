"""Errors: their classes, copies, pickles and texts, and pools of processes."""

import concurrent.futures
import copy
import multiprocessing
import pickle
import unittest
from decimal import Decimal

import byte_unit
from byte_unit import ByteUnitError, SizeError

# A text for each name of an error, and a lone surrogate.
TEXTS = ["", "x", "1" * 40, "1000.5 RB", "1 Kx", b"\xff", "\ud800"]


# A text, and the message of its error, with the characters that a unit may begin with.
TEN = "'B', 'K', 'M', 'G', 'T', 'P', 'E', 'Z', 'Y' or 'R' or no character"
MESSAGES = [
    ("1,5 GB", f"'1,5 GB' is not a size: the character ',' is incorrect ({TEN} is expected) (character 2)"),
    (b"1,5 GB", f"b'1,5 GB' is not a size: the character ',' is incorrect ({TEN} is expected) (character 2)"),
    ("", "'' is not a size: no value can be found (at the end of the text)"),
    ("\u3000-1", "'\\u3000-1' is not a size: the character '-' is not a number (character 2)"),
    ("\u3000-1".encode(), "b'\\xe3\\x80\\x80-1' is not a size: the character '-' is not a number (character 2)"),
    ("1.\n", "'1.\\n' is not a size: the character '.' is not a number (at the end of the text)"),
    ("1\u202eBK",
     f"'1\\u202eBK' is not a size: the character '\\u{{202e}}' is incorrect ({TEN} is expected) (character 2)"),
    ("1000 RB", "'1000 RB' is not a size: the value 1000 exceeds the valid range"),
    (b"\xff", "b'\\xff' is not a size: the text is not UTF-8"),
    ("\ud800", "'\\ud800' is not a size: the text is not UTF-8"),
    ("1." + "0" * 78, f"'1.{'0' * 78}' is not a size: value number is too long (character 31)"),
    ("1." + "0" * 79, f"'1.{'0' * 78}'.. is not a size: value number is too long (character 31)"),
    (b"1." + b"0" * 79, f"b'1.{'0' * 78}'.. is not a size: value number is too long (character 31)"),
]


def caught(text: str | bytes) -> SizeError:
    try:
        byte_unit.parse(text)
    except SizeError as error:
        return error
    raise AssertionError(text)


def fields(error: SizeError) -> tuple[object, ...]:
    names = "name character expected also_expect_no_character number text data row position hint args".split()
    return (str(error), *(getattr(error, name) for name in names))


class Errors(unittest.TestCase):
    def test_classes(self) -> None:
        self.assertTrue(issubclass(SizeError, ByteUnitError))
        self.assertTrue(issubclass(ByteUnitError, ValueError))
        self.assertEqual([cls.__module__ for cls in (SizeError, ByteUnitError)], ["byte_unit"] * 2)

    def test_messages(self) -> None:
        for text, message in MESSAGES:
            with self.subTest(text):
                self.assertEqual(str(caught(text)), message)
                self.assertTrue(message.endswith(f": {byte_unit.explain(text)}"))
        with self.assertRaises(SizeError) as unit:
            byte_unit.parse_unit(" Kix")
        reason = "the character 'x' is incorrect ('B' or 'b' or no character is expected) (character 4)"
        self.assertEqual(byte_unit.explain_unit(" Kix"), reason)
        self.assertEqual(str(unit.exception), f"' Kix' is not a unit: {reason}")
        self.assertEqual(str(SizeError("a message", "unit")), "a message")

    def test_copies(self) -> None:
        for text in TEXTS:
            error = caught(text)
            error.add_note("in a test")
            copies = [copy.copy(error), copy.deepcopy(error)]
            copies += [pickle.loads(pickle.dumps(error, version)) for version in range(pickle.HIGHEST_PROTOCOL + 1)]
            for other in copies:
                self.assertIs(type(other), SizeError)
                self.assertEqual(fields(other), fields(error))
                self.assertEqual(other.__notes__, ["in a test"])
        for error in (ByteUnitError("a message"),):
            self.assertEqual(pickle.loads(pickle.dumps(error)).args, error.args)

    def test_subclass(self) -> None:
        error = copy.copy(Renamed("a message", "unit", "x"))
        self.assertEqual((type(error), error.character), (Renamed, "x"))

    def test_text(self) -> None:
        for text in [*TEXTS, b"1 x", b"", b"\xff\xc3\xa9", "x" * 100_000]:
            error = caught(text)
            self.assertIs(error.text if error.data is None else error.data, text)
            if error.data is not None:
                self.assertEqual(error.text.encode("utf-8", "surrogateescape"), error.data)
            self.assertIsNone(error.row)
        self.assertEqual(caught(b"\xff\xc3\xa9").text, "\udcff\u00e9")
        with self.assertRaises(SizeError) as unit:
            byte_unit.parse_unit("Kx")
        self.assertEqual((unit.exception.text, unit.exception.args[0]), ("Kx", byte_unit.explain_unit("Kx")))
        plain = SizeError("a message", name="unit", expected="Bb")
        self.assertEqual((plain.text, plain.row, plain.expected, plain.args[3]), ("", None, "Bb", "Bb"))
        self.assertEqual((plain.position, pickle.loads(pickle.dumps(unit.exception)).position), (None, 1))

    def test_fields_are_those_of_the_constructor(self) -> None:
        for text in TEXTS:
            error = caught(text)
            made = SizeError(*error.args)
            made.text, made.data, made.position = error.text, error.data, error.position
            self.assertEqual(fields(made), fields(error))


class Renamed(SizeError):
    """A subclass, as a caller may write one."""


class Pools(unittest.TestCase):
    def test_executor(self) -> None:
        for method in multiprocessing.get_all_start_methods():
            context = multiprocessing.get_context(method)
            with self.subTest(method), concurrent.futures.ProcessPoolExecutor(2, mp_context=context) as pool:
                results = [pool.submit(byte_unit.parse, text) for text in ("1 KB", "1000.5 RB", "2 KB")]
                with self.assertRaises(SizeError) as error:
                    results[1].result(timeout=60)
                self.assertEqual(error.exception.number, Decimal("1000.5"))
                self.assertEqual([results[0].result(timeout=60), results[2].result(timeout=60)], [1000, 2000])

    def test_pool(self) -> None:
        with multiprocessing.Pool(2) as pool:
            with self.assertRaises(SizeError) as error:
                pool.map_async(byte_unit.parse, ["1 KB", "1 x"]).get(timeout=60)
            self.assertEqual(error.exception.character, "x")
            with self.assertRaises(ByteUnitError):
                pool.map_async(byte_unit.text, [1, 10**30]).get(timeout=60)
            self.assertEqual(pool.map_async(byte_unit.parse, ["1 KB", "2 KB"]).get(timeout=60), [1000, 2000])


if __name__ == "__main__":
    unittest.main()
