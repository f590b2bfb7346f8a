"""The package: its names, version, documentation, memory and behaviour in threads."""

import ast
import doctest
import gc
import importlib.metadata
import importlib.resources
import importlib.util
import inspect
import mmap
import os
import re
import subprocess
import sys
import tempfile
import threading
import time
import tracemalloc
import types
import unittest
import unittest.mock
from array import array
from collections.abc import Callable
from functools import partial
from typing import Any

import byte_unit
from byte_unit import _columns, _errors, _native

# The calls of the extension module that the package exports.
CALLS = [name for name in byte_unit.__all__ if inspect.isbuiltin(getattr(byte_unit, name))]
HAS_PANDAS = importlib.util.find_spec("pandas") is not None
# Names of modules that only type checkers see, and members of two classes of which the stubs of Python say less.
ONLY_TYPES = [
    r"byte_unit\._columns\.(Errors|Final|Iterable|Iterator|Literal|Overflow|SupportsIndex|TypeAlias|overload)",
    r"byte_unit\._columns\.(Mapping|Sequence)\..*",
    r"byte_unit\._errors\.Decimal",
    r"byte_unit\.pandas\.Callable",
]
HAS_MYPY = importlib.util.find_spec("mypy") is not None
_testcapi: Any = importlib.import_module("_testcapi") if importlib.util.find_spec("_testcapi") else None
README = os.path.join(os.path.dirname(os.path.abspath(__file__)), "../README.md")


# The function that unittest calls for the tests of a module: it adds the examples of all documentation.
def load_tests(loader: unittest.TestLoader, tests: unittest.TestSuite, pattern: str | None) -> unittest.TestSuite:
    names = {name: getattr(byte_unit, name) for name in byte_unit.__all__}
    for module in (byte_unit, _columns, _errors):
        tests.addTests(doctest.DocTestSuite(module, extraglobs=names))
    for name in CALLS:
        test = doctest.DocTestParser().get_doctest(getattr(byte_unit, name).__doc__, names, name, "docs.h", 0)
        tests.addTest(doctest.DocTestCase(test))
    if HAS_PANDAS:
        tests.addTests(doctest.DocTestSuite(importlib.import_module("byte_unit.pandas")))
    tests.addTests(doctest.DocFileSuite(os.path.relpath(README, os.path.dirname(os.path.abspath(__file__)))))
    return tests


class Package(unittest.TestCase):
    def test_names(self) -> None:
        for name in byte_unit.__all__:
            self.assertTrue(hasattr(byte_unit, name), name)
            value = getattr(byte_unit, name)
            if callable(value):
                self.assertTrue(value.__doc__, name)
            if name in CALLS:  # `help` shows it by this name, and it is pickled by it
                self.assertEqual((value.__module__, value.__qualname__), ("byte_unit", name))
        public = {name for name in vars(byte_unit) if not name.startswith("_")} - {"pandas"}
        self.assertEqual(public, set(byte_unit.__all__) - {"__version__"})
        self.assertEqual(len(CALLS), 11)

    def test_arguments(self) -> None:
        """Flags and options are keyword-only, and have one default each, but for those in `own`."""
        defaults = {"bits": False, "ignore_case": False, "binary": False, "words": False, "either_kind": False,
                    "alternate": False, "unit_type": "binary", "errors": "coerce", "validity_offset": 0}  # fmt: skip
        own = {("recoverable_unit", "precision"): 3, ("approximate_text", "precision"): 1, ("text", "alternate"): True}
        for name in byte_unit.__all__:
            value = getattr(byte_unit, name)
            if not inspect.isroutine(value):
                continue
            for argument in inspect.signature(value).parameters.values():
                with self.subTest(name, argument=argument.name):
                    is_option = argument.default is not argument.empty
                    self.assertEqual(argument.kind is argument.KEYWORD_ONLY, is_option)
                    if is_option:
                        wanted = own.get((name, argument.name), defaults.get(argument.name))
                        self.assertEqual(argument.default, wanted)
        for call in (byte_unit.parse, byte_unit.explain, byte_unit.parse_unit, byte_unit.explain_unit):
            with self.assertRaises(TypeError):
                call("B", True)

    def test_version(self) -> None:
        self.assertEqual(importlib.metadata.version("byte_unit"), byte_unit.__version__)

    def test_typed(self) -> None:
        self.assertTrue(importlib.resources.files("byte_unit").joinpath("py.typed").is_file())

    def test_stub(self) -> None:
        """The stub of the extension module declares what is there."""
        stub = ast.parse(importlib.resources.files("byte_unit").joinpath("_native.pyi").read_text("utf-8"))
        names = {node.name for node in stub.body if isinstance(node, ast.FunctionDef)}
        for node in stub.body:
            if isinstance(node, ast.AnnAssign) and isinstance(node.target, ast.Name) and node.value is None:
                names.add(node.target.id)
        self.assertEqual(names, {name for name in vars(_native) if not name.startswith("__")})

    @unittest.skipUnless(HAS_MYPY, "mypy is not installed")
    def test_stubs(self) -> None:
        """All modules are as their types say, but for names that only type checkers see."""
        with tempfile.TemporaryDirectory() as folder:
            allowed = os.path.join(folder, "allowed")
            with open(allowed, "w", encoding="utf-8") as file:
                file.write("\n".join(ONLY_TYPES))
            options = ["--concise", "--ignore-unused-allowlist", "--allowlist", allowed]
            modules = ["byte_unit"] if HAS_PANDAS else ["byte_unit._columns", "byte_unit._errors", "byte_unit._native"]
            words = [sys.executable, "-m", "mypy.stubtest", *options, *modules]
            ran = subprocess.run(words, cwd=folder, text=True, stdout=subprocess.PIPE, check=False)
        self.assertEqual((ran.returncode, ran.stdout), (0, ""))

    def test_needs(self) -> None:
        """The extension module needs nothing newer than the tag of its wheel says: glibc 2.17."""
        name = _native.__file__
        assert name
        with open(name, "rb") as file:
            found = {tuple(map(int, number.split(b"."))) for number in re.findall(rb"GLIBC_([0-9.]+)\0", file.read())}
        self.assertTrue(found)
        self.assertLessEqual(max(found), (2, 17))
        self.assertTrue(name.endswith(".abi3.so"))

    def test_metadata(self) -> None:
        metadata = importlib.metadata.metadata("byte_unit")
        self.assertEqual((metadata["Author"], metadata["License"]), ("Nedlufa maintainers", "MIT"))
        self.assertIn("Original, https://github.com/magiclen/Byte-Unit", metadata.get_all("Project-URL"))
        self.assertIn("parse_many", metadata.get_payload())

    def test_constants(self) -> None:
        self.assertEqual(byte_unit.SIZE_LIMIT, 10**30)
        self.assertEqual(byte_unit.UNITS[:6], ("b", "B", "Kb", "Kib", "KB", "KiB"))
        self.assertEqual(byte_unit.ERROR_NAMES[0], "ok")


class Arguments(unittest.TestCase):
    """A call that is written in C has the errors of one that is written in Python."""

    def assert_message(self, wanted: str, call: Any, *arguments: object, **named: object) -> None:
        with self.subTest(wanted), self.assertRaises(TypeError) as caught:
            call(*arguments, **named)
        self.assertEqual(str(caught.exception), wanted)

    def test_places(self) -> None:
        parse, adjusted = byte_unit.parse, byte_unit.adjusted_text
        self.assertEqual(parse(text="1.5 KiB", ignore_case=True, bits=False), 1536)
        self.assertEqual(adjusted(unit="KiB", precision=1, size=1536), "1.5 KiB")
        self.assertEqual(adjusted(1536, unit="KiB"), "1.5 KiB")
        self.assert_message("parse() missing 1 required positional argument: 'text'", parse)
        self.assert_message("parse() missing 1 required positional argument: 'text'", parse, bits=True)
        self.assert_message("parse() takes 1 positional argument but 2 were given", parse, "1", True)
        self.assert_message("parse() got multiple values for argument 'text'", parse, "1", text="1")
        for name in ("bit", "bitsy", "", "bits\0", "\ud800", "text "):
            self.assert_message(f"parse() got an unexpected keyword argument '{name}'", parse, "1", **{name: True})
        self.assert_message("adjusted_text() missing 1 required positional argument: 'unit'", adjusted, 1)
        self.assert_message("adjusted_text() missing 1 required positional argument: 'size'", adjusted, unit="B")
        both = "adjusted_text() missing 2 required positional arguments: 'size' and 'unit'"
        self.assert_message(both, adjusted, precision=1)
        self.assert_message("text must be str, bytes or int, not bytearray", parse, bytearray(b"1"))
        self.assert_message("text must be str or bytes, not bytearray", byte_unit.explain, bytearray(b"1"))
        self.assert_message("adjusted_text() takes 2 positional arguments but 3 were given", adjusted, 1, "B", 1)
        for call in map(byte_unit.__dict__.get, CALLS):
            for arguments in ((), (1, 2, 3, 4)):
                with self.assertRaises(TypeError):
                    call(*arguments)

    def test_private_calls(self) -> None:
        """The other functions reject what the modules above them never pass."""
        names = "hint parse_many parse_buffers ints part sum extremum first_large int64 float64 mask"
        for call in names.split():
            with self.subTest(call), self.assertRaises(TypeError):
                getattr(_native, call)()
        for call, more in [("ints", (0, 1)), ("part", (0, 1, 1)), ("sum", ()), ("extremum", (True,)),
                           ("first_large", ()), ("int64", (True,)), ("float64", ()), ("mask", (True,))]:
            for wrong in [(None, b""), (b"", None), (bytearray(16), b"1")]:
                with self.subTest(call, wrong=wrong), self.assertRaises(TypeError):
                    getattr(_native, call)(*wrong, *more)
            for lengths in [(15, 1), (16, 2), (32, 1), (0, 1), (16, 0)]:
                with self.subTest(call, lengths=lengths), self.assertRaises(ValueError):
                    getattr(_native, call)(*map(bytes, lengths), *more)
        for rows in [(0, 2), (2, 1), (2, 2), (-1, 1), (0, 2**64)]:
            with self.subTest(rows), self.assertRaises((IndexError, OverflowError)):
                _native.ints(bytes(16), bytes(1), *rows)
        for part in [(0, 1, 2), (1, 1, 1), (1, -1, 1), (0, 2**62, 2), (1, -(2**63), 1), (2**64, 1, 0), (0, 2**70, 2)]:
            with self.subTest(part), self.assertRaises((IndexError, OverflowError)):
                _native.part(bytes(16), bytes(1), *part)


class Threads(unittest.TestCase):
    def test_same_answers(self) -> None:
        texts = [f"{number}.5 KiB" for number in range(2000)] + ["1 x", ""]
        data = "".join(texts).encode()
        offsets = array("q", [0])
        for text in texts:
            offsets.append(offsets[-1] + len(text))
        wanted = byte_unit.parse_many(texts)
        seen: list[object] = []

        def work() -> None:
            for _ in range(20):
                seen.append(byte_unit.parse_buffers(data, offsets) == wanted == byte_unit.parse_many(texts))
            seen.append([byte_unit.parse(text) for text in texts[:-2]] == wanted.ints()[:-2])

        threads = [threading.Thread(target=work) for _ in range(8)]
        for thread in threads:
            thread.start()
        for thread in threads:
            thread.join(60)
        self.assertEqual(seen, [True] * (8 * 21))

    def test_columns_release_the_gil(self) -> None:
        """This thread goes on while another one parses long texts, in a buffer or in a list."""
        data = b"0" * 30_000_000
        buffers = (data, array("q", [0, len(data)]))
        for call, arguments in ((byte_unit.parse_buffers, buffers), (byte_unit.parse_many, ([data, b"1"] * 2,))):
            worker, turns = threading.Thread(target=call, args=arguments), 0
            worker.start()
            while worker.is_alive():
                turns += 1
                time.sleep(0.001)
            self.assertGreater(turns, 9)


# Texts that are rejected; a column, so short that the allocator counts each of its blocks; and calls of each kind.
WRONG: list[Any] = ["x", "1" * 40, "1000.5 RB", "1 Kx" * 20, b"\xff", "\ud800", "1 KÖ"]
MANY, OFFSETS = ["1 KB", "x", None, "\ud800", "é"] * 5, array("q", [0, 1, 2])
COLUMN = byte_unit.parse_many(MANY)
KINDS: list[Callable[[], object]] = [
    lambda: [*map(byte_unit.parse, ["999 RB", "1"])], lambda: [*map(byte_unit.explain, WRONG), *map(_native.hint, WRONG)],
    lambda: byte_unit.parse_many(MANY), lambda: byte_unit.parse_buffers(b"1x", OFFSETS, validity=b"\1"),
    lambda: byte_unit.text(10**29 + 1, width=400), lambda: byte_unit.approximate_text(10**29 + 1, width=400),
    lambda: byte_unit.recoverable_unit(10**29 + 1, precision=28), lambda: byte_unit.text(10**30),
    lambda: byte_unit.from_unit(2**70, "KB"), lambda: byte_unit.from_unit(10**30, "KB"),
    *(partial(call, text) for call in (byte_unit.parse, byte_unit.parse_unit) for text in WRONG),
    lambda: byte_unit.parse_many(MANY, errors="raise"), lambda: byte_unit.parse_many(["1", 2]),  # type: ignore
    lambda: byte_unit.parse_buffers(b"1x", OFFSETS, errors="raise"),
    lambda: byte_unit.parse_buffers(b"1\xff", OFFSETS, errors="raise"),
    lambda: byte_unit.parse_buffers(b"1", OFFSETS), lambda: byte_unit.parse_buffers(b"1x", OFFSETS, validity=b""),
    lambda: (list(COLUMN), COLUMN[::-2], COLUMN[:], COLUMN[0], COLUMN.sum(), COLUMN.max(), COLUMN.mask()),
    lambda: _native.part(COLUMN.sizes, COLUMN.codes, 1, 1, len(COLUMN)),  # its last row is out of range
    lambda: (COLUMN.int64(overflow="null"), COLUMN.uint128(), bytes(COLUMN.float64()), repr(COLUMN)),
    lambda: [(row, str(error)) for row, error in COLUMN.errors(MANY)],
]  # fmt: skip


def outcome(call: Callable[[], object]) -> object:
    """Returns what a call returns, or the type of what it raises."""
    try:
        return call()
    except Exception as error:
        return type(error)


class Memory(unittest.TestCase):
    def test_copies_are_freed(self) -> None:
        """Copies of half a megabyte or more. tracemalloc does not count those of the bytes of a buffer."""
        text, zeros = b"0" * 1_000_000, bytes(1_000_000)
        # Two pieces, of 1,024 texts and of one, which is longer than these.
        offsets, many = array("q", [*range(0, 488 * 1024 + 1, 488), len(text)]), array("q", zeros)

        def resident() -> int:
            with open("/proc/self/statm", encoding="ascii") as file:
                return int(file.read().split()[1]) * mmap.PAGESIZE

        before = resident()
        for _ in range(100):
            self.assertEqual(byte_unit.parse_buffers(text, offsets).codes, bytes(1025))
            self.assertEqual(byte_unit.parse_buffers(b"", many, validity=zeros).codes.count(7), len(many) - 1)
            self.assertEqual(byte_unit.parse_many([text, text.decode()]).ints(), [0, 0])
            with self.assertRaises(byte_unit.SizeError):
                byte_unit.parse_buffers(text[:-1] + b"x", offsets, errors="raise")
            with self.assertRaises(byte_unit.ByteUnitError):
                byte_unit.parse_buffers(text, array("q", [0, len(text), 0]))
        self.assertLess(resident() - before, 30_000_000)

    def test_nothing_is_kept(self) -> None:
        """Neither results nor errors leave blocks or references."""
        kept = ["unit", byte_unit.UNITS, byte_unit.ERROR_NAMES, byte_unit.SizeError, *WRONG]
        if sys.version_info < (3, 12):
            kept += [None, True, False]  # from 3.12 on they are never freed, and not all of their uses are counted

        def work() -> None:
            for call in KINDS * 1000:
                outcome(call)

        work()
        tracemalloc.start()
        self.addCleanup(tracemalloc.stop)
        before, references = tracemalloc.get_traced_memory()[0], [*map(sys.getrefcount, kept)]
        work()
        self.assertLess(tracemalloc.get_traced_memory()[0] - before, 20_000)
        for object_, count in zip(kept, references, strict=True):
            self.assertLess(abs(sys.getrefcount(object_) - count), 100)  # not one for each call


def fails(place: int, call: Callable[[], object]) -> object:
    """Makes a call, in which the allocation at a place fails."""
    _testcapi.set_nomemory(place, place + 1)
    try:
        return call()
    except SystemError as error:  # CPython itself has no memory for the traceback of an error
        raise MemoryError if str(error) == "error return without exception set" else error
    finally:
        _testcapi.remove_mem_hooks()


@unittest.skipUnless(_testcapi, "this CPython has no module _testcapi, by which an allocation fails")
class NoMemory(unittest.TestCase):
    def fail_in_turn(self, call: Callable[[], object], wanted: object) -> int:
        """Makes the call until 20 failures in a row change nothing. Returns the number of those that do."""
        place = times = last = 0
        while place < last + 20:
            found = outcome(partial(fails, place, call))
            place += 1
            if found is MemoryError:
                times, last = times + 1, place
            else:
                self.assertEqual(found, wanted)
        return times

    def test_each_allocation_fails_in_turn(self) -> None:
        """The call raises MemoryError, and leaves no block, whichever allocation fails."""
        for number, call in enumerate(KINDS):
            wanted = outcome(call)
            with self.subTest(number, wanted=wanted):
                self.assertGreater(self.fail_in_turn(call, wanted), 0)
                rounds = none_left = 0
                while none_left < 3 and rounds < 60:  # in some of the first ones CPython fills its caches
                    before, rounds = sys.getallocatedblocks(), rounds + 1
                    self.fail_in_turn(call, wanted)
                    gc.collect()
                    none_left = none_left + 1 if sys.getallocatedblocks() <= before else 0
                self.assertEqual(none_left, 3, "each round leaves a block or more")

    def test_the_first_null_of_pandas(self) -> None:
        """It is null, or raises MemoryError; the next ones are null."""
        pandas = types.SimpleNamespace(NA=object(), NaT=object())
        spec: Any = importlib.util.spec_from_file_location("byte_unit._native", _native.__file__)
        with unittest.mock.patch.dict(sys.modules, pandas=pandas):
            for place in range(20):
                module = importlib.util.module_from_spec(spec)  # a new one, which has not seen pandas
                spec.loader.exec_module(module)
                call = partial(module.parse_many, [pandas.NA, pandas.NaT], *[False] * 5)
                self.assertIn(outcome(partial(fails, place, call)), (MemoryError, (bytes(32), b"\7\7")))
                self.assertEqual(call(), (bytes(32), b"\7\7"))


if __name__ == "__main__":
    unittest.main()
