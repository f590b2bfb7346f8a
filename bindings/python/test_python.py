"""Tests the Python package: builds it offline, and runs its tests, its examples and mypy."""

import os
import re
import shutil
from glob import glob

import pytest
from byte_unit_dev.builds import copied
from byte_unit_dev.fixtures import (
    DEBIAN_PYTHON, call, check_needs, environment, is_there, need, output, parsed, path, read, write,
)  # fmt: skip
from byte_unit_dev.needs import PYTHON_PACKAGE

LINES = path("bindings/python/checks/lines.py")
# The files of the package's own tests, of which those that take longest come last.
LONG = ["test_columns.py", "test_package.py"]
TESTS = sorted(glob("test_*.py", root_dir=path("bindings/python/tests")), key=lambda name: (name in LONG, name))


@pytest.mark.parametrize("folder, words", [("/", "has no byte_unit.h and libbyte_unit.a"), ("OLD", "has no version")])
def test_one_line_says_what_is_missing(python_package, tmp_path, folder, words):
    for name in ("byte_unit.h", "libbyte_unit.a"):
        write(f"{tmp_path}/{name}", "")
    here = environment(BYTE_UNIT_LIBRARY_DIR=folder.replace("OLD", str(tmp_path)))
    got = call(DEBIAN_PYTHON, "setup.py", "--version", cwd=python_package, env=here)
    assert (got.returncode, got.stdout[:11], got.stdout.count("\n")) == (1, "byte_unit: ", 1) and words in got.stdout


def packed(package, folder, env):
    """Makes a source distribution in a folder, unpacks it there, and returns its names and its path."""
    output(DEBIAN_PYTHON, "setup.py", "sdist", "-d", folder, cwd=package, env=env)
    (source,) = folder.glob("byte_unit-*.tar.gz")
    shutil.unpack_archive(source, folder)
    made = folder / source.name.removesuffix(".tar.gz")
    return sorted(str(name.relative_to(made)) for name in made.rglob("*") if name.is_file()), made


def test_source_distribution(python_package, cargo, tmp_path):
    """It has sources alone. Where neither the repository nor a library is, cargo builds it, and its wheel needs no more
    than its tag says. That of what is unpacked has the same files."""
    need("readelf")
    here = environment(PKG_CONFIG_LIBDIR="/nowhere", CARGO="/nowhere")
    names, made = packed(python_package, tmp_path, here)
    assert "CHANGELOG.md" in names and not [name for name in names if re.search(r"\.(a|o|so|rlib)$", name)]
    (tmp_path / "again").mkdir()
    assert packed(made, tmp_path / "again", here)[0] == names
    here |= {"CARGO": cargo.cargo, "RUSTC": cargo.variables["RUSTC"], "CARGO_HOME": str(tmp_path)}
    words = [DEBIAN_PYTHON, "-m", "pip", "wheel", "--no-index", "--no-deps", "-w", tmp_path, made]
    output(*words, cwd=tmp_path, env=here)
    (wheel,) = tmp_path.glob("*.whl")
    assert wheel.name.endswith("-cp311-abi3-manylinux_2_17_x86_64.whl")
    check_needs(wheel, tmp_path / "wheel")
    program = "import byte_unit; print(byte_unit.parse('1.5 KiB'))"
    assert output(DEBIAN_PYTHON, "-c", program, cwd="/", env=environment(PYTHONPATH=tmp_path / "wheel")) == "1536\n"


def test_build_after_build(python_package, library, tmp_path):
    """The module is compiled with the library of this build, not of an earlier one."""
    other = shutil.copytree(library, tmp_path / "other", ignore=shutil.ignore_patterns("*.so*"))
    write(other / "byte_unit.h", read(other / "byte_unit.h").replace('VERSION_STRING "', 'VERSION_STRING "later than '))
    words = [DEBIAN_PYTHON, "setup.py", "build_ext", "--build-lib", tmp_path]
    for folder in (library, other):
        output(*words, cwd=python_package, env=environment(BYTE_UNIT_LIBRARY_DIR=folder))
        assert (b"later than" in (tmp_path / "byte_unit/_native.abi3.so").read_bytes()) == (folder == other)


@pytest.mark.parametrize("version, needs", [("60.10.0", "['setuptools>=61']"), ("61.0.0", "[]")])
def test_old_setuptools(python_package, version, needs):
    """pip is asked for a newer one, if the installed one is too old."""
    program = f"import importlib.metadata as m, backend; m.version = lambda _: '{version}'; print(backend.missing())"
    assert output(DEBIAN_PYTHON, "-B", "-c", program, cwd=python_package) == f"{needs}\n"


def test_its_c_has_no_warning(python):
    assert not re.search(r"\.[ch]:\d+.*warning: ", python.said), python.said


@pytest.mark.parametrize("name", TESTS)
def test_its_own_tests(python, tmp_path, name):
    words = ["discover", "-s", path("bindings/python/tests"), "-p", name]
    said = output(python.program, "-m", "unittest", *words, cwd=tmp_path, env=environment())
    modules = all(map(is_there, ("import numpy", "import pandas", "import _testcapi")))
    assert re.search(r"\nOK\n$" if modules else r"\nOK( \(skipped=\d+\))?\n$", said), said


def built(folder, **variables):
    """Builds the package in an environment with variables. Returns the folder that has it."""
    need(*PYTHON_PACKAGE)
    words = ["setup.py", "build", "--build-base", folder, "--build-lib", folder / "lib"]
    output(DEBIAN_PYTHON, *words, cwd=copied("python", folder), env=environment(**variables))
    return folder / "lib"


def test_its_c_with_sanitizers(library, tmp_path):
    """AddressSanitizer and UndefinedBehaviorSanitizer find nothing in the extension module."""
    flags = "-fsanitize=address,undefined -fno-sanitize-recover=all"
    lib = built(tmp_path, BYTE_UNIT_LIBRARY_DIR=library, CFLAGS=f"{flags} -g", LDFLAGS=flags)
    # Without Python's own allocator, so that each block has the sanitizer's zones around it.
    here = environment(PYTHONPATH=lib, PYTHONMALLOC="malloc", ASAN_OPTIONS="detect_leaks=0",
                       LD_PRELOAD=output("gcc", "-print-file-name=libasan.so").strip())  # fmt: skip
    tests = ["test_columns", "test_errors", "test_format", "test_parse", "test_results", "test_package.Arguments"]
    output(DEBIAN_PYTHON, "-m", "unittest", *tests, cwd=path("bindings/python/tests"), env=here)


# Calls, and the number of texts that each parses: what is rejected is parsed once more, for the message.
PARSED = {
    "parse('1 KB')": 1, "parse('1 x')": 2, "parse('1 x', binary=True)": 2, "explain('1 KB')": 1, "explain('1 x')": 1,
    "parse('5 bytes', words=True)": 1, "parse('5 bytes')": 2,
    "parse_unit('KiB')": 1, "parse_unit('x')": 2, "explain_unit('x')": 1, "parse_many(['1 KB', None, '1 x', ''])": 3,
    "parse_many(['1 KB', None, '1 x', ''], errors='raise')": 3, "parse_many(['1 KB', None], errors='raise')": 1,
    "parse_buffers(b'1 KB1 x', array('i', [0, 4, 7, 7]), validity=b'\\3')": 2,
    "parse_buffers(b'1 KB1 x', array('i', [0, 4, 7, 7]), errors='raise')": 3,
}  # fmt: skip


def test_texts_that_are_parsed(counting_library, tmp_path):
    need(*PYTHON_PACKAGE)
    lib = built(tmp_path, BYTE_UNIT_LIBRARY_DIR=counting_library)
    before = "from array import array; from byte_unit import *; "
    got = {code: call(DEBIAN_PYTHON, "-c", before + code, env=environment(PYTHONPATH=lib)).stdout for code in PARSED}
    assert {code: parsed(said) for code, said in got.items()} == PARSED
    assert "a hint is found" not in "".join(got.values())  # where no one asks for it


@pytest.mark.parametrize("kind", ["byte", "bit"])
def test_lines(python, check_lines, kind):
    check_lines([python.program, "-B", LINES], kind)


@pytest.mark.parametrize("words", [["-p", "byte_unit"], [LINES]], ids=["package", "program"])
def test_types(python_package, tmp_path, words):
    need("mypy")
    here = environment(MYPYPATH=os.path.join(python_package, "src"))
    output("mypy", "--strict", "--cache-dir", tmp_path, *words, cwd=tmp_path, env=here)


def test_options_of_its_page(python, tmp_path):
    need("import click", "import pydantic")
    block = re.search(r"```python\n(import argparse\n.*?)```", read("bindings/python/README.md"), re.S)[1]
    write(tmp_path / "page.py", block)
    here = environment(PYTHONPATH=tmp_path)
    said = output(python.program, path("bindings/python/checks/options.py"), cwd=tmp_path, env=here)
    assert said == "as on the page\n"


@pytest.mark.parametrize("part, needs", [
    ("the_standard_library", []), ("numpy", ["import numpy"]), ("pandas", ["import pandas"]),
    ("dask", ["import dask.dataframe"])], ids=["no module", "numpy", "pandas", "dask"])  # fmt: skip
def test_columns(python, tmp_path, part, needs):
    need(*needs)
    said = output(python.program, path("bindings/python/examples/columns.py"), cwd=tmp_path, env=environment())
    assert f"with_{part}: as expected" in said.splitlines()


@pytest.mark.parametrize("count, workers", [(10**5, "2"), pytest.param(10**7, "1 2 4", marks=pytest.mark.whole)])
def test_cluster(python, tmp_path, count, workers):
    """The job of the example for Dask over processes, one of which is ended."""
    need("import pandas", "import dask.dataframe", "import distributed")
    words = [path("bindings/python/checks/cluster.py"), str(count), *workers.split()]
    said = output(python.program, *words, cwd=tmp_path, env=environment())
    print(said)
    assert said.count("the same result") == len(workers.split()) + 1 and "one of them ended" in said
