"""Runs the C library for other processors under qemu-user: for aarch64, also in the package for Python, and, built by
cargo, for processors of 32 bits and a big-endian one; and the example of the Rust package for a Cortex-M4 under
qemu-system-arm."""

import os
import re
import types

import pytest
from byte_unit_dev import debian
from byte_unit_dev.fixtures import (
    DEBIAN_PYTHON, PYTHON_PACKAGE, check_needs, compiled, copied, differing, environment, need, output, path, printed,
    read,
)  # fmt: skip
from byte_unit_dev.libraries import AARCH64, CORTEX_M4, TARGET_CC, built_by_cargo
from byte_unit_dev.model.exact import output_for, some_line
from byte_unit_dev.rows import BY_PYTHON, check_program

# What runs the programs of each target.
TARGETS = {AARCH64: "qemu-aarch64", "i686-unknown-linux-gnu": "qemu-i386", "armv7-unknown-linux-gnueabihf": "qemu-arm",
           "s390x-unknown-linux-gnu": "qemu-s390x"}  # fmt: skip
# The library of one target, and its core, has rustc's checks of overflow and its debug assertions.
CHECKED = "armv7-unknown-linux-gnueabihf"
CHECKS = {f"CARGO_PROFILE_RELEASE_{name}": "true" for name in ("OVERFLOW_CHECKS", "DEBUG_ASSERTIONS")}
FOR_AARCH64 = pytest.mark.parametrize("programs_of_target", [AARCH64], indirect=True)


@pytest.fixture(scope="module", params=TARGETS)
def programs_of_target(request, tmp_path_factory):
    """Returns what links a program of bindings/c with the library for a target, and returns the words that run it."""
    run, cc = TARGETS[request.param], TARGET_CC[request.param]
    system = f"/usr/{cc.removesuffix('-gcc')}"
    need(run, cc, f"{system}/include/stdio.h")
    words = ["--after-ci"] * (request.param == AARCH64 and request.config.getoption("after_ci"))
    here = {} if request.param == AARCH64 else {"env": environment(
        RUSTC=request.getfixturevalue("newest_rustc"), **CHECKS if request.param == CHECKED else {})}  # fmt: skip
    folder = tmp_path_factory.mktemp("target")
    output(path("tools/make-libraries"), folder, "--target", request.param, *words, **here)

    def program(source, library="libbyte_unit.a", standard="c11"):
        flags = [f"-std={standard}", "-O2", "-Wall", "-Wextra", "-Werror", "-I", folder, path("bindings/c", source)]
        made = folder / f"{os.path.basename(source)}-{library}"
        return [run, "-L", system, compiled(cc, made, *flags, folder / library, f"-Wl,-rpath,{folder}")]

    program.folder, program.cc, program.run = folder, cc, run
    return program


@pytest.mark.parametrize("library", ["libbyte_unit.a", "libbyte_unit.so"])
@pytest.mark.parametrize("source", ["examples/example.c", "checks/arguments.c"])
def test_program(programs_of_target, source, library):
    output(*programs_of_target(source, library))


def test_rows(programs_of_target):
    check_program(programs_of_target("checks/vectors.c", standard="gnu11"))


@pytest.mark.parametrize("kind", ["byte", "bit"])
def test_lines(programs_of_target, check_runner, kind):
    check_runner(programs_of_target("checks/vectors.c", standard="gnu11"), kind)


@pytest.fixture(scope="module")
def python_of_target(programs_of_target, tmp_path_factory):
    """The words that run Debian's Python for a target with the package's wheel, and the path of the wheel."""
    need(*PYTHON_PACKAGE, "apt-get", "mmdebstrap", "unshare", "readelf")
    folder, cc = tmp_path_factory.mktemp("python-of-target"), programs_of_target.cc
    root, minor = folder / "root", output(DEBIAN_PYTHON, "-c", "import sys; print(sys.version_info[1])").strip()
    python = f"python3.{minor}"
    debian.make(root, [f"lib{python}-dev", f"{python}-minimal"], debian.AARCH64)
    here = environment(BYTE_UNIT_LIBRARY_DIR=programs_of_target.folder, _PYTHON_HOST_PLATFORM="linux-aarch64", CC=cc,
                       LDSHARED=f"{cc} -shared", LDFLAGS="-s", CFLAGS=f"-g0 -I{root}/usr/include")  # fmt: skip
    output(DEBIAN_PYTHON, "setup.py", "bdist_wheel", "-d", folder, cwd=copied("python", folder), env=here)
    (made,) = folder.glob("*.whl")
    check_needs(made, folder / "package")
    words = ["env", f"PYTHONPATH={folder}/package", programs_of_target.run, "-L", root, f"{root}/usr/bin/{python}"]
    return types.SimpleNamespace(words=words, wheel=made)


@FOR_AARCH64
def test_python(python_of_target):
    """Debian's Python for aarch64 runs the tests of the package, but those that start it again, by its own path."""
    assert python_of_target.wheel.name.endswith("-cp311-abi3-manylinux_2_17_aarch64.whl")
    names = [f"test_{name}" for name in ("parse", "format", "columns", "results", "package")]
    words = [*python_of_target.words, "-m", "unittest", *names, "test_errors.Errors"]
    output(*words, cwd=path("bindings/python/tests"), env=environment())


@FOR_AARCH64
def test_rows_in_python(python_of_target):
    check_program([*python_of_target.words, path("vectors/run_python.py")], BY_PYTHON, env=environment())


def test_embedded(newest_rustc, check_drawn, monkeypatch):
    """The example prints the sizes of drawn lines, some of them longer than its buffer, in the memory that the page says."""
    need("qemu-system-arm", "ld.lld")
    monkeypatch.setenv("RUSTC", newest_rustc)
    example = "bindings/rust/examples/embedded"
    program = built_by_cargo(CORTEX_M4, "sizes", "--", "-Clink-arg=-Tmemory.ld", package=example)
    # Semihosting gives the program the standard input and output of qemu.
    command = ["qemu-system-arm", "-machine", "mps2-an386", "-display", "none", "-monitor", "none", "-serial", "none",
               "-semihosting-config", "enable=on,target=native", "-kernel", program]  # fmt: skip

    def wrong(lines):
        said = [output_for(line, "byte") if len(line) <= 64 else "" for line in lines]
        wanted = [text if "=" in text else "rejected" for text in said]
        return differing(lines, wanted, printed(command, lines))

    check_drawn(lambda rng: some_line(rng)[:60].ljust(rng.randrange(70)), wrong)
    flash, ram = (f"{int(length):,}" for length in re.findall(r"LENGTH = (\d+)", read(f"{example}/memory.ld")))
    assert f"{flash} bytes of flash and {ram} bytes of RAM" in read("bindings/rust/README.md")
