"""What the tests share: their options, fixtures of what is built once, comparisons, runs of programs, and the lines
that pytest ends with. They import what they use of the tools from here, too."""

import contextlib
import fcntl
import functools
import os
import random
import re
import shutil
import subprocess
import types
from itertools import zip_longest
from pathlib import Path

import pytest

from . import debian
from .builds import CONFIG, copied, environment, programs
from .common import ROOT, call, copy_to, output, path, read, write
from .libraries import HEADER, functions, replace_calls
from .model.exact import form, output_for, size_of, some_line
from .needs import CARGO_PROGRAMS, DEBIAN_PYTHON, PACKAGES, PYTHON_PACKAGE, SERDE, is_there

# The first cargo of the path, and Debian's.
CARGOS = list(dict.fromkeys([shutil.which("cargo") or "cargo", "/usr/bin/cargo"]))
# A folder that keeps what is built from one call to the next, with another mutant, if there is one.
KEPT = os.environ.get("BYTE_UNIT_KEPT")
# A folder that keeps it from one call to the next, of the same sources, if there is one.
SHARED = os.environ.get("BYTE_UNIT_SHARED")
# The programs that cargo makes, too, by their crates.
BY_CARGO = {"byte_unit_cli": "byte-unit", "byte_unit_lines": "byte_unit_lines"}


def pytest_addoption(parser):
    parser.addoption("--after-ci", action="store_true", help="use the libraries and programs that rt ci has built")
    parser.addoption("--lines", type=int, default=4000, help="the number of generated lines, and of generated calls")
    parser.addoption("--seed", type=int, default=1, help="chooses what is generated")


def need(*needs):
    """Skips the test that calls this if something that it needs is missing."""
    for name in needs:
        if not is_there(name):
            tried = "BYTE_UNIT_SETUP" in os.environ
            why = "could not be installed" if tried else f"is missing (Debian: {PACKAGES[name]})"
            pytest.skip(f"{name.removeprefix('import ')} {why}")


def compiled(compiler, out, *words, **more):
    """Compiles without a warning, and returns the path of what is made."""
    # clang++ needs the library of g++.
    need(compiler, *["g++"] * (compiler == "clang++"))
    assert output(compiler, *words, "-o", out, **more) == ""
    return out


def ended(*words, **how):
    """Runs a program. Returns its exit status, and the bytes of its standard output and standard error."""
    how = {"stdout": subprocess.PIPE, "stderr": subprocess.PIPE, "timeout": 600, **how}
    got = subprocess.run(words, check=False, **how)
    return got.returncode, got.stdout, got.stderr


def redirected(how, *words, data=b"1 KB\n"):
    """Returns what `ended` does, for a program of which the shell redirects a stream, such as `> /dev/full`."""
    return ended("sh", "-c", f'exec "$0" "$@" {how}', *words, input=data)


@pytest.fixture
def start(program):
    """Returns what starts the program with words and streams; it is ended after the test."""
    with contextlib.ExitStack() as stack:
        def started(*words, **streams):
            streams = {"stdout": subprocess.PIPE, "stderr": subprocess.PIPE, **streams}
            child = subprocess.Popen([program, *words], **streams)
            stack.callback(child.kill)
            return child

        yield started


@pytest.fixture
def closed():
    """The end for writing of a pipe that nothing reads."""
    reader, writer = os.pipe()
    os.close(reader)
    with open(writer, "wb") as file:
        yield file


@pytest.fixture(scope="session")
def program_of(request):
    """Returns the program of a crate. Without it the test is skipped, or fails after `rt ci`, which builds it."""
    def found(crate):
        name = path("crates", crate, "out", crate)
        if not os.access(name, os.X_OK):
            missing = f"{name} is missing (`rt run` in crates/{crate} builds it)"
            (pytest.fail if request.config.getoption("after_ci") else pytest.skip)(missing)
        return name
    return found


def pytest_generate_tests(metafunc):
    """Has each test of a program of BY_CARGO run for both compilers: Rattle's, and rustc."""
    if "made_by" in metafunc.fixturenames:
        both = getattr(metafunc.module, "CRATE", "byte_unit_cli") in BY_CARGO
        metafunc.parametrize("made_by", ["rattle", *["rustc"] * both], scope="session")


@contextlib.contextmanager
def shared(tmp_path_factory, name):
    """A folder that the processes of one run share, of which one at a time fills it."""
    here = tmp_path_factory.getbasetemp()
    folder = Path(KEPT or SHARED or (here.parent if "PYTEST_XDIST_WORKER" in os.environ else here), name)
    folder.mkdir(parents=True, exist_ok=True)
    with open(f"{folder}.lock", "w", encoding="utf-8") as lock:
        fcntl.flock(lock, fcntl.LOCK_EX)
        yield folder


@pytest.fixture(scope="session")
def programs_by_cargo(tmp_path_factory):
    """The folder where `cargo install` has put the programs. The processes of one run share it. With a mutant a program
    is not optimized as a whole, which would take most of the time."""
    need(*CARGO_PROGRAMS)
    with shared(tmp_path_factory, "programs") as folder:
        return programs(folder, *["--config", "profile.release.lto='off'"] * bool(KEPT))


@pytest.fixture(scope="module")
def program(request, made_by):
    """The program of the crate that the module names as CRATE, or else byte-unit, by one of the compilers."""
    crate = getattr(request.module, "CRATE", "byte_unit_cli")
    if made_by == "rustc":
        return str(request.getfixturevalue("programs_by_cargo") / BY_CARGO[crate])
    return request.getfixturevalue("program_of")(crate)


def library_in(tmp_path_factory, name, *words, **how):
    """Returns a folder with what `tools/make-libraries` makes. The processes of one run share it, unless there is a
    mutant, which may be in what makes it."""
    kept = contextlib.nullcontext(tmp_path_factory.mktemp(name)) if KEPT else shared(tmp_path_factory, name)
    with kept as folder:
        made = Path(f"{folder}.made")
        if not made.exists():
            output(path("tools/make-libraries"), *words, folder, **how)
            made.touch()
        return str(folder)


@pytest.fixture(scope="session")
def library(request, tmp_path_factory):
    """A folder with libbyte_unit.a, byte_unit.h and what else `tools/make-libraries` makes."""
    return library_in(tmp_path_factory, "library", *["--after-ci"] * request.config.getoption("after_ci"))


@pytest.fixture(scope="session")
def library_of_rustc(cargo, tmp_path_factory):
    """The same, from the archive that cargo builds of the rendered Rust."""
    here = environment(CARGO=cargo.cargo, RUSTC=cargo.variables["RUSTC"])
    return library_in(tmp_path_factory, "library-of-rustc", "--cargo", env=here)


@pytest.fixture(scope="session")
def counting_library(library, tmp_path_factory):
    """A folder with the library: each call that parses, or finds a hint, writes a line to standard error for each text."""
    need("gcc", "ar", "objcopy")
    bodies = {}
    for name, (_, given, is_inline) in functions(read(f"{library}/{HEADER}")).items():
        if not is_inline and re.search("_parse|_explain|_position|_hint", name):
            texts, passed = "codes_len" if "codes_len" in given else "1", re.findall(r"(\w+)(?:,|$)", given)
            said = "a hint is found" if name.endswith("_hint") else "a text is parsed"
            count = f'for (size_t i = 0; i < {texts}; i++) fputs("{said}\\n", stderr);'
            bodies[name] = f"{count}\nreturn real({', '.join(passed)});"
    return replace_calls(library, tmp_path_factory.mktemp("counting"), bodies)


def parsed(said):
    """Returns how often a program with that library says that it has parsed a text, or found a hint for one."""
    return said.count("a text is parsed\n") + said.count("a hint is found\n")


@pytest.fixture(scope="session", params=["library", "library_of_rustc"])
def each_library(request):
    """The folder of the library of each compiler."""
    return request.getfixturevalue(request.param)


@pytest.fixture(scope="session")
def seed(request):
    return request.config.getoption("seed")


@pytest.fixture(scope="session")
def check_drawn(request, seed):
    """Checks that `wrong`, which returns what is wrong with a list, returns nothing for `count` values that `make`
    draws, each from a `random.Random`."""
    def check(make, wrong, count=request.config.getoption("lines")):
        found = wrong([make(random.Random(f"{seed} {at}")) for at in range(count)])
        assert not found, found

    return check


def printed(command, lines, end=b"\n"):
    """Returns the lines that a program prints for lines, and one more if it does not exit with status 0."""
    status, written, _ = ended(*command, input=b"".join(line + end for line in lines), stderr=None)
    return written.decode().split("\n")[:-1] + [f"status {status}"] * (status != 0)


def differing(given, wanted, got):
    """Returns the first rows in which what a program printed is not what is wanted for what was given."""
    return [row for row in zip_longest(given, wanted, got) if row[1] != row[2]][:5]


@pytest.fixture(scope="session")
def check_lines(check_drawn):
    """Checks that a program prints, for drawn lines, what the exact model does."""
    def check(command, kind, **count):
        def wrong(lines):
            wanted = [output_for(line, kind) for line in lines]
            return differing(lines, wanted, printed([*command, kind], lines))

        check_drawn(some_line, wrong, **count)

    return check


@pytest.fixture(scope="session")
def runner_in_c(each_library, tmp_path_factory):
    """The runner of the test vectors in C, with the library of each compiler."""
    words = ["-std=gnu11", "-O2", "-Wall", "-Wextra", "-I", each_library, path("bindings/c/checks/vectors.c")]
    return compiled("cc", tmp_path_factory.mktemp("runner") / "vectors", *words, f"{each_library}/libbyte_unit.a")


@pytest.fixture(scope="session")
def check_runner(check_drawn):
    """Checks that a runner of the test vectors answers, for drawn lines, what the exact model does: the size and its
    text with a unit, or the error. A line is not UTF-8 only if the runner reads `bytes_`."""
    def check(command, kind, bytes_=True):
        def rows(line):
            size = size_of(line, kind)
            answer = getattr(size, "answer", str(size))
            if bytes_ or answer != "NotUtf8":
                yield b'parse %s cased "%s' % (kind.encode(), line), answer
            if answer[0].isdigit():
                yield f"text {kind} {answer} {{:#}}".encode(), f'"{form(size, kind)}"'

        def wrong(lines):
            asked, wanted = zip(*(row for line in lines if b"\0" not in line for row in rows(line)))
            return differing(asked, wanted, printed(command, asked, b"\0"))

        check_drawn(some_line, wrong)

    return check


@pytest.fixture(scope="session")
def python_package(tmp_path_factory):
    need(*PYTHON_PACKAGE)
    return copied("python", tmp_path_factory.mktemp("python"))


@pytest.fixture(scope="session")
def python(library, python_package, tmp_path_factory):
    """The `program` of an environment in which pip has built the package offline, and what pip `said`."""
    folder = Path(KEPT or tmp_path_factory.mktemp("python"), "environment")
    if not folder.exists():
        output(DEBIAN_PYTHON, "-m", "venv", "--system-site-packages", folder, env=environment())
    words = [folder / "bin/python", "-m", "pip", "install", "-v", "--no-index", python_package]
    return types.SimpleNamespace(program=words[0], said=output(*words, env=environment(BYTE_UNIT_LIBRARY_DIR=library)))


def check_needs(wheel, folder):
    """Unpacks a wheel in a folder, and checks that it needs no more than its tag says."""
    shutil.unpack_archive(wheel, folder, "zip")
    said = output("readelf", "-dVW", Path(folder) / "byte_unit/_native.abi3.so")
    assert set(re.findall(r"\(NEEDED\).*\[(.+)\]", said)) <= {"libc.so.6", "ld-linux-aarch64.so.1"}
    versions = re.findall(r"Name: (\w+?)_([0-9.]+) ", said)
    # Its tag, manylinux_2_17, promises that glibc 2.17 is enough.
    assert versions and all(name == "GLIBC" and [*map(int, number.split("."))] <= [2, 17] for name, number in versions)


@pytest.fixture(scope="session")
def javascript(tmp_path_factory):
    """A copy of the package for JavaScript."""
    need("node")
    return Path(copied("js", tmp_path_factory.mktemp("js")))


@pytest.fixture(scope="session")
def unpacked(tmp_path_factory):
    """A Debian 12 with its newest Rust, the sources of its library, and its Node, as `program` of debian.py runs them.
    The processes of one run share it."""
    need("mmdebstrap", "unshare")
    with shared(tmp_path_factory, "debian-12") as root:
        # The script is the last that is made.
        if not os.path.exists(f"{root}/rustc"):
            debian.make(root, ["rustc-web", "rust-web-src", "nodejs"], debian.UNPACKED)
            debian.program(root, "rustc")
        return root


@pytest.fixture(scope="session")
def newest_rustc(unpacked):
    """Debian's newest rustc, which has the sources of `core`, for targets of which this machine has no library."""
    need("cargo")
    return f"{unpacked}/rustc"


class Cargo:
    """A cargo and the rustc in its folder, with the environment of its calls, which build in a folder for work."""

    def __init__(self, cargo, work):
        beside = os.path.dirname(cargo)
        assert os.path.exists(f"{beside}/rustc"), f"{beside} has no rustc"
        self.cargo, self.target = cargo, work / "target"
        self.variables = {"RUSTC": f"{beside}/rustc", "RUSTDOC": f"{beside}/rustdoc", "CARGO_HOME": work / "home",
                          "CARGO_TARGET_DIR": self.target}  # fmt: skip

    def call(self, where, *words, by=call, **variables):
        return by(self.cargo, *words, cwd=where, env=environment(**{**self.variables, **variables}))

    def output(self, *words, **variables):
        return self.call(*words, by=output, **variables)

    def passed(self, where, *words):
        """Returns the number of tests, all of which pass."""
        return sum(map(int, re.findall(r"(\d+) passed", self.output(where, "test", *words))))


@pytest.fixture(scope="session")
def cargos(tmp_path_factory):
    """Returns the Cargo of a path, made once. One that is older than the Rust package states is skipped."""
    work = Path(KEPT or tmp_path_factory.mktemp("cargo")).resolve()
    oldest = re.search(r'^rust-version = "(.*)"', read("bindings/rust/Cargo.toml"), re.M)[1]

    @functools.lru_cache(maxsize=None)
    def made(cargo):
        need("cc", *(["cargo", "rustc"] if cargo == CARGOS[0] else ["/usr/bin/cargo", "/usr/bin/rustc"]))
        found = output(cargo, "--version").split()[1]
        if [*map(int, found.split(".")[:2])] < [*map(int, oldest.split("."))]:
            pytest.skip(f"{cargo} is {found}, and {oldest} is the oldest (Debian: {PACKAGES['/usr/bin/cargo']})")
        return Cargo(cargo, work / str(CARGOS.index(cargo)))

    yield made
    if not KEPT:
        shutil.rmtree(work, ignore_errors=True)  # hundreds of megabytes


@pytest.fixture(scope="session")
def cargo(cargos):
    return cargos(CARGOS[0])


@pytest.fixture(scope="session")
def rust_package(tmp_path_factory):
    """A copy of the Rust package. If one of SERDE is missing, it needs none, and its features are empty."""
    package = copied("rust", tmp_path_factory.mktemp("rust"))
    if all(map(is_there, SERDE)):
        write(f"{package}/.cargo/config.toml", CONFIG)
        return package
    text = re.sub(r"^(?:serde|rust_decimal) = {.*\n", "", read(f"{package}/Cargo.toml"), flags=re.M)
    write(f"{package}/Cargo.toml", re.sub(r'"dep:\w+"', "", text))
    return package


def pytest_terminal_summary(terminalreporter):
    """Prints a line for each reason of a skip, with the first test of it."""
    reasons = {}
    for report in terminalreporter.stats.get("skipped", []):
        reasons.setdefault(report.longrepr[2].removeprefix("Skipped: "), []).append(report.nodeid.rpartition("/")[2])
    for reason, names in reasons.items():
        more = f" and {len(names) - 1} more" if len(names) > 1 else ""
        terminalreporter.write_line(f"skipped: {names[0]}{more}: {reason}")


def pytest_unconfigure(config):
    """Prints the last line, in the form that the gate counts."""
    reporter = config.pluginmanager.get_plugin("terminalreporter")
    if reporter and reporter.stats:
        passed, skipped = (len(reporter.stats.get(name, [])) for name in ("passed", "skipped"))
        failed = len(reporter.stats.get("failed", [])) + len(reporter.stats.get("error", []))
        print(f"{passed} passed, {failed} failed" + f", {skipped} skipped" * (skipped > 0))
