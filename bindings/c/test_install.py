"""Tests `tools/dev install`: installs the C library into temporary folders, and uses it from there."""

import os
import re
import shlex
import shutil
from pathlib import Path

import pytest
from byte_unit_dev.fixtures import call, compiled, copied, environment, is_there, need, output, path, read, write
from byte_unit_dev.install import calls_of
from byte_unit_dev.libraries import exported

INSTALL = [path("tools/dev"), "install"]
HEADER, PAGE = "include/byte_unit.h", "share/man/man3/byte_unit.3"
# Before a script that mounts what nothing else sees.
MOUNTED = ["unshare", "--mount", "--map-root-user", "sh", "-c"]
WARNINGS = ["-Wall", "-Wextra", "-Wpedantic", "-Werror"]
C = ["c99", "c11", "c17", "c2x"]
STANDARDS = {"gcc": C, "clang": C, "g++": ["c++17"], "clang++": ["c++17"]}
# The ways to link with each form of the library, and each way with a compiler to build the program.
LINKS = {"shared": ["-pie", "-no-pie", "-O2 -flto"], "archive": ["-pie", "-no-pie", "-O2 -flto"],
         "static": ["-static", "-static-pie", "-static -O2 -flto"]}
WAYS = [(cc, "shared", f"-std={standard}") for cc, standards in STANDARDS.items() for standard in standards]
WAYS += [(cc, form, how) for cc in STANDARDS for form, hows in LINKS.items() for how in hows]
WAYS += [("musl-gcc", "archive", "-static"), ("gcc", "archive", "-Os -s -Wl,--gc-sections")]


def files_in(folder):
    """Returns the paths of all files and folders below a folder."""
    return sorted(str(found.relative_to(folder)) for found in folder.rglob("*"))


def flags(prefix, *words):
    """Returns what pkg-config prints of the library in a prefix."""
    env = {**os.environ, "PKG_CONFIG_PATH": f"{prefix}/lib/pkgconfig"}
    return shlex.split(output("pkg-config", *words, "byte_unit", env=env))


@pytest.fixture(scope="module")
def prefix(each_library, tmp_path_factory):
    """A new folder in which the library is installed, that of each compiler."""
    need("gcc", "nm", "readelf", "pkg-config")
    made = tmp_path_factory.mktemp("installed") / "a prefix"
    output(*INSTALL, "--from", each_library, made)
    return made


@pytest.mark.parametrize("cc, form, how", WAYS)
def test_program(prefix, tmp_path, cc, form, how):
    """The program compiles without a warning with the words of pkg-config alone, links, and runs in another folder."""
    by_lld = ["-fuse-ld=lld"] * ("clang" in cc and "-flto" in how)
    need(*["ld.lld"] * len(by_lld))
    program = re.search(r"```c\n(.*?)```", read("bindings/c/README.md"), re.S)[1]
    (tmp_path / "program.c").write_text(program)
    links = {"shared": flags(prefix, "--libs"), "static": flags(prefix, "--libs", "--static"),
             "archive": [prefix / "lib/libbyte_unit.a"]}
    as_cpp = ["-x", "c++"] * ("++" in cc)
    words = [*WARNINGS, *how.split(), *by_lld, *flags(prefix, "--cflags"), *as_cpp, "program.c", "-x", "none"]
    compiled(cc, "program", *words, *links[form], cwd=tmp_path)
    here = {"env": {**os.environ, "LD_LIBRARY_PATH": str(prefix / "lib")}, "cwd": "/"}
    good, bad = call(tmp_path / "program", **here), call(tmp_path / "program", "1 x", **here)
    assert (good.stdout, good.returncode, bad.returncode) == ("1.5 KiB\n", 0, 1)
    assert bad.stdout.startswith("1 x: the character 'x' is incorrect (")


# What find_package(byte_unit ..) asks for, and whether it is found.
ASKED = {"": "1", "3": "1", "3.0": "1", "3.0.0 EXACT": "1", "3 EXACT": "1", "3.0.1": "0", "2": "0", "30": "0", "4": "0"}


def built_by_cmake(folder, prefix, lines):
    """Builds a project of CMake with the library in a prefix, and returns what the configuration prints."""
    need("cmake", "make")
    write(folder / "CMakeLists.txt", f"cmake_minimum_required(VERSION 3.13)\n{lines}")
    printed = output("cmake", f"-DCMAKE_PREFIX_PATH={prefix}", ".", cwd=folder)
    output("cmake", "--build", ".", cwd=folder)
    return printed


@pytest.mark.parametrize("target", ["byte_unit::byte_unit", "byte_unit::static"])
def test_cmake(prefix, tmp_path, target):
    """CMake's lines of the page build the program, by the shared library or by the archive."""
    need("cmake", "make")
    program, lines = (re.search(rf"```{of}\n(.*?)```", read("bindings/c/README.md"), re.S)[1] for of in ("c", "cmake"))
    write(tmp_path / "program.c", program)
    built_by_cmake(tmp_path, prefix, f"project(sizes C)\n{lines.replace('byte_unit::byte_unit', target)}")
    assert output(tmp_path / "program", env={}) == "1.5 KiB\n"
    needed = output("readelf", "-d", tmp_path / "program")
    assert ("libbyte_unit.so.3" in needed) == (target == "byte_unit::byte_unit")


def test_version_in_cmake(prefix, tmp_path):
    lines = "".join(f'find_package(byte_unit {words} QUIET)\nmessage("= ${{byte_unit_FOUND}}")\n' for words in ASKED)
    printed = built_by_cmake(tmp_path, prefix, f"project(sizes NONE)\n{lines}")
    assert re.findall("^= (.)", printed, re.M) == [*ASKED.values()]


@pytest.mark.parametrize("read_by_loader, status, below, called, said", [
    (True, 0, "", True, ""), (True, 1, "", True, "to run: call `ldconfig` as root"),
    (True, 0, "below", False, "to run: call `ldconfig` as root"), (False, 0, "", False, "to run: LD_LIBRARY_PATH="),
])  # fmt: skip
def test_loader(library, tmp_path, read_by_loader, status, below, called, said):
    """ldconfig is called if the loader reads the folder; if it fails or is not called, a line says what to do."""
    names = f"echo '{tmp_path}/{'prefix' if read_by_loader else 'other'}/lib: (from here)'"
    write(tmp_path / "ldconfig", f'#!/bin/sh\n[ $# = 0 ] || {{ {names}; exit; }}\n>{tmp_path}/called\nexit {status}\n')
    (tmp_path / "ldconfig").chmod(0o755)
    here = {**os.environ, "PATH": f"{tmp_path}:{os.environ['PATH']}", "DESTDIR": below and f"{tmp_path}/{below}"}
    got = output(*INSTALL, "--from", library, "--without-sqlite", tmp_path / "prefix", env=here)
    assert (tmp_path / "called").exists() == called and ("to run: " in got) == bool(said) and said in got


def test_shared_library(prefix):
    """It exports the functions that the header declares and no other, needs libc alone, and has at most 200 KB."""
    library, version = prefix / "lib/libbyte_unit.so", flags(prefix, "--modversion")[0]
    declared = exported(read(prefix / HEADER))
    node = f"BYTE_UNIT_{version.partition('.')[0]}"
    found = sorted(output("nm", "-D", "--defined-only", library).split()[2::3])
    assert found == sorted([node, *(f"{name}@@{node}" for name in declared)])
    dynamic, soname = output("readelf", "-d", library), f"libbyte_unit.so.{version.split('.')[0]}"
    assert re.findall(r"soname: \[(.*)\]", dynamic) == [soname]
    assert re.findall(r"NEEDED.*\[(.*)\]", dynamic) == ["libc.so.6"]
    assert os.path.getsize(library) <= 200_000
    assert [os.readlink(library), os.readlink(prefix / "lib" / soname)] == [soname, f"libbyte_unit.so.{version}"]


def test_version(prefix, tmp_path):
    wrong = "byte_unit_version() != BYTE_UNIT_VERSION || strcmp(BYTE_UNIT_VERSION_STRING, argv[1])"
    head = "#include <byte_unit.h>\n#include <string.h>\nint main(int argc, char **argv)"
    (tmp_path / "version.c").write_text(f"{head} {{ return argc != 2 || {wrong}; }}\n")
    links = flags(prefix, "--cflags", "--libs", "--static")
    output(compiled("gcc", tmp_path / "version", "version.c", "-static", *links, cwd=tmp_path),
           *flags(prefix, "--modversion"))  # fmt: skip


def test_manual_page(prefix):
    """It names and declares each call of the header, which has a page, and `mandoc -T lint` finds nothing."""
    text, calls = read(prefix / PAGE), calls_of(read(prefix / HEADER))
    assert sorted(re.findall(r"^(byte_unit_\w+)(?:,$| \\-)", text, re.M)) == calls
    assert sorted(re.findall(r"^\w+ (byte_unit_\w+)\(", text, re.M)) == calls
    assert {page.stem for page in (prefix / PAGE).parent.iterdir()} == {*calls, "byte_unit"}
    assert re.search(r"`\\eu\{a0\}`", text)
    macros = [re.findall(r"^#define (\w+) ", part, re.M) for part in (read(prefix / HEADER), text)]
    assert macros[0] == macros[1] and "#include <byte_unit.h>" in text.partition(".SH EXAMPLES")[2]
    (version,) = flags(prefix, "--modversion")
    date = re.search(rf"^## \[{version}\] - (.*)$", read("CHANGELOG.md"), re.M)[1]
    assert text.startswith(f'.TH BYTE_UNIT 3 "{date}" "byte_unit {version}"\n')
    need("mandoc")
    assert output("mandoc", "-T", "lint", prefix / PAGE) == ""


def test_extension(prefix):
    """It exports its entry point alone, and SQLite loads it by its name without `.so`."""
    need("sqlite3", "sqlite3ext.h")
    file = prefix / "lib/sqlite3/byte_unit"
    assert output("nm", "-D", "--defined-only", f"{file}.so").split()[2::3] == ["sqlite3_byteunit_init"]
    assert output("sqlite3", "-cmd", f".load '{file}'", ":memory:", "SELECT size_parse('1.5 KiB');") == "1536\n"


def fails(folder, reason, *words, **more):
    """Checks that the installation fails with the reason in one line, and leaves the names of files as they were."""
    kept = files_in(folder)
    got = call(*words, stderr=-1, **more)  # subprocess.PIPE
    assert got.returncode == 1 and re.fullmatch(f"tools/dev install: .*{reason}.*\n", got.stderr)
    assert files_in(folder) == kept


@pytest.mark.parametrize("there, words, reason", [
    (f"prefix/{PAGE}/in", "--from LIBRARY prefix", "nothing is installed: .*byte_unit.3 is a folder"),
    ("prefix/lib", "--from LIBRARY prefix", "nothing is installed: .*prefix/lib: "),
    ("prefix", "--from LIBRARY prefix/in", "nothing is installed: .*prefix"),
    ("other", "--from . prefix", "nothing is installed: .*libbyte_unit.a: No such file or directory"),
    ("other", "--from LIBRARY a$b", "cannot be written in byte_unit.pc"),
    ("other", "--uninstall prefix", "is missing: nothing was installed"),
    ("prefix/share/byte_unit/installed", "--uninstall prefix", "'../other' is not a path below the prefix"),
])
def test_failure(library, tmp_path, there, words, reason):
    (tmp_path / there).parent.mkdir(parents=True, exist_ok=True)
    (tmp_path / there).write_text("../other\n")
    fails(tmp_path, reason, *INSTALL, *words.replace("LIBRARY", library).split(), cwd=tmp_path)


def test_full_disk(library, tmp_path):
    """On a disk of 90 KB in a name space of its own; if nothing can be mounted, with a limit of 90 KB, 180 blocks of 512
    bytes, on each file."""
    mount = f"mount -t tmpfs -o size=90k none {tmp_path}"
    words = [*INSTALL, "--from", library, tmp_path / "full"]
    if not shutil.which("unshare") or call(*MOUNTED, mount).returncode:
        fails(tmp_path, ": File too large", "sh", "-c", 'ulimit -f 180; exec "$@"', "", *words)
    else:
        got = call(*MOUNTED, f"{mount}; \"$@\"; echo $?; find {tmp_path} -mindepth 1", "", *words)
        assert re.search(r"\ntools/dev install: nothing is installed: .*: No space left on device\n1\n\Z", got.stdout)


def test_signal(library, tmp_path):
    """A signal while the compiler runs leaves nothing behind."""
    (tmp_path / "cc").write_text("#!/bin/sh\nkill -TERM $PPID\nexec sleep 9 > /dev/null 2>&1\n")
    (tmp_path / "cc").chmod(0o755)
    env = {**os.environ, "CC": str(tmp_path / "cc")}
    fails(tmp_path, "nothing is installed: interrupted", *INSTALL, "--from", library, tmp_path / "new/prefix", env=env)


def test_uninstall(library, tmp_path):
    """It removes the files and the folders of the installation, those of an earlier one too, and no others."""
    prefix, other = tmp_path / "prefix", tmp_path / "prefix/lib/other.so"
    output(*INSTALL, "--from", library, prefix)
    assert (prefix / "lib/sqlite3/byte_unit.so").exists() == is_there("sqlite3ext.h")
    output(*INSTALL, "--from", library, "--without-sqlite", prefix)
    assert not (prefix / "lib/sqlite3/byte_unit.so").exists()
    other.write_text("")
    output(*INSTALL, "--uninstall", prefix)
    assert files_in(tmp_path) == ["prefix", "prefix/lib", "prefix/lib/other.so"]
    other.unlink()
    output(*INSTALL, "--from", library, prefix)
    output(*INSTALL, "--uninstall", prefix)
    assert files_in(tmp_path) == ["prefix", "prefix/lib"]
    output(*INSTALL, "--from", library, tmp_path / "new")
    output(*INSTALL, "--uninstall", tmp_path / "new")
    assert files_in(tmp_path) == ["prefix", "prefix/lib"]


def test_destdir(library, tmp_path):
    """byte_unit.pc names the prefix alone, and the list has each file."""
    words = [*INSTALL, "--from", library, "/usr"]
    output(*words, env={**os.environ, "DESTDIR": str(tmp_path)})
    config = read(tmp_path / "usr/lib/pkgconfig/byte_unit.pc")
    assert config.startswith("prefix=/usr\nlibdir=${prefix}/lib\n") and str(tmp_path) not in config
    lines = read(tmp_path / "usr/share/byte_unit/installed").splitlines()
    found = {name for name in files_in(tmp_path) if not (tmp_path / name).is_dir()}
    assert {f"usr/{line}" for line in lines if not line.endswith("/")} == found


def test_make_libraries(tmp_path):
    """It rejects a wrong call, and a folder that is not there."""
    make = path("tools/make-libraries")
    assert [call(make, *words, cwd=tmp_path).returncode for words in (["."] * 2, [], ["none"])] == [2, 2, 1]


@pytest.mark.parametrize("program, words", [
    ("cargo-clippy", ["clippy", "--", "-D", "warnings"]),
    ("cargo-fmt", ["fmt", "--check", "--", "--config-path", path("bindings/rust")]),
], ids=["clippy", "rustfmt"])  # fmt: skip
def test_style_of_cargo_package(cargo, tmp_path, program, words):
    need(program)
    package, _ = copied("c", tmp_path), copied("rust", tmp_path)
    cargo.output(package, *words)


def fill(folder, c, *before, **variables):
    """Calls library.sh in a copy of bindings/c, where no archive is made, and cargo makes none."""
    words = {"CARGO": "/nowhere", "PKG_CONFIG_LIBDIR": "/nowhere", **variables}
    return call(*before, "sh", f"{c}/library.sh", folder, env=environment(**words))


@pytest.mark.parametrize("way", ["a folder", "a prefix", "pkg-config", "/usr/local", "rt lib"])
def test_library_for_bindings(library, tmp_path, way):
    """library.sh copies what was made, from where each of these has it; /usr/local has it in a name space of its own."""
    c, prefix, before = copied("c", tmp_path), tmp_path / "prefix", []
    output(*INSTALL, "--from", library, "--without-sqlite", prefix)
    variables = {"a folder": {"BYTE_UNIT_LIBRARY_DIR": library}, "a prefix": {"BYTE_UNIT_LIBRARY_DIR": prefix},
                 "pkg-config": {"PKG_CONFIG_PATH": prefix / "lib/pkgconfig"}}.get(way, {})  # fmt: skip
    if way == "rt lib":
        (tmp_path / "crates/byte_unit_c/out").mkdir(parents=True)
        shutil.copy(f"{library}/libbyte_unit.a", tmp_path / "crates/byte_unit_c/out/libbyte_unit_c.a")
    if way == "/usr/local":
        need("unshare")
        before = [*MOUNTED, f'mount --bind {prefix} /usr/local && exec "$@"', ""]
    got = fill(tmp_path / "new/folder", c, *before, **variables)
    assert (got.returncode, got.stdout) == (0, "")
    for name in ("libbyte_unit.a", "byte_unit.h"):
        assert (tmp_path / "new/folder" / name).read_bytes() == Path(library, name).read_bytes()


def test_library_of_makefiles(library, tmp_path):
    """They take that of a prefix; or their own, which is built again if a source of it is newer."""
    need("make", "sqlite3ext.h")
    sql, c, rust = (copied(part, tmp_path) for part in ("sql", "c", "rust"))
    sqlite = f"{sql}/sqlite"
    output(*INSTALL, "--from", library, "--without-sqlite", tmp_path / "prefix")
    output("make", "-C", sqlite, f"LIBRARY={tmp_path}/prefix/lib", env=environment())
    assert os.path.exists(f"{sqlite}/byte_unit.so")
    write(f"{sqlite}/library/libbyte_unit.a", "")
    words = ["make", "-n", "-C", sqlite, "library/libbyte_unit.a"]
    assert "library.sh" not in output(*words)
    by_rattle = f"{tmp_path}/crates/byte_unit_c/out/libbyte_unit_c.a"
    write(by_rattle, "")
    os.utime(by_rattle, (0, 0))
    for source in (f"{c}/byte_unit.h", f"{c}/src/slices.rs", f"{rust}/src/rendered/math/tens.rs", by_rattle):
        before = os.stat(source)
        os.utime(source, (2**32, 2**32))
        assert "library.sh" in output(*words)
        os.utime(source, ns=(before.st_atime_ns, before.st_mtime_ns))


def test_library_by_cargo(cargo, tmp_path):
    """With --cargo cargo builds it, also below a workspace, and for this machine if its configuration names another."""
    need("nm", "readelf")
    clone = tmp_path / 'a "clone"'
    c, _ = copied("c", clone), copied("rust", clone)
    write(clone / "Cargo.toml", "[workspace]\n")
    write(clone / "crates/byte_unit_c/out/libbyte_unit_c.a", "of Rattle")
    write(tmp_path / "home/config.toml", '[build]\ntarget = "wasm64-unknown-unknown"\n')
    here = environment(**cargo.variables, CARGO=cargo.cargo) | {"CARGO_HOME": str(tmp_path / "home")}
    output("sh", f"{c}/library.sh", "--cargo", tmp_path / "made", env=here)
    found = re.findall(r" T (\w+)$", output("nm", tmp_path / "made/libbyte_unit.a"), re.M)
    assert {*found} >= {*exported(read(f"{c}/byte_unit.h"))}
    (shared,) = Path(c).glob("target/*/release/libbyte_unit.so")
    assert "soname: [libbyte_unit.so.3]" in output("readelf", "-d", shared)


@pytest.mark.parametrize("variables, words", [
    ({}, "install cargo and rustc 1."),
    ({"CARGO": "true", "RUSTC": "/nowhere"}, "install cargo and rustc 1."),
    ({"CARGO": "true", "RUSTC": "OLD"}, "install cargo and rustc 1."),
    ({"CARGO": "true", "RUSTC": "NEW"}, "cargo made no "),
    ({"BYTE_UNIT_LIBRARY_DIR": "sizes"}, "is not an absolute path"),
    ({"BYTE_UNIT_LIBRARY_DIR": "/"}, "has no byte_unit.h and libbyte_unit.a"),
])  # fmt: skip
def test_no_library_for_bindings(tmp_path, variables, words):
    for name, version in (("OLD", "1.63.0"), ("NEW", "1.100.0")):
        (tmp_path / name).write_text(f"#!/bin/sh\necho rustc {version}\n")
        (tmp_path / name).chmod(0o755)
    where = {name: value.replace("OLD", f"{tmp_path}/OLD").replace("NEW", f"{tmp_path}/NEW")
             for name, value in variables.items()}  # fmt: skip
    got = fill(tmp_path / "new", copied("c", tmp_path), **where)
    *_, last = got.stdout.splitlines()
    assert got.returncode == 1 and last.startswith("byte_unit: ") and words in last and not (tmp_path / "new").exists()


def test_without_compiler(library, tmp_path):
    """Without a compiler the archive is installed, which CMake finds, and what needs one is named as skipped."""
    said = output(*INSTALL, "--from", library, tmp_path, env={**os.environ, "CC": "none"})
    assert "skipped: libbyte_unit.so and sqlite3/byte_unit.so: there is no C compiler none\n" in said
    assert not [name for name in files_in(tmp_path) if ".so" in name]
    built_by_cmake(tmp_path, tmp_path, "project(sizes C)\nfind_package(byte_unit)\n"
                   f"add_executable(sizes {path('bindings/c/examples/example.c')})\n"
                   "target_link_libraries(sizes byte_unit::byte_unit)\n")  # fmt: skip
    output(tmp_path / "sizes")


def test_command(library, tmp_path, program_of):
    """The command is installed with its pages; without it, those are removed."""
    source, prefix = shutil.copytree(library, tmp_path / "with-command"), tmp_path / "prefix"
    shutil.copy(program_of("byte_unit_cli"), source / "byte-unit")
    output(*INSTALL, "--from", source, prefix)
    assert output(prefix / "bin/byte-unit", "--to=plain", "1.5KiB") == "1536\n"
    files = {"bin/byte-unit", "share/man/man1/byte-unit.1", "share/bash-completion/completions/byte-unit"}
    assert files < set(files_in(prefix))
    output(*INSTALL, "--from", source, "--without-command", prefix)
    assert not files & set(files_in(prefix))
