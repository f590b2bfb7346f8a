"""Tests how cargo makes the programs; what they do is tested by `command` and `scale`, beside Rattle's programs."""

import os
import random
import shutil
from pathlib import Path

import pytest
from byte_unit_dev.fixtures import CARGO_PROGRAMS, CONFIG, compiled, copied, ended, environment, need, output, write
from byte_unit_dev.needs import DEBIAN_RUST

NAMES = ["bits", "ignore-case", "from", "words", "to", "no-unit", "suffix", "precision", "human-readable", "delimiter",
         "blanks", "field", "header", "padding", "invalid", "total", "max", "min", "no-hints", "zero-terminated",
         "help", "version"]  # fmt: skip
VALUES = ["", "1", "x", "-1", "exact", "KB", "1 KB", "\u00e9", "\n", "99999999999999999999"]


@pytest.fixture(scope="module")
def cargo(tmp_path_factory):
    """Returns what calls cargo on a copy of the package, below a workspace, without a registry."""
    need(*CARGO_PROGRAMS)
    folder = tmp_path_factory.mktemp("cargo")
    write(folder / "config.toml", CONFIG)
    write(folder / "Cargo.toml", "[workspace]\n")
    package = [copied(part, folder) for part in ("rust", "c", "programs")][-1]

    def called(*words):
        here = environment(CARGO_HOME=folder, CARGO_TARGET_DIR=folder / "target")
        return output("cargo", *words, cwd=package, env=here)

    called.folder = folder
    return called


def test_lines_alone(cargo):
    """Without the feature `command` there is no clap, and byte_unit_lines alone is installed."""
    assert "clap" not in cargo("tree", "--no-default-features")
    cargo("install", "--debug", "--path", ".", "--root", cargo.folder, "--no-default-features")
    assert os.listdir(cargo.folder / "bin") == ["byte_unit_lines"]
    assert ended(cargo.folder / "bin/byte_unit_lines", input=b"1KiB\n") == (0, b"1024 = 1 KiB\n", b"")


@pytest.mark.parametrize("folder", ["programs", "c"])
def test_package(cargo, tmp_path, folder):
    """What is over the Rust package can be packed by a source of crates that has it, here a folder with Debian's."""
    for crate in Path(DEBIAN_RUST).iterdir():
        (tmp_path / crate.name).symlink_to(crate)
    shutil.copytree(cargo.folder / "bindings/rust", tmp_path / "byte-unit")
    write(tmp_path / "byte-unit/.cargo-checksum.json", '{"files": {}}')
    words = ["--manifest-path", f"../{folder}/Cargo.toml", "--config", f"source.debian.directory = '{tmp_path}'"]
    cargo("package", "--no-verify", "--allow-dirty", *words)


def test_style(cargo):
    need("cargo-clippy", "cargo-fmt")
    cargo("clippy", "--", "-D", "warnings")
    cargo("fmt", "--check")


@pytest.mark.parametrize("name, answer", [("byte-unit", b"1.5 KiB\n"), ("byte_unit_lines", b"1536 = 1.5 KiB\n")])
def test_older_processor(programs_by_cargo, name, answer):
    need("qemu-x86_64")
    words = ["qemu-x86_64", "-cpu", "qemu64", programs_by_cargo / name]
    assert ended(*words, input=b"1.5 KiB\n") == (0, answer, b"")


def some_word(rng):
    """Returns a word of a call: an option, perhaps abbreviated or misspelt, letters, or an operand."""
    if rng.random() < 0.3:
        return rng.choice(["1", "5", "KB", "1 KB", "--", "-", "x", "-5", "--=", "---", "", "\u00e9", "--\u00e9=1", "\x1b"])
    if rng.random() < 0.4:
        return "-" + "".join(rng.choices("ipHdzhVxq1", k=rng.randint(1, 3))) + rng.choice(["", "", "=1", "5", "x"])
    name = [*rng.choice(NAMES)]
    for _ in range(rng.choice([0, 0, 1, 2])):
        at = rng.randrange(len(name))
        name[at : at + rng.randint(0, 1)] = rng.choice("abcdeimnoprtz-")
    end = rng.choice([len(name), rng.randint(1, len(name))])
    return "--" + "".join(name[:end]) + rng.choice(["", "=" + rng.choice(VALUES)])


def test_wrong_calls_are_answered_alike(program_of, programs_by_cargo, check_drawn):
    """The programs of both compilers answer calls of random words, most of them wrong, in the same words."""
    programs = program_of("byte_unit_cli"), programs_by_cargo / "byte-unit"

    def wrong(calls):
        for words in calls:
            theirs, ours = (ended(program, *words, input=b"") for program in programs)
            if (ours[0], ours[1].replace(b" (rustc)", b""), ours[2]) != theirs:
                return f"{words}: {ours}, not {theirs}"
        return ""

    check_drawn(lambda rng: [some_word(rng) for _ in range(rng.randint(1, 3))], wrong)


@pytest.mark.parametrize("words", [["--to=plain"], ["--to=plain", "12000"]], ids=["lines", "operand"])
def test_streams_without_other_descriptors(programs_by_cargo, tmp_path, words):
    """If the system gives no other descriptor of a stream, it is read and written all the same."""
    write(tmp_path / "shim.c", "#include <errno.h>\nint fcntl(int file, int how, ...) { errno = EMFILE; return -1; }\n")
    shim = compiled("cc", tmp_path / "shim.so", "-shared", "-fPIC", tmp_path / "shim.c")
    lines = b"".join(b"%d\n" % number for number in range(100_000))
    got = ended(programs_by_cargo / "byte-unit", *words, input=lines, env={**os.environ, "LD_PRELOAD": str(shim)})
    assert got == (0, lines if len(words) == 1 else b"12000\n", b"")
