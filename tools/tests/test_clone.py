"""Tests what a user has of a clone: the commands of the READMEs in a clean Debian 12, and that what Rattle builds runs
on every x86-64 processor."""

import re
import shutil
import subprocess

from byte_unit_dev import debian
from byte_unit_dev.fixtures import call, compiled, need, output, path, read
from byte_unit_dev.products import CLONE_PACKAGES

ENTER = 'mount -t proc none "$0/proc"; mount --rbind /dev "$0/dev"; exec unshare --net chroot "$0" sh -c "$1"'
# The first x86-64 processors, without the instructions of later ones.
OLDER = ["qemu-x86_64", "-cpu", "qemu64"]


def test_clone(tmp_path):
    """What is installed works, and nothing is left when it is removed."""
    need("mmdebstrap", "unshare", "apt-get", "git")
    script, root = read("tools/tests/clone.sh"), tmp_path / "root"
    try:
        debian.make(root, CLONE_PACKAGES, debian.CLEAN)
        output("sh", "-c", 'git archive --prefix=clone/ HEAD | tar -x -C "$0"', root / "root", cwd=path())
        got = call(*debian.ALONE, "sh", "-euc", ENTER, root, script, env=debian.HERE, stdin=subprocess.DEVNULL)
        assert got.returncode == 0, got.stdout
    finally:
        shutil.rmtree(root, ignore_errors=True)  # a gigabyte


def test_older_libraries(library, tmp_path):
    """Archive, shared library and the extension for SQLite."""
    need(*OLDER[:1], "gcc", "sqlite3")
    text = re.search(r"```c\n(#include.*?)```", read("bindings/c/README.md"), re.S)[1]
    for name in ("libbyte_unit.a", "libbyte_unit.so"):
        words = ["-I", library, "-x", "c", "-", "-x", "none", f"{library}/{name}"]
        made = compiled("gcc", tmp_path / name, *words, input=text)
        assert output(*OLDER, "-E", f"LD_LIBRARY_PATH={library}", made) == "1.5 KiB\n"
    words = ["-cmd", f".load {library}/sqlite3/byte_unit", ":memory:", "SELECT size_text(size_parse('1.5 KiB'))"]
    assert output(*OLDER, shutil.which("sqlite3"), *words) == "1.5 KiB\n"


def test_older_command(program_of):
    """It says what it needs."""
    need(*OLDER[:1])
    got = call(*OLDER, program_of("byte_unit_cli"), "--to=plain", "1.5 KiB")
    assert got.returncode == 127 and "x86-64-v2" in got.stdout
