"""Tests `tools/dev take` on a small model of this repository, without git, and on another one with files of its own."""

import shutil
import subprocess
from hashlib import sha256

import pytest
from byte_unit_dev.fixtures import ROOT, call, need, output
from byte_unit_dev.source import library

CRATES = library()
RECORD = "crates/byte_unit/VERSION"
MATH = "crates/byte_unit_math"


def write(top, files):
    for name, text in files.items():
        (top / name).parent.mkdir(parents=True, exist_ok=True)
        (top / name).write_text(text)


def contents(top):
    """Returns the checksum of each file by its path."""
    files = [file for file in top.rglob("*") if not file.is_dir()]
    return {str(file.relative_to(top)): sha256(file.read_bytes()).hexdigest() for file in files}


@pytest.fixture
def here(tmp_path):
    """A model of this repository, with a few files in each crate."""
    here = tmp_path / "here"
    shutil.copytree(f"{ROOT}/tools/byte_unit_dev", here / "tools/byte_unit_dev")
    shutil.copy(f"{ROOT}/tools/dev", here / "tools")
    shutil.copy(f"{ROOT}/crates.txt", here)
    for crate in [*CRATES, "byte_unit_lines", "byte_unit_serde"]:
        names = ["src/lib.rt", "specs/in/Lib.antt", "proofs/Lib.antt", "must-fail/a.edit", "out/a"]
        write(here / "crates" / crate, {name: f"{name} of {crate}\n" for name in names})
    write(here, {"LICENSE": "MIT\n", "VERSION": "1.0.0\n", f"{MATH}/src/empty.rt": ""})
    shutil.rmtree(here / "crates/byte_unit/proofs")
    return here


@pytest.fixture
def there(tmp_path):
    """The other repository, before the first take."""
    there = tmp_path / "another one"
    write(there, {"crates.txt": "quota: byte_unit", ".gitignore": "*.log", "crates/quota/a": "Its own."})
    return there


@pytest.fixture
def copied(here, there):
    """The other repository after the first take, with built files."""
    run(here, there)
    write(there, {f"crates/{crate}/out/kept": crate for crate in CRATES})
    return there


def run(here, *words, status=0):
    """Calls `tools/dev take`, and returns what it prints. If it fails, that is one line, and nothing changes."""
    before = contents(here.parent)
    ran = call(here / "tools/dev", "take", *words, stderr=subprocess.PIPE, cwd=here)
    assert ran.returncode == status and bool(ran.stderr) == bool(status) != bool(ran.stdout)
    if status:
        assert contents(here.parent) == before and (status == 2 or ran.stderr.count("\n") == 1)
    return ran.stdout + ran.stderr


def change(here):
    """Makes the next version: edits files, adds one, removes all of a folder, and changes the line of a crate."""
    lines = (here / "crates.txt").read_text().replace("byte_unit_math:\n", "byte_unit_math: core\n", 1)
    write(here, {"crates.txt": lines, "VERSION": "2.0.0\n", f"{MATH}/specs/new/in/New.antt": "-- New.\n"})
    write(here, {f"crates/{crate}/src/lib.rt": "// The next version.\n" for crate in [*CRATES, "byte_unit_serde"]})
    shutil.rmtree(here / "crates/byte_unit/specs")


def test_first_take(here, there):
    own, ours = contents(there), contents(here)
    assert run(here, there).endswith(", crates.txt, .gitignore: 1.0.0, commit unknown\n")
    lines = [line for line in (here / "crates.txt").read_text().splitlines() if line.split(":")[0] in CRATES]
    assert (there / "crates.txt").read_text() == "\n".join(["quota: byte_unit", *lines]) + "\n"
    assert (there / ".gitignore").read_text() == "*.log\nout/\n"
    now = contents(there)
    copies = {path: row for path, row in now.items() if path not in own and path != RECORD}
    parts = tuple(f"crates/{crate}/{part}/" for crate in CRATES for part in ["src", "specs", "proofs"])
    wanted = {path: row for path, row in ours.items() if path.startswith(parts)}
    assert copies == {**wanted, "crates/byte_unit/LICENSE": ours["LICENSE"]}
    assert now["crates/quota/a"] == own["crates/quota/a"]
    record = (there / RECORD).read_text().splitlines()
    assert record[:2] == ["version: 1.0.0", "commit: unknown"] and record[2].startswith("toolchain: ")
    assert record[3:] == [f"{row}  {path}" for path, row in sorted(copies.items())]


def test_wrong_calls(here, copied):
    assert "is there already; --update replaces" in run(here, copied, status=1)
    for missing in (f"{copied}/x", "", f"{copied}/crates.txt"):
        assert f"{missing}: there is no such folder; nothing was changed\n" in run(here, missing, status=1)
    here.with_name("link").symlink_to(here)
    for inside in (here.with_name("link"), here / "crates", here.with_name("link") / "tools"):
        for words in ([inside], ["--update", inside]):
            assert "this repository, or in it" in run(here, *words, status=1)
    for words in ([], [copied, here], ["--force", copied]):
        assert "usage:" in run(here, *words, status=2)
    assert "--with toml is none of: serde;" in run(here, "--with", "toml", copied, status=1)


def test_not_free(here, there):
    write(there, {"crates.txt": "quota: byte_unit\nbyte_unit : quota\n"})
    assert "crates.txt has a line of byte_unit already" in run(here, there, status=1)
    (there / "crates").rename(there / "others")
    assert "its crates are not in a folder crates/" in run(here, there, status=1)
    assert f"there is no {RECORD}" in run(here, "--update", there, status=1)


def test_changes_there(here, copied):
    before = contents(copied)
    assert "up to date: 1.0.0" in run(here, "--update", copied)
    assert contents(copied) == before
    write(copied / MATH, {"src/lib.rt": "// Edited.\n", "must-fail/own.edit": ""})
    (copied / "crates/byte_unit/LICENSE").unlink()
    found = f"crates/byte_unit/LICENSE, {MATH}/must-fail/own.edit, {MATH}/src/lib.rt"
    assert f"removed: {found}; nothing was changed\n" in run(here, "--update", copied, status=1)


def test_update(here, copied, tmp_path):
    """The crates are as in a copy made anew, and all else stays; --with serde adds a crate, which later ones update."""
    lines, kept = (copied / "crates.txt").read_text(), contents(copied)
    run(here, "--update", "--with", "serde", copied)
    assert (copied / "crates.txt").read_text() == lines + "byte_unit_serde: byte_unit byte_unit_format serde toml\n"
    change(here)
    said = run(here, "--update", copied)
    assert "updated from 1.0.0, commit unknown to 2.0.0, commit unknown" in said
    assert "\nbyte_unit_math: core\n" in (copied / "crates.txt").read_text()
    anew = tmp_path / "anew"
    anew.mkdir()
    run(here, "--with", "serde", anew)
    now, stay = contents(copied), [path for path in kept if "/out/" in path or path.startswith(("crates/quota", "."))]
    assert len(stay) == len(CRATES) + 2 and all(now[path] == kept[path] for path in stay)
    others = {path: row for path, row in contents(anew).items() if path.startswith("crates/")}
    assert {path: row for path, row in now.items() if path.startswith("crates/") and path not in stay} == others
    assert "crates/byte_unit_serde/src/lib.rt" in (copied / RECORD).read_text()


def test_line_ends(here, there):
    """In a file whose lines end in CR LF, the added and the changed lines do."""
    (there / "crates.txt").write_bytes(b"example: core\r\nquota: byte_unit")
    (there / ".gitignore").write_bytes(b"*.log\r\n")
    run(here, there)
    change(here)
    run(here, "--update", there)
    lines = (there / "crates.txt").read_bytes().split(b"\r\n")
    assert lines[1] == b"quota: byte_unit" and b"byte_unit_math: core" in lines
    assert len(lines) == 3 + len(CRATES) and not lines[-1] and not any(b"\n" in line for line in lines)
    assert (there / ".gitignore").read_bytes() == b"*.log\r\nout/\r\n"


def test_commit(here, copied):
    """The record has the commit, and tells whether a file of the working tree differs from it."""
    need("git")
    write(here, {".gitignore": "out/\n"})
    for words in (["init", "-q"], ["add", "-A"], ["commit", "-qm", "All", "--no-gpg-sign"]):
        output("git", "-c", "user.name=a", "-c", "user.email=a@example", *words, cwd=here)
    head = output("git", "rev-parse", "--short=12", "HEAD", cwd=here).strip()
    run(here, "--update", copied)
    assert f"commit: {head}\n" in (copied / RECORD).read_text()
    write(here, {f"{MATH}/src/lib.rt": "// Edited.\n"})
    run(here, "--update", copied)
    assert f"commit: {head} (modified)\n" in (copied / RECORD).read_text()
