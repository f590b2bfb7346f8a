"""Copies the library's seven crates into another repository of Rattle, or updates the copy there.

Copies the crates, without tests and mutants, into FOLDER/crates, adds their lines to FOLDER/crates.txt and the line
`out/` to FOLDER/.gitignore, and records in crates/byte_unit/VERSION what was copied: version, commit, toolchain, and
the checksum of each file, as `sha256sum` writes it. Fails if one of the crates is already there, as a folder or as a
line. With --update, replaces that copy by the current one, but for each crate's out/. Fails, and names the files, if
any was edited, added or removed. What is wrong is found before anything changes.

With --with serde, copies byte_unit_serde too, which uses the crates serde and toml; a later --update updates it too.
What `rt` has proved of the crates on this machine, it takes over there.
"""

import hashlib
import os
import re
import shutil
import subprocess
from pathlib import Path

from .common import ROOT, Failure, call
from .source import library

HERE = Path(ROOT)
# The crates of every copy, and those that `--with` adds, by its words.
CRATES, MORE = library(), {"serde": "byte_unit_serde"}
# The folders of a crate that are copied.
PARTS = ["src", "specs", "proofs"]
# What was copied, by which a later --update knows whether it was changed; and the license beside it.
RECORD, LICENSE = "crates/byte_unit/VERSION", "crates/byte_unit/LICENSE"


def run(folder, *, update=False, with_=""):
    there = Path(folder).resolve()
    try:
        if with_ not in ("", *MORE):
            raise Failure(f"--with {with_} is none of: {' '.join(MORE)}")
        if not folder or not there.is_dir():
            raise Failure("there is no such folder")
        if there.is_relative_to(HERE):
            raise Failure("it is this repository, or in it")
        before = bytes_of(there / RECORD).decode(errors="replace") if update else ""
        crates = [*CRATES, *(crate for word, crate in MORE.items() if word == with_ or f"  crates/{crate}/" in before)]
        (check_unchanged if update else check_free)(there, crates, before)
    except Failure as error:
        raise Failure(f"{folder}: {error}; nothing was changed") from error
    now = record(crates)
    if before == now:
        print(f"take: {folder} is up to date: {name_of(now)}")
    else:
        replace(there, crates, now)
        how = f"updated from {name_of(before)} to" if before else f"copied {', '.join(crates)}, crates.txt, .gitignore:"
        print(f"take: {folder}: {how} {name_of(now)}")


def check_free(there, crates, _):
    """Fails if one of the crates is there already, or the other repository keeps its crates elsewhere."""
    if os.path.lexists(there / "crates.txt") and not (there / "crates").is_dir():
        raise Failure("its crates are not in a folder crates/")
    for crate in crates:
        if os.path.lexists(there / "crates" / crate):
            raise Failure(f"crates/{crate} is there already; --update replaces an unchanged copy")
        if row_of(crate).search(bytes_of(there / "crates.txt")):
            raise Failure(f"crates.txt has a line of {crate} already")


def check_unchanged(there, crates, before):
    """Fails, and names the files, unless those of the copy are those of the record."""
    if not before:
        raise Failure(f"there is no {RECORD}, which says what was taken")
    differ = {*before.splitlines()[3:]} ^ {*sums(there, crates, None)}
    if differ:
        names = sorted({line.partition("  ")[2] for line in differ})
        raise Failure(f"the copy is not as it was taken: these were edited, added or removed: {', '.join(names)}")


def replace(there, crates, now):
    """Writes the crates, their lines and the record."""
    for crate in crates:
        for part in PARTS:
            shutil.rmtree(there / "crates" / crate / part, ignore_errors=True)
            if (HERE / "crates" / crate / part).is_dir():
                shutil.copytree(HERE / "crates" / crate / part, there / "crates" / crate / part)
    rows, ignored = bytes_of(there / "crates.txt"), bytes_of(there / ".gitignore")
    for crate in crates:
        ours, theirs = row_of(crate).search(bytes_of(HERE / "crates.txt"))[2], row_of(crate).search(rows)
        rows = rows[:theirs.start(2)] + ours + rows[theirs.end(2):] if theirs else with_line(rows, ours)
    (there / "crates.txt").write_bytes(rows)
    if b"out/" not in map(bytes.rstrip, ignored.splitlines()):
        (there / ".gitignore").write_bytes(with_line(ignored, b"out/"))
    shutil.copy(HERE / "LICENSE", there / LICENSE)
    (there / RECORD).write_text(now)


def record(crates):
    """Returns the record of what is taken here."""
    commit = first_line("git", "describe", "--always", "--abbrev=12", "--exclude=*", "--dirty= (modified)")
    lines = [f"version: {(HERE / 'VERSION').read_text().strip()}", f"commit: {commit}",
             f"toolchain: {first_line('rt', 'version')}", *sums(HERE, crates, PARTS)]  # fmt: skip
    return "".join(f"{line}\n" for line in lines)


def name_of(record):
    """Returns the version and the commit of a record."""
    return ", commit ".join(re.findall(r"^(?:version|commit): (.*)", record, re.M))


def sums(top, crates, parts):
    """Returns the checksum and the path of each file of the crates below `top`, in these parts, or in all but out/."""
    found = [part for crate in crates for part in (top / "crates" / crate).glob("*")
             if (part.name in parts if parts else part.name != "out" and part != top / RECORD)]  # fmt: skip
    files = {file.relative_to(top).as_posix(): file for part in found for file in (part, *part.rglob("*"))}
    files |= {LICENSE: top / "LICENSE"} if parts else {}
    return [f"{hashlib.sha256(file.read_bytes()).hexdigest()}  {name}"
            for name, file in sorted(files.items()) if not file.is_dir()]  # fmt: skip


def bytes_of(file):
    """Returns the bytes of a file, and no bytes if there is no such file."""
    return file.read_bytes() if file.is_file() else b""


def first_line(*words):
    """Returns the first line that a command prints here, or `unknown` if it is not there or fails."""
    own = {name: value for name, value in os.environ.items() if not name.startswith("GIT_")}
    how = {"cwd": HERE, "env": {**own, "GIT_CEILING_DIRECTORIES": str(HERE.parent)}, "stderr": subprocess.DEVNULL}
    ran = call(*words, **how) if shutil.which(words[0]) else None
    return ran and ran.returncode == 0 and ran.stdout.partition("\n")[0] or "unknown"


def with_line(text, line):
    """Returns the text with one line more, which ends as the others do."""
    end = b"\r\n" if b"\r\n" in text else b"\n"
    return (text if text.endswith(b"\n") else text and text + end) + line + end


def row_of(crate):
    """Returns the pattern of the line of a crate in crates.txt, with the spaces around it."""
    return re.compile(rb"^([ \t]*)(%b(?![^\s:])[^\r\n]*?)([ \t\r]*)$" % crate.encode(), re.M)
