"""Mutants of what is written by hand, which no proof covers: each is a wrong edit that a test has to see.

Each catalogue is a file mutants.edits outside crates/. In it each mutant has a line `== TITLE`, which says what a user
would see, and one or more pairs of lines `old: TEXT`, which is in the file once, and `new: TEXT`. Before a mutant are
lines `test: WORDS`, calls of `tools/dev`, one of which fails with the mutant, and `file: NAME`, from the catalogue's
folder: they are of all mutants up to the next such lines. One that no user can see has a line `equal: WHY`, and is not
tried.
"""

import os
import re
import shlex
import shutil
import tempfile
from collections import namedtuple
from pathlib import Path

from .builds import environment
from .common import Failure, call, files, output, part_of, path, read, report, write

CATALOGUE = re.compile(r"(?!crates/).*/mutants\.edits")
PAIR = re.compile(r"^old: (.*)\nnew: ?(.*)$", re.M)
# A line of the mutants that follow, among those of one.
MISPLACED = re.compile(r"^== .*\n(?:.+\n)*?(?:file|test): ", re.M)
Mutant = namedtuple("Mutant", "catalogue title file pairs olds tests equal")


def fields(text, name):
    """Returns what follows a word at the beginning of each line that begins with it."""
    return re.findall(rf"^{name}: (.*)$", text, re.M)


def entries(name):
    """Yields the lines before each mutant of a catalogue that are of those that follow, its title, and its own lines."""
    before, *edits = re.split("^== ", read(name), flags=re.M)
    for edit in edits:
        yield before, *edit.split("\n", 1)
        before = edit  # the lines after a mutant's own are of those that follow


def mutants():
    """Yields all mutants, in the order of their catalogues."""
    for folder in folders():
        name, tests, file = f"{folder}/mutants.edits", (), ""
        for before, title, edit in entries(name):
            tests, file = tuple(fields(before, "test")) or tests, (fields(before, "file") or [file])[0]
            pairs, olds, place = PAIR.findall(edit), len(fields(edit, "old")), os.path.join(folder, file)
            yield Mutant(name, title, os.path.normpath(place), pairs, max(1, olds), tests, fields(edit, "equal"))


def edited(mutant, text):
    """Returns the text of a file with a mutant in it. Fails if the mutant does not fit."""
    for old, new in mutant.pairs:
        if text.count(old) != 1:
            raise Failure(f"{mutant.catalogue}: {mutant.title}: this is not in its file exactly once: {old}")
        text = text.replace(old, new)
    return text


def listed():
    """Yields what is wrong with the form of a mutant."""
    seen = set()
    yield from (f"{folder}/mutants.edits: a line `file:` or `test:` is before its mutants, after an empty line"
                for folder in folders() if MISPLACED.search(read(f"{folder}/mutants.edits")))
    for mutant in mutants():
        name = f"{mutant.catalogue}: {mutant.title}"
        try:
            if os.path.isfile(path(mutant.file)):
                edited(mutant, read(mutant.file))
            else:
                yield f"{name}: there is no file {mutant.file}"
        except Failure as failure:
            yield str(failure)
        if len(mutant.pairs) < mutant.olds or not mutant.tests:
            yield f"{name}: no `test:`, or a line `old:` without a line `new:` after it"
        if name in seen:
            yield f"{name}: twice"
        seen.add(name)


def copied(folder):
    """Copies the repository's files, as a repository of git, and returns the environment of the tests there: cargo
    builds the library, since no program `rt` is on the path. It keeps what it has built from one mutant to the next, of
    sources in the same places; a mutant and the text in its place again are both newer than what was built."""
    tree, programs = Path(folder, "tree"), Path(folder, "bin")
    for name in files():
        (tree / name).parent.mkdir(parents=True, exist_ok=True)
        shutil.copy2(path(name), tree / name, follow_symlinks=False)
    output("git", "init", "--quiet", cwd=tree)
    output("git", "add", "--all", cwd=tree)
    programs.mkdir()
    folders = os.environ["PATH"].split(os.pathsep)
    for place in [place for place in folders if os.path.isfile(f"{place}/rt")]:
        for program in set(os.listdir(place)) - {"rt"}:
            if not os.path.lexists(programs / program):
                (programs / program).symlink_to(f"{place}/{program}")
        folders[folders.index(place)] = str(programs)
    kept = {"BYTE_UNIT_KEPT": f"{folder}/kept", "PYTEST_ADDOPTS": f"--basetemp={folder}/tests"}
    return tree, environment(PATH=os.pathsep.join(folders), **kept)


def ended(tree, here, test):
    """Calls `tools/dev` in the copy. Returns whether it passed, and what it printed. One that hangs is ended."""
    got = call("timeout", "900", "tools/dev", *shlex.split(test), cwd=tree, env=here)
    return got.returncode == 0, got.stdout


def unsound(tree, here, tests):
    """Returns, for each call that does not pass without a mutant, what is wrong, or lines `skipped: ` if something is
    missing."""
    found = {}
    for test in tests:
        passed, said = ended(tree, here, test)
        skips = re.findall("^skipped: .*", said, re.M)
        if skips:
            found[test] = "\n".join(skips)
        elif not passed or re.search("^0 passed", said, re.M):
            found[test] = f"mutants: without a mutant, `tools/dev {test}` does not pass:\n{said}"
    return found


def tried(chosen):
    """Tries mutants in a copy of the repository, and yields what is wrong."""
    with tempfile.TemporaryDirectory() as folder:
        tree, here = copied(folder)
        wrong = unsound(tree, here, dict.fromkeys(test for mutant in chosen for test in mutant.tests))
        skipped = [why for why in wrong.values() if why.startswith("skipped: ")]
        print(*skipped, sep="\n", end="\n" * bool(skipped))
        yield from set(wrong.values()) - set(skipped)
        for mutant in chosen:
            if wrong.keys() & set(mutant.tests):
                continue
            text = read(tree / mutant.file)
            write(tree / mutant.file, edited(mutant, text))
            survives = all(ended(tree, here, test)[0] for test in mutant.tests)
            write(tree / mutant.file, text)
            print(f"{'SURVIVES' if survives else 'killed'}: {mutant.catalogue}: {mutant.title}", flush=True)
            if survives:
                yield f"{mutant.catalogue}: no test sees this: {mutant.title}"


def folders():
    """Returns the folders of the catalogues."""
    return [os.path.dirname(name) for name in filter(CATALOGUE.fullmatch, files())]


def run(part, chosen_folders):
    """Tries the part K/N of the mutants, of those of some folders if any are given."""
    wrong = [*listed()]
    if wrong:
        return report(wrong, "")
    every = [mutant for mutant in mutants() if not mutant.equal
             and os.path.dirname(mutant.catalogue) in (chosen_folders or folders())]  # fmt: skip
    chosen = part_of(every, part)
    return report([*tried(chosen)], f"mutants: {len(chosen)} of {len(every)} of what is written by hand, each seen")
