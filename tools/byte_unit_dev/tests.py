"""Runs the tests of what is not proved, by pytest: bindings, command, program, tools.

    tools/dev test [--after-ci] [--lines N] [--seed S] [PART..] [-- PYTEST'S ARGUMENTS]

Without a part, runs all. The files of several parts run side by side, by python3-pytest-xdist. A test is skipped only
if a program or file that it needs is missing; a line that begins with `skipped: ` names it. The last line is `N passed,
N failed`, with `, N skipped` after it if some were. Of pytest's arguments, `-k WORD` chooses tests, and `-m whole` runs
those that take long, or inputs of 1 GB. With --stage, runs what the gate runs in one of its stages: first, cargo,
library, programs, vectors.
"""

import os
import shutil
import sys

from .common import Failure, ROOT, call, path
from .needs import DEBIAN_PYTHON
from .products import BY_CARGO, PARTS


# The words of the stages of the gate that do not come after `rt ci` has built something.
OF_STAGE = {"first": [], "cargo": ["-k", BY_CARGO]}


def run(*words, after_ci=False, lines=4000, seed=1, stage=""):
    end = next((at for at, word in enumerate(words) if word.startswith("-")), len(words))
    parts, words = words[:end], [f"--lines={lines}", f"--seed={seed}", *["--after-ci"] * after_ci, *words[end:]]
    if stage:
        parts = [part for part, (_, own) in PARTS.items() if own == stage or stage == "cargo" and own != "first"]
        words += OF_STAGE.get(stage, ["--after-ci", "-k", f"not ({BY_CARGO})"])
    wrong = [part for part in parts or [stage] if part and part not in PARTS]
    if wrong:
        raise Failure(f"'{wrong[0]}' is no part; these are: {' '.join(PARTS)}")
    os.chdir(ROOT)
    # The Python that runs this may be another than Debian's, for which pytest is installed.
    for python in filter(shutil.which, (sys.executable, DEBIAN_PYTHON)):
        if call(python, "-c", "import pytest").returncode == 0:
            chosen = [path(PARTS[part][0]) for part in parts or PARTS]
            # A file is one process's, so what its tests share, such as a server, is made once.
            if len(parts) != 1 and call(python, "-c", "import xdist").returncode == 0:
                words = ["--numprocesses", str(min(os.cpu_count(), 4)), "--dist", "loadfile", *words]
            return call(python, "-B", "-m", "pytest", *words, *chosen, stdout=None, stderr=None).returncode
    missing = "no Python has pytest (Debian: python3-pytest)"
    if "BYTE_UNIT_SETUP" not in os.environ:
        raise Failure(missing)
    skipped = [f"skipped: {part}: {missing}" for part in parts or PARTS]
    print(*skipped, f"0 passed, 0 failed, {len(skipped)} skipped", sep="\n")
    return 0
