"""Checks the file of test vectors, and compares what each runner answers with the rows."""

import collections
import hashlib
import os
import re

import pytest
from byte_unit_dev.fixtures import ended, environment, path, read
from byte_unit_dev.model.answers import answer
from byte_unit_dev.rows import BY_PYTHON, BY_RUST, FILE, check, check_program, rows, spellings

BY_JAVASCRIPT = BY_PYTHON | {"exact", "recoverable", "make_in"}
# The rows of version 3.0.0: those of a section are the numbers up to this one, and a digest has their lines.
ROWS_OF_3_0_0 = {
    "parse": (148, "a4f97b7748245c92"), "binary": (138, "22eeb8428e592c08"), "errors": (569, "7b44e835bf9fcb00"),
    "positions": (94, "e20f2b6a93a41ac9"), "units": (119, "9f8d342461b3db37"), "numbers": (49, "5704baa2901ba03f"),
    "messages": (59, "002042e8c7969a02"), "texts": (169, "f99973bf8d9c106a"), "adjusted": (237, "78a68f7b89fe16af"),
    "layouts": (12, "d9770aae37b16091"), "choices": (102, "c710a2e6fe04892d"), "products": (29, "8088f7d40a185209"),
    "arithmetic": (18, "5b53071a3763ea28"), "decimals": (48, "3353e6bd6a650977"),
    "rounding": (14, "3ba042980cdfe552"), "quotients": (38, "d5fb50e31ecfa709"), "json": (283, "6a5fc413a105d622"),
    "properties": (76, "8d6ff5484986ba51"), "constants": (78, "c96d7a66c741b0f8"),
    "programs": (22, "13a61d20c4bbaa64"),
}  # fmt: skip


def test_ids():
    """An ID is the word of its section and a name, and no other row has it."""
    section, wrong = None, []
    for line in read(FILE).split("\n"):
        section = line[3:].partition(": ")[0] if line.startswith("## ") else section
        if line and not line.startswith("#") and not re.match(rf"{section}\.[a-z0-9]+(-[a-z0-9]+)*: ", line):
            wrong.append(line)
    assert section and wrong == []
    assert [name for name, count in collections.Counter(row.id for row in rows()).items() if count > 1] == []


def test_sections():
    """Each section has the source of its answers, and the head describes the calls of the rows, and no others."""
    head, *sections = re.split(r"^## ", read(FILE), flags=re.M)
    assert [text for text in sections if not re.match(r"[a-z]+: .+\n# Source: .+\n(# .+\n)*\n# ", text)] == []
    assert set(re.findall(r"^#   (\w+) [A-Z]", head, re.M)) == {row.words[0] for row in rows()}


@pytest.mark.parametrize("section", ROWS_OF_3_0_0)
def test_rows_of_3_0_0(section):
    """No row of version 3.0.0 is lost or changed. Others may stand between them, with any other IDs."""
    last, digest = ROWS_OF_3_0_0[section]
    lines, wanted = {row.id: row.line for row in rows()}, [f"{section}.{number}" for number in range(1, last + 1)]
    assert [name for name in wanted if name not in lines] == []
    found = hashlib.sha256("\n".join(map(lines.get, wanted)).encode()).hexdigest()
    assert found.startswith(digest), f"of {wanted[0]} to {wanted[-1]} a row is changed"


def test_exact_model():
    asked = [*spellings(), *rows()]
    check(asked, [answer(row.words, row.text) for row in asked])


def test_spellings(program_of):
    """The program of the rows, which `rt ci` runs, answers the spellings too."""
    given = "".join(row.line + "\n" for row in spellings()).encode()
    assert ended(program_of("byte_unit_vectors"), input=given) == (0, b"", b"5940 rows, 0 wrong\n")


def test_c(runner_in_c):
    check_program([runner_in_c])


def test_rust(cargo, rust_package):
    cargo.output(rust_package, "build", "--example", "vectors")
    check_program([os.path.join(cargo.target, "debug/examples/vectors")], BY_RUST)


def test_python(python):
    check_program([python.program, path("vectors/run_python.py")], BY_PYTHON, env=environment())


def test_javascript(javascript):
    check_program(["node", javascript / "checks/vectors.js"], BY_JAVASCRIPT)
