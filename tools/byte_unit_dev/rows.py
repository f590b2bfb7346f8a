"""The rows of the test vectors, and how what a runner answers is compared with them."""

import re
import subprocess
from itertools import product, zip_longest

from .common import Failure, read
from .model.exact import LETTERS

FILE = "crates/byte_unit_vectors/stdin"
# The calls that a runner does not have. The exact model has all.
BY_RUST = {"read", "plain", "layout", "value", "steps", "largest", "choose", "decimal", "expansion", "rounded", "least",
           "quotient", "powers", "json", "from_json", "unit_json", "unit_from_json", "properties", "binary_unit",
           "constant"}  # fmt: skip
BY_C = BY_RUST | {"make_decimal", "multiply", "divide"}
BY_PYTHON = BY_C | {"add", "subtract", "as_u64"}


def unescaped(text):
    """Returns a text of a row with `\\{N*c}` as N characters, and `\\u{..}` as the character with this code point."""
    text = re.sub(r"\\\{(\d+)\*(\\u\{[0-9A-Fa-f]+\}|.)\}", lambda m: m[2] * int(m[1]), text, flags=re.S)
    return re.sub(r"\\u\{([0-9A-Fa-f]+)\}", lambda m: chr(int(m[1], 16)), text)


def folded(text):
    """Returns the beginning of a text, in which `\\{N*c}` is for N equal characters, if N is 100 or more."""
    return re.sub(r"(.)\1{99,}", lambda m: f"\\{{{len(m[0])}*{m[1]}}}", text, flags=re.S)[:300]


class Row:
    """A row: its line, ID and call, the words of this, its name, which is the first of them or what is computed, its text
    (or None), and its answer, with nothing escaped."""

    def __init__(self, line):
        found = re.fullmatch(r'(\S+): ([^"=]*?(?: ("[^"]*"))?) = (.+)', line)
        if not found:
            raise Failure(f"{FILE}: this is no row, `ID: CALL = ANSWER`: {line[:300]}")
        self.line, (self.id, self.call, text, answer) = line, found.groups()
        self.words, self.answer = self.call.partition(' "')[0].split(), unescaped(answer)
        self.name = self.words[3 if self.words[0] == "compute" else 0]
        self.text = unescaped(text[1:-1]) if text else None


def rows():
    """Returns the rows of the file, in their order."""
    return [Row(line) for line in read(FILE).split("\n") if line and not line.startswith("#")]


def check(rows, answers, left_out=()):
    """Checks the answers of a runner: they are the rows', but `-` to a call whose name is left out, and to no other."""
    answers = [*answers]
    assert len(answers) <= len(rows), f"there are {len(answers)} answers for {len(rows)} rows"
    wrong = [
        f"{row.id}: {row.call[:300]}\n    wanted: {folded(wanted)}\n    got:    {folded(got)}"
        for row, got in zip_longest(rows, answers, fillvalue="nothing")
        for wanted in ["-" if row.name in left_out else row.answer] if got != wanted
    ]  # fmt: skip
    if wrong:
        raise AssertionError("\n".join([f"{len(wrong)} rows are answered otherwise:", *wrong[:20]]))


def spellings():
    """Returns a row for each spelling of each unit: 55 prefixes with 27 suffixes, by each choice of case and kind."""
    prefixes = ["", *map("".join, product(LETTERS + LETTERS.lower(), ["", "i", "I"]))]
    bits = [*map("".join, product("bB", "iI", "tT", ["", "s", "S"]))]
    calls = product(prefixes, ["", "B", "b", *bits], ["cased", "uncased"], ["bytes", "bits"])
    return [Row(f'spelling: unit {case} {prefer} "{prefix}{suffix}" = {prefix[:1].upper()}{prefix[1:].lower()}'
                + "bB"[{"": prefer == "bytes", "B": True, "b": case == "uncased"}.get(suffix, False)])
            for prefix, suffix, case, prefer in calls]  # fmt: skip


def check_program(command, left_out=BY_C, **variables):
    """Checks the answers of a program that reads records and writes lines: see bindings/c/checks/vectors.c. As a zero
    byte ends a record, no text has one."""
    asked = [*spellings(), *(row for row in rows() if "\0" not in (row.text or ""))]
    records = [" ".join(row.words) + (f' "{row.text}' if row.text is not None else "") for row in asked]
    given = "".join(record + "\0" for record in records).encode()
    written = subprocess.run(command, check=True, input=given, stdout=subprocess.PIPE, **variables).stdout
    check(asked, written.decode().split("\n")[:-1], left_out)
