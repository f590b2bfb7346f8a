"""The table of README.md that shows what other programs read and write of the same sizes."""

import re
from collections import namedtuple

from ..common import read

ROW = re.compile(r"^\| (Read|Write) (.*?)(, and read that)? \| (.*) \|$", re.M)
# What a program does: reads a text, and writes a number; each returns None for an error.
Program = namedtuple("Program", "reads writes")


def rows():
    """Yields the task, its text or number, and the cells of each row: numfmt, PostgreSQL, humanfriendly, the original
    crate, and the library. A cell may end in the option that it takes."""
    for task, what, again, cells in ROW.findall(read("README.md")):
        yield task + again, re.match("`?([^`]*)", what)[1], cells.split(" | ")


def cell(program, task, what, options):
    """Returns what the table has to say of a program, with the options that its cell names."""
    if task == "Read":
        size = program.reads(what, *options)
        return "an error" if size is None else str(size) + "".join(f", with `{option}`" for option in options)
    text = program.writes(eval(what.replace("^", "**")))
    if text is None:
        return "an error"
    return f"`{text}`" + (f", {program.reads(text)}" if task != "Write" else "")


def column(program, number):
    """Returns the cells of a column that differ from what a program does, each with that."""
    found = [(cells[number], cell(program, task, what, re.findall(", with `(.*)`", cells[number])))
             for task, what, cells in rows()]  # fmt: skip
    assert len(found) == 7
    return [pair for pair in found if pair[0] != pair[1]]
