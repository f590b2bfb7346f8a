"""Renders parts of pages: what follows the first paragraph of a section, and blocks of code."""

import re

from .. import tests, verbs
from ..common import Failure, files, read, reason
from ..pages.examples import Example, imports_of
from ..products import PARTS
from ..source import SHOWN, beside, line_of, source, use_line

# The files of laws, and the crate whose laws are those of bytes once more.
LAWS, BITS = re.compile(r"crates/(\w+)/src/laws(?:/\w+)?\.rt"), "byte_unit_bit"
# A line of a docstring that lists a part: its name, two spaces or more, and what it is.
PART = re.compile(r"^ +([a-z-]+) {2,}\S", re.M)


def with_parts(name, *parts):
    """Returns a file in which each part is between the one match of a pattern and the next match of another."""
    made = read(name)
    for start, end, part in parts:
        found = re.split(f"(?ms)({start}).*?(?={end})", made)
        if len(found) != 3:
            raise Failure(f"{name}: {len(found) // 2} places, not one, for what is rendered after {start!r}")
        made = found[0] + found[1] + part + found[2]
    return made


def section(title, text):
    """Returns the part of a page that follows the first paragraph of a section."""
    return rf"^## {title}\n\n[^\n]+\n\n", r"\n+^## |\n\Z", text


def statement(comment):
    """Returns what a law states, as the first sentence of its comment says it."""
    words = line_of(comment).removeprefix("States that ").replace(", and that ", ", and ")
    words = re.split(r"(?<=\.)\s", words)[0]
    return (words if words[1].isdigit() else words[0].upper() + words[1:]).replace("|", "\\|")


def laws(page="docs/PROVED.md"):
    """The public functions in `laws` of each crate but that of bits, with the first sentence of each comment; below
    the table, what a file with laws says after its first paragraph."""
    rows, notes = ["Law | Statement | File, also of the rows below", "---|---|---"], []
    for found in filter(None, map(LAWS.fullmatch, files())):
        file, link = source(found[0]), f"[{found[0].removeprefix('crates/')}](../{found[0]})"
        names = [law[1] for law in file.blocks(r"^pub fn (\w+)")] if found[1] != BITS else []
        stated = [f"`{law}` | {statement(file.comment(f'fn {law}'))}" for law in names]
        rows += [f"{stated[0]} | {link}", *stated[1:]] if stated else []
        notes += [f"- {link}: {line_of(note)}" for note in file.comment().split("\n\n")[1:] if stated]
    yield page, with_parts(page, section("Laws", "\n".join(["<!-- laws: rendered -->", "", *rows, "", *notes])))


def whole(name, parts):
    """Returns parts of a file with what they need to be pasted."""
    file = source(name)
    code = "\n".join(file.part(part) for part in parts if part != "attributes")
    if parts[0].startswith("example"):
        lines = imports_of(Example(name, 0, code, "byte_unit", ""))
        uses = use_line("use byte_unit::", [line[:-1].rpartition(":")[2] for line in lines])
    else:
        uses = file.imports_for(code)
        crate, _, module = name.removeprefix("crates/").partition("/src/")
        near = beside(name, "\n".join([*uses, code]))
        uses = [f"// src/{module} of {crate}, with {', '.join(near)}"] * bool(near) + uses
    attributes = [file.part(part) for part in parts if part == "attributes"]
    return "\n".join([*attributes, *["\n".join(uses) + "\n"] * bool(uses), code])


def guide(page="docs/GUIDE.md"):
    """A comment in the line before a block, `<!-- from crates/NAME/src/FILE.rt: PART, PART -->`, names its source.

    Each block of Rust has to have one. Before the parts are the imports that they need, and first a comment with the
    files that they need beside them, so that they can be pasted. A part is one of

        fn cell, struct Log     an item by its kind and name, or an `impl` by its head as in `impl Model for Entry`, with
                                its attributes and without its doc comment
        fn Log::write           an item of an `impl` of the type `Log`
        example fn Byte::add    the examples in the doc comment of an item; `example` alone: in that of the module
        attributes              the lines `#![..]` of the file
    """
    text = read(page)

    def with_code(block):
        head, file, parts, language, code = block.groups()
        try:
            if not file and language == "rust":
                raise Failure("no comment names the source of this block")
            return f"{head}{whole(file, re.split(', *', parts)) if file else code}```"
        except (Failure, OSError) as failure:
            line = 1 + text.count("\n", 0, block.start())
            raise Failure(f"{page}:{line}: {reason(failure)}") from None

    yield page, SHOWN.sub(with_code, text)


def tools(page="CONTRIBUTING.md"):
    """The commands, with the first sentence of each, and the parts that its docstring lists, or those of the tests."""
    rows = ["Command | What it does", "---|---"]
    for verb in verbs.VERBS:
        module = verbs.module_of(verb)
        parts = ", ".join(f"`{part}`" for part in (PARTS if module is tests else PART.findall(module.__doc__)))
        rows.append(f"`tools/dev {verb}` | {verbs.summary_of(module)}" + f" ({parts})" * bool(parts))
    yield page, with_parts(page, section("Tools", "\n".join(["<!-- tools: rendered -->", "", *rows])))
