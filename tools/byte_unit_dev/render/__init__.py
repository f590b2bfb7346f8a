"""Renders files, and parts of files, from the sources that own what they say.

    tables       tables of byte_unit_base and byte_unit_c, from the prefixes and the lists of expected characters
    bits         byte_unit_bit from byte_unit_byte
    rust         the packages of Rust from the sources of the library and of the programs, without their contracts
    bindings     the lists of units and prefixes in `bindings/`, from tables of the library
    calling      the contracts in CALLING.md, from what `byte_unit` exports
    definitions  the lists of docs/DEFINITIONS.md, from the definitions that contracts lead to
    laws         the table of laws in docs/PROVED.md, from their comments
    guide        the blocks of code in docs/GUIDE.md, from the sources that comments name
    tools        the table of commands in CONTRIBUTING.md, from their docstrings

Without WHAT, renders all, in this order. In a page, what is rendered follows the first paragraph of a section. With
--check writes nothing, and prints the first difference of each file; the exit status is then 1.
"""

import os
from itertools import chain, zip_longest

from ..common import Failure, path, read, reason, report, write
from . import bits, contracts, pages, rust, rust_programs, tables

# Each yields the name and the text of each file that it renders, or no text for one that has to go, and may end by a
# failure for what else is wrong.
PARTS = {"tables": tables.tables, "bits": bits.made, "rust": lambda: chain(rust.made(), rust_programs.made()),
         "bindings": tables.bindings, "calling": contracts.calling, "definitions": contracts.definitions,
         "laws": pages.laws, "guide": pages.guide, "tools": pages.tools}  # fmt: skip


def wrong(part, check):
    """Renders a part, and yields what is wrong."""
    try:
        for name, text in PARTS[part]():
            found = read(name) if os.path.exists(path(name)) else "no such file" * bool(text)
            lines = enumerate(zip_longest(text.split("\n"), found.split("\n"), fillvalue="the end"), 1)
            if text == found:
                continue
            if check:
                number, (want, find) = next(line for line in lines if line[1][0] != line[1][1])
                why = "differs from what is rendered" if text else "is rendered from no file"
                yield f"{name}:{number}: {why}; run tools/dev render {part}\n  rendered: {want}\n  found:    {find}"
            elif text or "Rendered from" in found.partition("\n")[0]:
                print(f"{'rendered' if text else 'removed'} {name}")
                write(name, text) if text else os.remove(path(name))
            else:
                yield f"{name}:1: nothing renders this file, and its first line does not say that it is rendered"
    except (Failure, OSError) as failure:
        yield reason(failure)


def run(*what: PARTS, check=False):
    parts = [part for part in PARTS if part in what or not what]
    return report([line for part in parts for line in wrong(part, check)], f"as rendered: {', '.join(parts)}")
