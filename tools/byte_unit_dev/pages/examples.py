"""The examples of the doc comments, which are run as tests by `rt try --test` on copies of the crates.

A block ```rust becomes the body of a test with `rt`, `alloc` and `?`, and a `use` line for each name in it that the
root of its crate or of `byte_unit` exports; what is in it up to the last type with `#[derive(..)]` comes before the
test, since no function may hold one. `rt try` proves nothing, and stops at only some calls that break a `requires`.
"""

import re
import subprocess
import tempfile
from collections import namedtuple

from ..common import call, write
from ..source import Source, below, copy_crates, crates, files, library, public_names
from .text import blocks, line_at

ITEMS = re.compile(r"(.*^#\[derive\(.*?^}\n)?(.*)", re.M | re.S)
PUBLIC = re.compile(r"^[ \t]*pub (?:const )?(?:unsafe )?fn (\w+)", re.M)
# An example, by its file and the line at which its block begins; and the module with its test.
Example = namedtuple("Example", "file line text crate test")


def examples_of(source):
    """Returns the examples of a file, and what is wrong with its blocks."""
    comments = [re.match(r"\s*//[/!](?!/) ?(.*)", line) for line in source.text.splitlines()]
    crate, _, file = source.name.removeprefix("crates/").removesuffix(".rt").partition("/src/")
    found, wrong = [], []
    for block in blocks("".join(f"{comment[1]}\n" if comment else "\0\n" for comment in comments)):
        where = f"{source.name}:{block.line}"
        if not block.is_closed:
            wrong.append(f"{where}: a block that is not closed")
        elif not block.language:
            wrong.append(f"{where}: a block without a language")
        elif block.language == "text" and re.search("::|//", block.text):
            wrong.append(f"{where}: code in a block of text; make it ```rust with assertions")
        elif block.language == "rust" and not any(crate in used for used in crates().values()):
            wrong.append(f"{where}: an example of a crate that no crate uses; make it a test")
        elif block.language == "rust":
            test = re.sub(r"\W", "_", f"{crate}_{file}_{block.line}").lower()
            found.append(Example(source.name, block.line, block.text, crate, test))
    return found, wrong


def without_comment(source):
    """Yields a line for each public function without a doc comment."""
    for found in PUBLIC.finditer(source.code):
        start = source.above(found.start(), "#[", "// ")
        if source.above(start, "///") == start:
            line = line_at(source.text, found.start())
            yield f"{source.name}:{line}: the public function {found[1]} has no doc comment"


def imports_of(example):
    """Returns a `use` line for each exported name in an example: of its own crate, or else of `byte_unit`."""
    code = re.sub(r'"(?:[^"\\]|\\.)*"', '""', re.sub(r"//.*", "", example.text))
    own = set(re.findall(r"\w+", "\n".join(re.findall(r"^use .*", example.text, re.M))))
    used = set(re.findall(r"(?<![\w:.])[A-Z]\w*|(?<![\w:.])[a-z]\w*(?=\(|::)", code)) - own
    made = []
    for crate in dict.fromkeys([example.crate, "byte_unit"]):
        found = sorted(used & set().union(*public_names(crate)))
        made += [f"use {crate}::{name};" for name in found]
        used -= set(found)
    return made


def test_of(example):
    """Returns a module with an example as a test."""
    items, test = re.fullmatch(ITEMS, example.text).groups(default="")
    alloc = ["    let alloc = rt.alloc();"] * bool(re.search(r"\balloc\b", test))
    head = [*imports_of(example), items, "#[test]", "fn holds(rt: HostRuntime) -> anyhow::Result<()> {"]
    return "\n".join([*head, *alloc, *(f"    {line}".rstrip() for line in test.splitlines()), "    Ok(())", "}", ""])


def failures(examples):
    """Runs the examples in a copy of the crates that they need. Returns a line for each failure."""
    with tempfile.TemporaryDirectory() as top:
        copied = below([*library(), *(example.crate for example in examples)])
        used = sorted({"anyhow", *copied, *(name for crate in copied for name in crates()[crate])})
        copy_crates(top, copied, {"doc_examples": used}, ["out", "must-fail", "mutants.edits"])
        modules = "".join(f"\n#[cfg(test)]\nmod {example.test};\n" for example in examples)
        write(f"{top}/crates/doc_examples/src/lib.rt", f"//! The examples.\n#![tactic(auto)]\n{modules}")
        for example in examples:
            write(f"{top}/crates/doc_examples/src/{example.test}.rt", test_of(example))
        got = call("rt", "try", "--test", cwd=f"{top}/crates/doc_examples", stdin=subprocess.DEVNULL,
                   stderr=subprocess.PIPE)  # fmt: skip
    ends = dict(re.findall(r"^test (\w+)::holds \.\.\. (\w+)$", got.stdout, re.M))
    if not ends:
        return [f"status {got.returncode} of rt try --test\n{got.stdout}{got.stderr}".rstrip()]
    wrong = []
    for example in examples:
        if ends.get(example.test) != "ok":
            why = re.search(rf"^test {example.test}::holds \.\.\. \w+\n((?:    .*\n)*)", got.stdout, re.M)
            wrong.append(f"{example.file}:{example.line}: the example fails\n{why[1] if why else ''}".rstrip())
    return wrong or [got.stdout + got.stderr] * (got.returncode != 0)


def examples():
    found, wrong = [], []
    for crate in crates():
        for source in map(Source, files(f"crates/{crate}/src", ".rt")):
            more, faults = examples_of(source)
            found += more
            wrong += [*faults, *(without_comment(source) if crate in library() else ())]
    if found:
        wrong += failures(found)
    return wrong, f"{len(found)} examples of {len({example.file for example in found})} files hold"
