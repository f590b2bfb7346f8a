"""The pages as texts: their blocks, their words and links, the names in them, and the places that say the version."""

import fnmatch
import functools
import os
import re
from collections import namedtuple
from pathlib import Path

from ..common import Failure, files, path, read
from ..products import PRODUCTS

PAGE = re.compile(r"(docs/.*|(.*/)?README|[^/]*)\.md")
# The words that all pages, and README.md, have at most.
TOTAL, README = 42_000, 1_500
# Names of std, the kit, the original crate and other programs, and what programs make.
OTHERS = set("""
axioms Env heap rattle_alloc rattle_realloc rattle_dealloc rattle_arg rattle_errno rattle_set_errno rattle_env
rattle_env_at lseek getcwd isatty ethtool SHORTER_PROOFS.md mul_8 div_8 rocket schemars ctypes REINDEX _in
get_unchecked compiler_builtins crates/quota/src/main.rt crates/byte_unit_cli/out/byte_unit_cli /usr/local/lib
/usr/local crates/byte_unit_lines/out/byte_unit_lines lib/sqlite3/byte_unit.so target/release/libbyte_unit.a
FromParam FromFormField
""".split())
C_HEADER, C_EXAMPLE = "bindings/c/byte_unit.h", "bindings/c/examples/example.c"
DEFINITION, RATTLE = "crates/byte_unit_c/specs/Version.antt", "crates/byte_unit_c/src/version.rt"
# Each place that says the version: a file, and a text with `{..}` for what has to be there, once.
VERSIONS = [
    *((C_HEADER, f"#define BYTE_UNIT_VERSION{end}\n") for end in (
        '_STRING "{version}"', " {number}", "_MAJOR {major}", "_MINOR {minor}", "_PATCH {patch}")),
    (DEFINITION, "-- the version {version}: "),
    (DEFINITION, "\nversion = {number}\n"),
    (RATTLE, "the version of the library, {version}, as the number {number:,}.\n"),
    (RATTLE, "\n    {number:_}\n"),
    ("crates/byte_unit_command/src/arguments.rt", '.version("{version}")'),
    ("bindings/c/byte_unit.map", "\nBYTE_UNIT_{major} "),
    ("bindings/c/README.md", "`libbyte_unit.so.{major}`"),
    ("bindings/c/Cargo.toml", '\nversion = "{version}"\n'),
    (C_EXAMPLE, '"version {version}"'),
    (C_EXAMPLE, "BYTE_UNIT_VERSION == {number})"),
    ("bindings/js/package.json", '"version": "{version}"'),
    ("bindings/sql/postgresql/byte_unit.control", "default_version = '{version}'\n"),
    ("bindings/sql/postgresql/Makefile", "DATA = byte_unit--{version}.sql\n"),
    ("bindings/programs/Cargo.toml", '"byte-unit-programs"\nversion = "{version}"\n'),
    ("bindings/rust/Cargo.toml", '\nversion = "5.2.6+{version}"\n'),
    ("bindings/rust/README.md", "`5.2.6+{version}`"),
]
# A name of code with its path, its arguments or a `!`; a path of files, where `*` matches any characters; and a link.
NAME = re.compile(r"[A-Za-z_]\w*(?:(?:::|\.)\w+)*(?:\(.*\))?!?")
PATH = re.compile(r"\.{0,2}/?[\w.*\-]+(?:/[\w.*\-]+)+/?")
LINK = re.compile(r"\]\(([^()\s]*)[^()]*\)|^\[[^\]]+\]: *(\S+)", re.M)
# A block up to the line that closes it. One that is not closed ends at a line that begins with `\0`, or with the text.
FENCE = re.compile(r"^ *```(\S*)[^\n]*\n(.*?)(^ *```$|^\0|\Z)", re.M | re.S)
Block = namedtuple("Block", "line language text is_closed")


def line_at(text, place):
    return 1 + text.count("\n", 0, place)


def blocks(text):
    """Returns the fenced blocks of a text, each with the number of its first line."""
    return [Block(line_at(text, found.start()), found[1], found[2], found[3] not in ("", "\0"))
            for found in FENCE.finditer(text)]


def without_blocks(text):
    return FENCE.sub(lambda found: "\n" * found[0].count("\n"), text)


@functools.lru_cache(maxsize=None)
def pages():
    return {name: read(name) for name in files() if PAGE.fullmatch(name)}


@functools.lru_cache(maxsize=None)
def places():
    """Returns the names of all files and folders."""
    return {".", *files(), *(name[: cut.start()] for name in files() for cut in re.finditer("/", name))}


@functools.lru_cache(maxsize=None)
def anchors(page):
    """Returns the anchors of the headings, as GitHub makes them, but for those of headings seen before."""
    titles = re.findall(r"^#+ +(.*?) *#*$", without_blocks(pages().get(page, "")), re.M)
    shown = (re.sub(r"\[([^\]]*)\]\([^)]*\)", r"\1", title).lower() for title in titles)
    return {re.sub(r"[^\w\- ]", "", title).replace(" ", "-") for title in shown}


def wrong_links(page):
    text = re.sub(r"`[^`\n]*`", "``", without_blocks(pages()[page]))
    for found in LINK.finditer(text):
        link, line = found[1] or found[2] or "", line_at(text, found.start())
        name, _, anchor = link.partition("#")
        target = os.path.normpath(os.path.join(os.path.dirname(page), name)) if name else page
        if re.match(r"[a-z]+:", link):
            continue
        if target not in places():
            yield f"{page}:{line}: the link {link} leads to no file"
        elif anchor and anchor not in anchors(target):
            yield f"{page}:{line}: the link {link} leads to no heading"


def words():
    wrong = []
    counts = {"README.md": len(pages()["README.md"].split()), "all pages": len(" ".join(pages().values()).split())}
    for what, most in (("README.md", README), ("all pages", TOTAL)):
        if counts[what] > most:
            wrong.append(f"{what}: {counts[what]} words, at most {most}")
    for page, text in pages().items():
        dates = sorted(set(re.findall(r"\b\d{4}-\d\d-\d\d\b", text)))
        if len(dates) > 1 and page != "CHANGELOG.md":
            wrong.append(f"{page}: {len(dates)} dates, at most one: {', '.join(dates)}")
        wrong += wrong_links(page)
    return wrong, f"{len(pages())} pages have {counts['all pages']} words; each link leads somewhere"


def known_words():
    """Returns the words of all files but pages and this one, and the parts of their paths."""
    known = set(OTHERS)
    for name in files():
        known.update(re.findall(r"\w+", name))
        if not name.endswith((".md", "byte_unit_dev/pages/text.py")):
            known.update(re.findall(r"\w+", Path(path(name)).read_text(encoding="utf-8", errors="replace")))
    return known


def leads_somewhere(name, page, ends):
    """Tells whether a path, in which NAME and * stand for anything, is that of a file or folder, or the end of it."""
    wanted = re.sub(r"\b[A-Z]{2,}\b", "*", os.path.normpath(name.removeprefix("/")))
    beside = os.path.normpath(os.path.join(os.path.dirname(page), name))
    return beside in ends or any(fnmatch.fnmatch(f"/{place}", f"*/{wanted}") for place in ends)


def missing(page, known, ends):
    """Yields each name in backticks, outside blocks of code, that is not found, with its line."""
    text = without_blocks(pages()[page])
    for found in re.finditer(r"`([^`\n]+)`", text):
        name, line = found[1].split(" ")[0], line_at(text, found.start())
        if PATH.fullmatch(name):
            is_known = leads_somewhere(name, page, ends)
        else:
            name, is_known = found[1], set(re.findall(r"\w+", found[1].split("(")[0])) <= known
            is_known |= not NAME.fullmatch(name)
        if name not in OTHERS and not is_known:
            yield f"{page}:{line}: {name}"


def names():
    known, ends = known_words(), places() | {os.path.splitext(name)[0] for name in files()}
    read_here = [page for page in pages() if page != "CHANGELOG.md"]
    found = [line for page in read_here for line in missing(page, known, ends)]
    return found, f"each name in {len(read_here)} pages is in the tree"


def facts():
    """Compares what two places say: calls that may be out of memory, statuses of `byte-unit`, toolchain, products."""
    calling, proved, wrong = "CALLING.md", "docs/PROVED.md", []
    calls = set(re.findall(r"^fn (?:\w+::)?(\w+).*AllocError>$", pages()[calling], re.M))
    for name, start, end in (calling, "| allocation |", "\n"), (proved, "### When out of memory", "\n## "):
        listed = pages()[name].partition(start)[2].partition(end)[0]
        wrong += [f"{name}: {call} is not in {start!r}" for call in sorted(calls) if f"`{call}`" not in listed]
    forms = {"command/README.md": r"^\| (\d+) \|", "command/byte-unit.1": r"^\.It (\d+)$",
             "crates/byte_unit_command/src/arguments.rt": r"^  (\d+) +\w"}  # fmt: skip
    found = {name: list(dict.fromkeys(re.findall(form, read(name), re.M))) for name, form in forms.items()}
    wrong += [f"the statuses differ: {found}"] * (len(set(map(tuple, found.values()))) > 1)
    said = {name: re.findall(r"`(\S+ logic \w+)`", pages()[name]) for name in ("README.md", proved)}
    listed = re.findall(r"^\| \[(.*?)\]\((.*)/README\.md\) \|", pages()["README.md"], re.M)
    wanted = [(name, folder) for name, (folder, *_) in PRODUCTS.items()]
    wrong += [f"README.md: its products are {listed}, not {wanted}"] * (listed != wanted)
    wrong += [f"the toolchains differ: {said}"] * (len({one for many in said.values() for one in many}) != 1)
    statuses = len(found["command/README.md"])
    return wrong, f"{len(calls)} calls, {statuses} statuses, {len(listed)} products and the toolchain are said alike"


def version():
    said = read("VERSION")
    if not re.fullmatch(r"\d+\.\d+\.\d+\n", said):
        raise Failure(f"VERSION: {said!r} is no line such as 1.2.3")
    parts = [int(part) for part in said.split(".")]
    number = (parts[0] * 1000 + parts[1]) * 1000 + parts[2]
    values = {"version": said.strip(), "number": number, **dict(zip(["major", "minor", "patch"], parts))}
    wrong = []
    for name, place in VERSIONS:
        form = r"[\d.,_]*\d".join(map(re.escape, re.split(r"\{.*?\}", place)))
        found, wanted = re.findall(form, read(name)), place.format(**values)
        if found != [wanted]:
            wrong.append(f"{name}: {' and '.join(map(repr, found)) or 'nothing'}, not {wanted!r}")
    newest = re.search(r"^## \[(.*?)\]", read("CHANGELOG.md"), re.M)
    if not newest or newest[1] != values["version"]:
        wrong.append(f"CHANGELOG.md: the newest section is not that of {values['version']}")
    return wrong, f"{len(VERSIONS) + 1} places say {values['version']}"
