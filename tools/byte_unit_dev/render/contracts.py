"""The contracts that `byte_unit` exports, and the definitions that they use, in CALLING.md and docs/DEFINITIONS.md."""

import functools
import re
from itertools import chain

from ..common import Failure, read
from ..source import EXAMPLES, WORD, closure, crates, exports, library, line_of, resolved, sources, specs
from .pages import section, with_parts

FACADE = "byte_unit"
PROOF = "crates/byte_unit_uses/proofs/message/parse_argument/Answers.antt"
# The order of the types; what is not here comes after them, in the order in which the crate exports it.
FIRST = ["Byte", "AdjustedByte", "Bit", "AdjustedBit", "Unit", "UnitType", "FormatSpec", "Align", "Sign"]
SMALL, BELOW = FIRST[5:], ["Kind", "Family", "Decimal", "Expansion", "Steps", "Ties"]
# Fields that follow from others.
FOLLOWS = ["computed"]
# What the page says of the types that render/bits.py makes of those of bytes.
MIRRORED = {"`Bit`": "The entries are those of `Byte`, with `InBits`, `Bit`, `get_bit`, `allow_in_bytes` for `InBytes`, "
            "`Byte`, `get_byte`, `allow_in_bits`; without `ignore_case`, which is `false` in the clauses: "
            "`parse_str_binary`, `parse_bytes_binary`, `parse_str`, `parse_bytes`, `parse_line`.",
            "`AdjustedBit`": "The entries are those of `AdjustedByte`, with the same words."}  # fmt: skip
# Members of a trait that prove its rules and say nothing of a result.
PROOFS = {"laws", "total", "matches_partial_cmp", "matches_eq", "coded", "inverse", "inverse_ok"}


class Entry:
    """What a page says of an item: its first line and those of its clauses; and the definitions that these cite, but
    for `hidden`, clauses of a type's private fields, which no caller sees."""

    def __init__(self, line, clauses, file, hidden=()):
        self.line, self.lines = line, (line, *(f"  {clause}" for clause in clauses))
        self.cited = {*resolved(WORD.findall(" ".join({*clauses} - {*hidden})), file.imports)}


def declaration(file, name):
    """Returns the line that declares a type, its public fields or its cases; and whether some of it is public."""
    found = re.search(rf"^pub (struct|enum) {name}\b", file.code, re.M)
    line, stop, shown = f"{found[1]} {name}", re.compile(r"[;{]").search(file.code, found.end()).start(), True
    if file.code[stop] == "{":
        inner = line_of(file.plain[stop + 1:file.closing(stop) - 1]).rstrip(",")
        if found[1] == "struct":
            inner = ", ".join(re.findall(r"(?:^|, )pub ([^,]*)", inner))
            shown = bool(inner)
        line += f" {{ {inner or '..'} }}"
    derives = re.findall(r"#\[derive\(([^)]*)\)\]\s*\Z", file.code[:found.start()])
    return line, [f"derives {line_of(text)}" for text in derives], shown


def type_entries(name, file):
    """Returns the entries of a type: its declaration, its public functions, and its implementations of traits."""
    line, derives, shown = declaration(file, name)
    first, calls, traits = Entry(line, derives, file), [], []
    for part in sources(file.name.split("/")[1]):
        for header, start, end in part.impls():
            if header == f"impl {name}":
                for method in part.blocks(r"\bpub fn \w+", start, end):
                    signature, clauses = part.function(method.start())
                    calls.append(Entry(signature.replace("fn ", f"fn {name}::", 1), clauses, part))
            elif re.search(rf"for {name}\Z|<{name}> for ", header):
                members = {key: text for key, text in part.ghosts(start, end).items() if key not in PROOFS}
                if header == f"impl Model for {name}":
                    hidden = [] if shown else [members[key] for key in ("view", "invariant") if key in members]
                    first = Entry(line, [*derives, *members.values()], part, hidden)
                elif members:
                    traits.append(Entry(header, members.values(), part))
    return [first, *calls, *traits]


@functools.lru_cache(maxsize=None)
def items():
    """Returns the entries of each type that the crate exports, and those of its functions."""
    found, types, seen = exports(FACADE), {}, set()
    for name in dict.fromkeys([*FIRST, *filter(lambda name: name[0].isupper(), found)]):
        types[name] = [entry for entry in type_entries(name, found[name]) if entry.lines not in seen]
        seen.update(entry.lines for entry in types[name])
    starts = ((name, file, re.search(rf"^pub fn {name}\b", file.code, re.M)) for name, file in found.items())
    return types, {name: Entry(*file.function(start.start()), file) for name, file, start in starts if start}


def joined(entries):
    """Returns the lines of entries, in which those with the same clauses have them once, after their first lines."""
    groups = {}
    for entry in entries:
        groups.setdefault((re.match(r"\w+", entry.line)[0], *entry.lines[1:]), []).append(entry.line)
    lines = chain(*([*heads, *clauses] for (_, *clauses), heads in groups.items()))
    return "```text\n" + "\n".join(lines) + "\n```"


def shown_types():
    """Returns the entries that the page has, by heading: the small types, and the errors, are one heading each."""
    types, functions = items()
    headings = {f"`{name}`": types[name] for name in FIRST[:5]}
    headings["Specs and types of units"] = [*chain(*(types[name] for name in SMALL))]
    headings["Errors"] = [*chain(*(types[name] for name in types if name not in FIRST + BELOW)), functions["hint_of"]]
    headings["`Unit`"] = headings["`Unit`"] + [functions["unit_to_json"], functions["unit_from_json"]]
    return headings


def contracts():
    parts = []
    for heading, entries in shown_types().items():
        parts += [f"### {heading}", MIRRORED.get(heading) or joined(entries)]
    return "\n\n".join(parts)


def cited_by(entries):
    return set().union(*(entry.cited for entry in entries))


def words():
    """Returns a link to each file of definitions that the page's contracts cite, with the words that they use."""
    cited, found = cited_by(chain(*shown_types().values())), []
    for module, spec in ((module, spec) for crate in crates() for module, spec in specs(crate).items()):
        names = [f"`{name}`" for name in spec.definitions if (spec.crate, module, name) in cited]
        found += [f"[{module}](docs/DEFINITIONS.md#{module.lower().replace('.', '')}): {', '.join(names)}"] * bool(names)
    return "; ".join(found) + "."


def calling(page="CALLING.md"):
    """The proof PROOF; the definitions that contracts on the page use; the contracts of the types but BELOW."""
    yield page, with_parts(
        page, (r"^```antt\n", r"^```$", read(PROOF)),
        section("Words of the contracts", words()), section("Contracts", contracts()))


@functools.lru_cache(maxsize=None)
def groups():
    """Returns the definitions that contracts on the page cite, and those to read: those that exported calls lead to."""
    types, functions = items()
    reached = closure(cited_by([*chain(*types.values()), *functions.values()]), FOLLOWS)
    return cited_by(chain(*shown_types().values())), reached


def link(spec):
    return f"[{spec.module}](../{spec.name})"


def said(spec, name=None):
    """Returns the first sentence of a file, without the mark of a private one, or the comment of a definition."""
    head = re.split(r"(?<=\.)\s+(?=[A-Z`0-9])", spec.head.removeprefix("Private: "))[0]
    words = spec.definitions[name].comment if name else head
    if not words:
        raise Failure(f"{spec.name}: {name or 'the file'} has no comment")
    return words


def names_in(spec, places):
    """Returns the names of the definitions of a file that are among these."""
    return [name for name in spec.definitions if (spec.crate, spec.module, name) in places]


def to_read():
    """Returns the section of definitions to read, by crate."""
    quoted, reached = groups()
    parts = []
    for spec in (spec for crate in library() for spec in specs(crate).values() if names_in(spec, reached)):
        parts += [f"### `{spec.crate}`"] * (f"### `{spec.crate}`" not in parts)
        names = names_in(spec, quoted)
        parts += [f"#### {link(spec)}", said(spec)]
        parts += ["\n".join(f"- `{name}`: {said(spec, name)}" for name in names)] * bool(names)
    return "\n\n".join(parts)


def others():
    """Returns the section of all other files, by crate. A file says itself that it is private."""
    reached, parts = groups()[1], []
    for crate in (crate for crate in crates() if not EXAMPLES.fullmatch(crate)):
        found = [spec for spec in specs(crate).values() if not names_in(spec, reached)]
        hidden = [spec for spec in found if spec.head.startswith("Private:")]
        lines = [f"- {link(spec)}: {said(spec)}" for spec in found if spec not in hidden]
        lines += [f"- Private: {', '.join(map(link, hidden))}"] * bool(hidden)
        parts += [f"### `{crate}`" + " (others)" * (crate in library()), "\n".join(lines)] * bool(found)
    return "\n\n".join(parts)


def definitions(page="docs/DEFINITIONS.md"):
    """The files that the contracts of what `byte_unit` exports lead to, but through FOLLOWS, with the words that
    contracts of CALLING.md cite; and all others. A definition leads to those that it uses."""
    yield page, with_parts(page, section("To read", to_read()), section("Other definitions", others()))
    wrong = [f"{spec.name}:1: says that it is private, but a public contract leads to it" for crate in library()
             for spec in specs(crate).values() if spec.head.startswith("Private:") and names_in(spec, groups()[1])]
    if wrong:
        raise Failure("\n".join(wrong))
