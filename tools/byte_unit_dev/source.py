"""Reads the sources of the crates: `Source` is a file of Rattle, and `Spec` a file of definitions (`.antt`).

It also has the crates that each one uses, and copies them, and the names that a crate exports.
"""

import functools
import glob
import os
import re
import textwrap

from .common import Failure, copy_to, path, read, write

# A string or a character of code; the `'` of a lifetime has none after it.
STRING = r'"(?:\\.|[^"\\])*"|\'(?:\\.[^\']*|[^\'\\])\''
# What is no code: a comment or a string.
QUOTED = re.compile(rf"//[^\n]*|{STRING}", re.S)
# A name in definitions and clauses, which may have hyphens.
WORD = re.compile(r"[^\W\d][\w\-]*")
# The lines of the comment before a definition, or none.
COMMENT = r"((?:^--(?: .*)?\n)*)"
# The comment of a definition and its first line, with its name. Its kind, such as `abbrev` or `record`, is before or
# after `pub`.
DEFINITION = re.compile(rf"{COMMENT}^(?:[a-z]+ )?pub (?!mod |use )(?:[a-z]+ )?([^\s:(){{}}]+)", re.M)
# The crates of examples and tests.
EXAMPLES = re.compile(r"example_\w+|byte_unit_uses|byte_unit_vectors|byte_unit_\w*tests")
# A block of code in a page, with the comment before it that names its source.
SHOWN = re.compile(r"(?ms)^((?:<!-- from ([^\s:]+): ([^\n]+) -->\n)?```(\w+)\n)(.*?)^```$")
# Parts of a file that are all its lines of a form.
LINES = {"imports": r"^(?:ghost |pub )?use\b[^;]*;$", "attributes": r"^#!\[.*\]$"}


def line_of(text):
    """Returns a text in one line, with one space between its words."""
    return " ".join(text.split())


def files(folder, ending):
    """Returns the names of the files with this ending below a folder, in order."""
    return sorted(f"{folder}/{name}" for name in glob.glob(f"**/*{ending}", root_dir=path(folder), recursive=True))


@functools.lru_cache(maxsize=None)
def crates():
    """Returns the crates that each crate uses, in the order of crates.txt, from the lowest."""
    rows = [line.split("#")[0].partition(":") for line in read("crates.txt").splitlines()]
    return {head.split()[0]: names.split() for head, _, names in rows if head.strip()}


def below(names):
    """Returns these crates and those that they need, in the order of crates.txt."""
    needed, more = set(), set(names)
    while more:
        needed |= more
        more = {name for crate in more for name in crates()[crate] if name in crates()} - needed
    return [name for name in crates() if name in needed]


def copy_crates(folder, names, more, without):
    """Copies crates and those that they need, without what has one of these names, and writes their crates.txt, to
    which it adds more."""
    rows = {name: crates()[name] for name in below(names)}
    copy_to(folder, *(f"crates/{name}" for name in rows), without=without)
    lines = "".join(f"{name}: {' '.join(needed)}\n" for name, needed in {**rows, **more}.items())
    write(os.path.join(folder, "crates.txt"), lines)


def library():
    """Returns the crates of the library, from the lowest: the facade, and those whose files it exports."""
    return [name for name in crates() if name in [*crates()["byte_unit"], "byte_unit"]]


def blanked(text, is_blank=bool):
    """Returns a text with spaces for comments, strings and characters, or for those that are to be blank."""
    return QUOTED.sub(lambda found: re.sub(r"[^\n]", " ", found[0]) if is_blank(found[0]) else found[0], text)


class Source:
    """A file of Rattle, or of Rust. `plain` is its text with spaces for comments; `code` has them for strings, too, so
    that each bracket in it is one of the code."""

    def __init__(self, name):
        self.name, self.text = name, read(name)
        self.plain, self.code = blanked(self.text, lambda word: word[0] == "/"), blanked(self.text)
        self.imports = imports_of(self.text)

    def wrong(self, start, why):
        """Returns the failure at this place."""
        return Failure(f"{self.name}:{1 + self.text.count(chr(10), 0, start)}: {why}")

    def closing(self, start):
        """Returns the place after the bracket that closes the one at `start`."""
        depth = 0
        for found in re.compile(r"[(\[{]|[)\]}]").finditer(self.code, start):
            depth += 1 if found[0] in "([{" else -1
            if depth == 0:
                return found.end()
        raise self.wrong(start, "a bracket is not closed")

    def above(self, start, *marks):
        """Returns the place of the first of the lines before that of `start` that all begin with one of the marks, or
        were dropped: see `Rendered`."""
        start = self.text.rfind("\n", 0, start) + 1
        for line in reversed(self.text[:start].splitlines(keepends=True)):
            if not line.lstrip().startswith((*marks, "\0")):
                break
            start -= len(line)
        return start

    def blocks(self, pattern, start=0, end=None):
        """Yields each match of the pattern outside the braces between the two places."""
        end = len(self.code) if end is None else end
        finder = re.compile(rf"{pattern}|(?P<brace>\{{)", re.M)
        while found := finder.search(self.code, start, end):
            start = self.closing(found.start()) if found["brace"] else found.end()
            if not found["brace"]:
                yield found

    def impls(self):
        """Yields the header of each `impl`, and where its body starts and ends."""
        for found in self.blocks(r"^impl\b[^{;]*(?=\{)"):
            yield line_of(self.plain[found.start():found.end()]), found.end() + 1, self.closing(found.end()) - 1

    def function(self, start):
        """Returns the signature of the function at this place, and its clauses."""
        head = re.compile(r"\b(?:requires|ensures)\b|\{").search(self.code, start)
        signature = line_of(self.plain[start:head.start()]).removeprefix("pub ").replace("( ", "(").replace(", )", ")")
        clauses, place = [], head.start()
        while self.code[place] != "{":
            end = self.closing(self.code.index("{", place))
            clauses.append(line_of(self.plain[place:end]))
            place = end + re.match(r"\s*", self.code[end:]).end()
        return signature, clauses

    def ghosts(self, start, end):
        """Returns the ghost members between two places, by name, and the clauses of methods there."""
        members = {}
        for found in self.blocks(r"\bghost (\w+)(?= = \{)|\bfn (\w+)", start, end):
            if found[2]:
                clauses = self.function(found.start())[1]
                members.update({f"{found[2]}.{number}": clause for number, clause in enumerate(clauses)})
            else:
                stop = self.closing(self.code.index("{", found.end()))
                members[found[1]] = line_of(self.plain[found.start():stop])
        return members

    def end_of(self, start):
        """Returns the place after the item that starts here: its `;`, or the brace after which no clause follows."""
        while found := re.compile(r"[(\[{;]").search(self.code, start):
            start = found.end() if found[0] == ";" else self.closing(found.start())
            goes_on = re.compile(r"\s*(?:[{;]|ensures\b|requires\b)").match(self.code, start)
            if found[0] == ";" or found[0] == "{" and not goes_on:
                return start
        raise self.wrong(start, "an item does not end")

    def item(self, words):
        """Returns where the doc comment of an item, such as `fn cell`, or `fn Log::write` in an `impl`, starts, where
        its attributes start, and where it ends."""
        kind, _, name = words.partition(" ")
        owner, _, name = ("", "", name) if kind.startswith("impl") else name.rpartition("::")
        heads = re.finditer(rf"^impl\b[^{{;]*\b{owner}\b[^{{;]*(?={{)", self.code, re.M)
        within = [(head.start(), self.closing(head.end())) for head in heads] if owner else [(0, len(self.code))]
        pattern = re.compile(rf"^ *(?:pub(?:\(\w+\))? )?{kind} {name}(?!\w)", re.M)
        places = [found.start() for start, end in within for found in pattern.finditer(self.code, start, end)]
        if len(places) != 1:
            raise Failure(f"{self.name}: {len(places)} items are `{words}`, not one")
        start = self.above(places[0], "#[")
        return self.above(start, "///"), start, self.end_of(places[0])

    def comment(self, words=""):
        """Returns the doc comment of an item, named as for `item`, or else of the module, without its marks."""
        doc, start, _ = self.item(words) if words else (0, len(self.text), 0)
        return "".join(re.findall(r"^ */// ?(.*\n)" if words else r"^//! ?(.*\n)", self.text[doc:start], re.M))

    def imports_for(self, code):
        """Returns the `use` and `ghost use` lines of the file with those of their names that this code uses."""
        made, clauses = [], re.sub(r"^( *)\{\n.*?^\1\}$", "", code, flags=re.M | re.S)
        for line in map(line_of, re.findall(LINES["imports"], self.text, re.M)):
            start, names = re.fullmatch(r"(.*[:.])(\{.*\}|\w+);", line).groups()
            near = clauses if line.startswith("ghost") else code
            names = [name for name in re.split(", *", names.strip("{ },")) if has_word(near, name.split(" as ")[-1])]
            made += use_line(start, names)
        return made

    def part(self, words):
        """Returns a part of the file, in the words that `guide` of render/pages.py lists."""
        kind, _, rest = words.partition(" ")
        if kind in LINES:
            text = "\n".join(re.findall(LINES[kind], self.text, re.M))
        elif kind == "example":
            text = "\n".join(re.findall(r"^```rust\n(.*?)^```", self.comment(rest), re.M | re.S))
        else:
            _, start, end = self.item(rest if kind == "body" else words)
            text = textwrap.dedent(self.text[start:end])
        if kind == "body":
            text = "".join(re.findall(r"^(?:\S.* )?\{\n(.*)^\}", text, re.M | re.S))
        elif kind == "fn" and "::" in rest:
            text = f"impl {rest.rpartition('::')[0]} {{\n{textwrap.indent(text, ' ' * 4)}\n}}\n"
        if not text:
            raise Failure(f"{self.name}: nothing is in `{words}`")
        return textwrap.dedent(text).rstrip() + "\n"


def use_line(start, names):
    """Returns in a list the line that imports names, unless there are none."""
    many = names[1:] or start.startswith("ghost")
    return [f"{start}{{{', '.join(names)}}};" if many else f"{start}{names[0]};"] if names else []


def has_word(code, name):
    """Tells whether code uses an imported name: a word, a trait by its method, or an operator such as `◌≤◌`."""
    if name.isidentifier():
        return re.search(rf"\b{name}\b|\.{name.lower()}\(", code)
    return all(re.search(rf"[\s(]{re.escape(word)}[\s)]", code) for word in name.replace("◌", " ").split())


def beside(name, code):
    """Returns the definitions and proofs that a part of a file needs, by their places in the file's crate."""
    crate, _, module = name.removeprefix("crates/").removesuffix(".rt").partition("/src/")
    top, scope = f"crates/{crate}", "" if module in ("lib", "main") else f"{module}/"
    functions, waiting, found = re.findall(r"\bfn (\w+)", code), [code], []
    for file in files(f"{top}/proofs/{scope}".rstrip("/"), ".antt"):
        if file.split("/")[-2] in functions:
            found.append(file.removeprefix(f"{top}/"))
            waiting.append(read(file))
    while waiting:
        for kind, module in re.findall(rf"Rattle\.{crate}\.(specs|proofs)\.(\w+)\.\{{", waiting.pop()):
            file = f"{kind}/{module}.antt"
            if file not in found and os.path.exists(path(top, file)):
                found.append(file)
                waiting.append(read(f"{top}/{file}"))
    return sorted(found)


def imports_of(text):
    """Returns the words of definitions that a file imports: by its name for each the crate, module and name."""
    words = {}
    for crate, module, names in re.findall(r"\buse Rattle\.(\w+)\.specs\.([\w.]+)\.\{([^}]*)\}", text):
        for name in re.split(r",\s*", line_of(names)):
            name, _, alias = name.partition(" as ")
            words[alias or name] = crate, module, name
    return words


def uncommented(text):
    """Returns a comment of definitions in one line, without its marks."""
    return " ".join(line.removeprefix("--").strip() for line in text.splitlines())


class Definition:
    """A definition: its name, comment and text, the words that it uses, and those for it and its constructors."""

    def __init__(self, name, comment, text):
        self.name, self.comment, self.text = name, uncommented(comment), text
        made = re.findall(r"^  ((?!--)[^:\n]*):", text, re.M) if re.match(r"(?:pub )?data\b", text) else []
        self.makes = {name, *WORD.findall(" ".join(made))} - {"pub"}

    def words(self, without=()):
        """Returns the words that it uses, but for those of the fields in `without`."""
        text = re.sub(r"^ *--.*$", "", self.text, flags=re.M)
        for field in without:
            text = re.sub(rf"^  pub {field} :.*\n(?:    .*\n)*", "", text, flags=re.M)
        return set(WORD.findall(re.sub(STRING, " ", text)))


class Spec:
    """A file of definitions. `head` is the comment that it begins with, and `maker` has the definition of each word."""

    def __init__(self, name):
        self.name, self.text = name, read(name)
        self.crate = name.split("/")[1]
        self.module = name.split("/specs/")[1].removesuffix(".antt").replace("/", ".")
        self.head = uncommented(re.match(COMMENT, self.text, re.M)[0])
        self.imports, found = imports_of(self.text), list(DEFINITION.finditer(self.text))
        ends = [match.start() for match in found[1:]] + [len(self.text)]
        self.definitions = {match[2]: Definition(match[2], match[1], self.text[match.end(1):end])
                            for match, end in zip(found, ends)}
        self.maker = {word: name for name, found in self.definitions.items() for word in found.makes}


@functools.lru_cache(maxsize=None)
def source(name):
    return Source(name)


@functools.lru_cache(maxsize=None)
def sources(crate):
    """Returns the files of a crate but its tests."""
    return [source(name) for name in files(f"crates/{crate}/src", ".rt") if "/tests" not in name]


@functools.lru_cache(maxsize=None)
def specs(crate):
    """Returns the files of definitions of a crate, by module, in the order in which its `Lib` and its folders list them,
    and then those not there. The file of a folder lists its modules, and defines nothing."""
    found = {spec.module: spec for spec in map(Spec, files(f"crates/{crate}/specs", ".antt"))}

    def listed(module, inside=""):
        for name in re.findall(r"^pub mod (\w+)", found[module].text, re.M) if module in found else []:
            yield inside + name
            yield from listed(inside + name, f"{inside}{name}.")

    order = [*listed("Lib")]
    names = [*order, *sorted(found.keys() - {*order})]
    return {name: found[name] for name in names if name in found and found[name].definitions}


def resolved(words, imports, own=None):
    """Yields the definitions that words mean, as crate, module and name. `own` is the file in which they are used."""
    for word in words:
        if own and word in own.maker:
            yield own.crate, own.module, own.maker[word]
        elif word in imports:
            crate, module, name = imports[word]
            spec = specs(crate).get(module) if crate in crates() else None
            maker = spec and spec.maker.get(name)
            if maker:
                yield crate, module, maker


def closure(found, without=()):
    """Returns the definitions that these lead to, but through the fields named in `without`."""
    reached, waiting = set(), list(found)
    while waiting:
        place = waiting.pop()
        if place not in reached:
            reached.add(place)
            own = specs(place[0])[place[1]]
            waiting += resolved(own.definitions[place[2]].words(without), own.imports, own)
    return reached


def exports(crate):
    """Returns the files that define what a crate exports from elsewhere but std, by name, in its order."""
    file, found = source(f"crates/{crate}/src/lib.rt"), {}
    for use in re.finditer(r"pub use (\w+)::(?:\w+::)*(?:\{([^}]*)\}|(\w+));", file.plain):
        for name in re.findall(r"\w+", use[2] or use[3]) if use[1] != "std" else []:
            homes = [home for home in sources(use[1] if use[1] in crates() else crate)
                     if re.search(rf"^pub (?:struct|enum|trait|fn) {name}\b", home.code, re.M)]
            if len(homes) != 1:
                raise file.wrong(use.start(), f"{len(homes)} files define {name}, not one")
            found[name] = homes[0]
    return found


@functools.lru_cache(maxsize=None)
def public_names(crate):
    """Returns the public modules of a crate's root, and the names that it exports by `pub use`."""
    text = source(f"crates/{crate}/src/lib.rt").plain
    used = " ".join(re.findall(r"^pub use [\w:]+::(\{[^}]*\}|\w+);", text, re.M))
    return set(re.findall(r"^pub mod (\w+);", text, re.M)), set(re.findall(r"\w+", used))
