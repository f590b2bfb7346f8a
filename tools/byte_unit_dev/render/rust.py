"""Renders the proved sources as plain Rust, by the rules of render/rust_rules.py: what only the proofs need is dropped,
and a few forms are rewritten. A form that no rule knows is a failure, with its file and line."""

import re
from collections import namedtuple
from concurrent.futures import ThreadPoolExecutor

from ..common import Failure, files, output, path, read
from ..source import Source, blanked, sources
from .by_hand import REPLACED, unchanged
from .rust_outputs import outputs
from .rust_rules import (
    ALONE, BY_HAND, CLAUSE, COMMENT_FORMS, CONST, CONST_FORMS, DERIVED, EXAMPLE_FORMS, FIRST_MODULES, FORMS, HIDDEN,
    HIDDEN_EXAMPLES, INLINED, ITEMS_BY_HAND, ITEMS_LEFT_OUT, LEFT_OUT, NAMES_LEFT_OUT, PRELUDE, PUBLIC, STD, TRAITS,
)  # fmt: skip
from .vocabulary import LIBRARY, Vocabulary

HEAD = "// Rendered from {} by `tools/dev render rust`. Do not edit.\n\n".format
CONFIG = "bindings/rust/rustfmt.toml"
# The layers of the library, the lowest first: the modules of `byte_unit::rendered`.
LAYERS = ["math", "base", "choice", "format", "byte", "bit"]
# The package whose modules are rendered in a folder, by crate: its path there, and its path from elsewhere.
Home = namedtuple("Home", "folder here elsewhere")
HOMES = {f"byte_unit_{layer}": Home(f"bindings/rust/src/rendered/{layer}", f"crate::rendered::{layer}",
                                    f"byte_unit::rendered::{layer}") for layer in LAYERS}  # fmt: skip
HOMES["byte_unit_c"] = Home("bindings/c/src/rendered", "crate::rendered", None)
FOLDERS = ("bindings/rust/src/rendered/", "bindings/c/src/rendered/")
MODULES = "bindings/rust/src/rendered/mod.rs"
MODULE = """//! The proved sources of the library as Rust, without their contracts: a module for each crate.

// What other packages call is not used without the feature `internal`.
#![allow(dead_code, missing_docs, unused_imports)]
// The forms of the sources are those of Rattle: its proofs and its compiler have theirs for a reason.
#![allow(
    clippy::char_lit_as_u8,
    clippy::derived_hash_with_manual_eq,
    clippy::len_without_is_empty,
    clippy::manual_div_ceil,
    clippy::manual_map,
    clippy::module_inception,
    clippy::needless_range_loop,
    clippy::needless_return,
    clippy::new_without_default,
    clippy::redundant_pattern_matching,
    clippy::type_complexity
)]

"""
LAYERS_MODULE = HEAD("crates/") + MODULE + "".join(f"pub mod {layer};\n" for layer in LAYERS)
# What is known in the sources of these packages, and what of it they have to have.
RULES = [rule[0] for rule in [*FORMS, *CONST_FORMS, *COMMENT_FORMS, *EXAMPLE_FORMS]]
KNOWN = Vocabulary(HOMES, [*RULES, *REPLACED], LIBRARY)
# What `exports` rewrites.
EXTERN = r"\bpub extern\s+(?=fn )"


class Rendered(Source):
    """A file while it is rendered. A line that is dropped leaves a mark, so that each place keeps its line."""

    MARK = "\0\n"

    def __init__(self, name, crate):
        # byte_unit_bit is rendered itself, and says so in its first line.
        self.name, self.text, self.crate = name, re.sub(r"\A// Rendered.*", "", read(name)), crate
        self.code = blanked(self.text)

    def put(self, start, end, new):
        """Replaces a part. Lines that are fewer are marked at its end."""
        new += self.MARK * (self.text.count("\n", start, end) - new.count("\n"))
        self.text = self.text[:start] + new + self.text[end:]
        self.code = self.code[:start] + blanked(new) + self.code[end:]

    def drop(self, start, end):
        """Drops a part and what is left of its lines, if that is white space."""
        start = self.text.rfind("\n", 0, start) + 1 if not self.text[:start].rpartition("\n")[2].strip() else start
        rest = re.compile(r"[ \t]*\n").match(self.text, end)
        self.put(start, rest.end() if rest else end, "")

    def mark(self, start, attribute):
        """Puts an attribute in the line of an item, unless it is in the lines before it."""
        if attribute not in self.text[self.above(start, "#["):start]:
            self.put(start, start, attribute + " ")

    def each(self, pattern, change):
        """Calls a function with each match in the code, the last first."""
        for found in reversed([*re.finditer(pattern, self.code, re.M)]):
            change(found)

    def drop_item(self, found):
        """Drops the item that a match begins, with its comments and attributes."""
        self.drop(self.above(found.start(), "//", "#["), self.end_of(found.start()))

    def rewrite(self, forms):
        """Rewrites forms: each is a pattern, what is in its place, and why."""
        for pattern, new, _ in forms:
            self.each(pattern, lambda found, new=new: self.put(found.start(), found.end(), found.expand(new)))

    def uses(self, target):
        """Rewrites each `use`. For a match, a name and whether it is of a module here, `target` returns its path, or
        None if the name is dropped."""
        modules = re.findall(r"^ *(?:pub(?:\(\w+\))? )?mod (\w+);", self.code, re.M)

        def change(found):
            start, names = re.fullmatch(r"([^{]*)(?:\{(.*)\})?", found[2], re.S).groups()
            groups = {}
            for name in re.split(r",\s*", names.strip(" ,\n")) if names else [""]:
                whole, as_, other = (start + name).partition(" as ")
                path = target(found, whole, whole.partition("::")[0] in modules)
                if path:
                    parent, _, last = path.rpartition("::")
                    groups.setdefault(parent, []).append(last + as_ + other)
            lines = [f"{found[1]}use {parent}::{{{', '.join(last)}}};" for parent, last in groups.items()]
            (self.put if lines else self.drop)(found.start(), found.end(), *[" ".join(lines)] * bool(lines))

        self.each(r"^((?:pub(?:\(\w+\))? )?)use ([^;]+);", change)

    def path_of(self, name, place):
        """Returns a path as it is in the rendered file, or None if it is left out there. An unknown one fails."""
        home, (head, _, rest) = HOMES[self.crate], name.partition("::")
        if name in STD:
            return STD[name] and STD[name].replace("byte_unit::", "crate::" if home.elsewhere else "byte_unit::")
        if head == "crate":
            return f"{home.here}::{rest}"
        if head in HOMES:
            return f"{HOMES[head].here if home.elsewhere else HOMES[head].elsewhere}::{rest}"
        if head in ("super", "self", "core"):
            return name
        raise self.wrong(place, f"a path that no rule knows: {name}")

    def paths(self, heads):
        """Rewrites the paths that begin with one of these names, in code and in links of comments, but in no `use`."""
        for found in reversed([*re.finditer(rf"(?<![\w$:])(?:{heads})::(?=\w)", self.text)]):
            if "use " not in self.text[self.text.rfind("\n", 0, found.start()) + 1:found.start()]:
                self.put(found.start(), found.end(), self.path_of(found[0] + "x", found.start())[:-1])
        self.code = blanked(self.text)

    def finished(self, text):
        """Returns the text of the file, before rustfmt."""
        return HEAD(self.name) + re.sub(r"\n{3,}", "\n\n", text.replace(self.MARK, "")).lstrip("\n")


def without_proofs(file):
    """Drops attributes of proofs, ghost items and clauses, with the comments on them."""
    def tactic(found):
        file.drop(found.start(), file.closing(found.start(1)))

    def ghost(found):
        code, end = file.code, found.end()
        while code[end] != ";":
            end = file.closing(end) if code[end] in "([{" else end + 1
        file.drop(file.above(found.start(), "// "), end + 1)

    def clause(found):
        before = file.code[:found.start()]
        method = found[1] == "requires" and re.search(r"^ +pub(?= (?:const )?fn [^;{}]*\Z)", before, re.M)
        file.drop(file.above(found.start(), "// "), file.closing(found.end()))
        if method and re.findall(r"^impl(?:<[^>]*>)? (?:.* for )?(\w+)", before, re.M)[-1] in PUBLIC:
            file.put(method.end(), method.end(), "(crate)")
        elif method:
            file.mark(method.start(), "#[doc(hidden)]")

    for found in reversed([*re.finditer(ALONE, file.text)]):
        file.put(found.start(), found.end(), "")
    file.each(r"^ *#!?(\[)tactic\b", tactic)
    file.each(r"^ *ghost\b", ghost)
    file.each(CLAUSE, clause)


def without_items(file):
    """Drops the items of the two tables, and private constants that nothing else has used."""
    def constant(found):
        if len(re.findall(rf"\b{found[1]}\b", file.code)) == 1:
            file.drop_item(found)

    def by_hand(found):
        KNOWN.unseen.discard(unchanged(file, found.start(), file.end_of(found.start())))
        file.drop_item(found)

    for patterns, drop in ((ITEMS_LEFT_OUT, file.drop_item), (ITEMS_BY_HAND, by_hand)):
        for pattern in patterns:
            file.each(rf"^(?:#\[\S*\])? *(?:{pattern})", drop)
    file.each(r"^const (\w+)", constant)


def derived(file):
    """Adds to each `derive` what the table has, and `Clone` beside `Copy`, and drops Rattle's `Drop` and `BY_HAND`."""
    def change(found):
        names = [name.strip() for name in found[1].split(",")]
        names = ["Clone"] * ("Copy" in names and "Clone" not in names) + names
        names += [name for name in DERIVED.get(found[3], []) if name not in names]
        names = [name for name in names if name not in ["Drop", *BY_HAND.get(found[3], [])]]
        file.put(found.start(), found.end(), f"#[derive({', '.join(names)})]{found[2]}" if names else found[2].lstrip())

    file.each(r"#\[derive\(([^)]*)\)\](\s*(?:#\[.*\]\s*)*(?:pub(?:\(\w+\))? )?(?:struct|enum) (\w+))", change)


def imports(file):
    """Rewrites `use`, without names that nothing but proofs has used."""
    def is_used(name):
        word = r"[iu]\d+x\d+" if name == "*" else name
        return name in TRAITS or len(re.findall(rf"\b{word}\b", file.code)) > (name != "*")

    def target(found, name, is_local):
        path = None if NAMES_LEFT_OUT.fullmatch(name) else name if is_local else file.path_of(name, found.start())
        return path if path and (found[1] or is_used(path.rpartition("::")[2])) else None

    file.uses(target)


def exports(file):
    """Rewrites the functions of the C API: in Rust a slice is not two arguments of C."""
    def argument(found):
        const = "mut" if found[2] else "const"
        return f"{found[1]}: *{const} {found[3]}, {found[1]}_len: usize"

    def change(found):
        slices = re.findall(r"(\w+): &(mut )?\[\w+\]", found[1])
        made = {name: f"crate::slices::slice{'_mut' * bool(mut)}({name}, {name}_len)" for name, mut in slices}
        parts = [("({})" if len(made) > 1 else "{}").format(", ".join(part)) for part in (made, made.values())]
        let = "\n// SAFETY: the caller's promise.\nlet {} = unsafe {{ {} }};".format(*parts) * bool(slices)
        head = re.sub(r"(\w+): &(mut )?\[(\w+)\]", argument, found[1])
        body = file.code.index("{", found.end())
        file.put(body, body + 1, "{" + let)
        file.put(found.start(1), found.end(1), head)
        file.put(found.start(), found.start() + 3, "pub" + " unsafe" * bool(slices))

    file.each(r"pub extern\s+fn \w+(\([^)]*\))", change)


def calls_of_exports(file, exported):
    """Passes slices to a function of the C API as it takes them."""
    def change(found):
        end = file.closing(found.end() - 1)
        given = [part.strip() for part in file.text[found.end():end - 1].split(",")]
        wanted = exported[found[1]]
        new = [f"{part}.as_{'mut_' * (kind == 'mut')}ptr(), {part}.len()" if kind else part
               for part, kind in zip(given, wanted)]  # fmt: skip
        file.put(found.end(), end - 1, ", ".join(new))

    file.each(rf"(?<!fn )\b({'|'.join(exported)})\(", change)


def functions(file):
    """Adds `const`, with the forms of `CONST_FORMS` in the body, and `#[inline]` to functions, and hides `HIDDEN`."""
    place = file.name.removeprefix("crates/byte_unit_").removesuffix(".rt")
    constant = CONST.get(place, "").split()

    def change(found):
        if found[3] in constant:
            start = file.code.index("{", found.end())
            end = file.closing(start)
            file.put(start, end, KNOWN.rewritten(file.text[start:end], CONST_FORMS))
            file.put(found.end(2), found.end(2), "const ")
            constant.remove(found[3])
        if found[3] in HIDDEN:
            file.put(found.start(2), found.end(2), "pub(crate) ")
        if file.crate in INLINED and "#[inline" not in file.text[file.above(found.start(), "#["):found.start()]:
            file.mark(found.start(), "#[inline]")

    file.each(r"^( *(?:#\[.*?\] *)*)((?:pub(?:\(\w+\))? )?)fn (\w+)", change)
    if constant:
        raise Failure(f"{file.name}: no function is {constant[0]}, which has to be `const`")


def examples(file):
    """Returns the text with comments rewritten, and the examples in them, which Rust runs as they are."""
    def change(found):
        mark, body = found[1], KNOWN.rewritten(found[2], EXAMPLE_FORMS)
        bad = re.search(r"\b(?:rt;|alloc\b)", body)
        if bad:
            raise file.wrong(found.start(2), f"an example has a form that no rule knows: {bad[0]}")
        names = sorted(PUBLIC.intersection(re.findall(r"\w+", body)))
        use = ", ".join(names).join("{}" if len(names) > 1 else ["", ""])
        body = f"{mark}use byte_unit::{use};\n{mark.rstrip()}\n" * bool(names) + body
        end = f"{mark}# Ok::<(), Box<dyn std::error::Error>>(())\n" if re.search(r"\?(?:;|[.,)])", body) else ""
        return f"{mark}```\n{mark}{PRELUDE}\n{body}{end}{mark}```\n"

    file.text = KNOWN.rewritten(file.text, COMMENT_FORMS)
    file.text = HIDDEN_EXAMPLES.sub("", file.text)
    return re.sub(r"^( *//[/!] )```rust\n((?:\1?.*\n)*?)\1```\n", change, file.text, flags=re.M)


def ordered(text):
    """Puts the modules of FIRST_MODULES before the others of their file, each in a group of its own for rustfmt."""
    def change(found):
        names = re.findall(r"mod (\w+);", found[0])
        if not {*FIRST_MODULES} < {*names}:
            return found[0]
        return "\n".join(f"mod {name};\n" for name in dict.fromkeys([*FIRST_MODULES, *names]))

    return re.sub(r"(?:^mod \w+;\n)+", change, text, flags=re.M)


def rendered(name, crate, exported):
    """Returns the text of a file in Rust, before rustfmt."""
    file = Rendered(name, crate)
    for step in (without_proofs, without_items, imports):
        step(file)
    file.paths(r"crate|byte_unit_\w+")
    file.each(r"(?<![\w:])std::(fmt|str|cmp|error)::", lambda found: file.put(found.start(), found.start() + 3, "core"))
    KNOWN.check(file, *(rule[0] for rule in FORMS), *[EXTERN] * bool(exported))
    derived(file)
    if exported:
        calls_of_exports(file, exported)
        exports(file)
    file.rewrite(FORMS)
    outputs(file)
    functions(file)
    return ordered(file.finished(examples(file)))


def formatted(text):
    """Returns a text as rustfmt has it."""
    return output("rustfmt", "--edition", "2024", "--config-path", path(CONFIG), input=text)


def left_out(crate):
    """Checks that no file of a crate that is by hand in Rust has changed."""
    names = (file.name for file in sources(crate) if file.name.endswith((*LEFT_OUT,)))
    for name in (name for name in names if "/laws" not in name):
        file = Rendered(name, crate)
        without_proofs(file)
        KNOWN.unseen.discard(unchanged(file, 0, len(file.text)))


def targets_of(crate, folder, left_out):
    """Returns what is made of each file of a crate that is rendered: the root beside a folder, and others in it."""
    names = (file.name for file in sources(crate) if not file.name.endswith((*left_out,)) and "/laws/" not in file.name)
    return {name: re.sub(r".*/src(?:/lib|/main|(/.*))\.rt", rf"{folder}\1.rs", name) for name in names}


def exports_of(crate):
    """Returns the functions of a C API, by name: for each of its parameters `mut` or `const`, or none if it is no
    slice."""
    kinds, export = {"&mut [": "mut", "&[": "const"}, r'pub extern "C" fn (\w+)\(([^)]*)\)'
    return {name: [kinds.get(kind) for kind in re.findall(r"\w+: (&mut \[|&\[)?", given)]
            for file in sources(crate) for name, given in re.findall(export, file.text)}


def files_of(texts, *folders):
    """Yields each file that is rendered, as rustfmt has it, or that is in the folders, and then has no text."""
    with ThreadPoolExecutor() as pool:
        texts = dict(zip(texts, pool.map(formatted, texts.values())))
    for name in sorted({*texts, *(name for name in files() if name.startswith(folders))}):
        yield name, texts.get(name, "")


def made():
    """Each file of the two folders."""
    texts = {MODULES: LAYERS_MODULE}
    for crate, home in HOMES.items():
        left_out(crate)
        exported, targets = exports_of(crate), targets_of(crate, home.folder, LEFT_OUT)
        texts |= {place: rendered(name, crate, exported) for name, place in targets.items()}
    texts[f"{FOLDERS[1]}mod.rs"] = texts.pop(f"{FOLDERS[1][:-1]}.rs")  # the root of the C library is in its folder
    yield from files_of(texts, *FOLDERS)
    KNOWN.used_up()
