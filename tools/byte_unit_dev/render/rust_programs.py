"""Renders the programs as plain Rust, by the rules of `rust` and those below, each with its reason.

Allocators stay, unlike in the library: what a program does without memory is proved. By hand, in the package, are the
names that Rattle's std and clap have, with their calls (`rattle` and `clap`), and `main`.
"""

import re

from ..common import read
from . import rust, rust_rules
from .vocabulary import LIBRARY, PROGRAMS, Vocabulary

FOLDER = "bindings/programs/src/rendered"
# The crates of the programs: the modules of `rendered`. Those of the second program need clap.
MODULES = {"stream": "", "lines": "", "command": '#[cfg(feature = "command")]\n', "cli": '#[cfg(feature = "command")]\n'}
MODULE = rust.HEAD("crates/") + """//! The proved sources of the programs as Rust, without their contracts, a module for each crate.
// What only contracts read, tests call, or loops of proofs name stays.
#![allow(clippy::manual_range_contains, clippy::result_large_err, dead_code, unused_imports, unused_variables)]

""" + "".join(f"{feature}pub mod {name};\n" for name, feature in MODULES.items())

# Files that are not rendered, by the end of their names.
LEFT_OUT = {
    "/laws.rt": "its functions do nothing: the contracts, which are dropped, are the laws",
    "/paced.rt": "readers and writers in memory, for tests",
}
# Items that are not rendered, with their comments and attributes.
ITEMS_LEFT_OUT = r"(?:pub )?mod (?:laws|tests|paced);|impl(?:<[^>]*>)? Model for"
# Modules of Rattle's std with names or calls that Rust's has not, and names that every file of Rattle has.
OWN, PRELUDE = r"(?:alloc|env|io)", ["HostRuntime", "String", "Vec", "eprint!", "eprintln!", "format!"]
# Traits for calls that a type of `rattle` has by itself, and the one for contracts.
TRAITS_LEFT_OUT = ["std::fmt::Write", "std::io::IsTerminal", "std::marker::Model"]
# Forms of code: a pattern, what is in its place, and why.
FORMS = [
    (r"^fn main\(", "pub fn main(", "a `main` by hand calls it, with the runtime"),
    (r" \+ Drop\b", "", "every type of Rust can be dropped"),
    (r"\.num_args\(0\.\.\)", ".num_args(0..)", "a number of operands for clap, which is no iterator"),
]
# The examples in comments.
EXAMPLES = re.compile(r"^ *///\n */// # Examples\n */// ```rust\n(?: *///.*\n)*? */// ```\n", re.M)
KNOWN = Vocabulary([*rust.HOMES, "byte_unit", *(f"byte_unit_{module}" for module in MODULES)],
                   [rule[0] for rule in FORMS], LIBRARY, PROGRAMS)  # fmt: skip


def exported():
    """Returns the path of each name that the crate `byte_unit` exports, in the package."""
    found = {}
    for crate, names in re.findall(r"^pub use (\w+(?:::\w+)*)::(\w+|\{[^}]*\});", read("crates/byte_unit/src/lib.rt"), re.M):
        head, _, rest = crate.partition("::")
        if head in rust.HOMES:
            home = "::".join(filter(None, [rust.HOMES[head].elsewhere, rest]))
            found |= {name: f"{home}::{name}" for name in re.findall(r"\w+", names)}
    return found


class Program(rust.Rendered):
    """A file of a program while it is rendered."""

    def __init__(self, name, crate, facade):
        super().__init__(name, crate)
        self.facade = facade

    def path_of(self, name, place):
        """Returns a path as it is in the package."""
        head, _, rest = name.partition("::")
        module = (self.crate if head == "crate" else head).removeprefix("byte_unit_")
        if head == "byte_unit":
            if rest not in self.facade:
                raise self.wrong(place, f"a name that no rule knows: {name}")
            return self.facade[rest]
        if head in rust.HOMES:
            return f"{rust.HOMES[head].elsewhere}::{rest}"
        if module in MODULES:
            return f"crate::rendered::{module}::{rest}"
        if re.match(rf"std::{OWN}\b", name):
            return f"crate::rattle::{rest}"
        if head == "clap":
            return f"crate::{name}"
        if name in rust_rules.STD:
            return rust_rules.STD[name].replace("core::", "std::")
        return name


def without_items(file):
    """Drops the items of `ITEMS_LEFT_OUT`, calls of laws, and examples."""
    file.each(rf"^ *(?:{ITEMS_LEFT_OUT})", file.drop_item)
    laws = re.findall(r"^use crate::laws::\{?([\w, ]+)\}?;", file.code, re.M)
    for law in re.findall(r"\w+", " ".join(laws)):
        file.each(rf"^ *{law}\(\);", lambda found: file.drop(file.above(found.start(), "// "), found.end()))
    file.each(r"^use (?:crate|byte_unit)::laws\b[^;]*;", lambda found: file.drop(found.start(), found.end()))
    for found in reversed([*EXAMPLES.finditer(file.text)]):
        file.put(found.start(), found.end(), "")


def imports(file):
    """Rewrites `use`, and adds the names that every file of Rattle has."""
    def target(found, name, is_local):
        if name not in TRAITS_LEFT_OUT:
            return file.path_of(f"crate::{name}" if is_local else name, found.start())

    # Rustc has this function without the module from 1.87 on.
    needs_str = re.search(r"\bstr::from_utf8\b", file.code) and "use std::str;" not in file.code
    file.uses(target)
    names = [name for name in PRELUDE if re.search(rf"\b{name}" + r"\b" * name[-1].isalpha(), file.code)]
    own = [f"use crate::rattle::{{{', '.join(name.strip('!') for name in names)}}};"] if names else []
    own += ["use std::str;"] * bool(needs_str)
    first = re.search(r"^use ", file.code, re.M)
    place = first.start() if first else re.match(r"(?:\s*//!.*\n)+", file.text).end()
    file.put(place, place, " ".join(own) + "\n" * (not first))


def rendered(name, crate, facade):
    """Returns the text of a file in Rust, before rustfmt."""
    file = Program(name, crate, facade)
    without_items(file)
    rust.without_proofs(file)
    imports(file)
    file.paths(r"crate|clap|byte_unit\w*")
    KNOWN.check(file, *(rule[0] for rule in FORMS))
    rust.derived(file)
    file.rewrite(FORMS)
    return file.finished(file.text.replace(" (proved at every call)", ""))


def made():
    """Each file of the folder."""
    facade, texts = exported(), {f"{FOLDER}/mod.rs": MODULE}
    for module in MODULES:
        targets = rust.targets_of(f"byte_unit_{module}", f"{FOLDER}/{module}", LEFT_OUT)
        texts |= {place: rendered(name, f"byte_unit_{module}", facade) for name, place in targets.items()}
    yield from rust.files_of(texts, f"{FOLDER}/")
    KNOWN.used_up()
