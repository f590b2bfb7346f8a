"""Lists, tries and places mutants: wrong edits, which the prover or a test has to see; and proves controls.

    tools/dev mutants [list [CRATE..]]        finds public functions without a mutant, and mutants that do not fit
    tools/dev mutants try [K/N] [CRATE..]     tries the mutants, of the catalogues all or a part of them
    tools/dev mutants controls [K/N] [CRATE..]  proves the controls, or a part of them
    tools/dev mutants put K/N                 copies a part of the catalogues to must-fail/, where `rt ci` tries it
    tools/dev mutants remove                  deletes these copies, which git ignores
    tools/dev mutants reasons < PRINTED       compares why mutants were rejected, in what `rt ci` has printed
    tools/dev mutants bindings [K/N] [FOLDER..]  tries the mutants of what is written by hand, or those of these folders
    tools/dev mutants --all bindings          the same, all of them

A mutant is an edit for `rt must-fail`. Each run of the gate tries the files crates/CRATE/must-fail/TITLE.edit, and a
part of the catalogues crates/CRATE/mutants.edits, which have the others, each after a line `== TITLE`, and a line
`file:` before all mutants of a file. The catalogue of byte_unit_bit is rendered from all mutants of byte_unit_byte when
it is tried.

A mutant may be rejected for its form alone: because a name that a proof cites is gone, or a proof no longer fits. So
each one of must-fail/ has a control: after each line `new: TEXT` a line `control: TEXT`, which `rt` passes over, with
right code in the same place. It has to be proved without a change of any proof. Each check begins with what `rt check`
of the crate has kept in out/, or from nothing. And it has a line `goal: NAME`, the goal that is open with the mutant:
its message names it.

A title is `module.function.what`: the function whose contract rejects the mutant, and what it does wrong. `module` is
the file of the function or a folder that this file is in; of several the one with the shortest path is meant. A
function is public if it has `pub` and a contract and the crate exports it: it is `extern "C"`, or in a `pub mod`, or
it or the type of its `impl` is in a `pub use`; in a program each one with `pub` is. Laws, rendered files and crates of
examples and tests are left out. Parts 1/N to N/N are pieces of the list of all catalogues, crate by crate: `rt ci`
proves each crate with mutants once more, so a part has those of one crate or a few.
"""

import argparse
import glob
import os
import re
import sys
from pathlib import Path

from . import wrappers
from .common import Failure, part_of, path, read, report, shown, write
from .render import bits
from .replace import remove_folders
from .source import EXAMPLES, crates, files, public_names, source

# What the names of the copies begin with.
COPY = "by-turn."
# In `Source.code`, a string such as that of `extern "C"` is spaces.
FUNCTION = re.compile(r'^ *pub (extern     )?fn (\w+)', re.M)
IMPL = re.compile(r"^impl(?:<[^>]*>)? (\w+)", re.M)
# What `rt` says of a mutant that is rejected.
REJECTED = re.compile(rf"must-fail (\w+)/(?:{re.escape(COPY)})?(.+)\.edit: refused, as it must be(.*)$", re.M)
FILE = re.compile(r"^file: .*\n", re.M)
# A replacement of a mutant: what is old, what is new, and what the control has there.
REPLACED = re.compile(r"^old: (.*)\nnew: ?(.*)$(?:\ncontrol: ?(.*)$)?", re.M)


def in_every_run(crate):
    """Returns the mutants of a crate's must-fail/ by title, without the copies."""
    found = sorted(Path(name) for name in glob.glob(path("crates", crate, "must-fail/*.edit")))
    return {file.stem: read(file) for file in found if not file.name.startswith(COPY)}


def by_turns(crate):
    """Returns the mutants of a crate's catalogue by title, in order."""
    if crate == bits.CRATE:
        made = "byte_unit_byte"
        return dict(bits.mutant(*found) for found in [*in_every_run(made).items(), *by_turns(made).items()])
    name, found, file = path("crates", crate, "mutants.edits"), {}, ""
    for before, title, text in wrappers.entries(name) if os.path.exists(name) else ():
        file = "".join(FILE.findall(before)) or file
        if title in found:
            raise Failure(f"{name}: two mutants have one title")
        found[title] = file + FILE.sub("", text).rstrip("\n")
    return found


def with_mutants():
    """Returns the names of the crates that have mutants."""
    return sorted(crate for crate in crates() if in_every_run(crate) or by_turns(crate))


def public_functions(crate):
    """Returns the modules of the file and the name of each public function with a contract."""
    found, top = [], f"crates/{crate}/src"
    is_program = os.path.exists(path(top, "main.rt"))
    modules, names = ((), ()) if is_program else public_names(crate)
    for file in map(source, files(top, ".rt")):
        modules_of_file = file.name.removeprefix(f"{top}/").removesuffix(".rt").split("/")
        if {"tests", "laws"} & set(modules_of_file) or file.text.startswith("// Rendered from "):
            continue
        for match in FUNCTION.finditer(file.code):
            impls = IMPL.findall(file.text[:match.start()]) if match[0].startswith("    ") else []
            is_exported = match[1] or modules_of_file[0] in modules or {match[2], *impls[-1:]}.intersection(names)
            clauses = file.function(match.start())[1] if is_program or is_exported else ()
            if any(clause.startswith("ensures") for clause in clauses):
                found.append((modules_of_file, match[2]))
    return found


def misfits(crate, title, text, has_control):
    """Yields what is wrong with the form of a mutant."""
    name = path("crates", crate, text.partition("\n")[0].removeprefix("file: "))
    edited = read(name) if os.path.isfile(name) else ""
    if title.count(".") != 2:
        yield f"{crate}: {title}: not module.function.what"
    for old, new, control in REPLACED.findall(text) or [(text, "", "")]:
        if edited.count(old) != 1:
            yield f"{crate}: {title}: this is not in its file exactly once: {old}"
        if has_control and not control:
            yield f"{crate}: {title}: no control"
        edited = edited.replace(old, new)
    if has_control and not re.search("^goal: .", text, re.M):
        yield f"{crate}: {title}: no goal"


def listed(crates):
    """Reports the mutants that do not fit, and the public functions without a mutant."""
    wrong, total = [*wrappers.listed()], 0
    for crate in crates:
        edits, functions, named = in_every_run(crate), public_functions(crate), []
        for title, text in {**by_turns(crate), **edits}.items():
            wrong += misfits(crate, title, text, title in edits)
            module, function = [*title.split("."), ""][:2]
            same = [entry for entry in functions if entry[1] == function and module in entry[0]]
            named += sorted(same, key=lambda entry: (entry[0][-1] != module, len(entry[0])))[:1]
        if not EXAMPLES.fullmatch(crate):
            wrong += [f"{crate}: {'.'.join(entry[0])}: {entry[1]}: no mutant"
                      for entry in functions if entry not in named]
            total += len(functions)
    return report(wrong, f"mutants: {total} public functions, each with a mutant")


def put(crates, part):
    """Copies a part of the catalogues to must-fail/, and returns the names of its crates."""
    chosen = part_of([(crate, *mutant) for crate in crates for mutant in by_turns(crate).items()], part)
    for crate, title, text in chosen:
        write(path("crates", crate, "must-fail", f"{COPY}{title}.edit"), text + "\n")
    print(f"{len(chosen)} mutants of the catalogues for rt")
    return sorted({crate for crate, *_ in chosen})


def proved(crates, part):
    """Proves a part of the controls, each in the place of its mutant, and reports those that are not proved."""
    controls = dict(part_of([((crate, title), text) for crate in crates
                             for title, text in in_every_run(crate).items()], part))  # fmt: skip
    for (crate, title), text in controls.items():
        control = re.sub(r"^new:.*\ncontrol:", "new:", text, flags=re.M)
        write(path("crates", crate, "must-fail", f"{COPY}{title}.edit"), control)
    said = shown("rt", "must-fail", *sorted({crate for crate, _ in controls}), cwd=path())[1] if controls else ""
    wrong = [f"mutants: {crate}: the control of {title} is not proved" for crate, title in controls
             if f"must-fail {crate}/{COPY}{title}.edit: NOT REFUSED" not in said]
    return report(wrong, f"mutants: {len(controls)} controls proved")


def compared(printed):
    """Reports each mutant that was rejected for another goal than its line `goal:` names."""
    wrong, named = [], 0
    for crate, title, why in REJECTED.findall(printed):
        goal = re.search(r"^goal: (.*)$", {**by_turns(crate), **in_every_run(crate)}.get(title, ""), re.M)
        named += bool(goal)
        if goal and f"`{goal[1]}`" not in why:
            wrong.append(f"mutants: {crate}: {title}: rejected, but not for the goal {goal[1]}: {why}")
    told = {(crate, title) for crate, title, _ in REJECTED.findall(printed)}
    wrong += [f"mutants: {crate}: {title}: nothing says why it was rejected" for crate in with_mutants()
              for title, text in in_every_run(crate).items() if "\ngoal: " in text and (crate, title) not in told]
    return report(wrong, f"mutants: {named} were rejected for the goals that they name")


def remove():
    """Deletes the copies, and the folders that are empty then."""
    for name in glob.glob(path(f"crates/*/must-fail/{COPY}*")):
        os.remove(name)
    remove_folders(map(Path, glob.glob(path("crates/*/must-fail"))))


def part_or_crate(word):
    """Returns the two numbers of a part K/N, or the name of a crate or a folder with mutants."""
    found = re.fullmatch(r"([1-9][0-9]{0,3})/([1-9][0-9]{0,3})", word)
    if found and int(found[1]) <= int(found[2]):
        return int(found[1]), int(found[2])
    if word not in [*with_mutants(), *wrappers.folders()]:
        raise argparse.ArgumentTypeError(f"'{word}' is no crate or folder with mutants, and no part, such as 1/8")
    return word


def run(action: ("list", "try", "controls", "put", "remove", "reasons",
                 "bindings") = "list", *words: part_or_crate, all_=""):
    if all_ not in ("", "bindings"):
        raise Failure(f"--all: '{all_}' is not bindings")
    crates, parts = ([word for word in words if isinstance(word, kind)] for kind in (str, tuple))
    crates, part = crates or with_mutants(), [*parts, (1, 1)][0]
    if action == "reasons":
        return compared(sys.stdin.read())
    if action == "bindings" or all_:
        return wrappers.run((1, 1) if all_ else part, [word for word in words if isinstance(word, str)])
    if action == "list":
        return listed(crates)
    remove()
    try:
        if action == "controls":
            return proved(crates, part)
        chosen = put(crates, part) if action != "remove" else []
        return shown("rt", "must-fail", *chosen, cwd=path())[0] if action == "try" and chosen else 0
    finally:
        if action != "put":
            remove()
