"""The blocks of Rattle in the guide, pasted into empty crates: they are proved over the libraries of `rt ci`."""

import os
import subprocess
import tempfile
from concurrent.futures import ThreadPoolExecutor

from ..common import output, read, write
from ..libraries import rattle_after_ci
from ..source import SHOWN, beside, crates
from .commands import GUIDE
from .examples import Example, test_of


def paste(top, name, code):
    """Writes a crate with the name of a file's crate, with the block of this file and what it needs beside it."""
    crate, _, module = name.removeprefix("crates/").removesuffix(".rt").partition("/src/")
    folder, is_root = f"{top}/crates/{crate}", module in ("lib", "main")
    tactic = "" if "#![" in code and is_root else "#![tactic(auto)]\n"
    root = f"{folder}/src/lib.rt"
    before = read(root) if os.path.exists(root) else f"//! Blocks of the guide.\n{tactic}"
    write(root, f"{before}\n{code}" if is_root else f"{before}\npub mod {module};\n")
    if not is_root:
        write(f"{folder}/src/{module}.rt", f"//! A block of the guide.\n{code}")
    for file in beside(name, code):
        write(f"{folder}/{file}", read(f"crates/{crate}/{file}"))
        if file.count("/") == 1:
            kind, library = file.split("/")[0], f"{folder}/{file.split('/')[0]}/Lib.antt"
            modules = read(library) if os.path.exists(library) else f"-- The {kind} of the blocks.\n"
            write(library, f"{modules}pub mod {file.split('/')[1].removesuffix('.antt')}\n")


def pasted():
    found, tests = {}, []
    for _, file, parts, language, code in SHOWN.findall(read(GUIDE)):
        if language == "rust" and parts.startswith("example"):
            tests.append(Example(file, 0, code, "byte_unit", f"block_{len(tests)}"))
        elif language == "rust":
            found[file] = found.get(file, "") + code
    made = {name: crates()[name] for name in dict.fromkeys(file.split("/")[1] for file in found)}
    used = sorted({*sum(made.values(), []), "byte_unit_serde", *crates()["byte_unit_serde"]})
    with tempfile.TemporaryDirectory() as top:
        for file, code in found.items():
            paste(top, file, code)
        modules = "".join(f"\n#[cfg(test)]\nmod {test.test};\n" for test in tests)
        write(f"{top}/crates/pasted/src/lib.rt", f"//! Bodies of tests.\n#![tactic(auto)]\n{modules}")
        for test in tests:
            write(f"{top}/crates/pasted/src/{test.test}.rt", f"//! A block of the guide.\n\n{test_of(test)}")
        calls = {name: rattle_after_ci("check", name, needed) for name, needed in made.items()}
        calls["pasted"] = [*rattle_after_ci("check", "pasted", used), "--test"]
        folders = [f"{top}/crates/{name}" for name in calls]
        with ThreadPoolExecutor() as pool:
            list(pool.map(lambda call, cwd: output(*call, cwd=cwd, stdin=subprocess.DEVNULL), calls.values(), folders))
    return [], f"{len(found)} blocks and {len(tests)} bodies of tests are proved"
