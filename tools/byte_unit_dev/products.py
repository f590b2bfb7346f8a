"""The one list of products and of the parts of the tests: the tools, the gate and README.md take theirs from it."""

from .needs import PACKAGES, POSTGRESQL, PYTHON_PACKAGE

# What a clone installs, as README.md names it: the folder of its page, the parts of its tests, each with the stage of the
# gate that has what it needs, and what tools/tests/clone.sh needs to install and call it.
PRODUCTS = {
    "Rust": ("bindings/rust", {"rust": "library"}, ["/usr/bin/cargo", "/usr/bin/rustc", "cc", "stdio.h"]),
    "C and C++": ("bindings/c", {"header": "library", "c": "library", "compilers": "library", "targets": "library",
                                 "install": "programs"}, ["import tomllib", "pkg-config"]),
    "Python": ("bindings/python", {"python": "library"}, PYTHON_PACKAGE),
    "JavaScript": ("bindings/js", {"js": "library"}, []),
    "SQLite": ("bindings/sql/sqlite", {"sqlite": "library"}, ["make", "sqlite3", "sqlite3ext.h"]),
    "PostgreSQL": ("bindings/sql/postgresql", {"postgresql": "programs"}, POSTGRESQL),
    "the shell": ("command", {"command": "programs"}, []),
}  # fmt: skip
OF_TOOLS = {"render": "first", "take": "first", "scale": "programs", "memory": "programs", "clone": "programs",
            "limits": "vectors"}  # fmt: skip
# The parts of the tests: the file or folder of each, and its stage.
PARTS = {
    **{part: (f"{folder}/test_{part}.py" if len(parts) > 1 else folder, stage)
       for folder, parts, _ in PRODUCTS.values() for part, stage in parts.items()},
    "programs": ("bindings/programs", "programs"), "agreement": ("bindings/test_agreement.py", "programs"),
    "vectors": ("vectors", "vectors"), **{part: (f"tools/tests/test_{part}.py", OF_TOOLS[part]) for part in OF_TOOLS},
}  # fmt: skip
# By pytest's names, the tests of these parts that need no more than cargo, or sources for `rt try`, which the gate runs
# at once: of the Rust package, of other processors but aarch64, of JavaScript, of a clone, of the programs that cargo
# makes unless they are compared with Rattle's, those whose library or program rustc has made, and of calls without an
# allocator.
BY_CARGO = ("(test_rust or test_targets and not aarch64 or test_js or test_page or test_browsers or rustc"
            " or test_clone and not older or test_programs and not alike or by_cargo or without_allocator)"
            " and not test_agreement and not test_postgresql")  # fmt: skip
CLONE_PACKAGES = sorted({PACKAGES[need] for *_, needs in PRODUCTS.values() for need in needs})
