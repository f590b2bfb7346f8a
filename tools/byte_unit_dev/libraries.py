"""Builds the C library in an existing folder.

FOLDER then has libbyte_unit.a and byte_unit.h. If there is a C compiler ($CC, or cc) it also has libbyte_unit.so, a
link to libbyte_unit.so.VERSION, and sqlite3/byte_unit.so, the extension for SQLite, if sqlite3ext.h is installed. First
`rt lib` proves the crate byte_unit_c. What `rt ci` alone has proved is proved again, which takes minutes: it leaves
nothing that other commands of `rt` read. With --after-ci, as in the gate, uses the libraries that `rt ci` has built,
and does not see what has changed since.

With --cargo, and wherever the toolchain (rt) is missing, proves nothing: cargo builds the archive, offline, from the
proved sources as they are rendered in Rust (bindings/c/src/rendered).

With --target, the library is built for another target. For aarch64-unknown-linux-gnu the crate byte_unit_c is proved,
over the same libraries: what a call proves is kept in crates/byte_unit_c/out/targets, and the next takes it. For any
other target of rustc, cargo builds the rendered Rust: over the compiler's `core` for the target (`rustup target add`),
or over one that it builds of the compiler's sources (Debian: rust-web-src). FOLDER then has the archive and the header,
and the shared library if the target is one of those tested and Debian's gcc for it is there; or, for
wasm32-unknown-unknown, byte_unit.wasm alone, which bindings/js needs, and byte_unit.wasm.rustc, which names compiler and
linker.
"""

import fcntl
import os
import re
import shutil
from pathlib import Path

from .common import Failure, call, output, path, read, shown, write
from .source import below, crates

ARCHIVE, HEADER, EXTENSION = "libbyte_unit.a", "byte_unit.h", "sqlite3/byte_unit.so"
# Every x86-64 processor. The default of rt, x86-64-v2, ends a program on the processors qemu64 and kvm64 by SIGILL.
CPU = "x86-64"
WASM, AARCH64, CORTEX_M4 = "wasm32-unknown-unknown", "aarch64-unknown-linux-gnu", "thumbv7em-none-eabi"
MODULE = "byte_unit.wasm"
# The linkers that Debian has for targets without gcc: a compiler by rustup has its own.
LINKERS = {WASM: "wasm-ld-19", CORTEX_M4: "ld.lld"}
# The compilers of C for other targets, as Debian has them.
TARGET_CC = {AARCH64: "aarch64-linux-gnu-gcc", "i686-unknown-linux-gnu": "i686-linux-gnu-gcc",
             "armv7-unknown-linux-gnueabihf": "arm-linux-gnueabihf-gcc",
             "s390x-unknown-linux-gnu": "s390x-linux-gnu-gcc"}  # fmt: skip


def run(folder, *, after_ci=False, cargo=False, target=""):
    folder = Path(folder).resolve()
    if not folder.is_dir():
        raise Failure(f"{folder} is no folder")
    if target:
        build_for(target, folder, after_ci)
        return
    if cargo:
        build_by_cargo(folder)
    else:
        build(folder, after_ci)
    link_in(folder)


def build_for(target, folder, after_ci):
    """Builds the library for another target, and links what is used there."""
    if target == AARCH64:
        if not after_ci:
            proved("rt", "lib", f"--cpu={CPU}")
        proved(*words_after_ci(folder / ARCHIVE, "--target", target))
    elif target == WASM:
        shutil.copyfile(built_by_cargo(target, MODULE, "--crate-type", "cdylib"), folder / MODULE)
        linker = output(LINKERS[WASM], "--version") if shutil.which(LINKERS[WASM]) else ""
        write(folder / f"{MODULE}.rustc", output(rustc(), "--version") + linker)
        return
    else:
        shutil.copy(built_by_cargo(target, ARCHIVE, "--crate-type", "staticlib"), folder)
    shutil.copy(path("bindings/c", HEADER), folder)
    if target in TARGET_CC:
        link_shared(folder, TARGET_CC[target])


def rustc():
    """Returns the rustc that builds the rendered Rust."""
    return os.environ.get("RUSTC") or "rustc"


def built_by_cargo(target, name, *how, package="bindings/c"):
    """Has cargo build the rendered Rust for a target, in a package, and returns the path of what it has made."""
    library = Path(output(rustc(), "--print", "sysroot").strip(), "lib/rustlib/src/rust/library")
    core = Path(output(rustc(), "--print", "target-libdir", "--target", target).strip())
    # A path in the module would make it another one in each folder.
    flags = [f"--remap-path-prefix={path()}=", f"--remap-path-prefix={library}=library",
             *["-Cstrip=symbols"] * (target == WASM)]  # fmt: skip
    words, here = [], {"CARGO_ENCODED_RUSTFLAGS": "\x1f".join(flags)}
    if not list(core.glob("libcore-*.rlib")):
        if not (library / "core").is_dir():
            raise Failure(f"{rustc()} has no core for {target}: `rustup target add {target}`, or install the sources of "
                          "its library (Debian: rust-web-src)")  # fmt: skip
        # A stable compiler builds its own library only so.
        here["RUSTC_BOOTSTRAP"] = "1"
        words = ["-Z", "build-std=core", "--config", 'source.crates-io.replace-with="its-own"',
                 "--config", f'source.its-own.directory="{library}/vendor"']  # fmt: skip
    if target in LINKERS and shutil.which(LINKERS[target]):
        words += ["--config", f'target.{target}.linker="{LINKERS[target]}"']
    made = path(package, "target")
    output(os.environ.get("CARGO") or "cargo", "rustc", "--release", "--offline", "--quiet", "--manifest-path",
           path(package, "Cargo.toml"), "--target-dir", made, "--target", target, *words, *how,
           env={**os.environ, **here})  # fmt: skip
    return Path(made, target, "release", name)


def proved(*words):
    """Runs a call that proves byte_unit_c, and fails if it does not say so. Calls of several processes follow one
    another, since they keep what they prove in one folder."""
    crate = Path(path("crates/byte_unit_c"))
    (crate / "out").mkdir(exist_ok=True)
    with open(crate / "out/proving", "w", encoding="utf-8") as file:
        fcntl.flock(file, fcntl.LOCK_EX)
        status, said = shown(*words, cwd=crate)
    if status or not re.search("^logic=proved ", said, re.M):
        raise Failure(f"status {status}, or no line that begins with logic=proved: see above")


def kit_folder():
    """Returns the folder of the Rattle toolchain."""
    return os.path.dirname(output("rt", "doc").strip())


def build_by_cargo(folder):
    """Builds the archive by cargo, from the rendered Rust."""
    got = call("sh", path("bindings/c/library.sh"), "--cargo", folder)
    *said, last = got.stdout.strip().splitlines()
    print(*said, *[last] * (not got.returncode), sep="\n", flush=True)
    if got.returncode:
        raise Failure(last.removeprefix("byte_unit: "))


def build(folder, after_ci=False):
    """Proves byte_unit_c and what it needs, and builds the archive; or builds it by cargo if there is no toolchain."""
    if not shutil.which("rt"):
        build_by_cargo(folder)
        return
    crate = path("crates/byte_unit_c")
    if not after_ci:
        print("proving byte_unit_c, which takes minutes if only rt ci has proved it and what it needs", flush=True)
    proved(*words_after_ci(folder / ARCHIVE, "--cpu", CPU) if after_ci else ["rt", "lib", f"--cpu={CPU}"])
    if not after_ci:
        shutil.copy(f"{crate}/out/libbyte_unit_c.a", folder / ARCHIVE)
    shutil.copy(path("bindings/c", HEADER), folder)


def words_after_ci(archive, *target):
    """Returns the call that `rt lib` makes, with the libraries that `rt ci` built of its dependencies. It keeps what it
    proves, and the call for another target takes that, and proves only what differs."""
    kept = Path(path("crates/byte_unit_c/out/targets"))
    kept.mkdir(parents=True, exist_ok=True)
    return [*rattle_after_ci("build", "byte_unit_c", crates()["byte_unit_c"]), "--jobs", "2", "--crate-type",
            "staticlib", "--incremental", kept, *target, "--toolchain", f"{kit_folder()}/toolchain", "-o", archive]


def rattle_after_ci(command, crate, used):
    """Returns a call of rattle for a library in the current folder that uses these, as `rt ci` has built them."""
    kit = kit_folder()
    own = {name: path("crates", name, "out/rlib") for name in below(name for name in used if name in crates())}
    built = [["--extern", f"{name}={own.get(name, f'{kit}/rlibs')}/{name}.rlib"] for name in ["std", *used]]
    built += [["-L", f"dependency={folder}"] for folder in [f"{kit}/rlibs", *own.values()]]
    return [f"{kit}/bin/rattle", command, "src/lib.rt", "--crate-name", crate, "--links", f"{crate}=",
            "--antt-project", f"{kit}/rattle/logic/antt-project.json", "--logic-built", f"{kit}/logic_built",
            *sum(built, [])]  # fmt: skip


def shared_names(folder):
    """Returns the name of the shared library, by the version in the header, its soname, and its name for linkers."""
    found = re.search(r'^#define BYTE_UNIT_VERSION_STRING "((\d+)[0-9.]*)"', read(folder / HEADER), re.M)
    if not found:
        raise Failure(f"{folder / HEADER}: no line defines BYTE_UNIT_VERSION_STRING")
    return f"libbyte_unit.so.{found[1]}", f"libbyte_unit.so.{found[2]}", "libbyte_unit.so"


def link_in(folder):
    """Links the shared library, and the extension for SQLite with the archive inside, if there is a C compiler."""
    archive, cc = folder / ARCHIVE, os.environ.get("CC") or "cc"
    if not archive.is_file() or not (folder / HEADER).is_file():
        raise Failure(f"{folder}: there is no {ARCHIVE} or no {HEADER} to link")
    if not shutil.which(cc):
        print(f"skipped: libbyte_unit.so and {EXTENSION}: there is no C compiler {cc}")
        return
    link_shared(folder, cc)
    if call(cc, "-E", "-", input="#include <sqlite3ext.h>\n").returncode:
        print(f"skipped: {EXTENSION}: there is no sqlite3ext.h (Debian: libsqlite3-dev)")
        return
    (folder / EXTENSION).parent.mkdir(exist_ok=True)
    linked(cc, folder / EXTENSION, "-std=c99", "-fPIC", "-O2", "-fvisibility=hidden", "-Wall", "-Wextra", "-I", folder,
           path("bindings/sql/sqlite/byte_unit_sqlite.c"), archive, "-Wl,--exclude-libs,ALL")


def functions(header):
    """Returns the result and the parameters of each function of the header, and whether it is inline."""
    code = re.sub(r"/\*.*?\*/", "", header, flags=re.S)
    found = re.findall(r"^((?:\w+ )*?)(\w+) (byte_unit_\w+)\(([^()]*)\)\s*[;{]", code, re.M)
    return {name: (result, " ".join(given.split()), "inline" in before) for before, result, name, given in found}


def exported(header):
    """Returns the names of the symbols of the library: the functions of the header that are not inline."""
    return [name for name, (_, _, is_inline) in functions(header).items() if not is_inline]


def replace_calls(library, folder, bodies):
    """Makes a library in a folder of which calls have other bodies than in a given library, whose own is `real` there.
    Returns the folder."""
    calls, code = functions(read(f"{library}/{HEADER}")), f'#include "{HEADER}"\n#include <stdio.h>\n'
    for name, body in bodies.items():
        result, given, _ = calls[name]
        code += f"{result} real_{name}({given});\n#undef real\n#define real real_{name}\n"
        code += f"{result} {name}({given})\n{{\n{body}\n}}\n"
    write(folder / "calls.c", code)
    shutil.copy(Path(library, HEADER), folder)
    output("gcc", "-O1", "-fPIC", "-I", folder, "-c", folder / "calls.c", "-o", folder / "calls.o")
    renamed = [f"--redefine-sym={name}=real_{name}" for name in bodies]
    output("objcopy", *renamed, Path(library, ARCHIVE), folder / ARCHIVE)
    output("ar", "q", folder / ARCHIVE, folder / "calls.o")
    return folder


def link_shared(folder, cc):
    """Links the shared library of what the header's functions need of the folder's archive, without the symbols that no
    loader reads, if there is the compiler."""
    archive = folder / ARCHIVE
    if not shutil.which(cc):
        print(f"skipped: libbyte_unit.so: there is no C compiler {cc}")
        return
    shared, soname, short = shared_names(folder)
    script = f"-Wl,--version-script={path('bindings/c/byte_unit.map')}"
    needed = [f"-Wl,-u,{name}" for name in exported(read(folder / HEADER))]
    linked(cc, folder / shared, "-s", f"-Wl,-soname,{soname}", script, *needed, archive)
    for name, target in ((soname, shared), (short, soname)):
        (folder / name).unlink(missing_ok=True)
        (folder / name).symlink_to(target)


def linked(cc, place, *words):
    """Links a shared object, in which each symbol has to be defined and all addresses are set, and then fixed, as it is
    loaded."""
    if call(cc, "-shared", "-o", place, "-Wl,-z,defs,-z,relro,-z,now", *words, stdout=None, stderr=None).returncode:
        raise Failure(f"{cc} failed: see above")
