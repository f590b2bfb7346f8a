"""Installs the C library where compilers, pkg-config, man and SQLite look for it, and the command if Rattle is there.

Proves and builds the library by `tools/make-libraries`, and the command by `rt run` in crates/byte_unit_cli. What
`rt check`, `rt lib` or `rt run` has proved is not proved again; what `rt ci` alone has proved is. Without the toolchain
(rt) cargo builds the library from the rendered Rust, and the command is left out. With --from FOLDER proves nothing,
and takes libbyte_unit.a, byte_unit.h and, if it is there, byte-unit from the folder. Then puts into the folder PREFIX,
such as /usr/local, but for what --without-sqlite and --without-command leave out:

    bin/byte-unit                   the command, with share/man/man1/byte-unit.1 and its completions for bash in
                                    share/bash-completion/completions
    include/byte_unit.h             the header
    lib/libbyte_unit.a, .so         the library; the .so leads to that of the soname, and this to that of the version
    lib/pkgconfig/byte_unit.pc      for cc $(pkg-config --cflags --libs byte_unit)
    lib/cmake/byte_unit             for CMake's find_package(byte_unit)
    lib/sqlite3/byte_unit.so        the extension for SQLite, if sqlite3ext.h is installed
    share/man/man3/byte_unit.3      the manual page, made of the header, also by the name of each call
    share/byte_unit/LICENSE, installed    the license, and the list of these files, which --uninstall reads

With the variable DESTDIR the files go to $DESTDIR/PREFIX, and name PREFIX: for packages. Without a C compiler ($CC,
or cc) the shared library and the extension are left out, and a line says so. If the loader reads PREFIX/lib and
DESTDIR is not set, calls ldconfig; without the rights for it, a line says to call it as root. If something fails,
or a signal comes before the end, nothing is installed, and one line says why. --uninstall removes the files of the
list, and the folders that the installation made if they are empty.
"""

import os
import re
import shlex
import shutil
import sys
import tempfile
from pathlib import Path

from . import libraries
from .common import Failure, call, output, path, read, reason, shown
from .libraries import ARCHIVE, EXTENSION, HEADER, functions
from .replace import missing_folders, remove, remove_folders, replace

LIST = "share/byte_unit/installed"
COMMAND = "byte-unit"
CMAKE = "lib/cmake/byte_unit/byte_unit"


def run(prefix, *, from_="", without_sqlite=False, without_command=False, uninstall=False):
    prefix = os.path.abspath(prefix)
    if re.search(r'[\x00-\x1f"\\$#]', prefix):
        raise Failure(f'{prefix!r}: a control character and " \\ $ # cannot be written in byte_unit.pc')
    root = Path(os.path.normpath(os.environ.get("DESTDIR", "") + prefix))
    if uninstall:
        return remove_installed(root)
    with tempfile.TemporaryDirectory() as folder:
        try:
            build(Path(folder), from_, not without_command)
            print(f"installing in {root}", flush=True)
            files = files_of(Path(folder), prefix, [EXTENSION] * without_sqlite)
            put(root, files)
        except (Failure, OSError, KeyboardInterrupt) as error:
            raise Failure(f"nothing is installed: {reason(error)}") from error
    folder = shlex.quote(os.path.join(prefix, "lib"))
    print(f"installed {len(files) + 1} files")
    print(f"to compile: cc program.c $(PKG_CONFIG_PATH={folder}/pkgconfig pkg-config --cflags --libs byte_unit)")
    if "lib/libbyte_unit.so" in files:
        tell_the_loader(os.path.join(prefix, "lib"))
    if f"lib/{EXTENSION}" in files:
        print(f"in sqlite3: .load {folder}/sqlite3/byte_unit")


def tell_the_loader(folder):
    """Calls ldconfig if the loader reads the folder, and prints what is left to do before a program runs."""
    ldconfig = shutil.which("ldconfig", path=f"{os.environ.get('PATH', '')}:/usr/sbin:/sbin") or "false"
    read_by_loader = re.findall("^(/[^:]*):", call(ldconfig, "-NXv").stdout, re.M)
    if os.path.realpath(folder) not in map(os.path.realpath, read_by_loader):
        print(f"to run: LD_LIBRARY_PATH={shlex.quote(folder)}, since the loader does not read that folder")
    elif os.environ.get("DESTDIR") or call(ldconfig).returncode:
        print("to run: call `ldconfig` as root, once, so that the loader finds the library")


def build(folder, source, with_command):
    """Makes the libraries and the command in the folder, or copies them there from another."""
    if source and with_command and not os.path.exists(os.path.join(source, COMMAND)):
        print(f"skipped: bin/{COMMAND}: {source} has no {COMMAND}")
        with_command = False
    for name in (ARCHIVE, HEADER, *[COMMAND] * with_command) if source else ():
        shutil.copy(os.path.join(source, name), folder)
    if not source:
        libraries.build(folder)
    libraries.link_in(folder)
    if with_command and not source and not shutil.which("rt"):
        print(f"skipped: bin/{COMMAND}: the Rattle toolchain (rt) is missing")
    elif with_command and not source:
        print("proving byte_unit_cli, which takes minutes if it is not proved yet", flush=True)
        if shown("rt", "run", "--", "--version", cwd=path("crates/byte_unit_cli"))[0]:
            raise Failure("rt run in crates/byte_unit_cli failed: see above")
        shutil.copy(path("crates/byte_unit_cli/out/byte_unit_cli"), folder / COMMAND)


def calls_of(header):
    """Returns the names of the header's functions, but for those, named `.._to`, that only inline functions call."""
    return sorted(name for name in functions(header) if not name.endswith("_to"))


def files_of(folder, prefix, without):
    """Returns what to install: paths below PREFIX, each with its contents as bytes, or the path that it links to."""
    shared, soname, short = libraries.shared_names(folder)
    built = {f"include/{HEADER}": HEADER, f"bin/{COMMAND}": COMMAND,
             **{f"lib/{name}": name for name in (ARCHIVE, shared, EXTENSION) if name not in without}}  # fmt: skip
    files = {place: (folder / name).read_bytes() for place, name in built.items() if (folder / name).exists()}
    manual = output(sys.executable, path("bindings/c/manual.py"), folder / HEADER)
    files["share/man/man3/byte_unit.3"], others = manual.encode(), {"share/byte_unit/LICENSE": "LICENSE"}
    others[f"{CMAKE}-config.cmake"] = "bindings/c/byte_unit-config.cmake"
    if f"bin/{COMMAND}" in files:
        others["share/man/man1/byte-unit.1"] = "command/byte-unit.1"
        others["share/bash-completion/completions/byte-unit"] = "command/byte-unit.bash"
    files.update({place: Path(path(name)).read_bytes() for place, name in others.items()})
    for place in ("lib/pkgconfig/byte_unit.pc", f"{CMAKE}-config-version.cmake"):
        config = read(f"bindings/c/{os.path.basename(place)}.in").replace("@PREFIX@", prefix)
        files[place] = config.replace("@VERSION@", shared.partition(".so.")[2]).encode()
    files.update({f"share/man/man3/{call}.3": "byte_unit.3" for call in calls_of(read(folder / HEADER))})
    if f"lib/{shared}" in files:
        files.update({f"lib/{soname}": shared, f"lib/{short}": soname})
    return files


def put(root, files):
    """Puts the files and their list below a folder, in place of those of an earlier list."""
    lines, made = listed(root), missing_folders([root / name for name in [*files, LIST]])
    folders = {line for line in lines if line.endswith("/")}
    folders |= {f"{folder.relative_to(root)}/" for folder in made if folder.is_relative_to(root)}
    text = "".join(f"{line}\n" for line in [*sorted(files), LIST, *sorted(folders)])
    modes = {root / name: 0o755 for name in files if name.startswith("bin/")}
    gone = [line for line in lines if line not in {LIST, *files, *folders} and os.path.lexists(root / line)]
    contents = {LIST: text.encode(), **files, **dict.fromkeys(gone)}
    replace({root / name: content for name, content in contents.items()}, modes)


def listed(root):
    """Returns the paths in the list of an earlier installation; those of folders end in a slash."""
    lines = read(root / LIST).splitlines() if (root / LIST).exists() else []
    for line in lines:
        if not line or line.startswith("/") or ".." in line.split("/"):
            raise Failure(f"{root / LIST}: {line!r} is not a path below the prefix")
    return lines


def remove_installed(root):
    """Removes the files of the list, which is removed last, and the folders that the installation made."""
    lines = listed(root)
    if not lines:
        raise Failure(f"{root / LIST} is missing: nothing was installed there by tools/dev install")
    files = [line for line in lines if not line.endswith("/")]
    missing = sum(not os.path.lexists(root / line) for line in files)
    remove(root / line for line in sorted(files, key=lambda line: line == LIST))
    remove_folders(root / line for line in lines if line.endswith("/"))
    print(f"removed {len(files) - missing} files from {root}" + f"; {missing} were missing" * (missing > 0))
