"""Installs the Debian packages that the tests need, as root, and prints which could not be installed.

The exit status is 0 all the same: a test whose program or file is still missing then is skipped, and says so. With
--compared, installs also what only measurements need.
"""

import functools
import glob
import os
import shutil
import subprocess
import sys

from .common import call

DEBIAN_RUST = "/usr/share/cargo/registry"
POSTGRESQL_15 = "/usr/lib/postgresql/15"
POSTGRES_H = "/usr/include/postgresql/15/server/postgres.h"
DEBIAN_PYTHON, PYTHON_H = "/usr/bin/python3", "/usr/include/python3.*/Python.h"
WEBKIT = "/usr/lib/x86_64-linux-gnu/webkit2gtk-4.1/MiniBrowser"
# The crates with which the features `serde` and `rust_decimal` of the Rust package are tested.
SERDE = {f"{DEBIAN_RUST}/{name}-[0-9]*": f"librust-{name.replace('_', '-')}-dev" for name in (
    "bincode", "serde", "serde_derive", "serde_json", "toml", "quick-xml", "serde-xml-rs", "rust_decimal")}  # fmt: skip
# The crate that the command needs.
CLAP = {f"{DEBIAN_RUST}/clap-4.*": "librust-clap-dev"}
CARGO_PROGRAMS = ["cargo", "rustc", "cc", *CLAP]
# What tests need, and the package that has it. A need is a program; a file, if it begins with a slash; a C header; or a
# module of Debian's Python.
PACKAGES = {
    **{name: name for name in ("gcc", "g++", "clang", "pkg-config", "mandoc", "sqlite3", "mypy", "git", "chromium",
                               "make", "cmake", "valgrind", "mmdebstrap")},
    "cc": "gcc", "stdio.h": "libc6-dev", "clang++": "clang", "ld.lld": "lld", "musl-gcc": "musl-tools", "sqlite3ext.h": "libsqlite3-dev",
    **dict.fromkeys(["ar", "nm", "objcopy", "readelf"], "binutils"), PYTHON_H: "python3-dev",
    "import tomllib": "python3", "import ensurepip": "python3-venv", "import xdist": "python3-pytest-xdist",
    "import dask.dataframe": "python3-dask",
    **{f"import {name}": f"python3-{name}" for name in (
        "setuptools", "wheel", "pip", "pytest", "numpy", "pandas", "distributed", "humanfriendly", "selenium", "click", "pydantic")},
    # Debian 12 has two versions of them: the older one is the oldest for which the Rust package is made.
    **dict.fromkeys(["cargo", "/usr/bin/cargo"], "cargo-web/bookworm"),
    **dict.fromkeys(["rustc", "/usr/bin/rustc"], "rustc-web/bookworm"), "cargo-clippy": "rust-web-clippy/bookworm",
    **dict.fromkeys(["rustfmt", "cargo-fmt"], "rustfmt-web/bookworm"), **SERDE, **CLAP,
    "wasm-ld-19": "lld-19", "firefox-esr": "firefox-esr", "xvfb-run": "xvfb", WEBKIT: "webkit2gtk-driver",
    "node": "nodejs", "npm": "npm", "tsc": "node-typescript", "chromedriver": "chromium-driver",
    "aarch64-linux-gnu-gcc": "gcc-aarch64-linux-gnu", **dict.fromkeys(
        [f"qemu-{cpu}" for cpu in ("x86_64", "aarch64", "i386", "arm", "s390x")], "qemu-user"),
    "/usr/aarch64-linux-gnu/include/stdio.h": "libc6-dev-arm64-cross",
    **{need: package for cpu, cross in (("i686-linux-gnu", "i386"), ("arm-linux-gnueabihf", "armhf"),
                                        ("s390x-linux-gnu", "s390x"))
       for need, package in ((f"{cpu}-gcc", f"gcc-{cpu}"), (f"/usr/{cpu}/include/stdio.h", f"libc6-dev-{cross}-cross"))},
    "qemu-system-arm": "qemu-system-arm",
    f"{POSTGRESQL_15}/bin/initdb": "postgresql-15", f"{POSTGRESQL_15}/bin/psql": "postgresql-client-15",
    POSTGRES_H: "postgresql-server-dev-15", **dict.fromkeys(["setpriv", "prlimit", "lsblk", "unshare"], "util-linux"),
    **dict.fromkeys(["du", "df", "ls", "numfmt"], "coreutils"), **dict.fromkeys(["free", "ps"], "procps"),
    "/usr/bin/time": "time", "apt-get": "apt",
}  # fmt: skip
POSTGRESQL = ["gcc", "make", "setpriv", POSTGRES_H, *(need for need in PACKAGES if need.startswith(POSTGRESQL_15))]
# What only measurements need.
COMPARED = {f"{DEBIAN_RUST}/utf8-width-*": "librust-utf8-width-dev",
            **{f"/usr/share/nodejs/{name}": f"node-{name}" for name in ("bytes", "filesize")}}  # fmt: skip
# The Python package needs CPython 3.11 or later, which has tomllib.
PYTHON_PACKAGE = [PYTHON_H, "import tomllib", "import setuptools", "import wheel", "import ensurepip", "import pip",
                  "gcc", "pkg-config"]  # fmt: skip


@functools.lru_cache(maxsize=None)
def is_there(need):
    """Tells whether what is needed is there."""
    if need.startswith("/"):
        return bool(glob.glob(need))
    if need.startswith("import "):
        return os.path.exists(DEBIAN_PYTHON) and call(DEBIAN_PYTHON, "-c", need).returncode == 0
    if need.endswith(".h"):
        compilers = filter(shutil.which, ("gcc", "clang"))
        return any(call(cc, "-E", "-", input=f"#include <{need}>\n").returncode == 0 for cc in compilers)
    return shutil.which(need) is not None


def installed(packages):
    """Installs packages; if not all can be, by new lists of packages, and then one by one. Returns those that fail."""
    def fails(*names):
        words = ["apt-get", "install", "--yes", "--quiet", "--no-install-recommends", *names]
        return call(*words, stdin=subprocess.DEVNULL).returncode != 0

    if not shutil.which("apt-get") or not packages:
        return packages
    if not fails(*packages):
        return []
    call("apt-get", "update", "--quiet")
    return [package for package in packages if fails(package)] if fails(*packages) else []


def run(*, compared=False):
    wanted = {**PACKAGES, **(COMPARED if compared else {})}
    left = installed(sorted({package for need, package in wanted.items() if not is_there(need)}))
    if left:
        print(f"these packages could not be installed: {' '.join(left)}", file=sys.stderr)
