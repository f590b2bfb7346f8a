"""Copies and builds the bindings, the C library if none is given, and programs over the Rust crate byte-unit 5.2.6 or
the package in its place, in environments of their own."""

import glob
import json
import os
import re
import shutil
from pathlib import Path

from .common import Failure, copy_to, output, path, write
from .needs import COMPARED, DEBIAN_RUST, SERDE, is_there

# What the original, the package and their programs need, with the crates as Debian installs them.
NEEDS = ["cargo", *COMPARED, *SERDE]
# The crates that Debian installs take the place of the registry.
CONFIG = f"""[source.crates-io]
replace-with = "debian"
[source.debian]
directory = "{DEBIAN_RUST}"
"""
# The features of the original crate that are compared and measured; the package has them by name.
OPTIONS = ["--release", "--offline", "--quiet", "--no-default-features", "--features", "std,byte,bit,u128"]
# The fastest code that cargo makes, since the programs are measured.
PROFILE = {"CARGO_PROFILE_RELEASE_LTO": "fat", "CARGO_PROFILE_RELEASE_CODEGEN_UNITS": "1",
           "CARGO_PROFILE_RELEASE_PANIC": "abort"}
# What a binding is built with, beside its folder.
BESIDE = {"python": ["bindings/c", "bindings/rust", "CHANGELOG.md"]}
# Variables by which a build could find another library, other flags or another folder for what it makes.
UNSET = ["PYTHONPATH", "BYTE_UNIT_LIBRARY_DIR", "PKG_CONFIG", "PKG_CONFIG_PATH", "RUSTFLAGS", "RUSTDOCFLAGS",
         "CARGO_BUILD_TARGET", "CARGO_TARGET_DIR", "CARGO", "RUSTC"]  # fmt: skip
# Builds ask for no network, print little, and leave no bytecode.
SET = {"PYTHONDONTWRITEBYTECODE": "1", "PYTHONUTF8": "1", "PIP_DISABLE_PIP_VERSION_CHECK": "1",
       "CARGO_TERM_QUIET": "true", "CARGO_NET_OFFLINE": "true", "CARGO_PROFILE_DEV_DEBUG": "0"}  # fmt: skip


def environment(**variables):
    """Returns this environment with variables, those of None unset, and without what could lead to another library."""
    here = {**os.environ, **dict.fromkeys(UNSET), **SET, **variables}
    return {name: str(value) for name, value in here.items() if value is not None}


def copied(binding, folder):
    """Copies a binding and what it includes, without what was built in it. Returns the copy's path."""
    folder, names = str(Path(folder).resolve()), [f"bindings/{binding}", *BESIDE.get(binding, [])]
    copy_to(folder, *names, without=["build", "*.egg-info", "__pycache__", "target", "Cargo.lock"])
    return os.path.join(folder, names[0])


def original(given, work):
    """Copies the sources of the crate into a folder for cargo, and returns it."""
    crate = os.path.join(work, "original")
    for name in glob.glob("**/*.rs*", root_dir=given, recursive=True):
        # A file such as `src--lib.rs.txt` may itself be in a folder `src`.
        found = re.fullmatch(r"(?:src/)+(.*\.rs)(?:\.txt)?", name.replace("--", "/"))
        if found:
            os.makedirs(os.path.dirname(os.path.join(crate, "src", found[1])), exist_ok=True)
            shutil.copy(os.path.join(given, name), os.path.join(crate, "src", found[1]))
    if not os.path.isfile(os.path.join(crate, "src/lib.rs")):
        raise Failure(f"{given} has no src/lib.rs of the crate")
    shutil.copy(path("bindings/rust/checks/original.toml"), os.path.join(crate, "Cargo.toml"))
    return crate


def programs(folder, *more):
    """Builds the programs by `cargo install`, and more words, below a folder. Returns the folder that has them."""
    write(f"{folder}/config.toml", CONFIG)
    words = ["--path", path("bindings/programs"), "--root", folder, "--target-dir", f"{folder}/target", *more]
    output("cargo", "install", *words, "--config", f"{folder}/config.toml", env=environment(CARGO_HOME=folder))
    return Path(folder, "bin")


def program(source, crate):
    """Builds a program in a copy of a crate, and returns its path."""
    missing = [need for need in NEEDS if not is_there(need)]
    if missing:
        raise Failure(f"{missing[0]} is missing: `tools/dev setup --compared` installs it")
    os.makedirs(os.path.join(crate, "src/bin"), exist_ok=True)
    shutil.copy(path(source), os.path.join(crate, "src/bin/program.rs"))
    write(f"{crate}/.cargo/config.toml", CONFIG)
    env = environment(**PROFILE, CARGO_HOME=os.path.join(crate, "home"))
    said = output("cargo", "build", "--bin", "program", "--message-format", "json", *OPTIONS, cwd=crate, env=env)
    made = (json.loads(line).get("executable") for line in said.splitlines() if line.startswith("{"))
    return next(filter(None, made))
