"""Makes a Debian 12 in a folder: a clean one to run scripts in, one for aarch64, whose programs qemu-aarch64 runs, or one
of programs that are here in another version."""

import os

import pytest

from .common import call, output, write

# With mounts that nothing else sees, and processes that end with it.
ALONE = ["unshare", "--mount", "--pid", "--fork", "--kill-child"]
# What apt here says of its sources, of which those of Debian 12 are taken.
SOURCE = "deb $(REPO_URI) $(CODENAME) $(COMPONENT)"
RELEASES = ["bookworm", "bookworm-updates", "bookworm-security"]
# All variables of a clean system.
HERE = {"PATH": "/usr/local/sbin:/usr/local/bin:/usr/sbin:/usr/bin:/sbin:/bin", "HOME": "/root", "LC_ALL": "C.UTF-8"}
# What makes a clean system, and those that are unpacked, and not configured, which would take minutes.
CLEAN, UNPACKED = ["--variant=minbase"], ["--variant=extract"]
AARCH64 = [*UNPACKED, "--architectures=arm64", "--skip=check/qemu"]


def make(root, packages, how):
    """Makes a Debian 12 with these packages, and what they need. Skips the test if that is impossible here."""
    found = dict.fromkeys(output("apt-get", "indextargets", "--format", SOURCE, "Created-By: Packages").splitlines())
    sources = [line for line in found if line.split()[2] in RELEASES]
    words = ["--quiet", "--dpkgopt=force-unsafe-io", '--aptopt=Acquire::Languages "none"', *how,
             *(f"--include={name}" for name in packages), RELEASES[0], root, *sources]  # fmt: skip
    made = call(*ALONE, "mmdebstrap", *words, env={**os.environ, **HERE, "DEBIAN_FRONTEND": "noninteractive"})
    if made.returncode:
        pytest.skip(f"a Debian 12 could not be made: {'; '.join(made.stdout.strip().splitlines()[-2:])}")


def program(root, name):
    """Writes a script that runs a program of an unpacked Debian with its libraries, and returns its path."""
    made = os.path.join(root, name)
    libraries = f"{root}/usr/lib/x86_64-linux-gnu:{root}/lib/x86_64-linux-gnu"
    write(made, f'#!/bin/sh\nLD_LIBRARY_PATH={libraries} exec {root}/usr/bin/{name} "$@"\n')
    os.chmod(made, 0o755)
    return made
