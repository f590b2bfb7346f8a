"""Builds the extension module, with the library inside: the header byte_unit.h and the archive libbyte_unit.a.

c/library.sh finds both, or has cargo build the archive from the Rust beside it. It is in the folder `bindings` of the
repository, and in the folder `library` of a source distribution.
"""

import os
import platform
import re
import shutil
import subprocess
import sys
import sysconfig

from setuptools import Extension, setup
from setuptools.command.sdist import sdist

HERE = os.path.dirname(os.path.abspath(__file__))
ROOT = os.path.dirname(os.path.dirname(HERE))
HEADER, ARCHIVE = "byte_unit.h", "libbyte_unit.a"
# The folder with the sources of the library, and that with the changelog.
IS_PACKED = os.path.isfile(os.path.join(HERE, "library/c/library.sh"))
SOURCES, TOP = (os.path.join(HERE, "library"), HERE) if IS_PACKED else (os.path.join(ROOT, "bindings"), ROOT)


def library():
    """Returns the paths of both. If they are neither found nor built, a line says why."""
    folder = os.path.join(HERE, "build", "library")
    if subprocess.run(["sh", os.path.join(SOURCES, "c/library.sh"), folder]).returncode:
        sys.exit(1)
    return os.path.join(folder, HEADER), os.path.join(folder, ARCHIVE)


def version_of(header):
    """Returns the version in a header, which is that of the package."""
    with open(header, encoding="utf-8") as file:
        version = re.search(r'^#define BYTE_UNIT_VERSION_STRING "(.+)"$', file.read(), re.MULTILINE)
    return version[1] if version else sys.exit(f"byte_unit: {header} has no version: is it that of an older library?")


def extension(header, archive):
    """Returns how the module is built: for the limited API, so one build is for each Python from 3.11 on."""
    names = ["arguments", "values", "texts", "parse", "format", "columns", "buffers", "results", "module"]
    return Extension(
        "byte_unit._native",
        sources=[f"native/{name}.c" for name in names],
        include_dirs=[os.path.dirname(header)],
        extra_objects=[archive],
        extra_compile_args=["-std=c11", "-Wall", "-Wextra", "-fvisibility=hidden"],
        extra_link_args=["-Wl,--exclude-libs,ALL"],  # the module exports its own name alone
        py_limited_api=True,
    )


class WithLibrary(sdist):
    """A source distribution with the sources of the library, so that another machine builds it, and the changelog."""

    def make_release_tree(self, base_dir, files):
        super().make_release_tree(base_dir, files)
        left_out = shutil.ignore_patterns("target", "Cargo.lock", "checks", "examples", "test_*", "__pycache__",
                                          "mutants.edits")
        for name in ("c", "rust"):
            shutil.copytree(os.path.join(SOURCES, name), os.path.join(base_dir, "library", name), ignore=left_out)
        shutil.copy(os.path.join(TOP, "CHANGELOG.md"), base_dir)


# A source distribution has no archive, and the version of its sources.
builds = {"build", "build_ext", "bdist_wheel", "install"} & set(sys.argv)
found = (os.path.join(SOURCES, "c", HEADER), ARCHIVE) if "sdist" in sys.argv and not builds else library()
# The functions of glibc that the module needs are older than 2.17: tests/test_package.py.
machine = sysconfig.get_platform().removeprefix("linux-")
tag = {"plat_name": f"manylinux_2_17_{machine}"} if platform.libc_ver()[0] == "glibc" else {}
setup(
    version=version_of(found[0]),
    ext_modules=[extension(*map(os.path.abspath, found))],
    # Always compiled again: a file of an earlier build may have another library inside.
    options={"bdist_wheel": {"py_limited_api": "cp311", **tag}, "build_ext": {"force": True}},
    cmdclass={"sdist": WithLibrary},
)
