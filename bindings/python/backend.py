"""Builds the package by setuptools, the installed one if there is one.

pip builds a package in an environment of its own, which has none of the packages that are installed, and downloads what
the build needs. This backend finds setuptools and wheel where the interpreter has them, so that `pip install` needs no
network. It asks pip for them only where they are missing or too old.
"""

import importlib.metadata
import site
import sys
import sysconfig

# The oldest versions that build the package, and the ways in which a Python lays out its folders of packages.
OLDEST = {"setuptools": 61, "wheel": 0}
SCHEMES = {"posix_prefix", "deb_system"}.intersection(sysconfig.get_scheme_names())


def folders():
    """Returns the folders of the packages of the environment, and of the interpreter that it was made with."""
    base = {"base": sys.base_prefix}
    return [*site.getsitepackages(), *(sysconfig.get_path("purelib", scheme, vars=base) for scheme in sorted(SCHEMES))]


def is_installed(name):
    """Returns whether a package of this name is on the path, and new enough."""
    try:
        return int(importlib.metadata.version(name).partition(".")[0]) >= OLDEST[name]
    except importlib.metadata.PackageNotFoundError:
        return False


def missing():
    """Adds these folders to the path, and returns what the build needs beside them."""
    sys.path += [folder for folder in folders() if folder not in sys.path]
    return [f"{name}>={OLDEST[name]}" for name in OLDEST if not is_installed(name)]


# The four functions that pip calls, as PEP 517 names them.


def get_requires_for_build_wheel(config_settings=None):
    return missing()


def get_requires_for_build_sdist(config_settings=None):
    return missing()


def build_wheel(folder, config_settings=None, metadata_directory=None):
    missing()
    from setuptools import build_meta

    return build_meta.build_wheel(folder, config_settings, metadata_directory)


def build_sdist(folder, config_settings=None):
    missing()
    from setuptools import build_meta

    return build_meta.build_sdist(folder, config_settings)
