"""Replaces many files: none of them if one cannot be written or a signal comes before all are."""

import contextlib
import os
import signal

from .common import Failure, on_signals


def missing_folders(places):
    """Returns the folders that these files need and that are not there, the outer ones first."""
    return [folder for folder in sorted({above for place in places for above in place.parents}) if not folder.is_dir()]


def remove(files):
    """Removes the files that are there."""
    for file in files:
        if os.path.lexists(file):
            file.unlink()


def remove_folders(folders):
    """Removes the folders that are empty, the inner ones first."""
    for folder in sorted(folders, reverse=True):
        with contextlib.suppress(OSError):
            folder.rmdir()


def write(place, content, mode):
    """Writes a file, or makes a link if the content is a path."""
    if isinstance(content, str):
        place.symlink_to(content)
        return
    try:
        with open(place, "xb") as file:
            file.write(content)
        place.chmod(mode)
    except OSError as error:  # an error of a write has no name
        error.filename = place
        raise


def replace(files, modes):
    """Writes files, each a path with its bytes or the path that it links to, and removes those that have None.

    Writes all beside their places first. From the first rename on no signal stops this program."""
    new = {place: place.with_name(f".{place.name}.new") for place, content in files.items() if content is not None}
    made, is_written = missing_folders(new), False
    try:
        for folder in made:
            folder.mkdir()
        remove(new.values())
        for place, hidden in new.items():
            if place.is_dir():
                raise Failure(f"{place} is a folder")
            write(hidden, files[place], modes.get(place, 0o644))
        on_signals(signal.SIG_IGN)
        is_written = True
    finally:
        if not is_written:
            remove(new.values())
            remove_folders(made)
    for place, hidden in new.items():
        os.replace(hidden, place)
    remove(place for place in files if place not in new)
