"""What all commands share: the repository's files, calls of other programs, signals, and reports."""

import os
import shutil
import signal
import subprocess
from pathlib import Path

ROOT = os.path.dirname(os.path.dirname(os.path.dirname(os.path.realpath(__file__))))


class Failure(Exception):
    """What stops a command, in one line, which `tools/dev` prints before it exits with status 1."""


def path(*parts):
    """Returns the absolute path of a file of the repository."""
    return os.path.join(ROOT, *parts)


def read(name):
    """Returns the text of a file, named from the top of the repository or by its absolute path."""
    return Path(path(name)).read_text(encoding="utf-8")


def write(name, text):
    """Writes a file, named in the same way, and makes its folder if need be."""
    Path(path(name)).parent.mkdir(parents=True, exist_ok=True)
    Path(path(name)).write_text(text, encoding="utf-8")


def copy_to(folder, *names, without=("out",)):
    """Copies files and folders of the repository to their places below a folder, without what has one of the names."""
    for name in names:
        target = os.path.join(folder, name)
        os.makedirs(os.path.dirname(target), exist_ok=True)
        if os.path.isdir(path(name)):
            shutil.copytree(path(name), target, symlinks=True, ignore=shutil.ignore_patterns(*without))
        else:
            shutil.copy(path(name), target)


def call(*words, **more):
    """Runs a program. Returns its status and its output as text, with its errors unless `more` says otherwise."""
    how = {"stdout": subprocess.PIPE, "stderr": subprocess.STDOUT, "encoding": "utf-8", "errors": "replace"}
    return subprocess.run([str(word) for word in words], check=False, **{**how, **more})


def shown(*words, cwd):
    """Runs a program, and prints what it prints. Returns its status, and that as text."""
    how = {"stdin": subprocess.DEVNULL, "stdout": subprocess.PIPE, "stderr": subprocess.STDOUT, "errors": "replace"}
    said = ""
    with subprocess.Popen(words, cwd=cwd, encoding="utf-8", **how) as process:
        for line in process.stdout:
            print(line, end="", flush=True)
            said += line
    return process.returncode, said


def output(*words, **more):
    """Runs a program that has to succeed, and returns its output."""
    got = call(*words, **more)
    if got.returncode:
        said = f"{got.stdout or ''}{got.stderr or ''}"
        raise Failure(f"status {got.returncode} of {' '.join(map(str, words))}\n{said}")
    return got.stdout


def files():
    """Returns the names of the files that git has or does not ignore, in order, without those that are deleted."""
    listed = output("git", "ls-files", "--cached", "--others", "--exclude-standard", cwd=ROOT).splitlines()
    return sorted(name for name in set(listed) if os.path.isfile(path(name)))


def on_signals(handler):
    """Sets what happens at a signal that stops a command, unless it was started to ignore the signal."""
    for number in (signal.SIGINT, signal.SIGTERM, signal.SIGHUP):
        if signal.getsignal(number) != signal.SIG_IGN:
            signal.signal(number, handler)


def reason(error):
    """Returns what an error says; a signal says that it interrupted."""
    if isinstance(error, OSError) and error.filename:
        return f"{error.filename}: {error.strerror}"
    return str(error) or "interrupted"


def part_of(every, part):
    """Returns the part K/N of a list."""
    number, parts = part
    return every[len(every) * (number - 1) // parts : len(every) * number // parts]


def report(findings, fine):
    """Prints each finding, or what is fine if there is none. Returns the exit status."""
    print("\n".join(findings) if findings else fine, flush=True)
    return 1 if findings else 0
