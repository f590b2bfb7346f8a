"""The commands in the pages: runs them, and compares what they print with the page."""

import os
import re
import subprocess
import tempfile

from ..common import call, copy_to, output, path, read, write
from ..rows import FILE, rows
from .text import blocks

README, GUIDE, COMMAND = "README.md", "docs/GUIDE.md", "command/README.md"
# The languages of the blocks of README.md, which `readme` takes in this order.
KINDS = ["text", "sh", "text", "sh", "sh", "rust", "sh", "text", "rust"]
COMMAND_PROGRAM = "crates/byte_unit_cli/out/byte_unit_cli"
EXAMPLE = "crates/example_first"
# The calls in the table of sizes of programs, as the test vectors have them.
READ_BY = {"Byte::parse_str": 'parse byte uncased "{}"', "Byte::parse_str_binary": 'parse_binary byte uncased "{}"',
           "Byte::from_u64_with_unit": "make_in byte {} KiB", "Bit::parse_str": 'parse bit cased "{}"'}  # fmt: skip


def shell(command, folder, words=("bash", "-euo", "pipefail", "-c"), env=None):
    """Runs a block of commands in a folder, by a shell, and returns its status and output."""
    return call(*words, command, cwd=folder, env=env, stdin=subprocess.DEVNULL, stderr=subprocess.PIPE)


def differs(page, command, wanted, folder, **more):
    """Returns, in a list, how a block of commands fails or prints something else, but for the lines of `rt try`."""
    got = shell(command.text, folder, **more)
    printed = re.sub(r"^(?:checked:|run=).*\n", "", got.stdout, flags=re.M)
    if wanted.language == "text" and got.returncode == 0 and printed == wanted.text:
        return []
    return [f"{page}:{command.line}: status {got.returncode}, and it prints\n{got.stdout}{got.stderr}"]


def promise(page):
    """Returns the words of the quoted lines from the first mention of the promise to the next heading."""
    text = read(page)
    section = text[text.lower().find("promise"):].split("\n#")[0]
    return " ".join(line[2:] for line in section.splitlines() if line.startswith("> ")).split()


def first_program(take, program, start, printed, folder):
    """Takes the library as the page says, and runs the first program. Returns what is wrong."""
    here, there, where = os.path.join(folder, "here"), os.path.join(folder, "sizes"), f"{README}:{take.line}"
    made = shell(take.text, here)
    if made.returncode:
        return [f"{where}: status {made.returncode}\n{made.stdout}{made.stderr}"]
    write(os.path.join(there, "crates/quota/src/main.rt"), program.text)
    wrong = differs(README, start, printed, there)
    given = shell(start.text[start.text.index("printf"):start.text.index("|")], there).stdout
    for name, text in {"src/main.rt": program.text, "stdin": given, "stdout": printed.text}.items():
        if read(f"{EXAMPLE}/{name}") != text:
            wrong.append(f"{README}:{program.line}: the first program differs from {EXAMPLE}/{name}")
    uses = re.search(r"'quota(: [^']*)'", take.text)
    if not uses or f"example_first{uses[1]}\n" not in read("crates.txt"):
        wrong.append(f"{where}: example_first uses other crates")
    return wrong


def readme():
    page = read(README)
    found = blocks(page)
    kinds = [block.language for block in found]
    if kinds != KINDS:
        return [f"{README}: its blocks are {' '.join(kinds)}, not {' '.join(KINDS)}"], ""
    _, program, printed, gate, take, first, start, first_printed, literal = found
    wrong, logic = [], re.search(r" logic (\w+)\n", output("rt", "version"))[1]
    if not re.search(rf"`rt version` prints `\S+ logic {logic}`", page):  # the letter of the kit may be another
        wrong.append(f"{README}: the logic of rt version is {logic}")
    if not promise(README) or promise(README) != promise("docs/PROVED.md"):
        wrong.append(f"{README}: the promise is not that of docs/PROVED.md")
    wrong += [f"{README}:{literal.line}: {GUIDE} has no such block"] * (literal.text not in read(GUIDE))
    if gate.text != "rt ci\n":  # the gate runs it; all other commands are run here
        wrong.append(f"{README}:{gate.line}: a command that is not run here")
    with tempfile.TemporaryDirectory() as folder:
        # A copy of what the commands read, so that this repository is not changed.
        copy_to(os.path.join(folder, "here"), "crates", "tools", "crates.txt", "LICENSE", "HANDLES", "VERSION")
        wrong += differs(README, program, printed, os.path.join(folder, "here"))
        wrong += first_program(take, first, start, first_printed, folder)
    # The table of installations has each command with the path of the clone.
    for where, command in re.findall(r"^\| \[.*?\]\((.*?)\) \| `(.*?)` \|", page, re.M):
        there = re.sub(r"CLONE/|(?<= )\.\.?/(?:byte-unit-in-rattle/)?", "", read(where))
        wrong += [f"{README}: {where} has no command {command!r}"] * (command.replace("CLONE/", "") not in there)
    return wrong, "the commands print what is below them, but for rt ci, which is not run"


def guide():
    page, wrong = read(GUIDE), []
    programs = {name for name in os.listdir(path("crates")) if name.startswith("example_")}
    listed = re.findall(r"^\| `(example_\w+)` \|", page, re.M)
    if sorted(listed) != sorted(programs):
        wrong.append(f"{GUIDE}: the table of programs lists {listed}, the crates are {sorted(programs)}")
    formats = re.findall(r"^`(\{\S*\})` \| .* \| `([^`]+)` \| `([^`]+)`$", page, re.M)
    said = [(f"text byte 15500 {unit}{spec}", f'"{text}"') for spec, text, in_kib in formats
            for unit, text in [("", text), ("in KiB ", in_kib)]]  # fmt: skip
    sizes = re.findall(r"^.* \| `(.+)` \| ([\d,]+) \| `([\w:]+)`$", re.sub(r"\[(.*?)\]\(.*?\)", r"\1", page), re.M)
    said += [(READ_BY.get(name, name).format(size), number.replace(",", "")) for size, number, name in sizes]
    answers = {row.call: row.answer for row in rows()}
    wrong += [f"{GUIDE}: no row of {FILE} says {asked} = {answer}"
              for asked, answer in said if answers.get(asked) != answer]  # fmt: skip
    if not formats or not sizes:
        wrong.append(f"{GUIDE}: it has no table of format strings, or none of sizes of programs")
    return wrong, f"{len(listed)} programs, {len(formats)} format strings and {len(sizes)} sizes are as in the tree"


def command():
    found, error = blocks(read(COMMAND)), blocks(read(README))[0]
    if not os.path.exists(path(COMMAND_PROGRAM)):
        print(f"skipped: commands of {COMMAND}: {COMMAND_PROGRAM} is not built", flush=True)
        return [], "nothing was run"
    said = call(path(COMMAND_PROGRAM), *re.findall("'(.*?)'", error.text)[:1], stderr=subprocess.STDOUT).stdout
    wrong = [f"{README}:{error.line}: the error is\n{said}"] * (said != error.text)
    with tempfile.TemporaryDirectory() as folder:
        os.symlink(path(COMMAND_PROGRAM), os.path.join(folder, "byte-unit"))
        env = {**os.environ, "PATH": folder + os.pathsep + os.environ["PATH"], "LC_ALL": "C"}
        calls = [pair for pair in zip(found, [*found[1:], found[-1]]) if pair[0].language == "sh"]
        for called, wanted in calls:
            wrong += differs(COMMAND, called, wanted, folder, words=["sh", "-c"], env=env)
    return wrong, f"{len(calls)} commands print what is below them"
