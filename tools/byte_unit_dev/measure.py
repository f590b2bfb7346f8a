"""Measures calls and programs beside others; with --write in the tables of docs/SPEED.md.

    calls       a call from C, over Rattle's archive, and from Rust, by a buffer or `write!`, beside the crate and numfmt
    lines       a line of byte_unit_lines, by Rattle and by cargo, beside an earlier build, the crate and numfmt
    command     a line of byte-unit, by Rattle and by cargo, beside numfmt
    javascript  a call from JavaScript, of the module in the tree, beside Debian's node-bytes and node-filesize, in
                nanoseconds alone

A cell has nanoseconds and, in parentheses, instructions as valgrind counts them: for each call or line, without those
of a run over none. The time is user time, the minimum of the rounds, in which the programs take turns on one processor.
For `calls` the library is proved and built first, with --after-ci over what `rt ci` has built. --original names a
folder with the sources of the crate; --before an earlier byte_unit_lines. `tools/dev setup --compared` installs what
they need.
"""

import datetime
import os
import random
import re
import resource
import subprocess
import tempfile
from types import SimpleNamespace

from . import builds
from .common import Failure, call, output, path, read
from .common import write as write_file
from .render.pages import with_parts

PAGE, NUMFMT = "docs/SPEED.md", "numfmt"
ONE_PROCESSOR = ["taskset", "--cpu-list", str(max(os.sched_getaffinity(0)))]
# The calls and lines that are timed, and those that valgrind counts, few since it is slow.
TIMED, COUNTED = 1_000_000, 20_000
# What a unit may begin with, all units, and the prefixes up to T: `numfmt` prints only numbers below 10^18.
MULTIPLES = ["", *(letter + infix for letter in "KMGTPEZY" for infix in ("", "i"))]
UNITS = [multiple + own for multiple in MULTIPLES for own in ("B", "bit")]
LETTERS = MULTIPLES[: MULTIPLES.index("P")]
# The ends of a line that is rejected after its number, and lines that have no number.
ENDS = [" byte", "byte", " kilobyte", " Kx", "GC", "T;", "Kix", "Mi/", " KB/s", " bi", " bitz", "bit.", " bits/s",
        " KB # note", "\tKB", " \u00b5B", " K\u0456B"]  # fmt: skip
NONE = ["", "", "x", "-1", "+1", ".5", "# note", "size: 5", "KB", "1,000", "1_000", "1e3 KB"]
# The calls, in the words of `speed`.
CALLS = [*(("parse", text) for text in ("12", "1.5 KiB", "1.123456789012 KiB", "1.1234567890123456789012345678 KiB",
                                        "1 byte")), ("explain", "1 byte"), ("unit", "1536"),
         *((call, "123456789") for call in ("digits", "unit", "places", "in-KiB", "in-KiB-two"))]  # fmt: skip


def digits(rng, least, most=0):
    """Returns a number of `least` to `most` digits, or of `least`, that does not begin with 0."""
    return rng.choice("123456789") + "".join(rng.choices("0123456789", k=rng.randint(least, most or least) - 1))


def number(rng, most_whole, most_all):
    """Returns a number with at most `most_all` digits, in half of the cases with a decimal point."""
    text = digits(rng, 1, most_all)
    whole = rng.randint(1, min(len(text), most_whole))
    return text[:whole] + ("." + text[whole:] if len(text) > whole and rng.random() < 0.5 else "")


def long(rng):
    """Returns a line with up to 20 digits before the point and 28 after it; one in ten is rejected."""
    text = f"{digits(rng, 1, 20)}.{digits(rng, 1, 28)}"
    return text + rng.choice([" x", "1e3", ".", ""]) + " KiBB" if rng.random() < 0.1 else f"{text} {rng.choice(UNITS)}"


def short(rng):
    """Returns a line with a number of at most six digits, three of them before the point, and a unit of a letter."""
    return number(rng, 3, 6) + rng.choice(LETTERS)


def rejected(rng):
    """Returns a line with an error: in its number, in its length, at its point, in its size or, mostly, unit."""
    return rng.choice([
        rng.choice(NONE), digits(rng, 35, 40) + rng.choice(["", " KB"]), f"{digits(rng, 3)}.{digits(rng, 29, 33)} MB",
        digits(rng, 1, 5) + "." + rng.choice(["", " KB", "x", ".5"]), digits(rng, 13, 20) + " RB",
        *[number(rng, 6, 9) + rng.choice(ENDS)] * 6,
    ])


def fields(rng):
    """Returns a line of four short sizes with commas between them."""
    return ",".join(short(rng) for _ in range(4))


FIELD, FIELDS = ["-d,", "--field=2"], ["-d,", "--field=-"]
# The rows of the programs: the words of the program, those of `numfmt` if it does about the same, and who makes a line.
ROWS = {"lines": [
    ("`1.5 KiB`", [], None, lambda rng: "1.5 KiB"),
    ("mix", [], None, lambda rng: f"{number(rng, 15, 15)} {rng.choice(UNITS)}"),
    ("long numbers", [], None, long),
    ("longest numbers", [], None, lambda rng: f"{digits(rng, 10, 20)}.{digits(rng, 28)} {rng.choice(UNITS)}"),
    ("`1.5Ki`", [], [], lambda rng: "1.5Ki"),
    ("mix in prefixes", [], [], lambda rng: number(rng, 3, 15) + rng.choice(LETTERS)),
    ("rejected lines", [], None, rejected),
], "command": [
    ("lines to digits", ["--to=plain"], [], short),
    ("field 2 of 4 to digits", ["--to=plain", *FIELD], FIELD, fields),
    ("all of 4 fields to digits", ["--to=plain", *FIELDS], FIELDS, fields),
    ("lines to the largest exact unit (`numfmt`: rounded)", [], ["--to=iec-i"], short),
    ("field 2, the same", FIELD, ["--to=iec-i", *FIELD], fields),
    ("lines to a binary unit, one digit after the point", ["--to=iec", "-p", "1"], ["--to=iec-i"], short),
    ("lines to MiB, two digits after the point", ["--to=MiB", "-p", "2"], None, short),
    ("lines to MiB, all digits", ["--to=MiB"], None, short),
    ("lines to the appropriate unit, all digits", ["--to=auto"], None, short),
]}


def write_lines(folder, line, seed):
    """Writes files with the lines that are timed, with those that are counted, and with none, named by their number.

    At most 100,000 lines are distinct."""
    for count in (TIMED, COUNTED, 0):
        rng = random.Random(seed)
        pool = [line(rng) for _ in range(min(count, 100_000))]
        text = "".join(f"{one}\n" for one in pool) * (count // max(len(pool), 1))
        write_file(f"{folder}/{count}", text)


def caller(*words):
    """Returns what runs a program that makes a call as often as its last word says."""
    return lambda by, count: by([*words, str(count)], subprocess.DEVNULL)


def reader(folder, *words):
    """Returns what runs a program over the number of lines."""
    def run(by, count):
        with open(f"{folder}/{count}", "rb") as lines:
            return by(words, lines)

    return run


def nanoseconds(words, lines):
    """Returns the user time of a program with this input."""
    before = resource.getrusage(resource.RUSAGE_CHILDREN).ru_utime
    output(*ONE_PROCESSOR, *words, stdin=lines, stdout=subprocess.DEVNULL)
    return (resource.getrusage(resource.RUSAGE_CHILDREN).ru_utime - before) * 1e9


def instructions(words, lines):
    """Returns the number of instructions of a program with this input."""
    words = ["valgrind", "--tool=callgrind", "--callgrind-out-file=/dev/null", *words]
    said = call(*words, stdin=lines, stdout=subprocess.DEVNULL, stderr=subprocess.PIPE).stderr
    found = re.search(r"Collected : (\d+)", said)
    if not found:
        raise Failure(f"{' '.join(words)}\n{said}")
    return int(found[1])


def cells(programs, rounds):
    """Returns the cell of each program; that of None is empty."""
    def each(run, by, count):
        return run and (run(by, count) - run(by, 0)) / count

    turns = [[each(run, nanoseconds, TIMED) for run in programs] for _ in range(rounds)]
    counts = [each(run, instructions, COUNTED) for run in programs]
    return [f"{min(times):,.0f} ({count:,.0f})" if count else "" for *times, count in zip(*turns, counts)]


def calls(_, given, work):
    by_c, source = f"{work}/speed", "bindings/rust/checks/speed.rs"
    output(path("tools/make-libraries"), *["--after-ci"] * given.after_ci, work)
    output("cc", "-O2", "-I", work, path("bindings/c/checks/speed.c"), f"{work}/libbyte_unit.a", "-o", by_c)
    ours = builds.program(source, builds.copied("rust", work))
    columns = {"C": [by_c], "Rust": [ours, "buffer"], "Rust, `write!`": [ours, "formatter"]}
    if given.original:
        columns["Original"] = [builds.program(source, builds.original(given.original, work)), "formatter"]
    yield ["A call", *columns, "`numfmt`"]
    for name, word in CALLS:
        write_lines(work, lambda rng: word.replace(" ", "").removesuffix("B") if name == "parse" else word, given.seed)
        none = {"parse": "Rust, `write!`", "explain": "Rust"}.get(name)  # no text, and no call with a buffer
        option = {"parse": "--from=auto", "unit": "--to=iec-i"}.get(name)
        yield f"{name} {word}", [*(head != none and caller(*words, name, word) for head, words in columns.items()),
                                 option and reader(work, NUMFMT, "--invalid=ignore", option)]  # fmt: skip


def lines(what, given, work):
    crate, program = {"lines": ["byte_unit_lines"] * 2, "command": ["byte_unit_cli", "byte-unit"]}[what]
    columns = {"Rattle": path("crates", crate, "out", crate), "cargo": f"{builds.programs(work)}/{program}"}
    if what == "lines" and given.before:
        columns["Before"] = given.before
    if what == "lines" and given.original:
        columns["Original"] = builds.program("bindings/rust/checks/lines.rs", builds.original(given.original, work))
    yield [f"A line of `{program}`", *columns, "`numfmt`"]
    for title, words, of_numfmt, line in ROWS[what]:
        write_lines(work, line, given.seed)
        yield title, [*(reader(work, program, *words) for program in columns.values()),
                      of_numfmt is not None and reader(work, NUMFMT, "--from=auto", *of_numfmt)]  # fmt: skip


def javascript(_, given, __):
    said = output(*ONE_PROCESSOR, "node", path("bindings/js/checks/speed.js"), str(given.rounds))
    yield ["A call from JavaScript", "Here", "bytes", "filesize", "the engine"]
    for title, *times in (line.split("|") for line in said.splitlines()):
        yield title, times


WHATS = {"calls": calls, "lines": lines, "command": lines, "javascript": javascript}


def table(what, given):
    """Measures one of WHATS, and prints and returns its table in Markdown, without spaces, which would be words."""
    with tempfile.TemporaryDirectory() as work:
        made = WHATS[what](what, given, work)
        head = next(made)
        text = f"{'|'.join(head)}\n{'|'.join(['---'] * len(head))}"
        print(f"\n{text}", flush=True)
        # The files of a row are there until the next one is asked for.
        for title, programs in made:
            times = programs if what == "javascript" else cells(programs, given.rounds)
            line = "|".join([title, *times]).rstrip("|")
            print(line, flush=True)
            text += f"\n{line}"
    return text


def run(*what: WHATS, write=False, after_ci=False, rounds=5, seed=1, before="", original=""):
    given = SimpleNamespace(after_ci=after_ci, rounds=rounds, seed=seed, before=before, original=original)
    commit = output("git", "log", "-1", "--format=%h", "--", "crates", "bindings", cwd=path()).strip()
    model = re.search(r"^model name\s*: (.*)$|\Z", read("/proc/cpuinfo"), re.M)[1] or "unknown"
    head = f"Measured on {datetime.date.today()} on {os.cpu_count()} processors ({model}), of commit {commit}; minimum "
    head += f"of {rounds} round{'s' * (rounds > 1)}."
    print(head)
    tables = {name: table(name, given) for name in what or WHATS}
    if write:
        parts = {"measured": head, **tables}.items()
        places = ((f"<!-- {name} -->\n", "<!-- end -->", f"\n{text}\n\n") for name, text in parts)
        write_file(PAGE, with_parts(PAGE, *places))
