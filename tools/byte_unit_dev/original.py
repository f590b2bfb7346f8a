"""Compares the library with the Rust crate byte-unit 5.2.6, and explains differences by rules of docs/DIFFERENCES.md.

FOLDER has the sources of the crate: `src/lib.rs` and so on, or files whose names have `--` in place of `/` and end in
`.txt`, as `src--lib.rs.txt`. They are built offline, over crates that `tools/dev setup --compared` installs. The crate
and the Rust package, whose code is rendered from the library's, take random requests: texts and spellings of units to
parse, sizes to format, numbers of units. Prints how many differences each rule explains, with an example: the call, the
crate; the library.

A rule compares both results alone; that the library's are exact, other tests show. The status is 1 if none explains a
difference, if docs/DIFFERENCES.md lacks the words of a rule, or if README.md says something else of the crate in its
table.
"""

import random
import re
import tempfile
from fractions import Fraction

from . import builds
from .common import output, read, report
from .model.exact import BITS, UNITS, some_line, some_unit
from .pages import beside

PROGRAM, ADJUSTED = "bindings/rust/checks/compare.rs", "adjusted sizes"
# The request whose result WRITTEN_AT is a size of bytes with its unit, as `{:#}` prints it.
WRITTEN, WRITTEN_AT = "n {} 3 B :# 0 -", 7
# What is different, and words of the row of docs/DIFFERENCES.md that says so.
RULES = {
    "digits": ("a size off by one, from digits beyond 96 bits", "so a size can be off by one byte in either direction"),
    "whole": ("a number of more than 96 bits, rejected by the crate", "a number of at most 96 bits"),
    "limit": ("a size of 10^27 or more", "sizes below 10^27"),
    "letter": ("the letter `R`, and its units", "34 units, up to `YiB`"),
    "message": ("the number in the message of `ExceededBounds`", "the message of `ExceededBounds` shows the number"),
    "quotient": ("the unit or its number, from the rounded quotient", "tests on a rounded quotient whether a unit"),
    "zeros": ("trailing zeros of a decimal alone", "keeps trailing zeros"),
    "float": ("an adjusted text: the shortest digits of the float", "has the shortest digits of the float"),
    "rounded": ("an adjusted text: a rounded float", "adjusted texts are rounded as floats"),
}
# The limits of the crate: of the digits of its decimals, and of its sizes. And the limits about which sizes are drawn.
OF_DECIMAL, OF_SIZES = 2**96, 10**27
LIMITS = [OF_DECIMAL, 2**112, OF_SIZES, 10**28, 10**30, 2**64, 8 * OF_SIZES, 2**93]
# Numbers of digits after the point, up to that of the limit, 28, and past it.
PRECISIONS = [0, 1, 2, 3, 3, 3, 4, 6, 9, 12, 15, 16, 20, 25, 26, 27, 28, 29, 300]
# What the crate and the library expect last in place of a prefix, and the message about a size that is too large.
LAST_LETTERS = ("'Z' or 'Y' or no character", "'Z', 'Y' or 'R' or no character")
TOO_LARGE = re.compile(r"! the value \S+ exceeds the valid range")
# A float is as near as this to what it is for.
FLOAT = Fraction(1, 2**50)


def some_text(rng):
    """Returns a text to parse: a random line, or of any unit a size of many digits that is about one of LIMITS."""
    if rng.random() < 0.5:
        return some_line(rng).decode(errors="replace")
    unit, places = rng.choice(UNITS), rng.randrange(29)
    size = rng.choice([*LIMITS, rng.randrange(10 ** rng.randrange(1, 31))]) + rng.choice([0, 1, rng.randrange(10**6)])
    whole, fraction = divmod(size * 10**places // rng.choice([1, BITS[unit], max(BITS[unit] // 8, 1)]), 10**places)
    return f"{whole}.{fraction:0{places}}{unit}" if places else f"{whole} {unit}"


def some_unit_text(rng):
    """Returns a spelling of a unit, or a text like one."""
    text = "".join(rng.choices("KMGTPEZYRkmgtpezyriIbBitsTS xé", k=rng.randrange(6)))
    return text if rng.random() < 0.3 else some_unit(rng, ["", "B", "b", "bit", "bits", "Bits", "bi", "bitsx", "s"])


def some_size(rng):
    """Returns a size below 10^30, mostly below 10^27: any, in few digits of a unit, or near one or a limit."""
    unit, digits = rng.choice(list(BITS.values())), rng.randrange(10 ** rng.randrange(1, 31))
    few, near = digits % 10**12 * unit // (8 * 10 ** rng.randrange(6)), rng.choice([*LIMITS, unit // 8])
    return rng.choice([digits, few, near + rng.randrange(-2, 3)]) % rng.choice([*[OF_SIZES] * 9, 10**30])


def requests(rng, count):
    """Yields requests, in the form of compare.rs, half of them texts."""
    for _ in range(count):
        choice = rng.random()
        if choice < 0.5:
            yield f"t {some_text(rng).encode().hex()}"
        elif choice < 0.6:
            yield f"u {some_unit_text(rng).encode().hex()}"
        elif choice < 0.9:
            flags = "".join(rng.choice(each) for each in (["", "<", "^", ">"], ["", "", "+", "-"], ["", "#"]))
            spec = f":{flags} {rng.choice([0, 0, rng.randrange(1, 45)])} {rng.choice(['-', rng.choice(PRECISIONS)])}"
            yield f"n {some_size(rng)} {rng.choice(PRECISIONS)} {rng.choice(UNITS)} {spec}"
        else:
            yield f"f {some_size(rng) // rng.choice([1, 10**6, 10**12, 10**24])} {rng.choice(UNITS)}"


def calls_of(words):
    """Returns what each result of a request is of."""
    if words[0] != "n":
        return {"t": ["texts"] * 3, "u": ["units"] * 4, "f": ["sizes of a number of units"] * 2}[words[0]]
    return (["exact and recoverable units"] * 4 + ["appropriate units"] * 3 + ["formatted sizes", ADJUSTED]) * 2


def rule_of(what, words, theirs, ours):
    """Returns the rule by which two results of a request differ, or None if no rule says so."""
    if theirs[0] == "!" or ours[0] == "!":
        if theirs == "! value number is too long":
            return "whole"
        if TOO_LARGE.fullmatch(theirs):
            return "message" if TOO_LARGE.fullmatch(ours) else "limit" if int(ours) >= OF_SIZES else None
        return "letter" if theirs.replace(*LAST_LETTERS) == ours or re.search("character '[Rr]'", theirs) else None
    if theirs == "-":
        size = int(words[1] if words[0] == "n" else ours)
        return "limit" if size >= OF_SIZES else "letter" if re.search(r"\bR", " ".join(words[2:4])) else None
    form = re.compile(r" *([0-9.]*) *([A-Za-z]*) *")
    (number, unit), (exact, best) = (form.fullmatch(text).groups() for text in (theirs, ours))
    off = abs(Fraction(number or 0) - Fraction(exact or 0))
    if what == "texts":
        return "digits" if off == 1 else None
    if what == ADJUSTED:
        # The alternate form has at most 16 places: see docs/DIFFERENCES.md.
        places = min(int(words[6]), 16 if "#" in words[4] else 300) if words[6] != "-" else None
        near = Fraction(exact) * FLOAT + (Fraction(1, 10**places) if places is not None else 0)
        return None if off > near else "float" if places is None else "rounded"
    if unit == best:
        return "quotient" if off else "zeros"
    return "letter" if best[0] == "R" else "quotient"


def compared(lines, original, ours):
    """Returns the number of results and the shortest example, by what was compared and the rule; and what is wrong."""
    found, findings = {}, []
    for line, theirs, mine in zip(lines, original, ours, strict=True):
        words = line.split()
        for what, one, other in zip(calls_of(words), theirs, mine, strict=True):
            example, rule = f"{line}: {one}; {other}", one != other and rule_of(what, words, one, other)
            if rule is None:
                findings.append(f"{what}: {example!r}: no rule explains the difference")
            count, shortest = found.get((what, rule), (0, example))
            found[what, rule] = count + 1, min(shortest, example, key=len)
    return found, findings


def column(original):
    """Returns what is wrong in the column of README.md that says what the crate reads and writes."""
    def answered(request, at):
        return output(original, input=f"{request}\n", stderr=None).rstrip("\n").split("\t")[at]

    def reads(text):
        found = re.fullmatch(r"(\d+)(?: .*)?", answered(f"t {text.encode().hex()}", 0))
        return found and int(found[1])

    program = beside.Program(reads, lambda size: answered(WRITTEN.format(size), WRITTEN_AT))
    return [f"README.md: {cell!r} is {found!r}" for cell, found in beside.column(program, 3)]


def run(folder, *, count=300_000, seed=1):
    with tempfile.TemporaryDirectory() as work:
        lines = list(requests(random.Random(seed), count))
        crates = [builds.original(folder, work), builds.copied("rust", work)]
        programs = [builds.program(PROGRAM, crate) for crate in crates]
        printed = [output(program, input="\n".join([*lines, ""]), stderr=None) for program in programs]
        findings = column(programs[0])
    found, more = compared(lines, *([line.split("\t") for line in text.split("\n")[:-1]] for text in printed))
    print("What was compared | What differs | Results | An example\n---|---|---|---")
    for (what, rule), (number, example) in sorted(found.items(), key=str):
        shown = f"{RULES[rule][0]} | {number:,} | {ascii(example)[1:-1]}" if rule else f"nothing | {number:,}"
        print(f"{what} | {shown}")
    total = sum(number for number, _ in found.values())
    different = total - sum(number for (_, rule), (number, _) in found.items() if rule is False)
    print(f"\n{total:,} results of seed {seed}, of which {different:,} differ")
    page = read("docs/DIFFERENCES.md")
    findings += [f"docs/DIFFERENCES.md does not say: {words}" for _, words in RULES.values() if words not in page]
    return report([*findings, *more][:40], "a rule explains each difference")
