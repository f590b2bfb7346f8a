"""Prints the manual page of the C calls: the comments and declarations of a header, and the program of README.md.

    manual.py byte_unit.h
"""

import re
import sys
import textwrap
from pathlib import Path

HERE = Path(__file__).resolve().parent
PAGE = r""".TH BYTE_UNIT 3 "{date}" "byte_unit {version}"
.SH NAME
{names} \- parse and format sizes in bytes and in bits, exactly
.SH SYNOPSIS
.B #include <byte_unit.h>
.SH DESCRIPTION
{described}.SH EXAMPLES
{program}.PP
cc program.c $(pkg-config \-\-cflags \-\-libs byte_unit)"""


def literal(code):
    """Returns lines of code as they are, with four spaces before those that go on."""
    code = re.sub(r"^(\w.*[,(])\n +", r"\1\n    ", code, flags=re.M)
    return ".nf\n" + code.replace("\\", "\\e") + "\n.fi\n"


def prose(comment):
    """Returns the paragraphs and the items of a comment, with the names of calls in bold."""
    parts = re.split(r"\n\n|\n(?=- )", re.sub(r"^ ?\* ?", "", comment[2:-2], flags=re.M).strip())
    text = "".join(f".PP\n{textwrap.fill(' '.join(part.split()), 66)}\n" for part in parts).replace("\\", "\\e")
    return re.sub(r"^(?!\.PP$)(?=[.'])", r"\\&", re.sub(r"byte_unit_[a-z]\w*", r"\\fB\g<0>\\fR", text), flags=re.M)


def described(header):
    """Yields the comments of the header, each after what it describes: the declarations that callers use."""
    for part in header.split("\n\n"):
        comment, code = re.fullmatch(r"(/\*.*?\*/)?\n?(.*)", part.strip(), re.S).groups()
        code = re.sub(r"static inline ([^{]*?)\n\{.*?\n\}", r"\1;", code, flags=re.S)
        if "_to(" in code:
            continue
        if code and not re.search(r"^#(?!define BYTE_UNIT_\w+ )|^\}$", code, re.M):
            yield ".PP\n" + literal(code)
        yield prose(comment) if comment else ""


header, readme = Path(sys.argv[1]).read_text(encoding="utf-8"), (HERE / "README.md").read_text(encoding="utf-8")
print(PAGE.format(
    names=",\n".join(dict.fromkeys(re.findall(r"^(?:static inline )?\w+ (byte_unit_\w+)(?<!_to)\(", header, re.M))),
    version=re.search(r'VERSION_STRING "(.*)"', header)[1],
    date=re.search(r"^## \[.*\] - (.*)$", (HERE / "../../CHANGELOG.md").read_text(encoding="utf-8"), re.M)[1],
    described="".join(described(header)).removeprefix(".PP\n"),
    program=literal(re.search(r"```c\n(.*?)\n```", readme, re.S)[1])))  # fmt: skip
