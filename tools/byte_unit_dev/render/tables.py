"""What follows from the table of prefixes and the lists of expected characters: in the bindings the codes of units in
C's header and the letters for JavaScript; in crates the positions of prefix letters by their byte, and for C the bytes
of the characters."""

import re
from itertools import zip_longest

from ..source import line_of, source
from .pages import with_parts

TABLES, SCAN = "crates/byte_unit_base/src/unit/tables.rt", "crates/byte_unit_base/src/stop.rt"
HEADER, JAVASCRIPT = "bindings/c/byte_unit.h", "bindings/js/options.js"
ERROR = "crates/byte_unit_c/src/error.rt"


def prefixes():
    """Returns the letter of each prefix, and its units in the order of their codes."""
    rows = re.findall(r"'(\w)' ((?:\w+ ){4})\d", source(TABLES).part("macro_rules! with_prefixes"))
    return {letter: units.split() for letter, units in rows}


def expected():
    """Returns the lists of expected characters, in the order of the variants."""
    body = source(SCAN).part("body fn Expected::characters").replace("&BEGINNING", str(["B", *prefixes()]))
    return [re.findall(r"'(\w)'", row) for row in re.findall(r"\[[^\]]+\]", line_of(body))]


def bindings():
    rows = [["Bit", "B"], *prefixes().values()]
    codes = ",\n".join("    " + ", ".join(f"BYTE_UNIT_{unit.upper()}" for unit in row) for row in rows)
    yield HEADER, with_parts(HEADER, (r"The codes of the units\. \*/\nenum \{\n", r"\n\};", codes))
    letters = "".join(prefixes())
    yield JAVASCRIPT, with_parts(JAVASCRIPT, (r'^const PREFIXES = \[\.\.\."', r'"\];', letters))


def row(characters):
    """Returns the 16 bytes of the characters of an error."""
    return f'    *b"{"".join(characters):\0<16}",'.replace("\0", r"\0") if characters else "    [0; 16],"


def tables():
    names = re.findall(r"Expected::(\w+) =>", source(SCAN).part("body fn Expected::characters"))
    lists = dict(zip_longest(names, expected(), fillvalue=[]))
    rows = "\n".join(map(row, lists.values()))
    # The position of the prefix of each byte's letter, or 0, 32 in a line.
    places = ["".join(prefixes()).find(chr(byte).upper()) + 1 for byte in range(256)]
    powers = "\n".join(f"    {', '.join(map(str, places[at : at + 32]))}," for at in range(0, 256, 32))
    yield TABLES, with_parts(TABLES, (r"LETTER_POWERS: \[u8; 256\] = \[\n", r"\n\];", powers))
    yield ERROR, with_parts(ERROR, (r"EXPECTED_BYTES: .*? = \[\n", r"\n\];", rows))
