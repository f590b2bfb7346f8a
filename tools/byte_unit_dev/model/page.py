"""What the page "How a size is read" shows for a text, by the exact model."""

import math
import re
from urllib.parse import quote

from .answers import in_unit, located, position, text_of
from .exact import BITS, SCALE, UNITS, WHITE_SPACE, Rejected, read, size_of
from .words import hint

NARROW_SPACE, END = "\u202f", "␣"
# The readings by their keys in the address: the name, the kind of the size, and whether the case is ignored and whether
# prefixes are by 1024.
READINGS = {"bytes": ("bytes", "byte", False, False), "case": ("bytes, case ignored", "byte", True, False),
            "binary": ("bytes, binary, case ignored", "byte", True, True), "bits": ("bits", "bit", False, False)}  # fmt: skip


def grouped(number):
    """Returns the digits in groups of three from the point on."""
    whole, point, fraction = number.partition(".")
    return f"{int(whole):,}".replace(",", NARROW_SPACE) + point + re.sub("...(?=.)", rf"\g<0>{NARROW_SPACE}", fraction)


def sized(text):
    """Returns a text of a size, which is between quotes, with its number in groups."""
    number, unit = text.strip('"').split(" ")
    return f"{grouped(number)} {unit}"


def counted(size, kind):
    return f"{grouped(str(size))} {kind}{'s' * (size != 1)}"


def reason(text, reading):
    """Returns the sentences that say how the number and the unit of a text become its size."""
    _, kind, ignore_case, binary = READINGS[reading]
    trimmed = text.strip(WHITE_SPACE)
    unit = read(trimmed, kind, ignore_case)[1]
    unit = f"{unit[0]}i{unit[1]}" if binary and len(unit) == 2 else unit
    number, spelling = re.fullmatch(r"0*([0-9][0-9.]*) *(.*)", trimmed).groups()
    of, by = ("bit", " ÷ 8" * (kind == "byte")) if unit[-1] == "b" else ("byte", " × 8" * (kind == "bit"))
    named = unit if spelling in ("", unit) else f"{spelling} is {unit}"
    small = " A small b is a bit." * (spelling[-1:] == "b" and by == " ÷ 8")
    return f"{named}: {grouped(number)} × {counted(BITS[unit] // SCALE[of], of)}{by}.{small} A fraction is rounded up."


def of_error(text, size):
    """Returns the answer to a text that is no size, and what is marked in it."""
    message, found = located(text.encode(), size), hint(text.strip(WHITE_SPACE))
    said = [f"Not a size: {message[0].upper()}{message[1:]}.", *[f"Hint: {found}."] * bool(found)]
    if size.name == "out of range":
        return [text, *said], None
    place = len(text.encode()[: int(position("byte", text))].decode())
    is_end = place == len(text)
    return [text + END * is_end, *said], END if is_end else text[place]


def row_of_reading(text, reading, chosen):
    name, kind, *how = READINGS[reading]
    size = size_of(text.encode(), kind, *how)
    cells = [located(text.encode(), size)] if isinstance(size, Rejected) else [
        counted(size, kind), sized(text_of(kind, size, "{:#}"))]  # fmt: skip
    return ["chosen" * (reading == chosen), name, *cells]


def tables_of_units(size, kind, exact):
    """Returns the title and the rows of each table of units."""
    for title, units in (("Bytes by 1000", "B KB MB GB TB PB EB ZB YB RB"),
                         ("Bytes by 1024", "KiB MiB GiB TiB PiB EiB ZiB YiB RiB"),
                         ("Bits by 1000", "b Kb Mb Gb Tb Pb Eb Zb Yb Rb"),
                         ("Bits by 1024", "Kib Mib Gib Tib Pib Eib Zib Yib Rib")):  # fmt: skip
        rows = []
        for unit in units.split():
            whole, point, fraction = sized(in_unit(kind, size, unit, "{}")).split(" ")[0].partition(".")
            rows.append(["exact" * (unit == exact), unit, whole, point + fraction])
        yield [title, rows]


def shown(text, reading, address):
    """Returns what the page shows and copies, and of a size its bits, which have a place on the axis."""
    _, kind, *how = READINGS[reading]
    size, link = size_of(text.encode(), kind, *how), f"{address}#{reading}={quote(text, safe=chr(39) + '!*()')}"
    rules = [row_of_reading(text, other, reading) for other in READINGS]
    if isinstance(size, Rejected):
        answer, mark = of_error(text, size)
        return {"answer": answer, "mark": mark, "copied": [link], "invalid": "true", "rules": rules}
    exact = text_of(kind, size, "{:#}").strip('"')
    binary, decimal = (text_of(kind, size, "by", units, "{:.1}").strip('"') for units in ("binary", "decimal"))
    answer = [counted(size, kind), f"Exactly {sized(exact)}. About {binary}, or {decimal}.", reason(text, reading)]
    bits = size * SCALE[kind]
    beyond = ", below 1 B" if bits < 8 else ", above 1 RB" if bits > BITS["RB"] else ""
    place = math.floor(place_of(bits) + 0.5)
    return {"answer": answer, "mark": None, "copied": [str(size), exact, link], "invalid": "false", "rules": rules,
            "units": [*tables_of_units(size, kind, exact.split(" ")[1])], "label": binary,
            "bits": bits, "axis": f"{binary} on a logarithmic axis from 1 B to 1 RB: at {place} percent{beyond}"}  # fmt: skip


def place_of(bits):
    """Returns the place of a number of bits on the axis, in percent."""
    return 100 * min(1, math.log(bits / 8, 1000) / 9) if bits > 8 else 0


def marks():
    """Returns the name of each mark of the axis, its class and its place."""
    return [(name.removesuffix("B") or "B", "binary" if "i" in name else "decimal", place_of(BITS[name]))
            for name in UNITS if name[-1] == "B"]  # fmt: skip
