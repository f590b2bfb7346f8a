"""Renders what is written to a caller's memory. C's may have no value before, so it is of places; a text is written to
such places or, in Rust, to bytes."""

import re

# A parameter through which a function writes: in the library's layers a text alone, in the C API whatever it returns.
TEXT, ANY = r"\b(out|bytes): &mut \[u8\]", r"\b(\w+): &mut (\[?)(\w+)(\]?)(?=,?\s*[\w)])"


def forms(names, made):
    """Returns the forms in which something is written through parameters, and what is in their place."""
    name = rf"\b(?:{'|'.join(names)})"
    return [
        (rf"({name}\[[^\]]*\]|\*{name}) = ([^;]*);", rf"\1 = {made}(\2);"),
        (rf"({name}\[[^\]]*\])\.copy_from_slice\(([^;]*)\);", r"Place::copy(&mut \1, \2);"),
        (rf"({name}\[[^\]]*\])\.fill\(([^;]*)\);", r"\1.fill(Place::of(\2));"),
        (r"&mut \[\](?=\))", "&mut [0u8; 0]"),
    ]


def outputs(file):
    """Rewrites the parameters through which a function writes, and what it writes."""
    in_c, names = file.crate == "byte_unit_c", set()

    def parameter(found):
        names.add(found[1])
        new = f"{found[2]}Out<{found[3]}>{found[4]}" if in_c else "[impl Place]"
        file.put(found.start(), found.end(), f"{found[1]}: &mut {new}")

    def written(found, new):
        # By the text, since in the code a character between quotes is a space.
        new = re.sub(r"\\(\d)", lambda group: file.text[slice(*found.span(int(group[1])))], new)
        file.put(found.start(), found.end(), new)

    file.each(ANY if in_c else TEXT, parameter)
    for pattern, new in forms(names, "Out::new" if in_c else "Place::of") if names else ():
        file.each(pattern, lambda found, new=new: written(found, new))
    paths = ["crate::slices::Out", f"{'byte_unit' if in_c else 'crate'}::support::Place"]
    uses = [f"use {path};\n" for path in paths if path.rpartition("::")[2] in re.findall(r"\w+", file.code)]
    if uses:
        start = re.search(r"^use ", file.code, re.M).start()
        file.put(start, start, "".join(uses))
