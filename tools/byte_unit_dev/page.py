"""Makes the page "How a size is read", one file with the module of WebAssembly inside."""

import base64
import re
from pathlib import Path

from .common import path, read
from .libraries import MODULE


# The files of the package that the page has, each after those that it imports.
FILES = ["options.js", "memory.js", "library.js"]


def run(out):
    library = "".join(read(f"bindings/js/{name}") for name in FILES)
    library = re.sub(r"^(?:import|export) \{[^;]*;\n|^export ", "", library, flags=re.M)
    page = read("bindings/js/page.html").replace("/* @LIBRARY@ */", library)
    module = base64.b64encode(Path(path("bindings/js", MODULE)).read_bytes())
    Path(out).write_text(page.replace("@WASM@", module.decode()), encoding="utf-8")
