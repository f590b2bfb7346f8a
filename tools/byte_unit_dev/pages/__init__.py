"""Checks the pages: their words, links and names, and that their commands and examples print what they say.

    words     README.md and all pages together keep their limits of words; a page has one date at most; links lead to a
              file and a heading
    names     the names in backticks exist: identifiers, paths, files and modules
    facts     two pages that list the calls that may be out of memory, the statuses, the toolchain or the products agree
    version   each place that says the version says that of the file VERSION
    readme    the commands of README.md print what is below them; its promise, literal and program are as their sources
    guide     docs/GUIDE.md lists each example; its format strings and sizes of programs are those of rows
    command   the commands of command/README.md print what is below them, and the command the error in README.md
    pasted    the blocks of Rattle in docs/GUIDE.md, in empty crates, are proved over the libraries of `rt ci`
    examples  the examples of the doc comments hold, and each public function of the library has a doc comment

Without WHAT, checks the first four, which take a second. Prints each finding; the exit status is then 1. A check
begins with a line `skipped: ` for each program that it runs and that is not built.
"""

from ..common import Failure, reason, report
from . import commands, examples, pasted, text

CHECKS = {"words": text.words, "names": text.names, "facts": text.facts, "version": text.version,
          "readme": commands.readme, "guide": commands.guide, "command": commands.command, "pasted": pasted.pasted,
          "examples": examples.examples}  # fmt: skip
QUICK = ["words", "names", "facts", "version"]


def run(*what: CHECKS):
    status = 0
    for check in what or QUICK:
        try:
            findings, fine = CHECKS[check]()
        except (Failure, OSError) as failure:
            findings, fine = [reason(failure)], ""
        status |= report(findings, f"check-pages {check}: {fine}")
    return status
