"""Calls what the page defines for argparse, click and pydantic, in the module `page`, and checks what users see."""

import contextlib
import io

import page
import pydantic
from click.testing import CliRunner

WRONG, REASON = "1.5 XB", "'1.5 XB' is not a size: the character 'X' is incorrect"
assert page.options.parse_args(["--limit", "1.5 KiB"]).limit == 1536
with contextlib.redirect_stderr(io.StringIO()) as said, contextlib.suppress(SystemExit):
    page.options.parse_args(["--limit", WRONG])
assert f"error: argument --limit: {REASON}" in said.getvalue(), said.getvalue()

printed = [CliRunner().invoke(page.main, words).output for words in ([], ["--limit", "1.5 KiB"], ["--limit", WRONG])]
assert printed[:2] == ["1024\n", "1536\n"] and f"Invalid value for '--limit': {REASON}" in printed[2], printed

assert [page.Settings(limit=limit).limit for limit in ("1.5 KiB", 1536)] == [1536] * 2
for wrong, reason in ((WRONG, REASON), (1.5, "text must be str, bytes or int, not float"), (-1, "size must be from 0")):
    try:
        said = page.Settings(limit=wrong)
    except pydantic.ValidationError as error:
        said = error
    assert reason in str(said), said
print("as on the page")
