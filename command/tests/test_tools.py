"""Converts what du, df, ls, free, ps and lsblk print, beside `numfmt` with prefixes by 1024: the same bytes where both
are exact."""

import subprocess

import pytest
from byte_unit_dev.fixtures import call, ended, need

# The tool, the options that both programs take, and numfmt's --from: its iec takes no `Ki`, which free prints. Without
# -d fields are separated by blanks.
TOOLS = [
    ("du -h /usr/share/doc /etc", ["-d", "\t"], "iec"),
    ("df -h", ["--header", "--field=2-4"], "iec"),
    ("ls -lh /usr/bin", ["--header", "--field=5"], "iec"),
    ("free -h", ["--header", "--field=2-7"], "auto"),
    ("lsblk", ["--header", "--field=4"], "iec"),
    ("ps -eo rss,vsz,comm", ["--header", "--field=1,2"], "iec"),
]  # fmt: skip


@pytest.mark.parametrize("tool, options, prefixes", TOOLS)
def test_beside_numfmt(program, tool, options, prefixes):
    need("numfmt", tool.split()[0])
    text = call("sh", "-c", tool, stderr=subprocess.DEVNULL).stdout
    blanks = [] if "-d" in options else ["--blanks"]
    _, ours, _ = ended(program, "--from=iec", "--to=plain", "--invalid=ignore", *blanks, *options, input=text.encode())
    _, theirs, _ = ended("numfmt", f"--from={prefixes}", "--invalid=ignore", *options, input=text.encode())
    rows = list(zip(text.splitlines(), ours.decode().splitlines(), theirs.decode().splitlines(), strict=True))
    # numfmt takes no `B`, and leaves a line with such a field as it is from there on. A machine may have no block
    # device.
    assert (rows or tool == "lsblk") and [row for row in rows if row[1] != row[2] and "0B" not in row[0]][:5] == []
