"""example_limits: the report on limits, and why they are rejected. When a rule is broken, its proof says."""

import pytest
from byte_unit_dev.fixtures import ended

CRATE = "example_limits"
FEW = {"file": "1 KB", "total": "2 GiB", "disk": "2 GiB", "rate": "1 Gbit"}


@pytest.mark.parametrize("limits, report, error", [
    ({}, ["file: 20 MB", "total: 1.5 GiB", "cache: 256 MiB", "disk: 2 GiB", "rate: 1 Mb a second"], ""),
    (FEW, ["file: 1 KB", "total: 2 GiB", "cache: none", "disk: 2 GiB", "rate: 1 Gb a second"], ""),
    ({**FEW, "cache": "0"}, ["file: 1 KB", "total: 2 GiB", "cache: 0 B", "disk: 2 GiB", "rate: 1 Gb a second"], ""),
    ({"file": "1 KB", "total": "999 B", "disk": "998 B", "rate": "2 b"},
     ["file: 1 KB", "total: 999 B", "cache: none", "disk: 998 B", "rate: 2 b a second",
      "rejected: `file` exceeds `total`", "rejected: `total` and `cache` exceed `disk`",
      "rejected: a file of the size `file` takes more than an hour at `rate`"], "they break a rule"),
    ({"file": "20 XB"}, [], 'bad unit: "20 XB" in `file`'), ({"file": "B"}, [], 'not a number: "B" in `file`'),
    ({**FEW, "files": "1 KB"}, [], "unknown field `files`")])
def test_limits(program, limits, report, error):
    text = "".join(f'{name} = "{limit}"\n' for name, limit in limits.items()) or " \n\t\n"
    status, written, told = ended(program, input=text.encode())
    assert (status, written.decode().splitlines()) == (bool(error), report)
    assert told.decode() == f"Error: the limits are rejected: {error}\n" * bool(error)
