"""byte_unit_lines: the output for lines of every kind, at scale and however a pipe cuts them, and each way to end."""

import contextlib
import hashlib
import os
import random
import subprocess
from itertools import chain, repeat

import pytest
from byte_unit_dev.fixtures import ended, need, redirected, some_line

CRATE = "byte_unit_lines"
# Lines that differ as bytes and as bits, and two that are not UTF-8.
INPUT = b"1KiB\n\xff\n1\xff\n9 b\n"
IN_BYTES = (0, b"1024 = 1 KiB\nnot text\nnot text\n2 = 2 B\n", b"")
IN_BITS = (0, b"8192 = 8 Kib\nnot text\nnot text\n9 = 9 b\n", b"")
USAGE = (2, b"", b"usage: byte_unit_lines [byte|bit]\n")
READ_FAILED, WRITE_FAILED = b"read failed\n", b"write failed\n"


@pytest.mark.parametrize("words, wanted", [
    ([], IN_BYTES), (["byte"], IN_BYTES), (["bit"], IN_BITS), *((words, USAGE) for words in (
        ["bits"], [""], ["--help"], ["bit", "bit"], ["byte", "bits"], [b"bit\xff"], ["bit", b"\xff"]))])
def test_words(program, words, wanted):
    assert ended(program, *words, input=INPUT) == wanted


@pytest.mark.parametrize("words, how, wanted", [
    (["bits"], "2> /dev/full", (2, b"", b"")), ([], "> /dev/full", (1, b"", WRITE_FAILED)),
    ([], "< /", (1, b"", READ_FAILED))], ids=["usage", "output", "input is a folder"])
def test_stream_that_fails(program, words, how, wanted):
    assert redirected(how, program, *words) == wanted


def test_closed_output(program, closed):
    assert ended(program, input=b"1 KB\n", stdout=closed) == (1, None, WRITE_FAILED)


def test_terminal_closed_within_the_second_line(program):
    terminal, writer = os.openpty()
    os.write(writer, b"1 KB\n2")
    os.close(writer)
    assert ended(program, stdin=terminal) == (1, b"1000 = 1 KB\n", READ_FAILED)
    os.close(terminal)


def test_pipe_closed_after_the_first_line(start):
    with subprocess.Popen(["yes", "1 KB"], stdout=subprocess.PIPE) as lines:
        child = start(stdin=lines.stdout)
        lines.stdout.close()
        written = child.stdout.readline()
        child.stdout.close()
        assert (written, child.stderr.read(), child.wait()) == (b"1000 = 1 KB\n", WRITE_FAILED, 1)


@pytest.mark.parametrize("kind", ["byte", "bit"])
def test_output_is_that_of_the_model(program, check_lines, kind):
    check_lines([program], kind, count=20_000)


def feed(program, chunks, target):
    """Feeds chunks to the program through a pipe. Returns its exit status and its peak memory in KiB."""
    need("/usr/bin/time")
    words = ["/usr/bin/time", "-q", "-f", "%M", program]
    with open(target, "wb") as out:
        child = subprocess.Popen(words, stdin=subprocess.PIPE, stdout=out, stderr=subprocess.PIPE, bufsize=0)
    with contextlib.suppress(BrokenPipeError):  # The program may end before its input.
        for chunk in chunks:
            child.stdin.write(chunk)
    memory = int(child.communicate()[1])
    return child.returncode, memory


@pytest.mark.parametrize("lines", [1_000_000, pytest.param(10_000_000, marks=pytest.mark.whole)])
def test_many_lines(program, seed, lines, tmp_path):
    """Each gives a line of output, in no more memory than a hundredth takes, and the same however a pipe cuts them."""
    # The program reads 65,536 bytes at once; pieces of other lengths cut lines elsewhere. Memory is in KiB.
    rng, source, target, held, digests = random.Random(seed + lines), tmp_path / "in", tmp_path / "out", [], set()
    pool = [some_line(rng) for _ in range(20_000)]
    for count, size in ((lines // 100, lambda: 1 << 16), (lines, lambda: 1 << 16), (lines, lambda: 4095),
                        (lines, lambda: 65537), (lines, lambda: rng.randrange(1, 10_000))):
        if len(held) < 2:
            with open(source, "wb") as file:
                file.writelines(b"\n".join(rng.choices(pool, k=10_000)) + b"\n" for _ in range(count // 10_000))
        with open(source, "rb", buffering=0) as file:
            status, memory = feed(program, iter(lambda: file.read(size()), b""), target)
        written = target.read_bytes()
        assert status == 0 and written.count(b"\n") == count
        digests.add(hashlib.sha256(written).hexdigest())
        held.append(memory)
    assert len(digests) == 2 and held[1] < held[0] + 512


@pytest.mark.parametrize("length", [17_000_000, 100_000_000, pytest.param(1_000_000_000, marks=pytest.mark.whole)])
@pytest.mark.parametrize("fill, end, wanted", [
    (b"0", b"1", b"1 = 1 B\n"), (b"x", b"x", b"not a number\n"), (b"1", b"1", b"number too long\n"),
    (b"0", b"\xff", b"not text\n")])
def test_long_line(program, length, fill, end, wanted, tmp_path):
    """One line of output, whether it is a size or not, in memory of three times its length and 8 MiB at most."""
    blocks, rest = divmod(length - 1, 1 << 20)
    chunks = chain(repeat(fill * (1 << 20), blocks), [fill * rest, end])
    status, memory = feed(program, chunks, tmp_path / "out")
    assert (status, (tmp_path / "out").read_bytes()) == (0, wanted) and memory < 3 * length // 1024 + 8192
