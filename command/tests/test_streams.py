"""Streams of byte-unit that fail, are closed, or are a terminal."""

import fcntl
import os
import pty
import resource
import socket
import subprocess

import pytest
from byte_unit_dev.fixtures import ended, need, read, redirected
from program import CHUNK, Call, run

# After this time a call has failed.
SECONDS = 60
LINES = b"1.5 KiB\n" * 1_000_000
READ_FAILED = b"byte-unit: read failed\n"
WRITE_FAILED = b"byte-unit: write failed\n"
TERMINAL = b"byte-unit: reading sizes from the terminal, one a line; end with Ctrl-D\n"
NO_NUMBER = (b"byte-unit: line 2: 'x': the character 'x' is not a number (character 1); hint: a size begins with a"
             b" number as in '12' or '1.5'\n")  # fmt: skip
TOO_LARGE = b"byte-unit: the total is 10^30 or more\n"


@pytest.mark.parametrize("how, words, data, wanted", [
    *(("> /dev/full", [word], data, (1, b"", WRITE_FAILED)) for word, data in [
        ("--help", b""), ("--version", b""), ("--to=exact", b"1 KB\n"), ("--total", b""), ("1 KB", b""),
        ("--header", b"x\n"), ("--bits", LINES)]),
    ("2> /dev/full", ["--invalid=fail", "x"], b"", (2, b"x\n", b"")),
    *(("2> /dev/full", [word], b"", (2, b"", b"")) for word in ("--nothing", "--to=x", "-p29", "-d,,")),
    ("2> /dev/full", ["5", "KB"], b"", (2, b"5 B\n", b"")),
    ("0<&-", [], b"", (1, b"", READ_FAILED)), ("0< /", [], b"", (1, b"", READ_FAILED)),
    ("1>&-", [], b"1 KB\n", (1, b"", WRITE_FAILED)), ("2>&-", ["--invalid=fail", "x"], b"", (2, b"x\n", b"")),
    ("0<&- 1>&- 2>&-", ["1 KB"], b"", (1, b"", b""))], ids=lambda value: str(value)[:20])
def test_stream_that_fails(program, how, words, data, wanted):
    assert redirected(how, program, *words, data=data) == wanted


@pytest.mark.parametrize("word", ["--help", "--version", "1 KB"])
def test_closed_output(program, closed, word):
    # The shell's status of a program that SIGPIPE ends, 128 + 13.
    assert ended(program, word, stdout=closed) == (141, None, b"")


def test_output_closed_after_first_line(start):
    reader = start(stdin=subprocess.PIPE)
    head = subprocess.Popen(["head", "-1"], stdin=reader.stdout, stdout=subprocess.PIPE)
    reader.stdout.close()
    with pytest.raises(BrokenPipeError):
        reader.stdin.write(LINES)
        reader.stdin.close()
    assert (head.communicate()[0], reader.stderr.read(), reader.wait()) == (b"1.5 KiB\n", b"", 141)


def test_input_that_fails_after_records(start):
    """By a peer that ends its connection with data unread."""
    ours, its = socket.socketpair(socket.AF_UNIX, socket.SOCK_SEQPACKET)
    its.send(b"unread")
    ours.send(b"1 KB\nx\n2")
    child = start("--invalid=warn", "--total", stdin=its)
    its.close()
    got = child.stdout.read1()
    ours.close()
    rest, messages = child.communicate(timeout=SECONDS)
    assert (child.returncode, got + rest, messages) == (1, b"1 KB\nx\n", NO_NUMBER + READ_FAILED)


def test_standard_error_that_fails_once(start):
    """Nothing more is written to it, and the status stays."""
    reading, writing = os.pipe()
    fcntl.fcntl(writing, fcntl.F_SETPIPE_SZ, 4096)
    os.set_blocking(writing, False)
    # The pipe is full, and a write to it fails at once.
    os.write(writing, b"." * 4096)
    child = start("--invalid=fail", stdin=subprocess.PIPE, stderr=writing)
    os.close(writing)
    written = b""
    for line in b"x\n", b"1 KB\n":
        child.stdin.write(line)
        child.stdin.flush()
        written += child.stdout.readline()
    os.read(reading, 4096)
    written += child.communicate(b"y\n", timeout=SECONDS)[0]
    assert (child.returncode, written, os.read(reading, 4096)) == (2, b"x\n1 KB\ny\n", b"")
    os.close(reading)


@pytest.mark.parametrize("words, data, cuts, wanted", [
    ([], b"1 KB\nx\n2 KB\n", None, b"1 KB\n" + NO_NUMBER),
    ([], b"1 KB\nx", None, b"1 KB\n" + NO_NUMBER),
    (["--invalid=warn"], b"1 KB\nx\n2 KB\n", None, b"1 KB\nx\n2 KB\n" + NO_NUMBER),
    (["--total"], b"900RB\n100RB\n", None, b"900 RB\n100 RB\n" + TOO_LARGE),
    (["--total"], b"900RB\n100RB", None, b"900 RB\n100 RB\n" + TOO_LARGE),
    (["--invalid=warn"], b"1 KB\nx\n3 KB\nx\n5 KB\n", [7, 14],
     b"1 KB\nx\n" + NO_NUMBER + b"3 KB\nx\n" + NO_NUMBER.replace(b"line 2", b"line 4") + b"5 KB\n")])
def test_message_follows_the_lines_before_it(program, words, data, cuts, wanted):
    """Standard output and standard error are one stream; the lines may be of an earlier read."""
    assert run(program, Call(words, data, cuts), joined=True).written == wanted


def test_terminal(start):
    ours, its = pty.openpty()
    child = start(stdin=its)
    os.close(its)
    os.write(ours, b"1536\n\x04")  # and Ctrl-D
    written, messages = child.communicate(timeout=SECONDS)
    os.close(ours)
    assert (child.returncode, written, messages) == (0, b"1.5 KiB\n", TERMINAL)


def test_word_that_is_not_text(program):
    assert ended(program, b"\xff") == (2, b"", b"byte-unit: an argument is not UTF-8\n")


@pytest.mark.parametrize("word", ["--version", "-V"])
def test_version(program, made_by, word):
    """The program of cargo says that rustc has compiled it."""
    by = {"rattle": b"", "rustc": b" (rustc)"}[made_by]
    assert ended(program, word) == (0, b"byte-unit 3.0.0" + by + b"\n", b"")


@pytest.mark.parametrize("word", ["--help", "-h"])
def test_help(program, word):
    wanted = read("command/tests/help.txt")
    assert ended(program, word) == (0, wanted.encode(), b"")
    assert max(map(len, wanted.splitlines())) <= 80


@pytest.mark.parametrize("words, line", [
    *((words, b"1\n") for words in ("", "--to=YiB", "--padding=40", "--padding=-41", "--padding=1000",
                                    "--padding=65535", "--to=YiB -p 65535", "--max=0 --min=2")),
    ("--invalid=warn", b"1x\n"), ("--invalid=fail -d , --field=-", b"1x,\x1b\n"),
    ("-d , --field=- --padding=65535", b"1,1\n")])
def test_memory_of_texts_that_wait(program, made_by, tmp_path, words, line):
    """The texts and messages of one read take at most 4 MB with the program, whatever the options; with that of cargo,
    half a MB more, since Rust's clap is large."""
    need("/usr/bin/time")
    held = tmp_path / "held"
    redirected("> /dev/null 2> /dev/null", "/usr/bin/time", "-q", "-o", held, "-f", "%M", program, *words.split(),
               data=line * (CHUNK // len(line)))
    most = {"rattle": 4_000_000, "rustc": 4_500_000}[made_by]
    assert int(held.read_text()) <= most // 1024


@pytest.mark.parametrize("listed, data, wanted", [
    *((order, b"1," * 40_000 + b"1\n", b"1 B,1," * 20_000 + b"1 B\n")
      for order in (range(1, 40_002, 2), range(40_001, 0, -2))),
    ([1] * 65_000, b"1,2,3\n" * 10_000, b"1 B,2,3\n" * 10_000),
    (range(22_000, 0, -1), b"1,2,3\n" * 30_000, b"1 B,2 B,3 B\n" * 30_000),
    (range(1, 44_000, 2), b"1,2,3\n" * 30_000, b"1 B,2,3 B\n" * 30_000)],
    ids=["rising", "falling", "the same", "touching", "apart"])
def test_time_of_fields_and_ranges(program, listed, data, wanted):
    """It is linear in the fields and, once, in the ranges: the products would take 0.5 s and more."""
    before = resource.getrusage(resource.RUSAGE_CHILDREN)
    assert ended(program, "-d,", f"--field={','.join(map(str, listed))}", input=data)[1] == wanted
    after = resource.getrusage(resource.RUSAGE_CHILDREN)
    assert after.ru_utime + after.ru_stime - before.ru_utime - before.ru_stime < 0.2


@pytest.mark.parametrize("words", [["1.5 KiB"], []], ids=["operand", "line"])
def test_few_descriptors(program, words):
    """One more than the three streams is enough, which the loader of shared libraries needs, too."""
    words = ["-c", 'ulimit -n 4; exec "$0" "$@"', program, *words]
    assert ended("sh", *words, input=b"1.5 KiB\n") == (0, b"1.5 KiB\n", b"")
