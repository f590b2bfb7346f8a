"""Each allocation fails in turn: in tests of calls that take no allocator, and in the built programs."""

import os
import re
import signal
import subprocess
from concurrent.futures import ThreadPoolExecutor
from itertools import count

import pytest
from byte_unit_dev.fixtures import BY_CARGO, call, compiled, copy_to, ended, path, read, write

# How many calls run at once.
LANES = int(os.environ.get("RT_JOBS") or min(4, os.cpu_count()))
# What a test may end with: the error itself, or the message of an `expect` with the error.
FAILURE = re.compile(r"(?:[\w ]+: )?(?:AllocError|Error\(out of memory\))")
MANY = b"".join(b"%d.5 KiB\n" % number for number in range(12_000))
# Lines with every kind of answer.
MIXED = b"1.5 KiB\n1KB\r\n\n1Kbi\nx\n\xFF\n1000 RB\n9999999999999999999999999999999999\n1YB"
# Calls of the command: their words, and standard input. A run reads 65,536 bytes at once.
CALLS = [
    ("", MANY),
    ("--total --to=MiB --padding=-30", MANY),
    ("--to=exact", b"1 KB\n" + b"0" * 200_000 + b"1 KB\n2 KB"),
    ("-d , --field=2,4- --header --invalid=warn", b"name,size\n" + b"a,1 KB,x,2 KB\nb,1 x,y,\xff\n" * 3_000),
    ("--header=100000", MANY),
    ("-z --invalid=fail --to=iec -p1", b"1 KB\0x\0" * 10_000),
    ("--invalid=abort", b"1 KB\n" * 20_000 + b"1 x\n2 KB\n"),
    ("--bits --max=1kbit --min=1", b"1 kbit\n0\n2 kbit\n"),
    ("--total --to=auto -p 65535", b"1 KiB\n7 MB\n"),
    *((words, b"") for words in ("1.5KiB 100MB", "--help", "--version", "--nothing", "--field=2", "-p x",
                                 "-d , --field=1,3-2")),
]
PROGRAMS = [*(("byte_unit_cli", *row) for row in CALLS), *(("byte_unit_lines", *row) for row in [
    ("", MANY), ("bit", b"1.5 KiB\n\n1Kbi\nx\n1YB"), ("byte", b"1 KB\n2 KB\n" + b"1" * 1_000_000), ("x y", b"")])]


@pytest.fixture(scope="module")
def runs(tmp_path_factory):
    """What the tests of both modules of failed allocations, in one crate, say as each of the first five fails."""
    top, tests = tmp_path_factory.mktemp("allocations"), "crates/byte_unit_serde_tests/src/tests"
    copy_to(top, "crates", "crates.txt")
    for name in re.findall(r"^mod (\w+);", read(f"{tests}.rt"), re.M):
        if name not in ("refused", "asserting"):
            os.remove(top / tests / f"{name}.rt")
    write(top / tests / "allocations.rt", read("crates/byte_unit_tests/src/tests/allocations.rt"))
    write(top / f"{tests}.rt", "mod allocations;\nmod asserting;\nmod refused;\n")
    how = {"cwd": top / "crates/byte_unit_serde_tests", "stderr": subprocess.PIPE}
    with ThreadPoolExecutor(LANES) as pool:
        return list(pool.map(lambda at: call("rt", "try", "--test", "--fail-alloc", at, **how), range(1, 6)))


@pytest.mark.parametrize("module", ["allocations", "refused"])
def test_calls_without_allocator(runs, module):
    """Those in refused.rt, of at most four allocations, pass as each fails; those in allocations.rt end with the error
    of each of their three. In the fifth run no allocation fails."""
    names = set()
    for number, run in enumerate(runs, 1):
        found = re.findall(rf"^test tests::{module}::(\S+) \.\.\. (\w+)\n(?:    (.*)\n)?", run.stdout, re.M)
        for name, end, error in found:
            is_right = FAILURE.fullmatch(error) if module == "allocations" and number <= 3 else end == "ok"
            assert is_right, f"allocation {number} fails: {name} ends with {error}"
        names.add(tuple(sorted(row[0] for row in found)))
    assert len(names) == 1 and names.pop(), runs[0].stderr


@pytest.fixture(scope="module")
def shim(tmp_path_factory):
    """A library before libc whose allocations fail."""
    words = ["-O1", "-shared", "-fPIC", "-fno-builtin", path("tools/tests/failing_allocations.c")]
    return str(compiled("cc", tmp_path_factory.mktemp("shim") / "shim.so", *words))


def failing_call(program, shim, words, data, number, on, **more):
    """Returns how a call ends as an allocation fails, and whether one failed."""
    told, told_end = os.pipe()
    given = {"LD_PRELOAD": shim, "FAIL_AT": str(number), "FAIL_ON": str(int(on)), "FAIL_TOLD": str(told_end), **more}
    got = ended(program, *words.split(), input=data, timeout=60, pass_fds=[told_end], env={**os.environ, **given})
    os.close(told_end)
    with open(told, "rb") as file:
        return got, file.read(1) != b""


def is_out_of_memory(got, wanted, end):
    """Returns whether a call that is out of memory has written whole records and messages alone, and has said so."""
    *messages, last = got[2].splitlines(keepends=True) or [b""]
    return (got[0] == 1 and last.removeprefix(b"byte-unit: ") == b"out of memory\n" and wanted[1].startswith(got[1])
            and (not got[1] or got[1].endswith(end)) and wanted[2].startswith(b"".join(messages)))


@pytest.mark.parametrize("on", [False, True], ids=["alone", "and those after it"])
@pytest.mark.parametrize("crate, words, data", PROGRAMS, ids=[f"{crate} {words}" for crate, words, _ in PROGRAMS])
def test_program(program_of, shim, crate, words, data, on):
    """All is right, as it is if a smaller allocation is tried and once none fails; or the call is out of memory."""
    program, end = program_of(crate), b"\0" if "-z" in words else b"\n"
    wanted, _ = failing_call(program, shim, words, data, 0, False)
    with ThreadPoolExecutor(LANES) as pool:
        # By 32 calls at a time, up to those in which no allocation fails.
        for start in count(1, 32):
            runs = list(pool.map(lambda at: failing_call(program, shim, words, data, at, on), range(start, start + 32)))
            assert start > 1 or data is not MANY or runs[0][1], "no allocation failed"
            for number, (got, failed) in enumerate(runs, start):
                assert got == wanted or failed and is_out_of_memory(got, wanted, end), number
            if not all(failed for _, failed in runs):
                break


@pytest.mark.parametrize("crate, words, data", [
    ("byte_unit_cli", "--invalid=warn -d , --field=2,4- --padding=50", b"1 x,2 x,3,4 KB\n" * 30),
    ("byte_unit_cli", "1.5KiB 100MB", b""), ("byte_unit_cli", "--field=2", b""), ("byte_unit_lines", "", MANY),
    ("byte_unit_lines", "byte", b"1 KB\n2 KB\n" + b"1" * 1_000_000), ("byte_unit_lines", "x y", b"")],
    ids=["fields", "operands", "a wrong list", "lines", "a long line", "wrong words"])
def test_program_by_cargo(programs_by_cargo, shim, crate, words, data):
    """Rust's runtime is aborted and so is clap, before anything is written. For what the program itself asks, it says
    that it is out of memory: for the words, which byte-unit copies before clap reads them, and for all after clap."""
    program, found = programs_by_cargo / BY_CARGO[crate], ""
    wanted, _ = failing_call(program, shim, words, data, 0, False)

    def kind(number):
        got, failed = failing_call(program, shim, words, data, number, False, RUST_BACKTRACE="0")
        if got == wanted:
            return "r" if failed else "-"
        if failed and is_out_of_memory(got, wanted, b"\n"):
            return "o"
        return "a" if got[:2] == (-signal.SIGABRT, b"") else f"{number}: {got}"

    with ThreadPoolExecutor(LANES) as pool:
        for start in count(1, 32):
            found += "".join(pool.map(kind, range(start, start + 32)))
            if found.endswith("-"):
                break
    # Right, aborted, out of memory, or no allocation failed; how many there are depends on how the pipe cuts the input.
    assert re.fullmatch("[ra]*o+[ra]+o[o-]*" if crate == "byte_unit_cli" else "[ra]*o[o-]*", found)


@pytest.mark.parametrize("words, data", [("", b"1 KB\n"), ("--nothing", b""), ("--invalid=warn", b"x\n" * 3_000)])
def test_program_in_little_address_space(program, made_by, words, data):
    """A call is right or out of memory, unless it ends before it begins: by the loader of shared libraries, with status
    127, or, if cargo has built the program, by an abort without memory for Rust's runtime, the words or clap."""
    early = [127, *[-signal.SIGABRT] * (made_by == "rustc")]
    wanted = ended(program, *words.split(), input=data)

    def limited(most):
        return ended("sh", "-c", f'ulimit -v {most}; exec "$0" "$@"', program, *words.split(), input=data)

    sizes = range(2_000, 4_000, 5)  # in KiB
    with ThreadPoolExecutor(LANES) as pool:
        runs = list(pool.map(limited, sizes))
    for most, got in zip(sizes, runs):
        assert got == wanted or is_out_of_memory(got, wanted, b"\n") or got[0] in early and got[1] == b"", (most, got)
    assert runs[0][0] == 127 and runs[-1] == wanted


@pytest.mark.parametrize("most", [1, 2, 3, 8, 100])
def test_lines_before_the_failure(program_of, shim, most):
    """The line program answers just the lines whose allocations succeed: with the same allocations failing, a run over
    those lines alone succeeds, and one over the next line, too, does not. At most so many bytes are read at once."""
    lines, seen = MIXED.splitlines(keepends=True), set()
    whole = ended(program_of("byte_unit_lines"), input=MIXED)[1].splitlines(keepends=True)

    def answered(number, count):
        data = b"".join(lines[:count])
        got, failed = failing_call(program_of("byte_unit_lines"), shim, "", data, number, True, READ_MOST=str(most))
        assert failed == (got[0] == 1) and got[1] == b"".join(whole[:got[1].count(b"\n")])
        return got[1].count(b"\n"), failed

    for number in count(1):
        found, failed = answered(number, len(lines))
        assert answered(number, found)[0] == found and found >= max(seen, default=0)
        assert not failed or answered(number, found + 1) == (found, True)
        seen.add(found)
        if not failed:
            break
    assert {0, len(lines)} < seen and len(seen) > 3
