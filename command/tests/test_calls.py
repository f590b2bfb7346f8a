"""Whole calls of byte-unit: what each writes, byte for byte, and its exit status; and the files beside the program.

They are compared with a model, and with `numfmt` of GNU coreutils, by options that both have, where both are exact.
"""

import json
import os
import random
import re
import shlex

import pytest
from byte_unit_dev.fixtures import ended, need, output, path, read
from byte_unit_dev.model.exact import UNITS, some_unit
from calls import some_call
from model import FORMS, OPTIONS, result_of
from program import run
from rows import LARGE, MODELLED, OTHERS


def wrong_of(program, calls):
    """Returns the first call for which the program differs from the model, and how."""
    for call in calls:
        differences = list(run(program, call).differences(result_of(call)))
        if differences:
            return "\n  ".join([repr(call), *differences])
    return ""


def test_random_calls(program, check_drawn):
    check_drawn(some_call, lambda calls: wrong_of(program, calls))


@pytest.mark.parametrize("call, wanted", MODELLED + OTHERS)
def test_fixed_call(program, call, wanted):
    assert not list(run(program, call).differences(wanted))


@pytest.mark.parametrize("call, wanted", MODELLED)
def test_model_is_as_written_by_hand(call, wanted):
    assert not list(result_of(call).differences(wanted))


@pytest.mark.parametrize("calls", LARGE)
def test_large_calls(program, calls):
    assert not wrong_of(program, calls())


@pytest.mark.whole
@pytest.mark.parametrize("source, word, size, most", [
    ("yes 1.5 KiB | head -n 10000000", "--to=exact", 80_000_000, 5),
    ("head -c 1000000000 /dev/zero | tr '\\0' 1", "--invalid=ignore", 1_000_000_001, 2_000)])
def test_memory(program, source, word, size, most):
    """The memory for 10,000,000 lines, and for a line of 1 GB, is at most `most` MB."""
    need("/usr/bin/time")
    script = f"{source} | /usr/bin/time -q -f %M $0 {word} | wc -c; exit ${{PIPESTATUS[-2]}}"
    status, written, memory = ended("bash", "-c", script, program)
    assert (status, int(written)) == (0, size) and int(memory) // 1024 <= most


def in_bash(script, *words):
    """Returns the lines that bash prints with the completions loaded."""
    return output("bash", "-c", f'source "$0"; {script}', path("command/byte-unit.bash"), *words).splitlines()


def completed(*words):
    """Returns what bash, which splits words at `=`, offers for the last one, after the words of a call of `compopt`."""
    return in_bash('compopt() { echo "$*"; }; COMP_WORDS=(byte-unit "$@"); COMP_CWORD=$#; _byte_unit; '
                   'printf "%s\\n" "${COMPREPLY[@]}"', *words)  # fmt: skip


@pytest.mark.parametrize("name, values", [("to", [*FORMS, *UNITS]), ("from", ["auto", "si", "iec", "iec-i"]),
                                          ("invalid", ["abort", "fail", "warn", "ignore"])])
def test_completed_values(program, name, values):
    """Each value that the option takes is offered, and each that is offered is accepted."""
    assert sorted(completed(f"--{name}", "=")) == sorted(completed(f"--{name}", "")) == sorted(values)
    for word in values:
        begun = [other for other in values if other.startswith(word[0])]
        assert sorted(completed(f"--{name}", "=", word[0])) == sorted(completed(f"--{name}", word[0])) == sorted(begun)
        assert ended(program, f"--{name}={word}", "1 KB")[0] == 0


def test_completed_options():
    """Each option, with `=` if it takes a value, after which no space comes."""
    names = [f"--{name}" + "=" * (option.alone is None) for name, option in OPTIONS.items()]
    assert sorted(completed("--")) == sorted([*names, "--help", "--version"]) and completed("") == [""]
    assert completed("--fr") == ["-o nospace", "--from="] and completed("--tot") == ["--total"]
    assert in_bash("complete -p byte-unit") == ["complete -F _byte_unit byte-unit"]


def test_manual_page():
    need("mandoc")
    output("mandoc", "-T", "lint", "-W", "style,stop", path("command/byte-unit.1"))
    page = re.sub(".\b", "", output("mandoc", "-T", "ascii", path("command/byte-unit.1")))
    assert not re.search(r"(?m)(^| )(Ar|Cm|Fl|Ns|Ql|Xr) ", page)  # No macro is printed as a word.


@pytest.mark.parametrize("name", [*OPTIONS, "help", "version"])
def test_option_is_documented(program, name):
    """In the help, the manual page and the completions."""
    letter = OPTIONS[name].letter if name in OPTIONS else name[0].replace("v", "V")
    assert f"{f'-{letter}, ' if letter else ''}--{name}" in output(program, "--help")
    assert re.search(rf"^\.It .*{f'Fl {letter} .*' if letter else ''} -{name}\b", read("command/byte-unit.1"), re.M)
    assert re.search(rf"--{name}\b", read("command/byte-unit.bash"))


@pytest.mark.parametrize("words", ["", "--from=iec", "--from=iec --bits", "--from=iec -i -p0", "--from=iec -p28"])
def test_second_run_changes_nothing(program, seed, words):
    """In the exact form, whatever prefixes mean."""
    rng = random.Random(seed)
    sizes = [str(rng.randrange(10 ** rng.randrange(1, 30))) for _ in range(2000)]
    sizes += [f"{rng.randrange(100)}{rng.choice(['', '.5', '.125'])}{some_unit(rng, ['', 'B'])}" for _ in range(2000)]
    status, once, messages = ended(program, *words.split(), input="\n".join(sizes).encode())
    assert (status, messages) == (0, b"") and ended(program, *words.split(), input=once) == (0, once, b"")


def listed(rng):
    """Returns a line of sizes between blanks."""
    parts = (exact(rng) + " " * rng.choice([1, 1, 2, 9]) for _ in range(4))
    return rng.choice(["", " ", "   "]) + "".join(parts) + exact(rng)


def exact(rng):
    """Returns a size that is a whole number of bytes below 10^15, which long doubles hold."""
    return f"{rng.randrange(1, 999)}{rng.choice(['', '', 'K', 'Ki', 'M', 'Mi', 'G', 'Gi'])}"


# The words of both, those of `numfmt` and of byte-unit alone, and a function that makes a line.
@pytest.mark.parametrize("both, theirs, ours, line", [
    *[("-d," + field, "--from=auto", "--to=plain", lambda rng: ",".join(exact(rng) for _ in range(4)))
      for field in ("", " --field=2", " --field=1,3", " --field=2-", " --field=-2", " --field=-")],
    *[(words, "--from=auto", "--to=plain", exact)
      for words in ("", "--header", "--header=5", "--padding=20", "--padding=-20", "-z", "--inv=warn --pad=20")],
    *[(f"--invalid={way}", "--from=auto", "--to=plain", lambda rng: rng.choice(["x", "y", "1K", "2K"]))
      for way in ("fail", "warn", "ignore", "abort")],
    *[(words, "--from=iec", "--from=iec --to=plain", lambda rng: f"{rng.randrange(1, 999)}{rng.choice(['', *'KMG'])}")
      for words in ("-d,", "--header", "--padding=20")],
    *[(words, "--from=auto", "--to=plain", lambda rng: exact(rng) + rng.choice(["", "/s"]))
      for words in ("--suffix=/s", "--suffix=/s --padding=-20", "--suffix=/s --suffix=/s -d,")],
    *[(field, "--from=auto", "--to=plain --blanks", listed)
      for field in ("", "--field=2", "--field=1,3", "--field=2-", "--field=-", "--field=5 --padding=3",
                    "--field=2 --padding=-9")],
    # Sizes that both write as a whole number of one unit.
    ("", "--to=si", "--to=si", lambda rng: str(rng.randrange(10, 999) * 1000 ** rng.randrange(1, 4))),
    ("", "--to=iec-i", "--to=iec", lambda rng: str(rng.randrange(10, 1000) * 1024 ** rng.randrange(1, 4)))])
def test_same_output_as_numfmt(program, seed, both, theirs, ours, line):
    rng = random.Random(seed)
    data = "".join(line(rng) + ("\0" if both == "-z" else "\n") for _ in range(1000)).encode()
    status, wanted, _ = ended("numfmt", theirs, *both.split(), input=data)
    if "--to" in theirs:
        wanted = re.sub(rb"(\d+)(?:\.0)?([KMGTPE]i?)", rb"\1 \2B", wanted)
    assert ended(program, *ours.split(), *both.split(), input=data)[:2] == (status, wanted)


# Calls that GNU coreutils tests `numfmt` with, in our words, where both do the same: in each line of the file the words,
# the input, the status and the output; and words with each of some texts in place of `{}`.
NUMFMT_CASES = read("command/tests/numfmt_cases.txt")
NUMFMT_WORDS = {
    "--from=si --to=si 1{}": "ACDEFGHIJKLMNOPSTUVWXYZacdfhijlnoqsuvwx",
    **dict.fromkeys(["--from=iec --to=iec 1{}", "--from=auto --to=iec 1{}i", "--from=iec-i --to=iec 1{}i"], "EGKMPTYZ"),
    "--to=plain --from=si {}": "1K 4M 4Q 4MQ foo 12. 12.K 12.2Q 9.7M 200M 3G 500G 6T 70T 800T 9P 200P 3E".split(),
    "--to=si {}": [*(10**power for power in range(20)), 0, 800, 999, 8000, 9900, 21 * 10**19],
    "--to=iec {}": [0, 999, 1023, 1024, 2048],
    "--field={} --to=si '1000 2000 3000 4000 5000'": "2,4 2-4 1,2,3-5 1-5 1-3,5 3- -3 1-2,4-5 4-5,1-2 1-3,2-4 2-4,1-3 "
                                                     "1-1,3-3 -2,4- -2,-4 2-,4- 4-,2- 3,- -".split(),
}  # fmt: skip


def bare(written):
    """Returns sizes without what is spelled in two ways: `2K` for `2.0K`, `2 KB` and `2 KiB`."""
    return re.sub(rb"\.0(?=[A-Z])|(?<=[KMGTPEZY])i| |B", b"", written)


def by_both(program, words, data=b""):
    """Returns status and output of both. `numfmt` has no `--blanks` and `--to=plain`: it does that without them."""
    theirs = [word for word in words if word not in ("--blanks", "--to=plain")]
    ours, other = ended(program, *words, input=data), ended("numfmt", *theirs, input=data, env={**os.environ, "LC_ALL": "C"})
    spelled = bytes if "--to=plain" in words else bare
    assert (other[0], spelled(other[1])) == (ours[0], spelled(ours[1]))
    return ours[:2]


@pytest.mark.parametrize("words, data, status, written", map(json.loads, NUMFMT_CASES.splitlines()))
def test_case_of_numfmt(program, words, data, status, written):
    assert by_both(program, shlex.split(words), data.encode()) == (status, written.encode())


@pytest.mark.parametrize("words", [words.format(text) for words, texts in NUMFMT_WORDS.items() for text in texts])
def test_words_of_numfmt(program, words):
    assert by_both(program, ["--blanks", *shlex.split(words)])[0] in (0, 2)
