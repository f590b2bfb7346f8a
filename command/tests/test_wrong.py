"""The random and large calls tell each wrong program from byte-unit: it does the same but for one behaviour."""

import getopt
import re
from dataclasses import replace
from itertools import chain
from random import Random
from types import SimpleNamespace

import pytest
from calls import some_call
from model import Wrong, converted, options_of, parsed, result_of
from program import Result
from rows import LARGE

# Enough that each wrong program is told, with the large calls.
RANDOM_CALLS = 2_000

# How a run ends that is out of memory, or whose input fails; and the numbers of records in messages on fields.
NO_MEMORY = Result(b"", b"byte-unit: out of memory\n", 1)
READ_FAILED = Result(b"", b"byte-unit: read failed\n", 1)
NUMBER = re.compile(rb"(?m)^(byte-unit: (?:line|record|operand) )([0-9]+)")


class Case:
    """A call, its right result, and what its words mean; `options` is `None` if they are wrong."""

    def __init__(self, call, wanted):
        self.call, self.wanted, self.options, self.operands = call, wanted, None, []
        try:
            texts, self.operands = parsed(call.words)
            self.options = options_of(texts)
        except (Wrong, getopt.GetoptError, ValueError):
            pass

    def value(self, name, default):
        return getattr(self.options, name, default)


def is_cut_twice(case):
    """Tells whether a record comes in three reads or more."""
    inner = case.call.pieces()[1:-1] if case.options and not case.operands else []
    return any(case.options.end not in piece for piece in inner)


# The wrong programs that no fixed call of rows.py tells, by what each does, with the part of the result (or `all`), or
# the option, that it takes for something else, and what it takes in its place.
WRONG = {
    "line numbers of 16 bits": ("messages", lambda text, case: NUMBER.sub(
        lambda found: found[1] + b"%d" % (int(found[2]) % (1 << 16)), text)),
    "field numbers to 9": ("messages", lambda text, case: re.sub(rb"field [0-9]{2,}:", b"field 9:", text)),
    "out of memory for 1 MB of text": ("all", lambda got, case: NO_MEMORY if len(got.written) > 1_000_000 else got),
    "out of memory for more than two reads": ("all", lambda got, case: NO_MEMORY if is_cut_twice(case) else got),
    "out of memory for 16 MB": ("all", lambda got, case: NO_MEMORY if len(case.call.data) > 1 << 24 else got),
    "many reads fail": ("all", lambda got, case: READ_FAILED if len(case.call.cuts or []) > 99_999 else got),
    "the number of a character of the line": ("messages", lambda text, case: re.sub(
        rb"(?<=\(character )[0-9]+", lambda at: b"%d" % (int(at[0]) + bool(case.value("delimiter", None))), text)),
    "-p 28 as 27": ("precision", lambda places, case: 27 if places == 28 else places),
    "ranges after the sixteenth lost": ("field", lambda ranges, case: ranges[:16]),
    "standard input read for operands": ("unread", lambda unread, case: False),
}


def wrong_result(name, case):
    """Returns the result of a wrong program: the right one, changed, or the model's to another value of an option."""
    part, change = WRONG[name]
    if part == "all":
        return change(case.wanted, case)
    if hasattr(case.wanted, part):
        return replace(case.wanted, **{part: change(getattr(case.wanted, part), case)})
    if part not in case.value("texts", {}):
        return case.wanted
    options = SimpleNamespace(**{**vars(case.options), part: change(getattr(case.options, part), case)})
    return converted(options, case.operands, case.call.data) if options != case.options else case.wanted


@pytest.fixture(scope="session")
def seen(pytestconfig):
    """The first call that tells each wrong program from the right one, by the name of the wrong program."""
    found, seed = {}, RANDOM_CALLS * pytestconfig.getoption("seed")
    random_calls = (some_call(Random(seed + at)) for at in range(RANDOM_CALLS))
    for call in chain(random_calls, *(calls() for calls in LARGE)):
        wanted = result_of(call)
        case = Case(call, wanted)
        found.update({name: call for name in WRONG.keys() - found.keys() if wrong_result(name, case) != wanted})
        if len(found) == len(WRONG):
            break
    return found


@pytest.mark.parametrize("name", WRONG)
def test_wrong_program_is_seen(name, seen):
    assert name in seen
