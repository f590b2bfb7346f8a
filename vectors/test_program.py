"""byte_unit_vectors: answers each row by the library, and reports those that are wrong, and only those."""

import re

import pytest
from byte_unit_dev.fixtures import ended, read, redirected

CRATE = "byte_unit_vectors"
# Rows without an answer, and what the report has after them.
MALFORMED = {
    'a: parse byte cased "1"': "no answer",
    "a: plain 1 {}": "no answer",
    'parse byte cased "1" = 1': "no ID",
    "a row": "no ID",
    'a: parse byte cased "1 = 1': "a text without an end",
    'a: parse byte cased "1 = ': "a text without an end",
    'a: parse byte cased "1"= 1': "no answer",
    'a: guess byte cased "1" = 1': "no such call",
    "a: guess 1 = 1": "no such call",
    "a: parse byte cased = NoValue": "no such call",
    'a: parse byte cased uncased "1" = 1': "no such call",
    'a: plain 1 {} "" = "1"': "no such call",
    'a: parse bit uncased "1" = 1': "no such call",
    'a: "1" = 1': "no such call",
    "a:  = 1": "no such call",
    'a: parse nibble cased "1" = 1': "an invalid word",
    'a: parse byte mixed "1" = 1': "an invalid word",
    "a: plain one {} = 1": "an invalid word",
    "a: plain 340282366920938463463374607431768211456 {} = 1": "an invalid word",
    "a: plain 1 {:x} = 1": "an invalid word",
    "a: plain 1 {:.} = 1": "an invalid word",
    "a: plain 1 {:65536} = 1": "an invalid word",
    "a: properties kb = 1000 bits decimal 2^3 5^3": "an invalid word",
    "a: json byte 1000000000000000000000000000000 = 1": "an invalid word",
    "a: expansion 8000000000000000000000000000000 0 0 = 1": "an invalid word",
    "a: expansion 1 94 0 = 1": "an invalid word",
    "a: expansion 1 0 41 = 1": "an invalid word",
    "a: expansion 1 4294967295 4294967295 = 1": "an invalid word",
    "a: quotient 1 0 1 = 1 1": "an invalid word",
    "a: powers 0 = 1": "an invalid word",
    "a: constant bit BYTE = 1": "an invalid word",
    'a: parse byte cased "\\n" = NoValue': "an unknown escape",
    'a: parse byte cased "\\u{110000}" = NoValue': "an unknown escape",
    'a: parse byte cased "\\{2*1" = 11': "an unknown escape",
    'a: parse byte cased "\\{2*\\u{31}" = 11': "an unknown escape",
    'a: parse byte cased "\\{2*" = 11': "an unknown escape",
    'a: parse byte cased "1" = 1\\': "an unknown escape",
    'a: from_json byte "{" = NotString': "invalid JSON",
}  # fmt: skip
# Wrong answers, and what the report has for them. An answer is escaped where it is not printable ASCII.
WRONG = {
    "a: plain 1 {} = 1": 'a: wanted 1, got "1"',
    'a: parse byte cased "1" = 1 ': "a: wanted 1 , got 1",
    'a: parse byte cased "\u00e9" = NotNumber "e"': 'a: wanted NotNumber "e", got NotNumber "\\u{e9}"',
    'a: parse byte cased "\\{9*2} = 1" = 9': 'a: wanted 9, got Unit "=" [BKMGTPEZYR] end',
    "a: plain 1 {:<4} = none": 'a: wanted none, got "1   "',
}  # fmt: skip


def is_row(line):
    return line != "" and not line.startswith("#")


def report(program, *lines):
    """Returns the exit status of the program for these lines, and what it writes on standard output and error."""
    status, written, summary = ended(program, input="".join(f"{line}\n" for line in lines).encode())
    return status, written.decode(), summary.decode()


def changed(answer):
    """Returns an answer with another last digit, or else another last letter."""
    at = [place.start() for place in re.finditer(r"\d" if re.search(r"\d", answer) else r"[A-Za-z]", answer)][-1]
    other = str((int(answer[at]) + 1) % 10) if answer[at].isdigit() else "y" if answer[at] == "x" else "x"
    return answer[:at] + other + answer[at + 1 :]


def test_no_row_is_wrong(program):
    lines = read("crates/byte_unit_vectors/stdin").split("\n")
    assert report(program, *lines) == (0, "", f"{sum(map(is_row, lines))} rows, 0 wrong\n")


def test_a_changed_answer_of_each_section(program):
    """The first row of each section whose answer has no escape gets another: these rows are reported, and no others."""
    lines, wanted, section = [], [], None
    for line in read("crates/byte_unit_vectors/stdin").split("\n"):
        section = line if line.startswith("## ") else section
        name, call, answer = re.fullmatch(r'(\S+): ((?:[^"=]*?) ?(?:"[^"]*")?) = (.*)|.*', line).groups()
        if section and is_row(line) and "\\" not in answer:
            line = f"{name}: {call} = {changed(answer)}"
            wanted.append(f"{name}: wanted {changed(answer)}, got {answer}\n")
            section = None
        lines.append(line)
    sections = sum(line.startswith("## ") for line in lines)
    summary = f"{sum(map(is_row, lines))} rows, {sections} wrong\n"
    assert len(wanted) == sections > 0
    assert report(program, *lines) == (1, "".join(wanted), summary)


@pytest.mark.parametrize("row", MALFORMED)
def test_malformed_row(program, row):
    assert report(program, "a: plain 1 {} = \"1\"", row) == (1, f"{row}: {MALFORMED[row]}\n", "2 rows, 1 wrong\n")


@pytest.mark.parametrize("row", WRONG)
def test_wrong_row(program, row):
    assert report(program, row) == (1, f"{WRONG[row]}\n", "1 rows, 1 wrong\n")


@pytest.mark.parametrize("lines", [(), ("",), ("# plain 1 {} = 2", "", "#")])
def test_no_row(program, lines):
    assert report(program, *lines) == (0, "", "0 rows, 0 wrong\n")


def test_row_without_line_end(program):
    assert ended(program, input=b'a: plain 1 {} = "2"') == (1, b'a: wanted "2", got "1"\n', b"1 rows, 1 wrong\n")


@pytest.mark.parametrize("how, data", [("< /", b""), ("> /dev/full", b"a row\n"), ("", b"a: plain \xff {} = 1\n")],
                         ids=["input is a folder", "output is full", "not UTF-8"])
def test_stream_that_fails(program, how, data):
    status, written, error = redirected(how, program, data=data)
    assert (status, written) == (2, b"") and error.startswith(b"byte_unit_vectors: ")
