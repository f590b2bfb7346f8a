"""Builds the SQLite extension, and tests it by the program sqlite3 and by Python's sqlite3."""

import itertools
import re
import sqlite3
import sys
import unicodedata

import pytest
from byte_unit_dev.fixtures import call, compiled, copied, environment, need, output, parsed, path, read
from byte_unit_dev.model.answers import located
from byte_unit_dev.model.exact import SIZE_LIMIT, UNITS, Rejected, form, size_of, some_line, value_of
from byte_unit_dev.model.words import told_hint

WARNINGS = ["-Wall", "-Wextra", "-Wpedantic", "-Wconversion", "-Wshadow", "-Werror"]
SANITIZED = ["-g", "-fsanitize=address,undefined", "-fno-sanitize-recover=all"]
GREATEST = 2**63 - 1  # of an INTEGER


def quoted_characters():
    """Returns characters, and what the quoted texts of messages have for each: all control and format characters and
    separators, but for U+0000 and the space, with their escapes, and some others, as they are."""
    hidden = "Cc", "Cf", "Zs", "Zl", "Zp"
    escaped = [c for c in map(chr, range(1, 0x110000)) if unicodedata.category(c) in hidden and c != " "]
    return [(c, f"\\u{{{ord(c):x}}}") for c in escaped] + [(c, c) for c in " é¬ß字😀\u0301"]


def extension(compiler, library, folder, *flags):
    """Compiles the extension, and returns its path."""
    need("sqlite3ext.h")
    words = ["-std=c99", "-shared", "-fPIC", "-fvisibility=hidden", *WARNINGS, *flags, "-I", library]
    links = [f"{library}/libbyte_unit.a", "-Wl,--exclude-libs,ALL", "-Wl,-z,defs"]
    return compiled(compiler, folder / "byte_unit.so", *words, path("bindings/sql/sqlite/byte_unit_sqlite.c"), *links)


def test_clang_has_no_warning(library, tmp_path):
    extension("clang", library, tmp_path, "-O2")


def test_allocations_that_fail_and_ends_of_texts(library, tmp_path):
    """Calls checks/checks.c, in which one allocation of SQLite after another fails, texts end where their memory does,
    and SQLite has the calls of 3.31, under ASan and UBSan."""
    need("sqlite3ext.h")
    sources = [path("bindings/sql/sqlite", name) for name in ("checks/checks.c", "byte_unit_sqlite.c")]
    words = ["-std=c99", *WARNINGS, *SANITIZED, "-I", library, *sources, f"{library}/libbyte_unit.a", "-lsqlite3"]
    output(compiled("gcc", tmp_path / "checks", *words))


def test_no_state(library, tmp_path):
    """The one variable is SQLite's pointer to its calls: the extension keeps nothing that threads share."""
    need("sqlite3ext.h", "nm")
    words = ["-std=c99", "-O2", "-c", "-fno-pie", "-I", library, path("bindings/sql/sqlite/byte_unit_sqlite.c")]
    symbols = re.findall(r" [^TtUuRr] (\S+)$", output("nm", compiled("gcc", tmp_path / "object", *words)), re.M)
    assert symbols == ["sqlite3_api"]


def test_makefile(library, tmp_path):
    """It builds the extension, which exports its entry point alone, installs it, and removes it."""
    need("make", "nm", "sqlite3", "sqlite3ext.h")
    words = ["make", "-s", "-C", f"{copied('sql', tmp_path)}/sqlite", f"LIBRARY={library}", f"PREFIX={tmp_path}/prefix"]
    assert output(*words, "install", env=environment()) == ""
    file = tmp_path / "prefix/lib/sqlite3/byte_unit.so"
    assert output("nm", "-D", "--defined-only", file).split()[2::3] == ["sqlite3_byteunit_init"]
    loaded = file.with_suffix("")
    assert output("sqlite3", "-cmd", f".load {loaded}", ":memory:", "SELECT size_parse('1.5 KiB');") == "1536\n"
    output(*words, "uninstall", env=environment())
    assert not file.exists()
    below = f"DESTDIR={tmp_path}/below"
    output(*words, below, "install", env=environment())
    assert not file.exists() and (tmp_path / "below" / file.relative_to("/")).exists()
    output(*words, below, "uninstall", env=environment())
    assert not [*(tmp_path / "below").rglob("*.so")]


@pytest.fixture(scope="module")
def sql(library, tmp_path_factory):
    """Runs statements by the program sqlite3. Returns the lines that it prints, and its errors by line of the input."""
    need("sqlite3")
    loaded = extension("gcc", library, tmp_path_factory.mktemp("sqlite"), "-O2").with_suffix("")

    def run(script):
        words = ["sqlite3", "-batch", "-cmd", f'.load "{loaded}"', ":memory:"]
        # -1 is subprocess.PIPE: the program writes errors there.
        got = call(*words, input="\n".join(script) + "\n", stderr=-1, errors="surrogateescape")
        errors = re.findall(r"^.*?near line (\d+): (.*?)(?: \(\d+\))?$", got.stderr, re.M)
        return got.stdout.split("\n")[:-1], {int(line): error for line, error in errors}

    run.extension = str(loaded)
    return run


def quoted(line):
    """Returns a text as an expression of SQL. A text that is not UTF-8 is only right in a database of that encoding."""
    try:
        return f"char({','.join(str(ord(char)) for char in line.decode('utf-8'))})"
    except UnicodeDecodeError:
        return f"CAST(x'{line.hex()}' AS TEXT)"


def rows_of(text):
    """Returns each statement of a script, in one line, with patterns for the lines that the comments after it have."""
    rows, statement = [], []
    for line in text.splitlines():
        code, comment = re.fullmatch(r"(.*?) ?(?:-- ?(.*))?", line).groups()
        statement += [code.strip()] * bool(code)
        if code.endswith(";"):
            rows.append((" ".join(statement), []))
            statement = []
        if comment is not None:
            rows[-1][1].append(re.escape(comment))
    return rows


def wrong_of(sql, rows):
    """Returns which statements do not print the lines of the patterns beside them; an error is a line `error: ..`.
    Of these, and of lines that no statement should print, there are five at most."""
    got, errors = sql([statement for statement, _ in rows])
    lines = iter(got)
    seen = [[f"error: {errors[at]}"] if at in errors else list(itertools.islice(lines, len(wanted)))
            for at, (_, wanted) in enumerate(rows, 1)]  # fmt: skip
    differing = [(*row, found) for row, found in zip(rows, seen)
                 if len(found) != len(row[1]) or not all(map(re.fullmatch, row[1], found))]  # fmt: skip
    return differing[:5] + list(lines)[:5]


def test_characters_that_are_escaped(sql):
    rows = [(f"SELECT size_parse('x' || char({ord(char)}));", [rf"error: 'x{re.escape(shown)}' is not a size: .*"])
            for char, shown in quoted_characters()]  # fmt: skip
    assert wrong_of(sql, rows) == []


@pytest.mark.parametrize("kind, flags", [("byte", ""), ("bit", ", 'bits'")])
def test_lines(sql, check_drawn, kind, flags):
    """Compares drawn lines with the exact model: sizes and their texts, or messages."""

    def row(line):
        size = size_of(line, kind)
        if isinstance(size, Rejected):
            shown = rf"error: '.*' is not a size: {re.escape(located(line, size) + told_hint(line))}"
        elif size <= GREATEST:
            shown = re.escape(f"{size}|{form(size, kind)}|1")
        else:
            shown = rf"error: '.*' is {size} {kind}s, above the greatest INTEGER, {GREATEST}"
        return (f"SELECT size_parse(t{flags}), size_text(size_parse(t{flags}){flags}), size_explain(t{flags}) IS NULL"
                f" FROM (SELECT {quoted(line)} AS t);"), [shown]  # fmt: skip

    check_drawn(some_line, lambda lines: wrong_of(sql, [row(line) for line in lines]))


# What each argument of a function is, and a value of each kind that is right.
FUNCTIONS = {**dict.fromkeys(["size_parse", "size_try", "size_explain", "size_sum"], ["text", "flags"]),
             "size_text": ["number", "precision", "flags"], "size_in": ["number", "unit", "precision", "flags"],
             "size_pretty": ["number", "type", "precision", "flags"]}  # fmt: skip
RIGHT = {"text": "'1'", "number": "1", "unit": "'B'", "flags": "''", "precision": "0", "type": "'both'"}
# A value of each storage class, what a message calls it, and for each kind of RIGHT what follows: it is right (+), the
# result is NULL (0), or there is an error of REASONS.
VALUES = {
    "NULL": ("NULL", "000FPT"), "0": ("0", "++UF+T"), "1": ("1", "++UF+T"), str(GREATEST): (str(GREATEST), "++UFPT"),
    f"-{GREATEST} - 1": (f"-{GREATEST + 1}", "GMUFPT"), "1.5": ("the REAL value 1.5", "ANUFPT"),
    "1e999": ("the REAL value Inf", "ANUFPT"), "''": ("''", "CNU+PT"), "'x'": ("'x'", "BNXOPT"),
    "'1'": ("'1'", "++XOPT"), "x''": ("a BLOB of length 0", "ANUFPT"), "x'31'": ("a BLOB of length 1", "ANUFPT"),
    "zeroblob(2)": ("a BLOB of length 2", "ANUFPT"),
}  # fmt: skip
NUMBER = "; hint: a size begins with a number as in '12' or '1.5'"
REASONS = {
    "A": "is not a size: TEXT or an INTEGER is expected",
    "B": rf"is not a size: the character '.' is not a number \(character 1\){NUMBER}",
    "G": r"is not a size: the character '-' is not a number \(character 1\); hint: a size is not negative",
    "C": rf"is not a size: no value can be found \(at the end of the text\){NUMBER}",
    "M": "is not a size: it is negative", "N": "is not an INTEGER such as size_parse returns",
    "U": "is not a unit such as 'KiB' or 'MB'",
    "X": "is not a unit: the character '.' is incorrect .*", "F": "is not a text of flags",
    "O": "has flags other than 'bits'.*", "P": "is not a precision: an INTEGER from 0 to 65535 is expected",
    "T": "is not a type of units: 'binary', 'decimal' or 'both' is expected",
}  # fmt: skip


def answer_of(function, kind, value):
    """Returns a pattern of what a call prints that has this value as an argument of a kind."""
    shown, column = VALUES[value][0], [*RIGHT].index(kind)
    found = VALUES[value][1][column]
    if found in REASONS:
        if kind == "text" and function == "size_try":
            return "NULL"
        error = f"'?{re.escape(shown)}'? {REASONS[found]}"
        if kind == "text" and function == "size_explain":
            return error if found == "A" else REASONS[found].removeprefix("is not a size: ").partition("; hint")[0]
        return f"error: {error}"
    if found == "0" or function == "size_explain":
        return "NULL"
    number = shown.strip("'") if kind in ("text", "number") else "1"
    if FUNCTIONS[function][0] == "text":
        return number
    return r"8(\.0)? EiB|9223372036854775(\.807 K|807 )B" if number == str(GREATEST) else rf"{number}(\.0)? B"


def test_storage_classes(sql):
    """Each function takes or rejects a value of each storage class in each place, and another number of arguments."""
    rows = []
    for function, kinds in FUNCTIONS.items():
        least = 2 if function == "size_in" else 1
        rows += [(f"SELECT {function}({', '.join(['1'] * count)});", [r"error: wrong number of arguments to .*"])
                 for count in (least - 1, len(kinds) + 1)]  # fmt: skip
        for count in range(least, len(kinds) + 1):
            for at, value in itertools.product(range(count), VALUES):
                given = [value if at == place else RIGHT[kind] for place, kind in enumerate(kinds[:count])]
                kind = kinds[at]
                if kind == "precision" and function != "size_pretty" and value.startswith("'"):
                    # Flags may be in the place of the precision, and are the last argument then.
                    kind, given = "flags", given[: at + 1]
                answer = answer_of(function, kind, value)
                rows.append((f"SELECT ifnull({function}({', '.join(given)}), 'NULL');", [answer]))
    assert len(rows) > 400 and wrong_of(sql, rows) == []


def test_words_that_are_flags(sql):
    """A flag may be given twice. A word that is cut short, or differs from a flag by one character, is not one."""
    rows = [(f"SELECT size_parse('8 Kb', '{words}');", [size]) for words, size in (
        ("bits bits", "8000"), ("ignore-case  ignore-case ", "8000"), ("binary bits binary", "8192"))]  # fmt: skip
    for flag in ("bits", "ignore-case", "binary", "words"):
        words = [flag[:at] + "x" + flag[at + 1 :] for at in range(len(flag))] + [flag[:-1], flag[1:], flag + "s"]
        words += [flag + space + "bits" for space in "\t\n\r\v\f\xa0,"] + [flag.upper()]
        rows += [(f"SELECT size_parse('1', {quoted(word.encode())});", ["error: '.*' has flags other than .*"])
                 for word in words]  # fmt: skip
    assert wrong_of(sql, rows) == []


def some_conversion(rng):
    """Returns a statement that converts a random size to a unit, and what it prints."""
    kind, unit = rng.choice(["byte", "byte", "bit"]), rng.choice(UNITS[2:])
    size, precision = rng.randrange(10 ** rng.randrange(1, 19)), rng.choice(["", *".0 .1 .2 .3 .9 .30".split()])
    options = precision.replace(".", ", ") + ", 'bits'" * (kind == "bit")
    shown = f"{value_of(size, kind, unit):{precision}f} {unit}"
    return f"SELECT size_in({size}, '{unit}'{options});", [re.escape(shown)]


def test_sizes_in_units(sql, check_drawn):
    check_drawn(some_conversion, lambda rows: wrong_of(sql, rows))


def some_sum(rng):
    """Returns a statement that adds random sizes, in all or for each row in a window, and what it prints. Of the last
    window SQLite adds a row that it takes away again."""
    greatest = rng.choice([10**6, 2**63, 10**30, 10**30])
    sizes = [rng.choice([None, rng.randrange(rng.choice([2, greatest]))]) for _ in range(rng.randrange(1, 6))]
    rows = ", ".join(f"({at}, {'NULL' if size is None else repr(str(size))})" for at, size in enumerate(sizes))
    # A frame in SQL, and the rows that it has: from the first, up to one before `past`, counted from the row.
    frames = [(None, 0, 9), ("1 PRECEDING", -1, 1), ("BETWEEN 1 FOLLOWING AND 2 FOLLOWING", 1, 3)]
    frame, first, past = rng.choice(frames)
    parts = [sizes[max(0, at + first) : at + past] for at in range(len(sizes) if frame else 1)]
    sums = [sum(size or 0 for size in part) if any(size is not None for size in part) else "-" for part in parts]
    wrong = any(one != "-" and one >= SIZE_LIMIT for one in sums)
    shown = "error: the sum of the sizes is 10^30 or more" if wrong else " ".join(map(str, sums))
    over = f" OVER (ORDER BY n ROWS {frame})" if frame else ""
    return (f"WITH t(n, s) AS (VALUES {rows}) SELECT group_concat(one, ' ') FROM (SELECT ifnull(size_sum(s){over}, '-')"
            " AS one FROM t);", [re.escape(shown)])  # fmt: skip


def test_sums(sql, check_drawn):
    check_drawn(some_sum, lambda rows: wrong_of(sql, rows))


@pytest.mark.parametrize("encoding", ["UTF-8", "UTF-16"])
def test_order(sql, check_drawn, encoding):
    """Compares the order by the collation SIZE, without and by an index, with the model's: sizes, then the other lines
    by their bytes; equal ones by their numbers. integrity_check finds nothing after deletes and updates."""
    order, index = "SELECT id FROM lines ORDER BY t COLLATE SIZE, id;", "CREATE INDEX by_size ON lines(t COLLATE SIZE);"
    odd = "DELETE FROM lines WHERE id % 3 = 1; UPDATE lines SET t = t || ' ' WHERE id % 3 = 2;"

    def wrong(lines):
        found = [(line, size_of(line, "byte")) for line in lines]
        found = [row for row in found if encoding == "UTF-8" or getattr(row[1], "name", "") != "not text"]
        keys = [(1, 0, line) if isinstance(size, Rejected) else (0, size, b"") for line, size in found]
        make = [f"PRAGMA encoding = '{encoding}';", "CREATE TABLE lines(id INTEGER PRIMARY KEY, t TEXT);", "BEGIN;"]
        make += [f"INSERT INTO lines(t) VALUES ({quoted(line)});" for line, _ in found] + ["COMMIT;"]
        got, errors = sql([*make, order, index, order, odd, "PRAGMA integrity_check;"])
        wanted = [str(at + 1) for at in sorted(range(len(keys)), key=lambda at: (keys[at], at))]
        return got != [*wanted, *wanted, "ok"] and f"{lines[:9]}: {got[:9]} {wanted[:9]}" or errors

    check_drawn(some_line, wrong)


@pytest.mark.parametrize("name", ["README.md", "checks/calls.sql", "checks/tables.sql", "checks/million.sql"])
def test_statements(sql, name):
    """Compares what each statement prints with the comments after it."""
    text = read(f"bindings/sql/sqlite/{name}")
    if name == "README.md":
        text = "".join(re.findall(r"^```sql\n(?:\.load [^\n]*\n)?(.*?)^```$", text, re.M | re.S))
    rows = rows_of(text)
    assert rows and wrong_of(sql, rows) == []


# Calls, and the number of texts that each parses: what is rejected is parsed twice more, for the reason and the hint.
PARSED = {
    "size_parse('1 KB')": 1, "size_parse('1 x')": 3, "size_parse('1 K', 'binary')": 1, "size_parse('1 x', 'binary')": 3,
    "size_try('1 x')": 1, "size_explain('1 KB')": 1, "size_explain('1 x')": 2, "size_sum('1 KB')": 1,
    "size_sum('1 x')": 3, "size_text('1536')": 1, "size_text(1536)": 0, "size_text('1 x')": 0,
    "size_text('1' || hex(zeroblob(15)))": 2, "size_in(1, 'KiB')": 1, "size_in(1, 'k')": 1, "size_in(1, 'b')": 1,
    "size_in(1, ' B')": 1, "size_in(1, 'bits', 'ignore-case')": 1, "size_in(1, ' ')": 1, "size_in(1, 5)": 1,
    "size_in(1, 'x')": 2, "size_pretty(1, 'both')": 0, "'1 KB' < '1 x' COLLATE SIZE": 2,
}  # fmt: skip


def test_texts_that_are_parsed(counting_library, tmp_path):
    need("sqlite3")
    loaded = extension("gcc", counting_library, tmp_path, "-O2").with_suffix("")
    words = ["sqlite3", "-cmd", f'.load "{loaded}"', ":memory:"]
    assert {code: parsed(call(*words, f"SELECT {code}").stdout) for code in PARSED} == PARSED


def test_rows_that_postgresql_shares(sql):
    rows = re.findall(r"^([^#\n].*?) = (.*)$", read("bindings/sql/sqlite/checks/shared.txt"), re.M)
    calls = [(f"SELECT coalesce({code}, 'NULL');", [re.escape(answer)]) for code, answer in rows]
    assert len(rows) > 20 and wrong_of(sql, calls) == []


def test_without_the_extension(sql, tmp_path):
    """A database whose schema names it can be read without it, and REINDEX mends an index by another order."""
    loaded, file = ["-cmd", f'.load "{sql.extension}"'], tmp_path / "kept.db"
    make = ("CREATE TABLE quotas(q TEXT CHECK (size_explain(q) IS NULL)); CREATE TABLE other(t TEXT COLLATE SIZE);"
            " INSERT INTO quotas VALUES ('1 KB'); INSERT INTO other VALUES ('1 KB'), ('999');")  # fmt: skip
    assert output("sqlite3", *loaded, file, make) == ""
    assert output("sqlite3", file, "SELECT * FROM quotas; SELECT t FROM other;") == "1 KB\n1 KB\n999\n"
    for statement, missing in (("INSERT INTO quotas VALUES ('2 KB')", "unknown function: size_explain()"),
                               ("SELECT t FROM other ORDER BY t", "no such collation sequence: SIZE")):  # fmt: skip
        got = call("sqlite3", file, statement, stderr=-1)
        assert got.returncode and missing in got.stderr
    db = sqlite3.connect(file)
    db.create_collation("SIZE", lambda a, b: (a > b) - (a < b))
    db.execute("CREATE INDEX by_text ON other(t)")
    db.close()
    got = output("sqlite3", *loaded, file, "PRAGMA integrity_check; REINDEX; PRAGMA integrity_check;")
    assert re.fullmatch(r"(.* by_text\n)+ok\n", got)


def test_sqlite3_of_python(sql):
    if not hasattr(sqlite3.Connection, "enable_load_extension"):
        pytest.skip("a Python whose sqlite3 loads extensions is missing (Debian: python3)")
    output(sys.executable, path("bindings/sql/sqlite/checks/from_python.py"), sql.extension)
