"""Builds the extension for PostgreSQL, and tests it in a cluster of its own on loopback, by a copy of the server."""

import re

import pytest
from byte_unit_dev.fixtures import call, need, output, read, write
from byte_unit_dev.model.exact import Rejected, form, size_of, some_line
from byte_unit_dev.model.words import told_hint
from byte_unit_dev.needs import DEBIAN_PYTHON
from byte_unit_dev.pages import beside
from byte_unit_dev.pages.beside import Program
from byte_unit_dev.postgresql import TRIED, quoted, tried
from byte_unit_dev.rows import check, rows

VERSION = read("VERSION").strip()


def test_installcheck(server):
    """Runs sql/byte_unit.sql by pg_regress, and compares with expected/byte_unit.out."""
    assert "All 1 tests passed" in server.make("installcheck")


def test_statements_of_the_readme(server):
    text = "".join(re.findall(r"^```sql\n(.*?)^```$", read("bindings/sql/postgresql/README.md"), re.M | re.S))
    rows = [(code, shown) for code, shown in re.findall(r"^([^\n]*;)(?: -- ([^\n]*))?$", text, re.M)]
    server.sql("CREATE DATABASE readme;")
    got = [
        call(server.bin / "psql", "-XAtq", "-d", "readme", "-c", code, env=server.variables).stdout for code, _ in rows
    ]
    shown = [" ".join(line for line in said.split("\n") if not re.match(r"LINE |\s+\^", line)).strip() for said in got]
    assert rows and shown == [wanted for _, wanted in rows]


def test_shared_rows(server):
    """Compares the rows that SQLite's extension has to answer, too."""
    rows = re.findall(r"^([^#\n].*?) = (.*)$", read("bindings/sql/sqlite/checks/shared.txt"), re.M)
    sized = [(re.sub(r"\b(size_text|size_in|size_pretty)\((\d+)", r"\1(\2::numeric::bytesize", code), answer)
             for code, answer in rows]  # fmt: skip
    sized = [(re.sub(r"^(size_(?:parse|try)\(.*\))$", r"coalesce((\1)::numeric::text, 'NULL')", code), answer)
             for code, answer in sized]  # fmt: skip
    assert len(rows) > 20 and server.wrong([(code, re.escape(answer)) for code, answer in sized]) == []


def test_words_that_are_flags(server):
    """A flag may be given twice. A word that is cut short, or differs from a flag by one character, is not one."""
    rows = [(f"size_parse('1 Kb', '{words}')::numeric", answer) for words, answer in (
        ("ignore-case ignore-case", "1000"), ("ignore-case  binary ignore-case", "1024"), ("binary binary", "128"))]
    for flag in ("ignore-case", "binary", "words"):
        words = [flag[:at] + "x" + flag[at + 1 :] for at in range(len(flag))] + [flag[:-1], flag[1:], flag + "s"]
        words += [flag + space + "binary" for space in "\t\n\r\v\f\xa0,"] + [flag.upper()]
        rows += [(f"size_parse('1', {quoted(word)})", "22023 .*") for word in words]
    assert server.wrong(rows) == []


def test_lines(server, check_drawn):
    """Compares drawn lines with the exact model: sizes and their texts, or SQLSTATE and message."""

    def row(line):
        text, size = line.decode(), size_of(line, "byte")
        expression = f"size_parse(t)::numeric || '|' || t::bytesize FROM (SELECT {quoted(text)} AS t) AS line"
        if not isinstance(size, Rejected):
            return expression, re.escape(f"{size}|{form(size, 'byte')}")
        # The SQLSTATE of a number out of range, or that of an invalid text.
        state = "22003" if size.name == "out of range" else "22P02"
        reason = re.escape(size.message[0].upper() + size.message[1:])
        hint = re.escape(told_hint(line).replace("; hint:", " Hint:"))
        return expression, rf'{state} invalid input syntax for type bytesize: ".*": {reason}( \(.*\))?\.{hint}'

    def wrong(lines):
        usable = [line for line in lines if b"\0" not in line and b"\n" not in line
                  and getattr(size_of(line, "byte"), "name", "") != "not text"]  # fmt: skip
        return usable and server.wrong([row(line) for line in usable])

    check_drawn(some_line, wrong)


# The last words of a message, in a regular expression.
WHERE = r"\((character \d+|at the end of the text)\)$"
OPERATORS = {"add": "+", "subtract": "-", "multiply": "*", "divide": "/"}


def expression_of(row):
    """Returns the call of a test vector in SQL, or `None`: it has no size in bits, no U+0000, and no other format."""
    words, flags = row.words, ", 'ignore-case'" * ("uncased" in row.words)
    if words[1:2] != ["byte"] or "\0" in (row.text or ""):
        return None
    if words[0] == "parse":
        return f"size_parse({quoted(row.text)}{flags})::numeric"
    if words[0] == "parse_binary":
        return f"size_parse({quoted(row.text)}, 'binary{' ignore-case' * ('uncased' in words)}')::numeric"
    if words[0] == "position":
        return f"substring(size_explain({quoted(row.text)}) from '{WHERE}')"
    if words[0] == "compute":
        other = f"{words[4]}::numeric" + "::bytesize" * (words[3] in ("add", "subtract"))
        return f"({words[2]}::numeric::bytesize {OPERATORS[words[3]]} {other})::numeric"
    if words[0] == "says":
        return f"regexp_replace(size_explain({quoted(row.text)}{flags}), ' {WHERE}', '')"
    found = re.fullmatch(r"\{(?::(#?)(?:\.(\d+))?)?\}", words[-1])
    if words[0] != "text" or not found:
        return None
    size, places = f"{words[2]}::numeric::bytesize", found[2]
    more = f", {places}" if places else ""
    if len(words) == 4 and found[1]:
        return f"size_text({size}{more})"
    if not found[1] and words[3] == "in":
        return f"size_in({size}, '{words[4]}'{more})"
    return f"size_pretty({size}, '{words[4]}'{more})" if not found[1] and words[3] == "by" and places else None


def answer_of(row, said):
    """Returns what the extension said as an answer. Of an error it says the SQLSTATE, which is one of two."""
    state = "22003 " if row.answer.startswith("ExceededBounds") else "22P02 "
    if row.answer[0].isalpha() and said.startswith(state):
        return row.answer
    if row.words[0] == "position":
        before = row.text[: int(said.split()[1]) - 1] if said.startswith("character") else row.text.rstrip() or row.text
        return str(len(before.encode())) if said else "none"
    if row.words[0] == "compute":
        return "none" if re.match("22003 |22012 ", said) else said
    return f'"{said}"' if row.words[0] in ("text", "says") else said


def test_vectors(server):
    """Compares each test vector of bytes whose call the extension has."""
    asked = {row: code for row in rows() for code in [expression_of(row)] if code}
    assert {row.words[0] for row in asked} == {"parse", "parse_binary", "position", "compute", "says", "text"}
    got = server.sql(*map(tried, asked.values()))
    check(asked, map(answer_of, asked, got))


def test_random_pairs_beside_numeric(server):
    """Compares comparisons, casts, texts, sums, differences, products and quotients of 200,000 pairs with numeric, and
    comparisons of 5,000 sizes with seven numbers each."""
    got = server.sql(
        "SELECT setseed(0.5);",
        "CREATE TEMP TABLE pairs AS SELECT trunc((random() * 1e15)::numeric * power(10::numeric, (random() * 11)::int))"
        " AS a, trunc((random() * 1e15)::numeric * power(10::numeric, (random() * 11)::int)) AS b,"
        " trunc((random() * 1000)::numeric, (random() * 3)::int) + 0.001 AS n FROM generate_series(1, 200000);",
        "INSERT INTO pairs SELECT a, a, n FROM pairs LIMIT 1000;",
        "INSERT INTO pairs SELECT 0, a, n FROM pairs LIMIT 100; INSERT INTO pairs SELECT a, 0, n FROM pairs LIMIT 100;",
        "SELECT count(*) FROM (SELECT *, a::bytesize AS x, b::bytesize AS y FROM pairs) AS sized WHERE"
        " (x = y) <> (a = b) OR (x <> y) <> (a <> b) OR (x < y) <> (a < b) OR (x <= y) <> (a <= b) OR (x > y) <> (a > b)"
        " OR (x >= y) <> (a >= b) OR x::numeric <> a OR x::text::bytesize <> x OR (x + y)::numeric <> a + b"
        " OR (a >= b AND (x - least(x, y))::numeric <> a - b) OR (x * n)::numeric <> ceil(a * n)"
        " OR (x / n)::numeric <> div(a, n) OR bytesize_cmp(x, y) <> sign(a - b)"
        " OR (y > '0 B' AND x / y <> a / b) OR (x = y AND bytesize_hash(x) <> bytesize_hash(y));",
        "SELECT count(*) FROM (SELECT a, a::bytesize AS x, c FROM (SELECT * FROM pairs LIMIT 5000) AS first,"
        " unnest(ARRAY[a, b, a - 0.5, a + 0.5, -b, a + 1e30, 'NaN']) AS c) AS sized WHERE"
        " (x = c) <> (a = c) OR (x <> c) <> (a <> c) OR (x < c) <> (a < c) OR (x <= c) <> (a <= c)"
        " OR (x > c) <> (a > c) OR (x >= c) <> (a >= c) OR (c = x) <> (c = a) OR (c <> x) <> (c <> a)"
        " OR (c < x) <> (c < a) OR (c <= x) <> (c <= a) OR (c > x) <> (c > a) OR (c >= x) <> (c >= a);",
        "SELECT array_agg(a ORDER BY a) = array_agg(a ORDER BY a::bytesize) FROM pairs;",
        "SELECT count(DISTINCT a) = count(DISTINCT a::bytesize), div(sum(a), count(*)) = avg(a::bytesize)::numeric,"
        " sum(a / 1e8) > 0, max(a) = max(a::bytesize)::numeric FROM pairs;",
        "SELECT count(*) = (SELECT count(*) FROM pairs p JOIN pairs q ON p.a = q.b) FROM pairs p JOIN pairs q"
        " ON p.a::bytesize = q.b::bytesize;",
    )  # fmt: skip
    assert got == ["", "0", "0", "t", "t|t|t|t", "t"]


def test_texts_of_pg_size_pretty(server):
    """Reads what the server prints for 100,000 numbers of all magnitudes, and beside those at which its unit changes:
    exactly the number if that is `bytes`, and else within half of the unit."""
    got = server.sql(
        "SELECT setseed(0.5);",
        "CREATE TEMP TABLE printed AS SELECT n, pg_size_pretty(n) AS t, substring(pg_size_pretty(n) from '[A-Za-z]+')"
        " AS unit FROM (SELECT (floor(random() * 4294967296)::bigint << 31 | floor(random() * 2147483648)::bigint)"
        " >> floor(random() * 63)::int AS n FROM generate_series(1, 100000) UNION ALL"
        " SELECT least(trunc(many * 1024::numeric ^ power) + beside, 9223372036854775807)::bigint FROM"
        " generate_series(0, 5) AS power, unnest(ARRAY[2, 1024, 10239.5, 10240]) AS many,"
        " generate_series(-2, 2) AS beside) AS drawn;",
        "SELECT count(*), count(DISTINCT unit), min(n), max(n) FROM printed;",
        "SELECT n, t FROM (SELECT *, size_parse(t, 'words binary')::numeric AS size, size_parse('1' || unit,"
        " 'words binary')::numeric AS one FROM printed) AS parsed WHERE 2 * abs(size - n) > one - (unit = 'bytes')::int"
        " LIMIT 5;",
    )  # fmt: skip
    assert got == ["", "100120|6|0|9223372036854775807"]


def test_dump_copy_and_logical_decoding(server):
    values = ["0", "1.5 KiB", "9007199254740993", "999999999999999999999999999999", "123456789"]
    make = "CREATE TABLE kept(size bytesize); INSERT INTO kept VALUES " + ", ".join(f"('{value}')" for value in values)
    server.sql("CREATE DATABASE source;", "CREATE DATABASE target;")
    server.sql("CREATE EXTENSION byte_unit;", make + ";", database="source")
    dump = output(server.bin / "pg_dump", "source", env=server.variables)
    server.sql(dump, database="target")
    whole = ["SELECT size, size::numeric AS number FROM kept ORDER BY size;"]
    assert server.sql(*whole, database="target") == server.sql(*whole, database="source")
    file = server.folder / "data/kept.bin"
    server.sql(f"COPY kept TO '{file}' (FORMAT binary); COPY kept FROM '{file}' (FORMAT binary);", database="source")
    assert server.sql("SELECT count(*), count(DISTINCT size) FROM kept;", database="source") == ["10|5"]
    data = file.read_bytes()
    file.write_bytes(data.replace((10**30 - 1).to_bytes(16, "big"), (10**30).to_bytes(16, "big")))
    said = call(server.bin / "psql", "-Xc", f"COPY kept FROM '{file}' (FORMAT binary)", "source", env=server.variables)
    assert "bytesize out of range" in said.stdout
    got = server.sql("SELECT pg_create_logical_replication_slot('slot', 'test_decoding');",
                     "INSERT INTO kept VALUES ('1.5 KiB'); SELECT data FROM pg_logical_slot_get_changes('slot', NULL, NULL);",
                     "SELECT pg_drop_replication_slot('slot');", database="source")  # fmt: skip
    assert "table public.kept: INSERT: size[bytesize]:'1.5 KiB'" in got


def test_workers_agree(server):
    """Aggregates by 0, 1 and 3 workers, and sums of 10^30 or more, are the same."""
    server.sql("CREATE TABLE many AS SELECT (x * 1000003::bigint)::bytesize AS size FROM generate_series(1, 200000) AS x;",
               "CREATE TABLE vast AS SELECT '5 RB'::bytesize AS size FROM generate_series(1, 200000);",
               "ANALYZE many; ANALYZE vast;")  # fmt: skip
    found = []
    for workers in (0, 1, 3):
        set_up = [f"SET max_parallel_workers_per_gather = {workers}; SET parallel_setup_cost = 0; SET jit = off;",
                  "SET parallel_tuple_cost = 0; SET min_parallel_table_scan_size = 0;"]  # fmt: skip
        query = "SELECT sum(size), avg(size), min(size), max(size), count(*) FROM many;"
        plan = server.sql(*set_up, f"EXPLAIN {query}")
        assert any(f"Workers Planned: {workers}" in line for line in plan) == (workers > 0)
        vast = server.sql(*set_up, tried("sum(size) FROM vast"), "SELECT avg(size) FROM vast;")
        found.append(server.sql(*set_up, query) + vast)
    total = sum(x * 1000003 for x in range(1, 200001))
    sizes = [form(size, "byte") for size in (total, total // 200000, 1000003, 200000 * 1000003)]
    assert found[0][0] == "|".join([*sizes, "200000"]) and found == [found[0]] * 3
    assert found[0][1].startswith("22003 bytesize out of range")


def in_encoding(server, encoding, data, *statements):
    """Returns the lines of statements in a database of an encoding, in which a row of `texts` has bytes as its text."""
    name = f"in_{encoding.lower()}_{data.hex()}"
    server.sql(f"CREATE DATABASE {name} ENCODING '{encoding}' TEMPLATE template0;")
    return server.sql("CREATE EXTENSION byte_unit;", TRIED, "CREATE TABLE texts(size text);",
                      f"INSERT INTO texts VALUES (convert_from('\\x{data.hex()}', '{encoding}'));",
                      *statements, database=name)  # fmt: skip


@pytest.mark.parametrize("encoding, data, char", [
    ("UTF8", b"1 K\xc3\xa9", "é"), ("SQL_ASCII", b"1 K\xc3\xa9", "é"), ("LATIN1", b"1 K\xe9", "é"),
    ("WIN1252", b"1 K\x80", "€"), ("WIN1251", b"1 K\xe6", "ж"), ("MULE_INTERNAL", b"1 Ke", "e"),
])  # fmt: skip
def test_encodings(server, encoding, data, char):
    """Names a character that is converted from and to the encoding of the database."""
    got = in_encoding(server, encoding, data, "SET client_encoding = 'UTF8';" * (encoding != "MULE_INTERNAL"),
                      "SELECT size_explain(size) FROM texts;", "SELECT '1.5 KiB'::bytesize;")  # fmt: skip
    reason = f"the character '{char}' is incorrect ('B' or 'b' or no character is expected) (character 4)"
    assert got == [reason, "1.5 KiB"]


@pytest.mark.parametrize("encoding, data", [
    ("SQL_ASCII", b"1 \xe9"), ("WIN1252", b"1 \x81"), ("WIN1252", b"\xc2\x81"), ("WIN1251", b"1 \x98"),
    ("MULE_INTERNAL", b"1 \x81\xe9"), ("SQL_ASCII", b"\xe9" * 100),
])  # fmt: skip
def test_texts_without_utf8(server, encoding, data):
    """A text that has no UTF-8 is not a size, and does not end a statement by an error of its encoding."""
    shown = "".join(chr(byte) if byte < 128 else f"\\x{byte:02x}" for byte in data[:79]) + ".." * (len(data) > 79)
    invalid = f'22P02 invalid input syntax for type bytesize: "{shown}": The text is not UTF-8.'
    answers = {"size_parse(size)": invalid, "size::bytesize": invalid, "size_explain(size)": "the text is not UTF-8",
               "coalesce(size_try(size), '7 B')": "7 B",
               "size_in(0::bytesize, size)": f'22023 "{shown}" is not a unit: The text is not UTF-8.',
               "size_try('0', size)": f'22023 "{shown}" has flags other than ignore-case, binary and words: ',
               "size_pretty('0', size)": f'22023 "{shown}" is not a unit type: binary, decimal or both is expected: ',
               }  # fmt: skip
    got = in_encoding(server, encoding, data, *[f"SELECT tried($$SELECT {call} FROM texts$$);" for call in answers],
                      "ALTER TABLE texts ALTER size TYPE bytesize USING size_try(size);",
                      "SELECT count(*), count(size) FROM texts;")  # fmt: skip
    assert got == [*answers.values(), "1|0"]


def test_long_text_of_another_encoding(server):
    """Each character is longer in UTF-8: of 3 bytes in place of one."""
    got = in_encoding(server, "WIN1252", b"\x80", "UPDATE texts SET size = repeat(size, 3000000);",
                      "SELECT size_explain(size), size_try(size) IS NULL, length(size) FROM texts;")  # fmt: skip
    assert len(got) == 1 and got[0].endswith(" is not a number (character 1)|t|3000000")


def test_compiled_expressions(server):
    """Answers the same where the server compiles expressions with the functions' bitcode inlined, if it can."""
    query = "SELECT sum(size_parse(x || ' KiB') * 2), count(*) FROM generate_series(1, 10000) AS x;"
    settings = "SET jit = on; SET jit_above_cost = 0; SET jit_inline_above_cost = 0; SET jit_optimize_above_cost = 0;"
    compiled = server.sql(settings, query, f"EXPLAIN ANALYZE {query}")
    assert server.sql("SET jit = off;", query) == compiled[:1] == ["102410.24 MB|10000"]
    assert any("Inlining true" in line for line in compiled)


def test_upgrade(server):
    """Updates to a version after this one: the sizes stay, and all belongs to the extension."""
    folder = server.folder / "usr/share/postgresql/15/extension"
    write(folder / f"byte_unit--{VERSION}--9.9.9.sql", "COMMENT ON TYPE bytesize IS 'updated';\n")
    server.sql("CREATE DATABASE updated;")
    # stderr, to which DROP writes a notice, is subprocess.DEVNULL.
    got = server.sql(f"CREATE EXTENSION byte_unit VERSION '{VERSION}'; CREATE TABLE kept AS SELECT '1.5 KiB'::bytesize AS s;",
                     "ALTER EXTENSION byte_unit UPDATE TO '9.9.9';", "SELECT s, obj_description('bytesize'::regtype) FROM kept;",
                     "SELECT extversion FROM pg_extension WHERE extname = 'byte_unit';", "DROP EXTENSION byte_unit CASCADE;",
                     "SELECT count(*) FROM pg_proc WHERE proname ~ '^(size_|bytesize)';", database="updated",
                     stderr=-3)  # fmt: skip
    assert got == ["1.5 KiB|updated", "9.9.9", "0"]


def ended_well(*words, **how):
    """Returns the first word or line that a program prints, or None if it fails."""
    got = call(*words, **how)
    return got.stdout.rstrip("\n") if got.returncode == 0 else None


# The options of the command that the table means.
OF_THE_COMMAND = {"words": "--words", "binary": "--from=iec"}


def test_table_of_the_readme(server, program):
    """Compares what the table in README.md says of numfmt, PostgreSQL, humanfriendly and byte-unit with what they do."""
    need("numfmt", "import humanfriendly")
    other = [DEBIAN_PYTHON, "-c", "import humanfriendly, sys; print(getattr(humanfriendly, sys.argv[1])(eval(sys.argv[2])))"]

    def queried(function, argument):
        return ended_well(server.bin / "psql", "-XAtqc", f"SELECT {function}({argument})", env=server.variables)

    programs = [
        Program(lambda text: ended_well("numfmt", "--from=auto", re.sub(" |B$", "", text)),
                lambda size: ended_well("numfmt", "--to=si", str(size))),
        Program(lambda text: queried("pg_size_bytes", f"'{text}'"),
                lambda size: queried("pg_size_pretty", f"{size}::numeric")),
        Program(lambda text: ended_well(*other, "parse_size", repr(text)),
                lambda size: ended_well(*other, "format_size", repr(size))),
        None,
        Program(lambda text, *options: ended_well(program, "--to=plain", *map(OF_THE_COMMAND.get, options), text),
                lambda size: ended_well(program, str(size))),
    ]
    assert [beside.column(one, at) for at, one in enumerate(programs) if one] == [[]] * 4


def test_sizes_that_others_read_otherwise():
    """README.md says how many sizes with two digits after the point numfmt and humanfriendly do not read as written."""
    need("numfmt", "import humanfriendly")
    sizes = [f"{whole}.{part:02}{prefix}" for whole in range(34) for part in range(1, 100) for prefix in "KMGT"]
    exact = [int(size[:-1].replace(".", "")) * 10 * 1000 ** "KMGT".index(size[-1]) for size in sizes]
    script = "import humanfriendly, sys; [print(humanfriendly.parse_size(line.strip() + 'B')) for line in sys.stdin]"
    counts = []
    for words in (["numfmt", "--from=auto"], [DEBIAN_PYTHON, "-c", script]):
        got = map(int, output(*words, input="\n".join([*sizes, ""])).split())
        counts.append(sum(pair[0] != pair[1] for pair in zip(exact, got, strict=True)))
    said = f"Of the {len(sizes):,} sizes from `0.01 KB` to `33.99 TB` with two digits after the point, `numfmt` reads "
    assert f"{said}{counts[0]} and humanfriendly {counts[1]} otherwise than they are written" in read("README.md")
