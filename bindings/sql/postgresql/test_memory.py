"""Tests the extension without memory, under valgrind, and with means of more rows than a test has."""

import os
import re

import pytest
from byte_unit_dev.fixtures import compiled, need, parsed, path, read
from byte_unit_dev.needs import POSTGRES_H
from byte_unit_dev.postgresql import STATEMENTS, TRIED, tried


def test_errors_leave_no_memory(server):
    """A hundred thousand errors in one statement leave less than a megabyte."""
    loop = ("DO $$ BEGIN FOR i IN 1..%d LOOP BEGIN PERFORM ('1 X' || i)::bytesize; EXCEPTION WHEN OTHERS THEN NULL; END;"
            " END LOOP; END $$;")  # fmt: skip
    used = "SELECT sum(total_bytes) FROM pg_backend_memory_contexts;"
    before, after = server.sql(loop % 1000, used, loop % 100000, used)
    assert int(after) - int(before) < 1 << 20


def test_no_report_of_valgrind(server):
    """Runs the statements of sql/byte_unit.sql in a backend of one user under valgrind: no report names the extension."""
    need("valgrind")
    # One line each, the body of the function too.
    lines = re.sub(r"^(--|\\).*\n", "", STATEMENTS.replace(TRIED, TRIED.replace("\n", " ")), flags=re.M)
    statements = re.sub(r"(?<!;)\n\s*", " ", lines)
    log = server.folder / "data/valgrind"
    words = ["valgrind", "--quiet", f"--log-file={log}", *server.single("UTF8")]
    said = server.by_user(*words, input=statements)
    assert 'max = "4.999 KB"' in said and "wrong = " not in said
    assert "byte_unit" not in log.read_text(encoding="utf-8", errors="replace")


def test_out_of_memory(server):
    """In a backend with 210 MB of address space, a statement that has no memory to convert a text ends by an error, and
    the next one is answered, as is one with long flags, which need none."""
    need("prlimit")
    long = "SELECT size_explain(convert_from(decode(repeat('e9', x), 'hex'), 'LATIN1'))"
    queries = [(long, 20000000), ("SELECT size_try('1', repeat(' ', x)) AS answer", 90000000)]
    after = "SELECT size_parse('1.5 KiB') AS answer;\n"
    asked = "".join(f"{query} FROM generate_series({n}, {n}) AS x;\n{after}" for query, n in queries)
    words = ["prlimit", "--as=210000000", *server.single("LATIN1")]
    # -2 is subprocess.STDOUT: the backend writes errors to stderr.
    said = server.by_user(*words, input=f"CREATE EXTENSION byte_unit;\n{asked}", stderr=-2)
    found = re.findall(r"Failed on request of size (\d+)|^\t 1: answer = (.*?)\t", said, re.M)
    # What the extension asks for: 4 bytes for each byte of LATIN1, and one more.
    assert [size or answer for size, answer in found] == ["80000001", '"1.5 KiB"', '"1 B"', '"1.5 KiB"']


@pytest.fixture(scope="module")
def checked(server, counting_library):
    """Returns what runs statements in a database with the extension, into which checks/checks.c is linked, and which
    writes to the server's log which texts it parses."""
    source, module = path("bindings/sql/postgresql/checks/checks.c"), server.folder / "checks.so"
    wrapped = ["psprintf", *re.findall(r"^WRAPPED\(.*?(\w+), \(", read(source), re.M)]
    objects = [f"{server.extension}/{name}.o" for name in ("text", "number", "order", "mean")]
    words = ["-shared", "-fPIC", "-Wall", "-Wextra", "-I", os.path.dirname(POSTGRES_H), source, *objects]
    links = [f"{counting_library}/libbyte_unit.a", "-Wl,--exclude-libs,ALL", *(f"-Wl,--wrap={name}" for name in wrapped)]
    compiled("gcc", module, *words, *links)
    make = read(f"bindings/sql/postgresql/byte_unit--{read('VERSION').strip()}.sql").partition("\n")[2]
    server.sql("CREATE DATABASE checked;")
    # stderr, to which the server writes notices, is subprocess.DEVNULL.
    server.sql(make.replace("MODULE_PATHNAME", str(module)), TRIED, database="checked", stderr=-3)

    def run(*statements):
        return server.sql(*(statement.replace("MODULE", str(module)) for statement in statements), database="checked")

    return run


def test_mean_of_2_to_40_rows(checked):
    """Their sum is above 2^128, also where a worker hands it on."""
    greatest = "999999999999999999999999999.999 KB"
    got = checked(
        "CREATE FUNCTION add_and_double(internal, bytesize) RETURNS internal AS 'MODULE' LANGUAGE C PARALLEL SAFE;",
        "CREATE AGGREGATE mean(bytesize) (SFUNC = add_and_double, STYPE = internal, COMBINEFUNC = bytesize_avg_combine,"
        " SERIALFUNC = bytesize_avg_serialize, DESERIALFUNC = bytesize_avg_deserialize, FINALFUNC = bytesize_avg,"
        " PARALLEL = SAFE);",
        f"CREATE TABLE vast AS SELECT '{greatest}'::bytesize AS size FROM generate_series(1, 40);",
        "SELECT mean(size) FROM vast;", "SET parallel_setup_cost = 0; SET parallel_tuple_cost = 0;",
        "SET min_parallel_table_scan_size = 0; SET parallel_leader_participation = off;",
        "EXPLAIN (COSTS OFF) SELECT mean(size) FROM vast;", "SELECT mean(size) FROM vast;")  # fmt: skip
    assert got[0] == got[-1] == greatest and "Partial Aggregate" in "".join(got)


# Calls each statement of a table with its first allocation failing, with its second one, and so on, 30 at most, and then
# as it is.
FAILING = """CREATE FUNCTION wrong() RETURNS SETOF text LANGUAGE plpgsql AS $$
DECLARE one record; found text; failed boolean;
BEGIN
    FOR one IN SELECT * FROM calls WHERE call !~ 'tried' LOOP
        FOR n IN 0..30 LOOP
            PERFORM fail_after(n);
            found := tried('SELECT ' || one.call);
            failed := fail_after(-1);
            IF failed AND found = '53200 out of memory: ' THEN
                RETURN NEXT 'failed';
            ELSIF found IS DISTINCT FROM one.answer THEN
                RETURN NEXT one.call || ' with allocation ' || n || ' failing is ' || coalesce(found, 'NULL');
            END IF;
            EXIT WHEN NOT failed;
        END LOOP;
        found := tried('SELECT ' || one.call);
        RETURN NEXT CASE WHEN found IS NOT DISTINCT FROM one.answer THEN 'answered' ELSE one.call || ' afterwards' END;
    END LOOP;
END $$;"""


def test_allocations_that_fail(checked):
    """Each call of sql/byte_unit.sql ends by an error of memory or has its answer, and has it afterwards."""
    calls = re.search(r"^CREATE TABLE calls.*?(?=^SELECT count)", STATEMENTS, re.M | re.S)[0]
    got = checked("CREATE FUNCTION fail_after(integer) RETURNS boolean AS 'MODULE' LANGUAGE C;", calls, FAILING,
                  "SELECT * FROM wrong();")  # fmt: skip
    assert [line for line in got if line not in ("failed", "answered")] == []
    assert got.count("answered") > 40 and got.count("failed") > 200


# Calls, and the number of texts that each parses: what is rejected is parsed twice more, for DETAIL and HINT.
PARSED = {
    "'1 KB'::bytesize": 1, "'1 x'::bytesize": 3, "size_parse('1 KB')": 1, "size_parse('1 x')": 3,
    "size_parse('1 K', 'binary')": 1, "size_parse('1 x', 'binary')": 3, "size_try('1 x')": 1, "size_explain('1 KB')": 1,
    "size_explain('1 x')": 1, "size_in(1::bytesize, 'KiB')": 1, "size_in(1::bytesize, 'k')": 1,
    "size_in(1::bytesize, 'b')": 1, "size_in(1::bytesize, ' B')": 1, "size_in(1::bytesize, 'b', 'ignore-case')": 1,
    "size_in(1::bytesize, ' ')": 1, "size_in(1::bytesize, 'x')": 2, "size_text(1536::bytesize)": 0,
    "size_pretty(1::bytesize, 'both')": 0,
}  # fmt: skip


def test_texts_that_are_parsed(checked, server):
    def count(call):
        before = parsed(read(server.folder / "data/log"))
        checked(tried(call))
        return parsed(read(server.folder / "data/log")) - before

    assert {call: count(call) for call in PARSED} == PARSED
