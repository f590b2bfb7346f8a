"""Tests what the extension tells the server of its functions, operators, classes and casts, beside the server's own for
numeric and bigint, since plans, indexes and partitions depend on it; and each function and operator with NULL."""

import itertools
import re

import pytest
from byte_unit_dev.fixtures import need, output
from byte_unit_dev.postgresql import quoted, tried

# The functions that belong to the extension, as rows of pg_proc with their language.
FUNCTIONS = ("(SELECT p.*, lanname FROM pg_proc p JOIN pg_language l ON l.oid = prolang JOIN pg_depend ON objid = p.oid"
             " AND classid = 'pg_proc'::regclass JOIN pg_extension e ON e.oid = refobjid AND extname = 'byte_unit')")
# Of the functions in C these get NULL: the options of a call cannot be NULL, and the state of avg is NULL at first.
NOT_STRICT = r"size_\w+|bytesize_avg(_add|_combine)?"
# These tell nothing of a size but their result, so that under row security, too, they are called by an index.
LEAKPROOF = "bytesize_(eq|ne|lt|le|gt|ge|cmp|hash|hash_extended)"
COMPARISONS, CALCULATIONS = ("=", "<>", "<", "<=", ">", ">="), ("+", "-", "*", "/")


def test_functions(server):
    """Indexes and workers may call each function. In C only some get NULL, and comparisons and hashes are leakproof."""
    got = server.sql(f"SELECT count(*) FROM {FUNCTIONS} AS f;", f"SELECT oid::regprocedure FROM {FUNCTIONS} AS f WHERE"
                     " provolatile <> 'i' OR proparallel <> 's'"
                     f" OR proisstrict <> (lanname = 'c' AND proname !~ '^({NOT_STRICT})$')"
                     f" OR proleakproof <> (lanname = 'c' AND proname ~ '^{LEAKPROOF}$');")  # fmt: skip
    assert int(got[0]) > 50 and got[1:] == []


def test_operators(server):
    """Each operator has the commutator, negator, estimators, HASHES and MERGES of numeric's, but for comparisons with a
    number, which have none: the planner puts their bodies in their place."""
    found = server.sql("SELECT oprname, oprleft::regtype, oprright::regtype, coalesce(oprcom::regoperator::text, '0'),"
                       " oprnegate::regoperator, oprrest, oprjoin, oprcanhash, oprcanmerge FROM pg_operator WHERE"
                       " 'bytesize'::regtype IN (oprleft, oprright)"
                       " OR oprleft = 'numeric'::regtype AND oprright = 'numeric'::regtype;")  # fmt: skip
    rows = {tuple(line.split("|")[:3]): line.split("|")[3:] for line in found}
    wanted = {}
    for name, left, right in rows:
        commutator, negator, *others = rows[name, "numeric", "numeric"]
        wanted[name, left, right] = [commutator.replace("numeric,numeric", f"{right},{left}"),
                                     negator.replace("numeric,numeric", f"{left},{right}"), *others]  # fmt: skip
        if name in COMPARISONS and left != right:
            wanted[name, left, right] = ["0", "0", "-", "-", "f", "f"]
    assert rows == wanted
    own = [key[0] for key in rows if "bytesize" in key]
    assert sorted(own) == sorted([*COMPARISONS * 3, "+", "-", "*", "*", "/", "/"])


def test_operator_classes(server):
    """Each class has the operators of bigint's by strategy, and its support functions by number, but for in_range: a
    window has no frame by a RANGE of sizes."""
    of = ("JOIN pg_am a ON a.oid = opcmethod JOIN {0} ON {1}family = opcfamily AND {1}lefttype = opcintype AND"
          " {1}righttype = opcintype WHERE opcdefault AND opcintype = '{2}'::regtype")  # fmt: skip
    own, server_own = (server.sql(
        f"SELECT amname, amprocnum::text FROM pg_opclass {of.format('pg_amproc', 'amproc', name)} UNION ALL"
        " SELECT amname, concat_ws(' ', amopstrategy, amoppurpose, oprname) FROM pg_opclass"
        f" {of.format('(pg_amop JOIN pg_operator o ON o.oid = amopopr)', 'amop', name)};")
        for name in ("bytesize", "bigint"))  # fmt: skip
    assert len(own) > 15 and sorted([*own, "btree|3"]) == sorted(server_own)


def test_aggregates(server):
    """min and max can be answered by an index, and each aggregate by workers, as numeric's are."""
    got = server.sql(*(f"SELECT p.proname, proparallel, oprname, aggcombinefn <> 0 FROM pg_aggregate JOIN pg_proc p ON"
                       " p.oid = aggfnoid LEFT JOIN pg_operator o ON o.oid = aggsortop WHERE"
                       f" proname IN ('min', 'max', 'sum', 'avg') AND proargtypes[0] = '{name}'::regtype ORDER BY 1;"
                       for name in ("numeric", "bytesize")))  # fmt: skip
    assert len(got) == 8 and got[:4] == got[4:]


# How a value is cast; each other pair of these types is not.
CASTS = {**{(number, "bytesize"): "assignment" for number in ("smallint", "integer", "bigint")},
         ("numeric", "bytesize"): "explicit", ("text", "bytesize"): "explicit", ("bytesize", "integer"): "explicit",
         ("bytesize", "bigint"): "explicit", ("bytesize", "numeric"): "assignment",
         ("bytesize", "text"): "assignment"}  # fmt: skip
OTHERS = ["smallint", "integer", "bigint", "numeric", "real", "double precision", "text", "boolean"]


def test_casts(server):
    """A value is cast as an argument, by INSERT, or only where CAST is written."""
    wants = [f"CREATE FUNCTION pg_temp.wants_{at}({name}) RETURNS {name} LANGUAGE SQL RETURN $1;" for at, name in
             enumerate(["bytesize", *OTHERS])]  # fmt: skip
    columns = ", ".join(f"c{at} {name}" for at, name in enumerate(["bytesize", *OTHERS]))
    pairs = [("bytesize", name) for name in OTHERS] + [(name, "bytesize") for name in OTHERS]
    asked, seen = [], {}
    for source, target in pairs:
        at, value = ["bytesize", *OTHERS].index(target), f"CAST('1' AS {source})"
        insert = quoted(f"INSERT INTO assigned_to(c{at}) VALUES ({value}) RETURNING 1")
        calls = [tried(f"pg_temp.wants_{at}({value})"), tried(f"CAST({value} AS {target})")]
        asked += [*calls, f"SELECT tried({insert});"]
    got = server.sql(*wants, f"CREATE TEMP TABLE assigned_to({columns});", *asked)
    for pair, implicit, explicit, assigned in zip(pairs, *(got[at::3] for at in range(3)), strict=True):
        fails = [implicit.startswith("42883"), assigned.startswith("42804"), explicit.startswith("42846")]
        seen[pair] = ["implicit", "assignment", "explicit", "none"][fails.index(False) if False in fails else 3]
    assert seen == {pair: CASTS.get(pair, "none") for pair in pairs}


def test_no_number_of_floating_point(server):
    """No operator takes one, which may have been rounded."""
    pairs = [("'1 KB'::bytesize", f"1.5::{name}") for name in ("real", "double precision")]
    rows = [(f"{left} {name} {right}", "42883 .*") for name in COMPARISONS + CALCULATIONS
            for pair in pairs for left, right in (pair, pair[::-1])]  # fmt: skip
    assert server.wrong(rows) == []


# A value for each type of argument, and for arguments by name; and a wrong one for each option, by its name.
SAMPLES = {"bytesize": "'1 KB'::bytesize", "text": "'1 KB'", "numeric": "3::numeric", "bigint": "3::bigint",
           "smallint": "3::smallint", "integer": "3", "cstring": "'3'::cstring", "unit": "'KiB'", "unit_type": "'both'",
           "flags": "'ignore-case'"}  # fmt: skip
WRONG = {"flags": "'bogus'", "unit_type": "'bogus'", "precision": "-1", "places": "70000"}


def calls_of(server):
    """Yields each function and operator that a statement can call, as a format, and its arguments by name or type."""
    functions = server.sql(
        "SELECT proname, array_to_string(proargtypes::regtype[], ','), array_to_string(proargnames, ',')"
        f" FROM {FUNCTIONS} AS f WHERE prokind = 'f' AND 'internal'::regtype <> ALL(proargtypes);")  # fmt: skip
    for name, types, names in (line.split("|") for line in functions):
        kinds = types.split(",")
        arguments = [own or kind for own, kind in itertools.zip_longest(names.split(",") if names else [], kinds)]
        yield f'"{name}"({", ".join(["{}"] * len(kinds))})', arguments
    operators = server.sql("SELECT oprname, oprleft::regtype, oprright::regtype FROM pg_operator"
                           " WHERE 'bytesize'::regtype IN (oprleft, oprright);")  # fmt: skip
    for name, *arguments in (line.split("|") for line in operators):
        yield f"{{}} {name} {{}}", arguments


def test_null(server):
    """NULL in each place gives NULL, or for an option its error, and no end of the server's process. A wrong option is
    an error even if all arguments that are none are NULL."""
    rows, found = [], list(calls_of(server))
    for form, arguments in found:
        values = [SAMPLES.get(kind, "3") for kind in arguments]
        none = [f"NULL::{kind}" if kind in SAMPLES and kind not in ("unit", *WRONG) else "NULL" for kind in arguments]
        empty = [values[at] if kind in WRONG else none[at] for at, kind in enumerate(arguments)]
        rows.append((f"({form.format(*values)}) IS NULL", "true|false"))
        for at, kind in enumerate(arguments):
            one = form.format(*values[:at], none[at], *values[at + 1 :])
            rows.append((f"coalesce(({one})::text, '-')", "22004 .* cannot be NULL: " if kind in WRONG else "-"))
            if kind in WRONG:
                rows.append((form.format(*empty[:at], WRONG[kind], *empty[at + 1 :]), "22023 .*"))
    assert len(found) > 60 and server.wrong(rows) == []
    aggregates = ", ".join(f"{name}(size) IS NULL" for name in ("min", "max", "sum", "avg"))
    assert server.sql(f"SELECT {aggregates} FROM (VALUES (NULL::bytesize), (NULL)) AS t(size);") == ["t|t|t|t"]


def test_arguments_are_kept(server):
    """No call changes the sizes in the row that it gets, as sum(bytesize) changes its state."""
    calls = [form.format(*("size" if kind == "bytesize" else SAMPLES.get(kind, "3") for kind in arguments))
             for form, arguments in calls_of(server)]  # fmt: skip
    calls += [f"{name}(size)" for name in ("min", "max", "sum", "avg")]
    got = server.sql("CREATE TABLE kept AS SELECT '1 KB'::bytesize AS size;",
                     *(tried(f"{call} FROM kept") + " SELECT size FROM kept;" for call in calls))  # fmt: skip
    assert [call for call, size in zip(calls, got[1::2], strict=True) if size != "1 KB"] == []


def test_no_superuser(server):
    """A role with CREATE on the database alone creates the extension, and uses it."""
    server.sql("CREATE ROLE plain LOGIN;", "CREATE DATABASE plain;", "GRANT CREATE ON DATABASE plain TO plain;")
    words = ["-XAtqU", "plain", "-c", "CREATE EXTENSION byte_unit", "-c", "SELECT '1.5 KiB'::bytesize", "plain"]
    assert output(server.bin / "psql", *words, env=server.variables) == "1.5 KiB\n"


@pytest.fixture(scope="module")
def joined(server):
    server.sql("CREATE TABLE stored AS SELECT (x * 7 % 1000)::bytesize AS size FROM generate_series(1, 5000) AS x;",
               "CREATE INDEX ON stored(size);", "CREATE TABLE given AS SELECT generate_series(5, 5000, 5) AS bytes;",
               "ANALYZE stored;", "ANALYZE given;")  # fmt: skip


@pytest.mark.parametrize("kept, node", [
    ("hashjoin", "Hash Join"), ("mergejoin", "Merge Join"),
    ("nestloop", "Index Cond: (size = (given.bytes)::bytesize)"),
])  # fmt: skip
def test_joins(server, joined, kept, node):
    """A hash, a merge or an index serves a join by sizes, and the planner knows how many rows it has."""
    query = "SELECT * FROM stored JOIN given ON stored.size = given.bytes::bytesize"
    set_up = [f"SET enable_{name} = {name == kept};" for name in ("hashjoin", "mergejoin", "nestloop")]
    plan = "\n".join(server.sql(*set_up, f"EXPLAIN {query};"))
    assert node in plan and 500 < int(re.search(r"rows=(\d+)", plan)[1]) < 10000, plan
    assert server.sql(*set_up, f"SELECT count(*), sum(size) FROM ({query}) AS found;") == ["995|497.5 KB"]


def test_groups(server, joined):
    query = "SELECT size, count(*) FROM stored GROUP BY size"
    assert "HashAggregate" in "".join(server.sql("SET enable_sort = off;", f"EXPLAIN {query};"))
    assert server.sql(f"SELECT count(*), sum(count) FROM ({query}) AS groups;") == ["1000|5000"]


def test_extremes_by_an_index(server, joined):
    plan = server.sql("EXPLAIN (COSTS OFF) SELECT min(size), max(size) FROM stored;")
    assert sum("Index Only Scan" in line for line in plan) == 2, plan


def test_partitions_by_hash(server):
    """Sizes are spread over partitions, and one that is asked for is looked for in one."""
    parts = [f"CREATE TABLE part{at} PARTITION OF hashed FOR VALUES WITH (MODULUS 4, REMAINDER {at});"
             for at in range(4)]  # fmt: skip
    got = server.sql("CREATE TABLE hashed(size bytesize) PARTITION BY HASH (size);", *parts,
                     "INSERT INTO hashed SELECT x::bytesize FROM generate_series(1, 4000) AS x;",
                     "SELECT count(*) > 500 FROM hashed GROUP BY tableoid;",
                     "SELECT count(*) FROM hashed WHERE size = '1 KB';",
                     "EXPLAIN (COSTS OFF) SELECT FROM hashed WHERE size = '1 KB';")  # fmt: skip
    assert got[:5] == ["t"] * 4 + ["1"] and "".join(got[5:]).count("Scan on part") == 1


def test_hashes(server):
    """A hash depends on all of the size, and one by a seed on the seed. By 0 it ends with the bits of that without."""
    sizes = "generate_series(1, 1000) AS x, unnest(ARRAY[x, x * 18446744073709551616, x * 4294967296]) AS n"
    got = server.sql("SELECT count(DISTINCT bytesize_hash(s)), count(DISTINCT bytesize_hash_extended(s, 1)),"
                     " count(DISTINCT bytesize_hash_extended(s, 2) # bytesize_hash_extended(s, 1)),"
                     " bool_and(bytesize_hash_extended(s, 0)::bit(32) = bytesize_hash(s)::bit(32))"
                     f" FROM (SELECT n::bytesize AS s FROM {sizes}) AS sized;")  # fmt: skip
    assert got == ["3000|3000|3000|t"]


def test_deduplication(server):
    got = server.sql("CREATE TABLE same AS SELECT '1 KB'::bytesize AS size FROM generate_series(1, 20000);",
                     "CREATE INDEX short ON same(size);",
                     "CREATE INDEX long ON same(size) WITH (deduplicate_items = off);",
                     "SELECT pg_relation_size('short') * 3 < pg_relation_size('long');")  # fmt: skip
    assert got == ["t"]


def test_change_of_a_column(server):
    """ALTER TABLE rewrites the table, which is locked until the transaction ends."""
    got = server.sql("CREATE TABLE changed AS SELECT '1 KB'::text AS size; BEGIN;",
                     r"SELECT pg_relation_filenode('changed') AS before \gset",
                     "ALTER TABLE changed ALTER size TYPE bytesize USING size_try(size);",
                     "SELECT pg_relation_filenode('changed') <> :before, count(*) FROM pg_locks WHERE"
                     " relation = 'changed'::regclass AND mode = 'AccessExclusiveLock'; COMMIT;")  # fmt: skip
    assert got == ["t|1"]


def test_symbols(server):
    """The module exports what the server calls, and none of the library's symbols."""
    need("nm")
    calls = server.sql(f"SELECT DISTINCT prosrc FROM {FUNCTIONS} AS f WHERE lanname = 'c';")
    found = output("nm", "-D", "--defined-only", f"{server.extension}/byte_unit.so").split()[2::3]
    wanted = {*calls, *(f"pg_finfo_{name}" for name in calls)}
    assert wanted <= {*found} <= wanted | {"Pg_magic_func", "bytesize_digits"}


def test_uninstall(server, tmp_path):
    """It removes each file that `install` has put below DESTDIR."""
    server.make("install", f"DESTDIR={tmp_path}")
    assert {"byte_unit.so", "byte_unit.control"} <= {file.name for file in tmp_path.rglob("*")}
    server.make("uninstall", f"DESTDIR={tmp_path}")
    assert [file for file in tmp_path.rglob("*") if file.is_file()] == []
