"""Calls the extension by Python's sqlite3. The argument is its path, without `.so`."""

import sqlite3
import sys
from concurrent.futures import ThreadPoolExecutor


def opened():
    db = sqlite3.connect(":memory:", check_same_thread=False)
    db.enable_load_extension(True)
    db.load_extension(sys.argv[1])
    return db


db = opened()
assert db.execute("SELECT size_parse(?), size_text(?)", ("1.5 KiB", 1536)).fetchone() == (1536, "1.5 KiB")
assert db.execute("SELECT size_explain(?) IS NULL", ("1\0",)).fetchone() == (0,)
assert db.execute("SELECT size_explain(?)", (b"12",)).fetchone()[0].startswith("a BLOB of length 2 is not a size")
try:
    db.execute("SELECT size_parse(?)", ("12 Kiq",))
    sys.exit("no error")
except sqlite3.OperationalError as error:
    assert str(error).startswith("'12 Kiq' is not a size: the character 'q' is incorrect"), error
db.execute("CREATE TABLE t(q TEXT COLLATE SIZE)")
db.executemany("INSERT INTO t VALUES (?)", [("1 KiB",), ("x",), ("1000",), ("1 KB",)])
assert [row[0] for row in db.execute("SELECT DISTINCT q FROM t ORDER BY q")] == ["1000", "1 KiB", "x"]


def sums(shared):
    """Returns the results of a statement, by the connection that threads share, or by one that this thread opens."""
    db = shared or opened()
    return {db.execute("SELECT size_sum(column1) FROM (VALUES ('1 KiB'), ('1 KB'))").fetchone() for _ in range(300)}


with ThreadPoolExecutor(8) as threads:
    assert set().union(*threads.map(sums, [db, None] * 8)) == {(2024,)}
