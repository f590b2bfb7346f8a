"""Draws calls once, and compares what C, Rust, Python, JavaScript, SQLite, PostgreSQL and the command return for each,
to the byte: an option that is not given means the same everywhere. An exact model has the same texts."""

import json
import os
import random
import sqlite3

import pytest
from byte_unit_dev import postgresql
from byte_unit_dev.fixtures import ended, environment, need, output
from byte_unit_dev.model.exact import BITS, SIZE_LIMIT, UNITS, best_unit, largest, value_of
from byte_unit_dev.needs import POSTGRESQL

TYPES = {"binary": "iec", "decimal": "si", "both": "auto"}
PYTHON = """import byte_unit, json, sys
for name, words, options in json.load(sys.stdin):
    print(getattr(byte_unit, name)(*words, **options))"""
JAVASCRIPT = """import * as byteUnit from "./node.js";
import { readFileSync } from "node:fs";
const camel = name => name.replace(/_./g, part => part[1].toUpperCase());
for (const [name, [size, ...words], options] of JSON.parse(readFileSync(0, "utf8"))) {
    const renamed = Object.fromEntries(Object.entries(options).map(([key, value]) => [camel(key), value]));
    console.log(byteUnit[camel(name)](BigInt(size), ...words, renamed));
}"""


def some_call(rng):
    """Returns a call: its name, a size and perhaps a unit, and the options that are given."""
    size = rng.randrange(10 ** rng.randrange(1, 31)) << rng.choice([0, 0, 3, 10, 20])
    name, options = rng.choice(["text", "adjusted_text", "approximate_text", "appropriate_unit"]), {}
    if name != "appropriate_unit" and rng.random() < 0.6:
        options["precision"] = rng.choice([0, 1, 2, 3, 4, 9, 28])
    if name.startswith("appro") and rng.random() < 0.6:
        options["unit_type"] = rng.choice([*TYPES])
    words = [size % SIZE_LIMIT] + [rng.choice(UNITS)] * (name == "adjusted_text")
    return name, words, options


def by_model(name, words, options):
    """Returns the text or unit by the exact model: with the default of each option that is not given."""
    size, unit, precision = words[0], words[-1], options.get("precision")
    if name == "text":
        unit, precision = best_unit(size, "byte", precision=3 if precision is None else precision), None
    if name.startswith("appro"):
        wanted = {"binary": [True], "decimal": [False], "both": [True, False]}[options.get("unit_type", "binary")]
        unit = largest(size, "byte", [one for one in UNITS[2:] if one[-1] == "B" and ("i" in one) in wanted])
        precision = 1 if precision is None else precision
    if name == "appropriate_unit":
        return unit
    value = value_of(size, "byte", unit)
    if precision is None or unit in "bB":
        return f"{value.normalize():f} {unit}"
    return f"{value:.{precision}f} {unit}"


def by_vectors(calls, program):
    """Returns what a runner of the test vectors answers, which takes every option as a format string of Rust."""
    records = []
    for name, words, options in calls:
        places = options.get("precision", 1 if name == "approximate_text" else None)
        place = "" if places is None else f".{places}"
        form = {"text": f"{{:#{place}}}", "adjusted_text": f"in {words[-1]} {{:{place}}}",
                "approximate_text": f"by {options.get('unit_type', 'binary')} {{:{place}}}"}[name]  # fmt: skip
        records.append(f"text byte {words[0]} {form.replace('{:}', '{}')}\0")
    return [line.strip('"') for line in ended(program, input="".join(records).encode())[1].decode().splitlines()]


def in_sql(name, words, options, size):
    """Returns the statement of a call, with the arguments that are given. A precision needs the type before it."""
    more = [f"'{word}'" for word in [*words[1:], *filter(None, [options.get("unit_type")])]]
    if name == "approximate_text" and "precision" in options and not more:
        more = ["'binary'"]
    more += [str(places) for places in [options.get("precision")] if places is not None]
    name = {"text": "size_text", "adjusted_text": "size_in", "approximate_text": "size_pretty"}[name]
    return f"SELECT {name}({', '.join([size, *more])})"


def by_command(calls, program):
    """Returns what the command writes: one run for the sizes of all calls with the same options. `-H` has the type of
    unit and the precision of the calls in which neither is given."""
    groups, texts = {}, {}
    for at, (name, words, options) in enumerate(calls):
        given = [f"-p{places}" for places in [options.get("precision")] if places is not None]
        if name == "adjusted_text":
            given += [f"--to={words[-1]}"]
        if name == "approximate_text":
            unit_type = [f"--to={TYPES[word]}" for word in [options.get("unit_type")] if word]
            given = ["-H", *unit_type, *given]
        groups.setdefault((*given,), []).append(at)
    for given, places in groups.items():
        lines = "".join(f"{calls[at][1][0]}\n" for at in places).encode()
        texts.update(zip(places, ended(program, *given, input=lines)[1].decode().splitlines()))
    return [texts.get(at) for at in range(len(calls))]


@pytest.fixture(scope="module")
def drawn(seed):
    """10,000 calls, each with what the exact model returns."""
    calls = [some_call(random.Random(f"{seed} {at}")) for at in range(10_000)]
    return [(call, by_model(*call)) for call in calls]


def check(drawn, answers, *, units=False):
    """Checks what `answers` returns for the calls. Without `units` the language has no call for a unit alone, or one in
    which every argument has to be given."""
    rows = [row for row in drawn if units or row[0][0] != "appropriate_unit"]
    got = answers([call for call, _ in rows])
    assert [row for row in zip(*zip(*rows), got, strict=True) if row[1] != row[2]][:9] == []


def test_c(drawn, runner_in_c):
    check(drawn, lambda calls: by_vectors(calls, runner_in_c))


def test_rust(drawn, cargo, rust_package):
    cargo.output(rust_package, "build", "--example", "vectors")
    check(drawn, lambda calls: by_vectors(calls, os.path.join(cargo.target, "debug/examples/vectors")))


def test_python(drawn, python):
    def answers(calls):
        return output(python.program, "-c", PYTHON, input=json.dumps(calls), env=environment()).splitlines()

    check(drawn, answers, units=True)


def test_javascript(drawn, javascript):
    def answers(calls):
        rows = [(name, [str(words[0]), *words[1:]], options) for name, words, options in calls]
        words = ["node", "--input-type=module", "-e", JAVASCRIPT]
        return output(*words, input=json.dumps(rows), cwd=javascript).splitlines()

    check(drawn, answers, units=True)


def test_sqlite(drawn, library):
    need("sqlite3ext.h")
    with sqlite3.connect(":memory:") as db:
        db.enable_load_extension(True)
        db.load_extension(f"{library}/sqlite3/byte_unit")
        check(drawn, lambda calls: [db.execute(in_sql(*call, f"'{call[1][0]}'")).fetchone()[0] for call in calls])


def test_postgresql(drawn, library):
    need(*POSTGRESQL)
    with postgresql.running(library) as server:
        size = "{}::numeric::bytesize".format
        check(drawn, lambda calls: server.sql(*(f"{in_sql(*call, size(call[1][0]))};" for call in calls)))


def test_command(drawn, program_of):
    check(drawn, lambda calls: by_command(calls, program_of("byte_unit_cli")))
