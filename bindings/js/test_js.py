"""Tests the calls of the package for JavaScript in Node."""

import json
import shutil
from operator import mul
from pathlib import Path

import pytest
from byte_unit_dev.fixtures import output, read

# The calls that the package exports.
CALLS = "parse, parseUnit, parseMany, explain, explainUnit, text, adjustedText, approximateText, appropriateUnit"


@pytest.fixture(scope="module", params=["the newest", "Debian 12's"])
def each_node(request, javascript):
    """The words that run a Node, and the folder where it finds the package."""
    if request.param == "the newest":
        return ["node"], javascript
    root = request.getfixturevalue("unpacked")
    shutil.copytree(javascript, f"{root}/package", dirs_exist_ok=True)
    return ["env", "--unset=NODE_EXTRA_CA_CERTS", "chroot", root, "/usr/bin/node"], Path("/package")


@pytest.mark.parametrize("kind", ["byte", "bit"])
def test_lines(each_node, check_runner, kind):
    node, package = each_node
    check_runner([*node, package / "checks/vectors.js"], kind, bytes_=False)


def script_of(package, codes, end):
    """Returns a module that finds what expressions of the package's calls are, or what their promises become, or their
    errors, in order, and passes it to `end` as JSON. A BigInt has `n` after its digits; an error is its name and its
    message."""
    return (f"import * as byteUnit from {json.dumps(package)};\n"
            f"const {{ {CALLS} }} = byteUnit, found = [];\n"
            f"for (const call of [{', '.join(f'async () => ({code})' for code in codes)}])\n"
            "try { found.push(await call()); } catch (error) { found.push(`${error.name}: ${error.message}`); }\n"
            f"{end}(JSON.stringify(found, (_, value) => typeof value === 'bigint' ? `${{value}}n` : value));\n")  # fmt: skip


def outcomes(javascript, codes, node=("node",)):
    """Returns the outcomes of expressions in one process of Node. `place` is where the package is."""
    script = f"const place = {json.dumps(javascript.as_uri())};\n" + script_of(f"{javascript}/node.js", codes, "console.log")
    return json.loads(output(*node, "--input-type=module", "-e", script))


def evaluated(javascript, code):
    """Returns the outcome of one expression."""
    return outcomes(javascript, [code])[0]


def check(javascript, rows, **node):
    """Checks the outcomes of expressions."""
    codes, wanted = zip(*rows)
    assert [row for row in zip(codes, wanted, outcomes(javascript, codes, **node)) if row[1] != row[2]] == []


ROWS = [
    ("parse('10m', { binary: true, ignoreCase: true })", "10485760n"), ("parse('1 Kb', { bits: true })", "1000n"),
    ("parse('')", "SizeError: no value can be found (at the end of the text)"), ("parse(1)", "TypeError: 1 is no string"),
    *[(f"parse({value})", "TypeError: an object is no string")
      for value in ("Object.create(null)", "{ toString() { throw new Error('theirs'); } }", "[]", "() => 1")],
    ("parse('1', { ignorecase: true })", "TypeError: ignorecase is no option of this call"),
    ("parse('1', { bits: 'no' })", 'TypeError: bits is "no": true or false is expected'),
    ("parseUnit('Kx')",
     "SizeError: the character 'x' is incorrect ('B' or 'b' or no character is expected) (character 2)"),
    ("parse('1Kx', { ignoreCase: true })",
     "SizeError: the character 'x' is incorrect ('B' or no character is expected) (character 3)"),
    ("parseUnit('kib')", "Kib"), ("parseUnit('k', { bits: true })", "Kb"),
    ("byteUnit.version", sum(map(mul, map(int, read("VERSION").split(".")), (10**6, 10**3, 1)))),
    ("byteUnit.UNITS.length", 38), *[(f"Object.isFrozen(byteUnit.{names})", True) for names in ("UNITS", "CODES")],
    ("explain('1 KB')", None), ("explainUnit('KB')", None), ("explainUnit('k', { bits: true })", None),
    ("explainUnit('x').startsWith(\"the character 'x'\")", True),
    ("explain('1😀x').slice(-14)", " (character 2)"), ("explainUnit('K😀').slice(-14)", " (character 2)"),
    ("explain('1000 RB')", "the value 1000 exceeds the valid range"),
    ("text(10n ** 30n)", f"RangeError: {10**30} is no size: it is negative, or 10^30 or more"),
    *[(f"text({zero})", "0 B") for zero in ("0", "-0", "0n")], ("text(2n ** 64n + 1n)", "18446744073709551.617 KB"),
    ("text(2 ** 53 - 1)", "9007199254740.991 KB"), ("text(2 ** 32)", "4 GiB"), ("text(2n ** 64n)", "16 EiB"),
    ("text(12345678901234567890n)", "12345678901234567.89 KB"),
    *[(f"parse('{2**power + low}')", f"{2**power + low}n") for power in (31, 32, 63, 64, 95, 96) for low in (0, 1)],
    # Strings of 63 to 65 characters: in ASCII, or with a space beyond it at either end.
    *[(f"parse('{text}')", "9n") for length in (63, 64, 65) for text in (
        f"{9:0{length}}", f"\u3000{9:0{length - 1}}", f"{9:0{length - 1}}\u3000")],
    ("text(1, { valueOf: undefined })", "TypeError: valueOf is no option of this call"),
    *[(f"text({size})", f"TypeError: {value} is no BigInt, and no integer that a number holds exactly")
      for size, value in (("1.5", "1.5"), ("2 ** 53", 2**53), ("-(2 ** 53)", -(2**53)), ("'1'", '"1"'))],
    *[(f"text({size})", "RangeError: -1 is no size: it is negative, or 10^30 or more") for size in ("-1", "-1n")],
    ("text(1, { precision: -1 })", "RangeError: precision is -1: an integer from 0 to 65535 is expected"),
    ("text(1, { precision: 1.5 })", "RangeError: precision is 1.5: an integer from 0 to 65535 is expected"),
    ("text(1, { precision: 65536 })", "RangeError: precision is 65536: an integer from 0 to 65535 is expected"),
    *[(f"text(1, {{ sign: '{sign}' }})", f'RangeError: sign is "{sign}": one of plus, minus is expected')
      for sign in ("both", "constructor")],
    *[(f"text(1, {{ width: {width}, align: 'right' }})", "1 B".rjust(width)) for width in (256, 257)],
    ("text(1536, { sign: 'minus' })", "1.5KiB"), ("text(1536, { sign: 'plus', alternate: false })", "+1536"),
    *[(f"text(5, {{ alternate: false, width: 4, align: '{align}' }})", f"{5:{mark}4}")
      for align, mark in (("left", "<"), ("center", "^"), ("right", ">"))],
    ("approximateText(1000)", "1000 B"), ("adjustedText(1536, 'KiB', { precision: 0 })", "2 KiB"),
    *[(f"approximateText({size}, {{ unitType: '{kind}' }})", text) for size, kind, text in (
        (1536, "both", "1.5 KiB"), (1536, "decimal", "1.5 KB"), (1000, "both", "1.0 KB"), (1000, "binary", "1000 B"))],
    *[(f"(() => {{ try {{ parse('{text}'); }} catch (e) {{ return e.position; }} }})()", position)
      for text, position in (("\u00a0\u00a0\u00a0x", 3), ("\u3000x", 1))],
    ("adjustedText(1, 'KiB', { precision: 65535 }).length", 65541),
    ("adjustedText(1, 'kib')", 'RangeError: "kib" is no name of a unit, such as KiB or MB'),
    ("adjustedText(1, 5)", "TypeError: 5 is no string"), ("adjustedText(9, 'b')", "72 b"),
    ("parseMany([])", {"sizes": [], "codes": []}),
    ("parseMany(new Proxy([], { get: (of, name) => name === 'length' ? '0' : of[name] }))", {"sizes": [], "codes": []}),
    ("parseMany(['1 KB', '', 'x', '1e3'])", {"sizes": ["1000n", None, None, None],
                                             "codes": ["ok", "no_value", "not_number", "unit"]}),
    ("(() => { try { parse('é 1'); } catch (e) { return [e.code, e.character, e.position, e.text]; } })()",
     ["not_number", "é", 0, "é 1"]),
    ("(() => { try { parse('1 K😀B'); } catch (e) { return [e.character, e.position, e.expected, e.text]; } })()",
     ["😀", 3, "Bb", "1 K😀B"]),
    ("['1 x', '1 bix'].map(text => { try { parse(text); } catch (e) { return e.alsoExpectNoCharacter; } })", [True, False]),
    ("(() => { try { parse('1000 RB'); } catch (e) { return [e.code, e.position]; } })()", ["exceeded_bounds", None]),
    *[(call % f"'{text}', {{ words: true, {options} }}", wanted) for text, options, size in (
        ("5 bytes", "", 5), ("5bytes", "", 5), ("10 MegaBytes", "", 10**7), ("3 kibibits", "", 384), ("20 octets", "", 20),
        ("3 kibibits", "bits: true", 3072), ("64 KBytes", "binary: true", 65536))
      for call, wanted in (("parse(%s)", f"{size}n"), ("explain(%s)", None),
                           ("((one, how) => parseMany([one, ''], how).sizes)(%s)", [f"{size}n", None]))],
    ("[...parseMany(['5 bytes', ''], { typed: true, words: true }).sizes]", ["5n", "0n"]),
    *[(f"[explain('{text}', {{ words: true }}) === explain('{text}'), explain('{text}') === null]", [True, False])
      for text in ("5 byte s", "5 b\u00fftes")],
    *[(f"(() => {{ try {{ {call}; }} catch (e) {{ return e.hint; }} }})()", hint) for call, hint in (
        ("parse('5 bytes')", "write 'B', or read it with the option 'words'"), ("parse('2 gigs')", "write 'GB'"),
        ("parse('1 Mbps')", "a size has no rate: leave out what it is per second"), ("parse('-1')", "a size is not negative"),
        ("parse('1,024')", "digits are not grouped, and the point is '.'"),
        ("parse('.5')", "a size begins with a number as in '12' or '1.5'"),
        *[(call, None) for call in ("parse('5 KBx')", "parse('1000 RB')", "parse('5 b\u00ffte')", "parse('5\\ud800')",
                                    "parseUnit('gigs')", "parse('1000 ronnabytes', { words: true })",
                                    "throw new byteUnit.SizeError('theirs')")])],
    ("parse('0'.repeat(1000000) + '1')", "1n"), ("parseMany(Array(100000).fill('1.5 KiB')).sizes.length", 100000),
]  # fmt: skip


def test_calls(each_node):
    node, package = each_node
    check(package, ROWS, node=node)


def test_options_of_another_type(javascript):
    """They are a TypeError, of which the message shows the value."""
    check(javascript, [(call.replace("{}", options), error) for call, options, error in (
        *[("text(1, {})", f"{{ alternate: {value} }}", f"TypeError: alternate is {value}: true or false is expected")
          for value in ('"no"', "0", "null")],
        ("text(1, {})", '{ precision: "2" }', 'TypeError: precision is "2": an integer from 0 to 65535 is expected'),
        ("text(1, {})", "{ width: 2n }", "TypeError: width is 2n: an integer from 0 to 65535 is expected"),
        ("text(1, {})", "{ sign: 1 }", "TypeError: sign is 1: one of plus, minus is expected"),
        ("text(1, {})", "{ align: true }", "TypeError: align is true: one of left, center, right is expected"),
        *[(f"{call}(1, {{}})", options, error) for call in ("approximateText", "appropriateUnit") for options, error in (
            ("{ unitType: null }", "TypeError: unitType is null: one of binary, decimal, both is expected"),
            ("{ type: 'decimal' }", "TypeError: type is no option of this call"))],
        *[(call, value, f"TypeError: {value} is no object with options") for call in ("parse('1', {})", "text(1, {})")
          for value in ("true", "null", '"b"')],
    )])  # fmt: skip


def test_options_that_are_undefined(javascript):
    """They are as not given."""
    undefined = lambda names: "{ %s }" % ": undefined, ".join([*names.split(), ""])
    check(javascript, [(call.replace("{}", undefined(names)), text) for call, names, text in (
        ("text(1536, {})", "alternate bits precision width sign align", "1.5 KiB"),
        ("adjustedText(1536, 'KiB', {})", "alternate bits precision width sign align", "1.5 KiB"),
        ("approximateText(1536, {})", "alternate bits precision width sign align unitType", "1.5 KiB"),
        ("appropriateUnit(1536, {})", "bits unitType", "KiB"), ("parse('10', {})", "bits ignoreCase binary words", "10n"),
    )])  # fmt: skip


# Calls with OPTIONS, each with the names that it takes; and for each name values, some of which would change a result.
CALLS_WITH_OPTIONS = {
    "parse('1 Kb', OPTIONS)": "bits ignoreCase binary words",
    "parseMany(['1 kb', 'x'], OPTIONS).sizes": "bits ignoreCase binary words typed",
    "explain('200 RB', OPTIONS)": "bits ignoreCase binary words", "explainUnit('Kx', OPTIONS)": "bits ignoreCase",
    "parseUnit('k', OPTIONS)": "bits ignoreCase", "text(1536, OPTIONS)": "bits precision width sign align alternate",
    "adjustedText(1537, 'KiB', OPTIONS)": "bits precision width sign align alternate",
    "approximateText(1280, OPTIONS)": "bits precision width sign align alternate unitType",
    "appropriateUnit(1000, OPTIONS)": "bits unitType",
}  # fmt: skip
VALUES = {**dict.fromkeys(["bits", "ignoreCase", "binary", "words", "typed", "alternate"], "true, false, 1, 7"),
          "precision": "0, 70000, 'x'", "width": "30, 70000", "sign": "'minus', 2, 7", "align": "'right', 3, 7",
          "unitType": "'decimal', 1, 7"}  # fmt: skip
# What gives a call an object that has or inherits `bits`, or none; RESULT if it is taken as `{ bits: true }`.
OBJECTS = {
    "{ bits: true }": True, "{ __proto__: null, bits: true }": True, "Object.freeze({ bits: true })": True,
    "new Proxy({ bits: true }, {})": True, "{ get bits() { return true; } }": True,
    "Object.defineProperty({}, 'bits', { value: true })": True, "vm.runInNewContext('({ bits: true })')": True,
    "vm.runInNewContext('({ __proto__: null, bits: true })')": True, "{ bits: true, [Symbol('s')]: 1 }": True,
    "new (class { bits = true; })()": False, "new (class { get bits() { return true; } })()": False,
    "new (class extends null { constructor() { return Object.create(new.target.prototype); } })()": False,
    "Object.create({ bits: true })": False, "Object.create({ __proto__: null, bits: true })": False,
    "Object.create(Object.create(null))": False, "new Map([['bits', true]])": False, "new Proxy(new Map(), {})": False,
    "[]": False, "new Date()": False, "vm.runInNewContext('new Map()')": False,
    "vm.runInNewContext('Object.create({ bits: true })')": False, "vm.runInNewContext('[]')": False,
}  # fmt: skip


def test_options_that_are_inherited(javascript):
    """They are passed over: whatever Object.prototype has, each call returns what it does without."""
    calls = ", ".join(f"options => {call.replace('OPTIONS', 'options')}" for call in CALLS_WITH_OPTIONS)
    values = ", ".join(f"[{name!r}, {value}]" for name, values in VALUES.items() for value in values.split(", "))
    code = f"""[{calls}].flatMap(call => [{values}].flatMap(([name, value]) => [undefined, {{}}].flatMap(options => {{
        const outcome = () => {{ try {{ return String(call(options)); }} catch (error) {{ return String(error); }} }};
        const wanted = outcome();
        Object.prototype[name] = value;
        const got = outcome();
        delete Object.prototype[name];
        return got === wanted ? [] : [[String(call), name, String(value), got, wanted]];
    }})))"""
    assert evaluated(javascript, code) == []


# Calls of all kinds, of which one grows the memory, in its second turn.
ANY_CALLS = ["parse('1.5 KiB')", "parse('10m', { binary: true, ignoreCase: true })", "parse('1 K\U0001f600')",
             "parse('5 bytes', { words: true })", "(() => { try { parse('5 bytes'); } catch (e) { return e.hint; } })()",
             "parse(LONG[turn])", "parse('1 \\ud800')", "parse(5)", "parse('1', { nosuch: 1 })", "parseUnit('kib')", "parseUnit('Kx')",
             "explain('1Kx')", "explainUnit('K')", "text(1536)", "text(-1n)", "text(2 ** 53)", "approximateText(123456789)",
             "text(10n ** 29n, { precision: 28, width: 400, sign: 'plus' })", "adjustedText(1536n, 'KiB')",
             "adjustedText(1, 'nosuch')", "appropriateUnit(1536)", "parseMany(['1 KB', 'x', '999 RB', 'é']).sizes",
             "parseMany(['1 KB', 'x']).codes", "parseMany([]).sizes", "parseMany(['1 KB', 'x'], { typed: true }).sizes",
             "parseMany((function* () { yield '1 KB'; yield '2 KB'; })()).sizes"]  # fmt: skip
# The functions of the language's objects, each with its object, its name and what describes it.
FUNCTIONS = """[Object, Array, String, Number, BigInt, Map, Set, RegExp, Uint8Array, Uint32Array, BigUint64Array, DataView,
    Math, Reflect, JSON, TextEncoder, TextDecoder, Object.getPrototypeOf(Uint8Array), ArrayBuffer, WebAssembly.Memory]
    .flatMap(one => [one, one.prototype ?? {}]).flatMap(one => Reflect.ownKeys(one).map(
        name => ({ one, name, was: Object.getOwnPropertyDescriptor(one, name) })))
    .filter(({ name, was }) => was.configurable && typeof (was.get ?? was.value) === "function"
        && !["constructor", "__proto__"].includes(name))"""
# The names of the language that the package uses.
CONSTRUCTORS = """["Array", "ArrayBuffer", "BigUint64Array", "Uint8Array", "Uint32Array", "Object", "String", "Symbol",
    "Error", "RangeError", "TypeError", "Number", "Math", "JSON", "TextDecoder", "TextEncoder", "WebAssembly"].map(
    name => ({ one: globalThis, name, was: Object.getOwnPropertyDescriptor(globalThis, name) }))"""
# Properties that every object is made to inherit.
INHERITED = """[0, 1, 2, "bits", "binary", "words", "typed", "precision", "width", "codes", "sizes", "found", "code", "position",
    "alsoExpectNoCharacter", "get", "value", "at", "length"].map(name => ({ one: Object.prototype, name }))"""


@pytest.mark.parametrize("changed, thrower", [
    (FUNCTIONS, "value: thrown"), (CONSTRUCTORS, "value: thrown"), (INHERITED, "get: thrown, set: thrown")],
    ids=["functions", "constructors", "inherited"])  # fmt: skip
def test_changes_of_the_language(javascript, changed, thrower):
    """What a program puts in place of functions, or has objects inherit, changes no result: here each throws."""
    code = f"""(() => {{
        let turn = 0, done = 0;
        const LONG = ["1", "0".repeat(900000) + "1"], calls = [{", ".join(f"() => {call}" for call in ANY_CALLS)}];
        const outcome = call => {{ try {{ return {{ value: call() }}; }} catch (error) {{ return {{ error }}; }} }};
        const shown = ({{ value, error }}) => String(error ?? (value?.join ? value.join() : value));
        const wanted = calls.map(call => shown(outcome(call))), found = calls.map(() => null), count = calls.length;
        const changed = {changed}, define = Object.defineProperty, thrown = () => {{ throw new Error("changed"); }};
        const made = {{ __proto__: null, configurable: true, {thrower} }};
        turn = 1;
        for (const length = changed.length; done < length; done++)
            define(changed[done].one, changed[done].name, made);
        for (let at = 0; at < count; at++)
            found[at] = outcome(calls[at]);
        while (done-- > 0)
            if (changed[done].was === undefined)
                delete changed[done].one[changed[done].name];
            else
                define(changed[done].one, changed[done].name, changed[done].was);
        return calls.map((call, at) => [String(call), wanted[at], shown(found[at])]).filter(([, was, is]) => was !== is);
    }})()"""
    assert evaluated(javascript, code) == []


def test_options_of_other_calls(javascript):
    """Each call takes its options, and no others."""
    asked = [(call, name) for call in CALLS_WITH_OPTIONS for name in VALUES]
    given = [call.replace("OPTIONS", f"{{ {name}: {VALUES[name].split(', ')[0]} }}") for call, name in asked]
    tried = "[{}].map(call => {{ try {{ return String(call()); }} catch (error) {{ return String(error); }} }})"
    found = evaluated(javascript, tried.format(", ".join(f"() => {call}" for call in given)))
    for (call, name), got in zip(asked, found):
        taken = name in CALLS_WITH_OPTIONS[call].split()
        assert taken == (got != f"TypeError: {name} is no option of this call"), (call, name, got)


def test_options_of_each_kind_of_object(javascript):
    """They are own properties of a plain object, of any realm; any other object is a TypeError, not passed over."""
    calls = ", ".join(f"options => {call.replace('OPTIONS', 'options')}" for call in CALLS_WITH_OPTIONS)
    code = f"""import('node:vm').then(({{ default: vm }}) => [{calls}].map(call =>
        [{", ".join(f"() => ({given})" for given in [*OBJECTS, "{}"])}].map(given => {{
            try {{ return String(call(given())); }} catch (error) {{ return String(error); }}
        }})))"""
    error = "TypeError: options are own properties of a plain object, whose prototype is that of {} or null"
    for call, (*got, without) in zip(CALLS_WITH_OPTIONS, evaluated(javascript, code)):
        assert got == [got[0] if is_plain else error for is_plain in OBJECTS.values()], call
        assert got[0] != without or call[:11] == "explainUnit", call  # its message does not depend on `bits` alone


def test_options_with_code(javascript):
    """A getter that makes calls of its own changes no size, and is called once."""
    getter = "get width() { calls++; parse('7 KB'); text(10n ** 29n, { width: 30, precision: 2 }); return 12; }"
    of_bits = getter.replace("get width", "get bits").replace("return 12", "return true")
    check(javascript, [
        (f"(() => {{ let calls = 0; return [{call.replace('OPTIONS', f'{{ {option} }}')}, calls]; }})()", [wanted, 1])
        for call, option, wanted in (
            ("text(1536, OPTIONS)", getter, "1.5      KiB"), ("adjustedText(1536, 'B', OPTIONS)", getter, "1536       B"),
            ("approximateText(1536, OPTIONS)", getter, "1.5      KiB"), ("parse('3 Kb', OPTIONS)", of_bits, "3000n"),
            ("parseMany(['3 Kb'], OPTIONS).sizes", of_bits, ["3000n"]), ("parseUnit('m', OPTIONS)", of_bits, "Mb"),
        )])  # fmt: skip


def test_iterables(javascript):
    """Their strings are read, as many as there are, after a column that is longer."""
    longer = "[parseMany(Array(9).fill('9 KB')), parseMany(%s).sizes][1]"
    check(javascript, [(longer % strings, sizes) for strings, sizes in (
        ("new Set(['1 KB', '2 KB'])", ["1000n", "2000n"]), ("new Map([['1 KB', 0]]).keys()", ["1000n"]),
        ("(function* () { yield '1 KB'; parseMany(['3 KB', '4 KB']); yield 'x'; parse('5 KB'); })()", ["1000n", None]),
        *[("Object.assign(['7', '8'], { *[Symbol.iterator]() { %s } })" % "".join(f"yield '{n}';" for n in range(count)),
           [f"{n}n" for n in range(count)]) for count in (0, 1, 5)],
    )])  # fmt: skip


# A String object of another realm, which does not inherit from this one's String.prototype.
OF_ANOTHER_REALM = "Object.setPrototypeOf(new String('12'), { *[Symbol.iterator]() { yield '1'; } })"


def test_no_iterables_of_strings(javascript):
    """They are a TypeError, and later calls return what they should."""
    caught = ("(() => { try { parseMany(%s); } catch (error) { "
              "return [`${error.name}: ${error.message}`, parse('1.5 KiB'), text(1536)]; } })()")  # fmt: skip
    check(javascript, [(caught % strings, [error, "1536n", "1.5 KiB"]) for strings, error in (
        *[(string, "TypeError: strings is one string: an array or another iterable of strings is expected")
          for string in ("'1 KB'", "'1😀2'", "''", "new String('12')", "'1'.repeat(2000000)", OF_ANOTHER_REALM)],
        ("['1 KB', 5]", "TypeError: 5 is no string"),
        ("new Map([['1 KB', '2 KB']])", "TypeError: an object is no string"),
        ("new Proxy([], { get: (of, name) => name === 'length' ? '1' : of[name] })", "TypeError: undefined is no string"),
        ("{ length: 1, 0: '1 KB' }", "TypeError: strings is not iterable"), ("5", "TypeError: strings is not iterable"),
    )])  # fmt: skip


def test_lone_surrogates(javascript):
    """They are told by a code of their own, with the place of the first; a real U+FFFD is a wrong character."""
    strings = {"1\ud800": 1, "\udc00": 0, "\U0001f600\ud83d": 2, "1 K\ude00\ud83d": 3, "1 KB \ud800": 5,
               "\ufffd\ud800": 1, "9" * 300 + "\udfff": 300,
               **dict.fromkeys(("1\ufffd", "1\U0001f600", "1\ue000", "1\ud7ff"))}  # fmt: skip
    code = """(string => {
        const fields = call => { try { call(string); } catch ({ code, text, character, position, expected, message }) {
            return [code, text === string, character, position, expected, message]; } };
        return [fields(parse), fields(parseUnit), explain(string), explainUnit(string), parseMany([string, '1']).codes];
    })"""
    got = outcomes(javascript, [f"{code}({json.dumps(string)})" for string in strings])
    said = "the text is not UTF-8"
    for (string, position), (of_size, of_unit, *explained, codes) in zip(strings.items(), got):
        if position is None:
            assert [of_size[0], *of_size[2:4], *codes] == ["unit", string[1], 1, "unit", "ok"], string
        else:
            assert of_size == of_unit == ["not_utf8", True, None, position, None, said], string
            assert [*explained, *codes] == [said, said, "not_utf8", "ok"], string


# Columns with rows after the first batch, which is of 4,096 strings, or of 2^20 UTF-16 units if they are long.
COLUMNS = {
    "many": "Array.from({ length: 9000 }, (_, n) => n % 7 ? `${n}.5 GB` : n % 2 ? `${n} x` : `${BigInt(n) << 84n}`)",
    "long": "Array.from({ length: 40 }, (_, n) => `${n % 2 ? '' : '\\u3000'}${'0'.repeat(99999)}${n}`)",
    "too long": "[1, 2, 3].flatMap(n => [`${n}`, `${n}x`, '0'.repeat(2 ** 21) + n, '\\u3000'.repeat(2 ** 20)])",
}  # fmt: skip


@pytest.mark.parametrize("strings", COLUMNS.values(), ids=COLUMNS)
def test_columns(javascript, strings):
    """Each row of parseMany has what parse returns or throws, as has each of the typed arrays."""
    code = """(strings => {
        const options = { bits: true, binary: true };
        const { sizes, codes } = parseMany(strings, options), typed = parseMany(strings, { ...options, typed: true });
        const rows = strings.map(string => {
            try { return [parse(string, options), "ok"]; } catch ({ code }) { return [null, code]; } });
        const wrong = rows.findIndex(([size, code], at) => sizes[at] !== size || codes[at] !== code
            || (typed.high[at] << 64n | typed.sizes[at]) !== (size ?? 0n) || byteUnit.CODES[typed.codes[at]] !== code);
        return [wrong, ...[sizes, codes, typed.sizes, typed.high, typed.codes].map(
            column => `${column.constructor.name} ${column.length - rows.length}`)];
    })"""
    names = ["Array", "Array", "BigUint64Array", "BigUint64Array", "Uint8Array"]
    assert evaluated(javascript, f"{code}({strings})") == [-1, *(f"{name} 0" for name in names)]


@pytest.mark.whole
def test_a_column_beyond_the_memory(javascript):
    """A column may be of more bytes than the module's memory can have: 4 GiB, with room for 3 of each character."""
    code = "parseMany(Array(1400).fill('x'.repeat(2 ** 20)), { typed: true }).codes.every(code => code === 2)"
    assert evaluated(javascript, code) is True


def test_a_text_that_fills_the_memory(javascript):
    """The message of its error is after it, where the memory has to grow: the 3 × 21,760 bytes end with a page."""
    said = "no value can be found (at the end of the text)"
    assert evaluated(javascript, "explain('\\u3000'.repeat(21760))") == said


# Returns the calls of the package over a module whose exports are changed.
CHANGED = """(async change => {
    const { readFile } = await import("node:fs/promises"), made = WebAssembly.instantiate;
    WebAssembly.instantiate = async (...given) => ({ instance: { exports: Object.fromEntries(
        Object.entries((await made(...given)).instance.exports).map(([name, one]) => [name, change(name, one)])) } });
    return (await import(`${place}/library.js`)).instantiate(await readFile(new URL(`${place}/byte_unit.wasm`)));
})"""


def test_a_column_that_is_rejected(javascript):
    """parseMany throws the code of the module's call, if it is another than 0."""
    changed = f"{CHANGED}((name, one) => name === 'byte_unit_parse_many_32_to' ? () => 7 : one)"
    said = "Error: byte_unit: byte_unit_parse_many_32_to returned invalid_argument"
    assert evaluated(javascript, f"{changed}.then(calls => calls.parseMany(['1']))") == said


# Calls, and how often each has the module parse: what is rejected is parsed once more, for the message.
PARSED = {"parse('1 KB')": 1, "parse('1 x')": 2, "parse('1 x', { binary: true })": 2, "parseUnit('k')": 1,
          "parse('5 bytes', { words: true })": 1, "parse('5 bytes')": 2,
          "parseUnit('x')": 2, "explain('1 KB')": 1, "explain('1 x')": 1, "explainUnit('x')": 1,
          "parseMany(['1 KB', '1 x'])": 1, "text(1536)": 0}  # fmt: skip


def test_texts_that_are_parsed(javascript):
    code = f"""{CHANGED}((name, one) => /_parse|_explain|_position|_hint/.test(name) ? (...all) => (count++, one(...all)) : one)
        .then(calls => [{", ".join(f"() => calls.{code}" for code in PARSED)}].map(call => {{
            try {{ globalThis.count = 0; call(); }} finally {{ return count; }}
        }}))"""
    assert dict(zip(PARSED, evaluated(javascript, code))) == PARSED
