"""Compares byte_unit.h with the Rattle code of byte_unit_c.

The calls with names of parameters, structs, enumerators, macros with a value and the bodies of inline calls have to be
the same. No exported function has a precondition in Rattle.
"""

import functools
import re

import pytest
from byte_unit_dev.common import read
from byte_unit_dev.source import line_of, source, sources

HEADER, SPEC = "bindings/c/byte_unit.h", "crates/byte_unit_c/src/spec.rt"
TYPES = {"u8": "uint8_t", "u32": "uint32_t", "u64": "uint64_t", "i32": "int32_t", "i64": "int64_t", "usize": "size_t",
         "bool": "bool", **{name: f"byte_unit_{name.lower()}" for name in ("Number", "Decimal", "Spec", "Error")}}
# What an inline call passes for the lengths of arrays.
PASSED = {"error_len": "error ? 1 : 0", "offsets_len": "offsets ? count + 1 : 0", "sizes_len": "count",
          "codes_len": "count"}
# Enumerators with a written code: a file of byte_unit_c, a function of it, what the names begin with, and the form of names
# and codes.
CODES = [
    ("flags", "", "", r"^const (?P<name>\w+): u32 = (?P<code>\d+);"),
    ("error", "", "", r"^pub const (?P<name>\w+): u32 = (?P<code>\d+);"),
    ("spec", "fn sign_at", "SIGN_", r"(?P<code>\d) => Some\(Sign::(?P<name>\w+)\)"),
    ("spec", "fn align_at", "ALIGN_", r"(?P<code>\d) => Some\((?:Some\(Align::)?(?P<name>\w+)\)"),
    ("codes", "fn type_at", "", r"(?P<code>\d) => Some\(UnitType::(?P<name>\w+)\)"),
]


def only(pattern, file, crate="byte_unit_c"):
    """Returns the one match of a pattern in a file of Rattle."""
    name = f"crates/{crate}/src/{file}.rt"
    found = re.findall(pattern, source(name).plain, re.S | re.M)
    assert len(found) == 1, f"{name}: {len(found)} matches of {pattern} where one is expected"
    return found[0]


def by_pointers(text):
    """Returns a declaration in Rattle with pointers: a slice is one, and a length."""
    def parted(found):
        length = "len" if found[1] == "text" else f"{found[1]}_len"
        return f"{found[1]}: &{found[2] or 'const '}{found[3]}, {length}: usize"

    text = re.sub(r"(\w+): &(mut )?\[(\w+)\]", parted, text.removeprefix('extern "C" '))
    return re.sub(r"&(?=mut|const)", "*", text).replace("DecimalParts", "Decimal")


def in_c(name, kind):
    """Returns a parameter or a field in C, by its name and its type, with pointers."""
    pointer = re.fullmatch(r"\*(const|mut) (\w+)", kind)
    if pointer:
        element = "char" if name in ("text", "data", "out") else TYPES[pointer[2]]
        return f"{'const ' * (pointer[1] == 'const')}{element} *{name}"
    return f"char {name}[{kind[5:-1]}]" if kind.startswith("[u8; ") else f"{TYPES[kind]} {name}"


def calls_in_c(declared):
    """Yields the call of a function in C, and the inline call of one in `_to`: byte_unit_parse's calls three."""
    name, given, result = re.fullmatch(r"fn (\w+)\((.*)\) -> (\w+)", declared).groups()
    pairs = re.findall(r"(\w+): ([^,]+)", given)
    yield f"{TYPES[result]} {name}({', '.join(in_c(*pair) for pair in pairs) or 'void'});"
    if name.endswith("_to") and not name.endswith(("_binary_to", "_words_to")):
        own = ["size_t count" if pair[0] == "offsets_len" else in_c(*pair) for pair in pairs
               if pair[0] not in PASSED or pair[0] == "offsets_len"]
        words = ", ".join(PASSED.get(parameter, parameter) for parameter, _ in pairs)
        called = f"{name}({words})"
        if name == "byte_unit_parse_to":
            called = (f"flags < BYTE_UNIT_BINARY_PREFIXES ? {called} : flags & BYTE_UNIT_WORDS ? "
                      f"byte_unit_parse_words_to({words}) : byte_unit_parse_binary_to({words})")
        yield f"static inline {TYPES[result]} {name[:-3]}({', '.join(own)}) {{ return {called}; }}"


def structs(text):
    """Yields the structs for C in Rattle: each name, and names and types of the fields."""
    for name, body in re.findall(r"#\[repr\(C\)\]\s*(?:#\[[^\]]*\]\s*)*pub struct (\w+) \{(.*?)\n\}", text, re.S):
        fields = re.findall(r"pub (\w+): ([^,\n]+),", body.replace("DecimalParts", "Decimal"))
        yield name.replace("DecimalParts", "Decimal"), fields


def constants():
    """Returns the enumerators in Rattle and their values."""
    values = {"BYTES": 0}  # no flag, which Rattle does not name
    for name, function, prefix, form in CODES:
        file = source(f"crates/byte_unit_c/src/{name}.rt")
        for found in re.finditer(form, file.part(function) if function else file.plain, re.M):
            values[prefix + found["name"].replace("None", "Unset").upper()] = int(found["code"])
    units = re.findall(r"(\w+),", only(r"^pub enum Unit \{(.*?)^\}", "unit", "byte_unit_base"))
    return {**values, **{unit.upper(): code for code, unit in enumerate(units)}}


def macros():
    """Returns the macros that the header has to have, and their values."""
    limit = int(only(r"^pub const SIZE_LIMIT: u128 = ([\d_]+);", "size", "byte_unit_base"))
    version = int(only(r"^    ([\d_]+)$", "version"))
    major, minor, patch = version // 10**6, version // 1000 % 1000, version % 1000
    return {
        "VERSION_MAJOR": major, "VERSION_MINOR": minor, "VERSION_PATCH": patch, "VERSION": version,
        "VERSION_STRING": f'"{major}.{minor}.{patch}"',
        "SIZE_LIMIT_LOW": limit % 2**64, "SIZE_LIMIT_HIGH": limit // 2**64,
        "SIZE_LIMIT_INIT": "{ BYTE_UNIT_SIZE_LIMIT_LOW, BYTE_UNIT_SIZE_LIMIT_HIGH }",
        "SPEC_INIT": f"{{ {', '.join('0' * len(dict(structs(source(SPEC).plain))['Spec']))} }}",
        "NO_UNIT": {"u32::MAX": 2**32 - 1}[only(r"^pub const NO_UNIT: u32 = (.*?);", "units")],
        "BUFFER_SIZE": only(r"fn byte_unit_explain\(.*?\bresult ≤ (\d+)", "explain"),
        "HINT_SIZE": only(r"fn byte_unit_hint\(.*?\bresult ≤ (\d+)", "hint"),
        "QUOTE_SIZE": only(r"fn byte_unit_quote\(.*?\bresult ≤ (\d+)", "explain"),
    }


@functools.lru_cache
def in_rattle():
    """Returns what Rattle declares, as the header has it."""
    header = set()
    for file in sources("byte_unit_c"):
        for found in file.blocks(r"\bpub extern +fn\b"):
            signature, clauses = file.function(found.start())
            assert not [one for one in clauses if one.startswith("requires")], f"{file.name}: precondition: {signature}"
            header.update(calls_in_c(by_pointers(signature)))
        for name, fields in structs(file.plain):
            inner = " ".join(f"{in_c(*field)};" for field in fields)
            header.add(f"typedef struct {TYPES[name]} {{ {inner} }} {TYPES[name]};")
    header |= {f"BYTE_UNIT_{name} = {value}" for name, value in constants().items()}
    return header | {f"#define BYTE_UNIT_{name} {value}" for name, value in macros().items()}


def in_header(text):
    """Returns what a header declares, in the form of `in_rattle`."""
    text = re.sub(r"/\*.*?\*/", "", text, flags=re.S).replace("UINT32_MAX", str(2**32 - 1))
    text = re.sub(r"UINT64_C\((\d+)\)", r"\1", text)
    found = {line_of(part) for part in re.findall(r"^\w+ byte_unit_\w+\([^)]*\);|^static inline [^{]*\{.*?^\}"
                                                  r"|^typedef struct .*?\} \w+;", text, re.S | re.M)}
    found |= {line_of(line) for line in re.findall(r"^#define BYTE_UNIT_\w+ .+$", text, re.M)}
    for body in re.findall(r"^enum \{(.*?)\}", text, re.S | re.M):
        value = -1
        for name, given in re.findall(r"(\w+)(?: = (\d+))?", body):
            value = int(given) if given else value + 1
            found.add(f"{name} = {value}")
    return found


def differences(header):
    """Returns a line for each difference of the header."""
    wanted, found = in_rattle(), in_header(header)
    return [*(f"{HEADER}: not in Rattle: {line}" for line in sorted(found - wanted)),
            *(f"{HEADER}: missing: {line}" for line in sorted(wanted - found))]


# Wrong declarations, each of which has to be seen: a text of the header, and what is in its place.
WRONG = [
    ("uint32_t flags, byte_unit_spec spec, char *out", "byte_unit_spec spec, uint32_t flags, char *out"),
    ("size_t precision, byte_unit_decimal", "uint32_t precision, byte_unit_decimal"),
    ("bool byte_unit_from_unit", "uint32_t byte_unit_from_unit"),
    ("byte_unit_number count, uint32_t unit, uint32_t flags", "byte_unit_number count, uint32_t flags, uint32_t unit"),
    ("size_t byte_unit_explain(const char", "size_t byte_unit_explain(char"),
    ("uint32_t byte_unit_version(void);", ""),
    ("uint32_t byte_unit_version(void);", "uint32_t byte_unit_version(void);\nuint32_t byte_unit_release(void);"),
    ("parse_to(text, len, flags, size, error, error ? 1 : 0)", "parse_to(text, len, flags, size, error, 1)"),
    ("flags < BYTE_UNIT_BINARY_PREFIXES", "flags < BYTE_UNIT_WORDS"),
    ("flags & BYTE_UNIT_WORDS", "flags & BYTE_UNIT_BINARY_PREFIXES"),
    ("data_len, offsets, offsets ? count + 1 : 0, flags", "data_len, offsets, count, flags"),
    ("int32_t byte_unit_compare(", "uint32_t byte_unit_compare("),
    ("byte_unit_number byte_unit_from_u64(", "uint64_t byte_unit_from_u64("),
    ("uint64_t low;\n    uint64_t high;", "uint64_t high;\n    uint64_t low;"),
    ("uint32_t width;", "int32_t width;"),
    ("char expected[16];", "char expected[15];"),
    ("BYTE_UNIT_IGNORE_CASE = 2", "BYTE_UNIT_IGNORE_CASE = 4"),
    ("BYTE_UNIT_KBIT, BYTE_UNIT_KIBIT", "BYTE_UNIT_KIBIT, BYTE_UNIT_KBIT"),
    ("BYTE_UNIT_SIGN_UNSET,", "BYTE_UNIT_SIGN_NONE,"),
    ("BYTE_UNIT_VERSION ", "BYTE_UNIT_VERSION 1"),
    ("UINT64_C(54210108624)", "UINT64_C(54210108)"),
    ("BYTE_UNIT_BUFFER_SIZE 256", "BYTE_UNIT_BUFFER_SIZE 128"),
]


def test_header():
    found = differences(read(HEADER))
    assert not found, "\n".join(found)


@pytest.mark.parametrize("old, new", WRONG)
def test_wrong_declaration_is_seen(old, new):
    """A change of the first such text in the header makes a difference."""
    text = read(HEADER)
    assert old in text
    assert differences(text.replace(old, new, 1))
