"""Compares two libraries, call by call: that of Rattle's compiler, and that of rustc, from the rendered Rust."""

import re

import pytest
from byte_unit_dev.fixtures import call, compiled, need, path, read
from byte_unit_dev.libraries import exported, link_shared, replace_calls

HEADER = "bindings/c/byte_unit.h"
ROUNDS = 2_000_000
# Functions that differ from a library's, here `real`, in one of many calls: in what they return, in what they write, or
# in what they read. Each has to be seen.
WRONG = {
    "byte_unit_error_position": "bool found = real(text, len, position); *position += found && len > 30; return found;",
    "byte_unit_unit_name": "return unit >> 16 == 1 ? 1 : real(unit, out, out_len);",
    "byte_unit_parse_to": """uint32_t code = real(text, len, flags, size, error, error_len);
        if (code == BYTE_UNIT_UNIT && error_len && error->character == ',') error->also_expect_no_character ^= 1;
        return code;""",
    "byte_unit_explain": "size_t n = real(text, len, flags, out, out_len); if (n && n < out_len) out[n] = 0; return n;",
    "byte_unit_text": "if (out_len > 190) { out[-1] = 0; } return real(size, flags, spec, out, out_len);",
    "byte_unit_exact_unit": "uint32_t unit = real(size, flags, count); count->high += unit == 27; return unit;",
    "byte_unit_subtract": "bool found = real(a, b, difference); difference->high += found && b.high; return found;",
    "byte_unit_compare": "int32_t order = real(a, b); return order < 0 ? -2 : order;",
    "byte_unit_from_u64": "byte_unit_number size = real(value); size.high = value >> 63; return size;",
    "byte_unit_unit_error_position": """const volatile char *all = text;
        return real(text, len, position) && (len < 9 || (all[len] | 1));""",
}


@pytest.fixture(scope="module")
def compare(tmp_path_factory, seed):
    """Returns what compares two shared libraries by a number of rounds, and returns its status and output."""
    need("cc")
    made = tmp_path_factory.mktemp("compilers") / "compilers"
    words = ["-std=gnu11", "-O2", "-Wall", "-Wextra", "-Wconversion", "-Werror", "-I", path("bindings/c")]
    compiled("cc", made, *words, path("bindings/c/checks/compilers.c"))
    quoted = re.findall('"([^"\n]*)"', read("crates/byte_unit_vectors/stdin"))
    texts = "".join(f"{text}\0" for text in dict.fromkeys(quoted))
    return lambda one, other, rounds: call(made, one, other, rounds, seed, input=texts)


def test_same_answers(compare, library, library_of_rustc):
    got = compare(f"{library}/libbyte_unit.so", f"{library_of_rustc}/libbyte_unit.so", ROUNDS)
    assert got.returncode == 0, got.stdout
    print(got.stdout)
    rows = [(name, int(calls), int(counted)) for name, calls, counted in map(str.split, got.stdout.splitlines())]
    assert sorted(name for name, _, _ in rows) == sorted(exported(read(HEADER)))
    assert all(calls >= ROUNDS for _, calls, _ in rows)
    # What is drawn reaches both ends of each function that has two: values and errors.
    one_sided = [name for name, calls, counted in rows if not 0.05 < counted / calls < 0.95]
    assert one_sided == ["byte_unit_version", "byte_unit_quote"]


@pytest.mark.parametrize("name", WRONG)
def test_difference_is_seen(compare, library, tmp_path, name):
    need("gcc", "ar", "objcopy")
    link_shared(replace_calls(library, tmp_path, {name: WRONG[name]}), "gcc")
    got = compare(f"{library}/libbyte_unit.so", f"{tmp_path}/libbyte_unit.so", 100_000)
    assert got.returncode == 1 and re.search(f"^{name}: returned|^signal .* in {name} of library 2", got.stdout, re.M)
