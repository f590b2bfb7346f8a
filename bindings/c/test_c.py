"""Tests the C library from C and C++, and compiles the code in the comments of its header."""

import re

import pytest
from byte_unit_dev.fixtures import compiled, need, output, path, read, write
from byte_unit_dev.libraries import functions

WARNINGS = ["-Wall", "-Wextra", "-Wpedantic", "-Wconversion", "-Werror"]
IN_C, IN_CPP = ["c99", "c11", "c17", "c2x"], ["c++17", "c++20"]
STANDARDS = {"gcc": IN_C, "clang": IN_C, "g++": IN_CPP, "clang++": IN_CPP}
SOURCES = {"example": "examples/example.c", "arguments": "checks/arguments.c", "comments": "checks/comments.c"}
# C++ has the designated initializers of the comments since C++20, of which -Wextra of g++ warns, as the header says.
LEFT_OUT = {"example": [], "arguments": [], "comments": ["c++17"]}
BUILDS = [(name, compiler, standard) for name, left_out in LEFT_OUT.items()
          for compiler, names in STANDARDS.items() for standard in names if standard not in left_out]  # fmt: skip


@pytest.fixture
def program_in_c(each_library, tmp_path):
    """Compiles a program of this folder with the library of each compiler, and returns its path."""
    def build(source, compiler="cc", standard="c11"):
        language = ["-x", "c++"] * standard.startswith("c++")
        language += ["-Wno-missing-field-initializers"] * (source == SOURCES["comments"])
        includes = ["-I", each_library, "-I", tmp_path]
        words = [f"-std={standard}", "-O2", *WARNINGS, *includes, *language, path("bindings/c", source)]
        return compiled(compiler, tmp_path / "program", *words, "-x", "none", f"{each_library}/libbyte_unit.a")

    return build


@pytest.mark.usefixtures("comments")
@pytest.mark.parametrize("name, compiler, standard", BUILDS)
def test_program(program_in_c, name, compiler, standard):
    output(program_in_c(SOURCES[name], compiler, standard))


@pytest.mark.parametrize("name", ["example", "arguments"])
@pytest.mark.parametrize("processor", ["qemu64", "kvm64", "core2duo"])
def test_processor_without_sse4(program_in_c, name, processor):
    need("qemu-x86_64")
    output("qemu-x86_64", "-cpu", processor, program_in_c(SOURCES[name]))


def test_memory_without_values(program_in_c):
    """No call reads what it writes to, and what it says it writes has a value."""
    need("valgrind")
    output("valgrind", "--quiet", "--error-exitcode=1", program_in_c("checks/memory.c"))


@pytest.mark.parametrize("kind", ["byte", "bit"])
def test_lines(runner_in_c, check_runner, kind):
    check_runner([runner_in_c], kind)


# Each format of Rust that the comments of the header name: its text of 1536 bytes, and of 1537 bytes in KiB.
TEXTS = {
    "{}": ("1536", "1.5009765625 KiB"),
    "{:#}": ("1.5 KiB", "1.5009765625 KiB"),
    "{:#12}": ("1.5      KiB", "1.5009765625 KiB"),
    "{:.2}": ("1536", "1.50 KiB"),
}


def comments_of(header):
    return "\n".join(re.sub(r"\s*\n \*\s*", " ", part) for part in re.findall(r"/\*(.*?)\*/", header, re.S))


def specs_of(text):
    """Returns the initializers of specs, each with the format that it is said to be."""
    found = re.findall(r"`(\{ \.[^`]*\})` is `(\{[^`]*\})`", text)
    assert found and len(found) == len(re.findall(r"\{\s*\.\w", text)), "an initializer without its format"
    return found


def uses_of(header):
    """Returns the calls, the elements of arrays and the macros that initialize something, each in a function."""
    calls, comments = functions(header), comments_of(header)
    uses = [(*calls[name][:2], f"return {words}")
            for words, name in re.findall(r"((byte_unit_\w+)\([^()]+\))", comments)]  # fmt: skip
    array = "const char *data, const int64_t *offsets, size_t i"
    uses += [("char", array, f"return {words}") for words in re.findall(r"\w+\[\w+\[[^][]*\]\]", comments)]
    macros = re.findall(r"(BYTE_UNIT_\w+_INIT) initializes a (byte_unit_\w+)", comments)
    uses += [(kind, "void", f"{kind} made = {macro}; return made") for macro, kind in macros]
    return [f"{kind} use_{i}({given});\n{kind} use_{i}({given}) {{ {words}; }}"
            for i, (kind, given, words) in enumerate(uses)]  # fmt: skip


@pytest.fixture
def comments(each_library, tmp_path):
    """Writes what checks/comments.c includes: code in comments of byte_unit.h, and initializers there and in README."""
    header, page = read(f"{each_library}/byte_unit.h"), read("bindings/c/README.md")
    words = f"{comments_of(header)}\n{page}"
    places = [re.search(form, words)[1] for form in (r"precision of at most (\d+)", r"up to precision (\d+)")]
    zeroed = [("{ 0 }", "{}"), ("BYTE_UNIT_SPEC_INIT", "{}")]
    uses, specs = uses_of(header), [*zeroed, *specs_of(comments_of(header)), *specs_of(page)]
    assert uses, "the comments have code beside initializers of specs"
    write(f"{tmp_path}/uses.inc", "\n".join(uses) + "\n")
    write(f"{tmp_path}/specs.inc", "".join(
        '{ byte_unit_spec spec = %s; wrong += is_wrong(spec, "%s", "%s"); }\n' % (spec, *TEXTS[form])
        for spec, form in specs) + "".join(f"wrong += is_too_long({most});\n" for most in places))  # fmt: skip
