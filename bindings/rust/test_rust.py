"""Tests the Rust package, by the first cargo of the path and by Debian's."""

import os
import re
import shutil
import tomllib
from pathlib import Path

import pytest
from byte_unit_dev.builds import CONFIG
from byte_unit_dev.common import output
from byte_unit_dev.fixtures import CARGOS, SERDE, is_there, need, read, write
from byte_unit_dev.needs import CLAP, DEBIAN_RUST
from byte_unit_dev.render import by_hand, rust

FEATURES = ["--features", "serde,rust_decimal"] if all(map(is_there, SERDE)) else []
PACKED = f"byte-unit-5.2.6+{read('VERSION').strip()}"  # the name of what `cargo package` makes, without its end
AS_WRITTEN, CHANGED = 91, 9  # the examples of the original that run here as they are, and those that need a change


@pytest.fixture(scope="module", params=CARGOS, ids=["cargo", "Debian's cargo"][:len(CARGOS)])
def each_cargo(request, cargos):
    return cargos(request.param)


def test_its_own_tests(each_cargo, rust_package):
    assert each_cargo.passed(rust_package, "--lib", "--tests", "--examples", *FEATURES) > 0


def test_serde(each_cargo, rust_package):
    need(*SERDE, *CLAP)
    assert each_cargo.passed(f"{rust_package}/checks/serde", "--tests") > 0
    assert each_cargo.passed(f"{rust_package}/checks/serde", "--doc") == 2


def test_each_public_call_is_drawn(cargo, rust_package):
    """Compares the methods that the documentation shows with those that the test of panics has called. Of a size it has
    texts, parsing and constructors first, and columns last."""
    said = cargo.output(rust_package, "test", "--test", "calls", "--", "--nocapture")
    cargo.output(rust_package, "doc", "--no-deps")
    shown, byte = set(), read(cargo.target / "doc/byte_unit/struct.Byte.html").partition('id="implementations"')[2]
    order = re.findall(r'id="method\.(\w+)"', byte.partition('id="trait-implementations"')[0])
    assert order[0] == "approximate_text" and order[2:5] == ["parse_str", "parse_bytes", "from_u128"]
    assert order[-4:] == ["parse_many", "parse_buffers", "parse_many_binary", "parse_buffers_binary"]
    for page in (cargo.target / "doc/byte_unit").glob("*.*.html"):
        own = re.search(r'id="implementations"(.*?)id="trait-implementations"', read(page), re.S)
        shown |= set(re.findall(r'id="method\.(\w+?)(?:-\d+)?"', own[1])) if own else set()
    assert {"parse_str", "get_bit", "fraction", "powers"} < shown
    assert shown - set(re.findall(r"^drawn: (\w+)$", said, re.M)) == {"from_u128_unsafe"}


# What rustc cannot check: each has a precondition, or is of the modules that only this repository's packages see.
HIDDEN = ["Decimal::from_digits(0, u128::MAX, 28)", 'Byte::parse_line(b"1", 2, false)', 'Bit::parse_line(b"1", 2)',
          "Byte::MAX.get_recoverable_unit_counted(false, 3, todo!())", "rendered::math::power_of_ten(99)",
          'rendered::base::size::parse_line(b"1", 2, false, todo!())', 'support::char_at("é", 1)',
          "support::lanes::u8x8::from_slice(&[])"]  # fmt: skip


def test_calls_with_preconditions_are_hidden(each_cargo, rust_package, tmp_path):
    calls = "\n".join(f"    let _ = byte_unit::{call};" for call in HIDDEN)
    write(f"{tmp_path}/Cargo.toml", read("bindings/rust/checks/moved.toml").replace("PACKAGE", rust_package))
    write(f"{tmp_path}/src/main.rs", f"fn main() {{\n{calls}\n}}\n")
    said = each_cargo.call(tmp_path, "check").stdout
    private = r"error\[E0(?:603|624)\]: .* is private\n *--> src/main.rs:(\d+):"
    assert sorted(map(int, re.findall(private, said))) == [*range(2, 2 + len(HIDDEN))], said


@pytest.mark.parametrize("module, count", [("as_written", AS_WRITTEN), ("changed", CHANGED)])
def test_examples_of_the_original(each_cargo, rust_package, module, count):
    assert each_cargo.passed(rust_package, "--test", "upstream_examples", *FEATURES, module) == count


def test_page_says_how_many_examples_pass():
    page = read("bindings/rust/README.md")
    assert f"Of the {AS_WRITTEN + CHANGED} examples" in page and f" {AS_WRITTEN} run here as they are written" in page


@pytest.mark.parametrize("name", ["checks/moved.rs", "README.md"], ids=["moved.rs", "README.md"])
def test_program_of_the_original(each_cargo, rust_package, tmp_path, name):
    """Builds programs that name the package in [patch] alone, without a registry, and compares what they print."""
    text, printed = read(f"bindings/rust/{name}"), "0 wrong\n"
    if name == "README.md":
        text, printed = re.search(r"```rust\n(.*?)```\n\n```text\n(.*?)```", text, re.S).groups()
    write(f"{tmp_path}/Cargo.toml", read("bindings/rust/checks/moved.toml").replace("PACKAGE", rust_package))
    write(f"{tmp_path}/src/main.rs", text)
    assert each_cargo.output(tmp_path, "run") == printed


def proved(items):
    """Returns items of the sources without contracts, each with the constants of its file."""
    texts = []
    for name, _, item in (words.partition(" ") for words in items):
        file = rust.Rendered(f"crates/byte_unit_{name}", f"byte_unit_{name.partition('/')[0]}")
        rust.without_proofs(file)
        _, start, end = file.item(item)
        texts += [*re.findall(r"^const .*", file.text, re.M), file.text[start:end].replace(file.MARK, "")]
    return "\n".join(dict.fromkeys(texts))


def test_code_by_hand_is_the_proved_code(cargo, rust_package, tmp_path):
    """Compares `support` with the proved code in whose place it is; `read_digits` with a function that is proved to
    return the same."""
    items = [item for item, where in by_hand.REPLACED.items() if where.startswith("support")]
    write(f"{tmp_path}/src/proved.rs", proved([*items, "base/src/read/digits.rt fn few_digits"]))
    write(f"{tmp_path}/src/main.rs", read("bindings/rust/checks/by_hand.rs"))
    manifest = read("bindings/rust/checks/moved.toml").replace("PACKAGE", rust_package)
    write(f"{tmp_path}/Cargo.toml", manifest.replace('"u128"', '"u128", "internal"'))
    assert cargo.output(tmp_path, "run", "--release") == "0 wrong\n"


@pytest.mark.parametrize("kind", ["byte", "bit"])
def test_lines(each_cargo, rust_package, check_runner, kind):
    each_cargo.output(rust_package, "build", "--example", "vectors")
    check_runner([each_cargo.target / "debug/examples/vectors"], kind)


def test_examples_of_its_documentation(cargo, rust_package):
    assert cargo.passed(rust_package, "--doc") > 0


@pytest.mark.parametrize("words", [["doc", "--no-deps"], ["build", "--no-default-features"]], ids=["doc", "no std"])
def test_build(cargo, rust_package, words):
    cargo.output(rust_package, *words, *FEATURES, RUSTDOCFLAGS="-D warnings")


@pytest.mark.parametrize("program, words", [
    ("cargo-clippy", ["clippy", *FEATURES, "--", "-D", "warnings"]),
    ("cargo-clippy", ["clippy", "--all-targets", *FEATURES, "--", "-D", "warnings"]),
    ("cargo-fmt", ["fmt", "--check"]),
], ids=["clippy", "clippy of tests", "rustfmt"])  # fmt: skip
def test_style(cargos, rust_package, program, words):
    """Calls clippy and rustfmt by the first cargo that has them beside it."""
    need(program)
    has = [cargo for cargo in CARGOS if os.path.exists(os.path.join(os.path.dirname(cargo), program))]
    cargos(has[0]).output(rust_package, *words)
    if FEATURES:
        cargos(has[0]).output(f"{rust_package}/checks/serde", *(word for word in words if word not in FEATURES))


def test_package(cargo, rust_package, tmp_path):
    """Packs the package, builds what is packed, and adds it to a program by its path, without a registry."""
    cargo.output(rust_package, "package", "--allow-dirty", "--no-verify")
    packed = cargo.target / f"package/{PACKED}.crate"
    output("tar", "-xzf", packed, "-C", tmp_path)
    write(f"{tmp_path}/program/Cargo.toml", '[package]\nname = "program"\nversion = "0.1.0"\nedition = "2024"\n')
    write(f"{tmp_path}/program/src/main.rs", 'fn main() { println!("{:#}", byte_unit::Byte::from_u64(1536)); }\n')
    cargo.output(tmp_path / "program", "add", "--path", f"../{PACKED}", CARGO_NET_OFFLINE="true")
    assert cargo.output(tmp_path / "program", "run") == "1.5 KiB\n"


# What the optional dependencies need, of which cargo locks all for a package of a workspace.
OPTIONAL = {"serde", "rust_decimal", "arrayvec", "num-traits", "autocfg", "libm"}


@pytest.mark.parametrize("place, dependency, more, registry, optional", [
    ("workspace/vendor", 'path = "../vendor/rust"', "", DEBIAN_RUST, OPTIONAL),
    ("workspace/vendor", 'path = "../vendor/rust"', 'exclude = ["vendor"]\n', "nothing", set()),
    ("beside", 'path = "../../beside/rust"', "", "nothing", set()),
    ("workspace/vendor", 'version = "5"', '[patch.crates-io]\nbyte-unit.path = "vendor/rust"\n', DEBIAN_RUST, OPTIONAL),
], ids=["below", "excluded", "beside", "patch"])  # fmt: skip
def test_workspace(each_cargo, rust_package, tmp_path, place, dependency, more, registry, optional):
    """Builds a program of a workspace with the package below it, or beside it. Nothing is locked for a package that is
    beside it or excluded, not what features need either, so that an empty registry is enough."""
    need(*SERDE)
    shutil.copytree(rust_package, tmp_path / place / "rust", ignore=shutil.ignore_patterns(".cargo", "Cargo.lock"))
    work = tmp_path / "workspace"
    write(work / ".cargo/config.toml", CONFIG.replace(DEBIAN_RUST, registry))
    (work / "nothing").mkdir()
    write(work / "Cargo.toml", f'[workspace]\nmembers = ["program"]\nresolver = "2"\n{more}')
    write(work / "program/Cargo.toml", '[package]\nname = "program"\nversion = "0.1.0"\nedition = "2021"\n'
          f"[dependencies]\nbyte-unit = {{ {dependency} }}\n")  # fmt: skip
    write(work / "program/src/main.rs", 'fn main() { println!("{:#}", byte_unit::Byte::from_u64(1536)); }\n')
    assert each_cargo.output(work, "run") == "1.5 KiB\n"
    locked = re.findall(r'^name = "(.*)"', read(work / "Cargo.lock"), re.M)
    assert {"byte-unit", "program"} <= {*locked} <= {"byte-unit", "program", *optional}


@pytest.mark.parametrize("locked", ["5.1.0", "5.2.6"])
def test_lock_file_of_the_original(each_cargo, rust_package, tmp_path, locked):
    """The patch is not used, with a warning, until `cargo update` takes it, as the page says."""
    registry, page = tmp_path / "registry", read("bindings/rust/README.md")
    manifest = f'[package]\nname = "{{}}"\nversion = "{locked}"\nedition = "2021"\n'
    write(registry / "byte-unit/Cargo.toml", manifest.format("byte-unit"))
    write(registry / "byte-unit/src/lib.rs", "")
    write(registry / "byte-unit/.cargo-checksum.json", '{"files": {}}')
    write(tmp_path / ".cargo/config.toml", CONFIG.replace(DEBIAN_RUST, str(registry)))
    manifest = manifest.format("program") + '[dependencies]\nbyte-unit = "5"\n'
    write(tmp_path / "Cargo.toml", manifest)
    write(tmp_path / "src/main.rs", 'fn main() { println!("{:#}", byte_unit::Byte::from_u64(1536)); }\n')
    each_cargo.output(tmp_path, "generate-lockfile")
    write(tmp_path / "Cargo.toml", f'{manifest}[patch.crates-io]\nbyte-unit.path = "{rust_package}"\n')
    said = each_cargo.call(tmp_path, "check", CARGO_TERM_QUIET="false").stdout
    assert re.search(r"warning: Patch `byte-unit v5\.2\.6\+.*` was not used", said, re.I), said
    words = re.search(r"`cargo (update [^`]*)` takes it", page)[1].split()
    each_cargo.output(tmp_path, *words)
    assert each_cargo.output(tmp_path, "run") == "1.5 KiB\n"


def test_other_pointers_are_refused_by_one_line(cargo, rust_package, tmp_path):
    """Makes of the width that is refused that of this machine, for which alone there is a `core`."""
    shutil.copytree(rust_package, tmp_path / "refused")
    text, width = read(tmp_path / "refused/src/lib.rs"), 'target_pointer_width = "%s"'
    assert text.count(width % 16) == 1
    write(tmp_path / "refused/src/lib.rs", text.replace(width % 16, width % 64))
    said = cargo.call(tmp_path / "refused", "check", "--lib").stdout
    errors = re.findall(r"^error.*", said, re.M)
    assert errors[0] == "error: byte-unit is for pointers of 32 or of 64 bits"
    assert len(errors) == 2 and errors[1].startswith("error: could not compile"), said


def test_nothing_is_unsafe_or_linked(rust_package):
    """All `unsafe` is the original's `from_u128_unsafe`, and each dependency is optional."""
    found = {str(name.relative_to(rust_package)): len(re.findall(r"\bunsafe\b", re.sub(r"//.*", "", read(name))))
             for name in Path(rust_package).glob("src/**/*.rs")}  # fmt: skip
    assert {name: count for name, count in found.items() if count} == {"src/sizes.rs": 3}
    assert not any('extern "C"' in read(name) for name in Path(rust_package).glob("**/*.rs"))
    manifest = tomllib.loads(read("bindings/rust/Cargo.toml"))
    assert not manifest["package"].keys() & {"links", "build"} and not os.path.exists(f"{rust_package}/build.rs")
    assert [(name, more["optional"]) for name, more in manifest["dependencies"].items()] == [
        ("rust_decimal", True), ("serde", True)]  # fmt: skip
