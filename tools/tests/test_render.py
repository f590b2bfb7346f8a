"""Tests the renderer of Rust: what it refuses, and what it compares."""

import re

import pytest
from byte_unit_dev import common, render
from byte_unit_dev.common import Failure, output, read, write
from byte_unit_dev.render import rust, rust_programs, vocabulary


def of_library(name, crate):
    rust.left_out(crate)
    rust.rendered(name, crate, {})


def of_program(name, crate):
    rust_programs.rendered(name, crate, rust_programs.exported())


def failure(monkeypatch, render, name, old, new):
    """Renders a file with an edit, and returns the failure, with `LINE` for the place of the edit."""
    file, crate = f"crates/byte_unit_{name}.rt", f"byte_unit_{name.partition('/')[0]}"
    text = read(file)
    line = text[:text.index(old)].count("\n") + 1 + new.startswith("\n")
    monkeypatch.setattr(rust, "read", lambda name: text.replace(old, new, 1) if name == file else read(name))
    try:
        render(file, crate)
    except Failure as found:
        return str(found).replace(f"{file}:{line}:", "LINE:", 1)
    return "rendered"


@pytest.mark.parametrize("code, form", [
    ("(250u8..).take(9)", "a..)"), ("for n in (250u8.. ) {}", "a..)"), ("let x = 1..;", "a..;"), ("[1.., 2..]", "a..,"),
    ("exponent[1..=]", "a..=]"), ("1..=exponent", "a..=b"), ("size_of::<(u32, u8)>()", "size_of"),
    ("core::mem::size_of::<u8>()", "core::mem::size_of"), ("size_of(1)", "size_of"),
    ("core::mem::drop(1)", "core::mem::drop"), ("std::mem::drop(1)", "std::mem::drop"), ("drop(1)", "drop"),
    ("exponent.pow(2)", ".pow("), ("exponent.pow::<u8>(2)", ".pow("), ("exponent.await", ".await"),
    ("u8::swap(1)", "u8::swap"), ("unsafe { 1 }", "unsafe"), ("async { 1 }", "async"), ("'a: { 1 }", "'name:"),
    ("dyn Copy", "dyn"), ("proof!(1)", "proof!"), ("println!()", "println!"), ("old(exponent)", "old"),
    ("exponent(rt; 1)", "rt"), ("#[cfg(test)] 1", "#[cfg(test)]"), ("1 << requires", "requires"),
    ("1 << ensures", "ensures"), ("1 << ghost", "ghost"), ("alloc", "alloc"), ("1 ⊕ exponent", "⊕"),
    ("::byte_unit_base::y", "::"), ("<u8>::y()", ">::"), ("1 /* 2 */", "/*"), ("1 <<= 2", "<<="), ("1.5", "1.5"),
    ("1f64", "1f64"), ("1.", "."), ("0b1", "0b1"), ("1i8", "1i8"), ('r"x"', 'r"'), ('"\\x41"', "\\x"),
    ('write!(f, "{:>5}", 1)', "f"), ('"{:>5}"', ":>5"), ("exponent as f64", "as f64"), ("f64::MAX", "f64::MAX"),
    ("Vec::new()", "Vec::new"), ("HashMap", "HashMap"), ("|x: f64| x", "f64"), ("let x: f64 = 1", "f64"),
    ("match drop { _ => 1 }", "drop"), ("match exponent { swap(_) => 1 }", "swap"),
])  # fmt: skip
def test_unknown_form_is_seen(monkeypatch, code, form):
    """A form of code that is in no table is refused, with its file and line."""
    said = failure(monkeypatch, of_library, "math/src/tens", "1 << exponent", code)
    assert said == f"LINE: a form that no rule knows: {form}"


@pytest.mark.parametrize("old, new, why", [
    ("#[inline]", "#[target_feature]", "form that no rule knows: #[target_feature]"),
    ("#[inline]", "#[inline] #[target_feature]", "form that no rule knows: #[target_feature]"),
    ("#[inline]", "#[inline] #[tactic(auto)]", "form that no rule knows: #[tactic(auto)]"),
    ("#[inline]", "#[derive(Default)]", "form that no rule knows: #[derive(Default)]"),
    ("ten(exponent", "ten(#[foo] exponent", "form that no rule knows: #[foo]"),
    ("pub fn power_of_ten", "pub unsafe fn power_of_ten", "form that no rule knows: unsafe"),
    ("\n/// The", '\nextern "C" { fn abort(); }\n\n///', "form that no rule knows: extern"),
    ("\n/// The", '\npub extern "C" fn f() {}\n\n///', "form that no rule knows: extern"),
    ("\n/// The", "\npub use core::mem::drop;\n\n///", "form that no rule knows: core::mem"),
    ("\n/// The", "\npub use core::{mem};\n\n///", "form that no rule knows: mem"),
    ("\n/// The", "\nuse std::net::IpAddr;\n\n///", "path that no rule knows: std::net::IpAddr"),
    ("\n/// The", "\nuse alloc::vec::Vec;\n\n///", "path that no rule knows: alloc::vec::Vec"),
    ("assert_eq!(rt; power", "assert_eq![rt; power", "form that no rule knows: rt;"),
    ("assert_eq!(rt; power", "assert_eq!(alloc; power", "form that no rule knows: alloc"),
    ("fn power_of_ten", "fn power_of_10", "tens.rt: no function is power_of_ten, which has to be `const`"),
])  # fmt: skip
def test_unknown_item_is_seen(monkeypatch, old, new, why):
    """So is a form beside the code of functions: an attribute, an item, a path, an example."""
    said = failure(monkeypatch, of_library, "math/src/tens", old, new)
    assert said.endswith(why) and said.startswith("LINE: " if " knows: " in why else "crates/byte_unit_math/src/")


@pytest.mark.parametrize("name, old, new, item, by_hand", [
    ("math/src/lanes", "b'0')\n}", "b'1')\n}", "fn last_16_digits", "support/lanes.rs"),
    ("base/src/read/unit", "splat(0x20)", "splat(0x21)", "fn suffix_len", "support/lanes.rs"),
    ("base/src/read/digits", "100 + (1_000_000", "100 + (1_000_001", "fn value_of_eight", "support.rs"),
    ("base/src/read/digits", "0x0000_00ff_0000_00ff", "0x0000_00ff_0000_00fe", "fn value_of_eight", "support.rs"),
    ("base/src/stop", "s.chars().next()\n", "s.chars().last()\n", "fn first_char", "support.rs"),
    ("math/src/decimal", "Expansion::from_decimal(*self).fmt(f)", "Ok(())",
     "impl fmt::Display for Decimal", "decimal.rs"),
    ("base/src/unit", "f.write_str(self.as_str())", "Ok(())", "impl fmt::Display for Unit", "sizes.rs"),
    ("byte/src/byte/built_in_traits", "fmt_u128(self", "fmt_u64(self", "impl fmt::Display for Byte", "sizes.rs"),
    ("byte/src/byte/adjusted/built_in_traits", "let size = self.get_byte().as_u128();", "let size = 1;",
     "impl fmt::Display for AdjustedByte", "sizes.rs"),
    ("byte/src/byte/constructors", "so it is not tested here.\n        Byte { size }", "so.\n        Byte { size: 1 }",
     "fn from_u128_unsafe", "sizes.rs"),
    ("byte/src/byte/adjusted", "* Kind::Byte.bits()", "* Kind::Bit.bits()", "fn get_value", "sizes.rs"),
    ("byte/src/byte/adjusted", "byte_unit_format::adjusted_len(", "byte_unit_format::len(", "fn text_len", "sizes.rs"),
    ("byte/src/byte/adjusted", "byte_unit_format::write_adjusted(", "byte_unit_format::put(",
     "fn write_text", "sizes.rs"),
    ("byte/src/byte/text", "byte_unit_format::write_text(", "byte_unit_format::write(", "this file", "sizes.rs"),
    ("byte/src/byte/approximate", "UnitType,", "Unit,", "this file", "sizes.rs"),
    ("byte/src/byte/json", "FormatSpec::ALTERNATE)?", "FormatSpec::PLAIN)?", "this file", "serde_traits.rs"),
    ("byte/src/byte/adjusted/json", "size == Byte::MAX {", "size == Byte::MIN {", "this file", "serde_traits.rs"),
    ("math/src/decimal", "\nimpl Model for", "\nimpl Clone for Decimal {}\n\nimpl Model for",
     "impl Clone for Decimal", ""),
    ("base/src/errors", "JsonSizeError::NotString => J", "JsonSizeError::NotText => J", "impl Clone for JsonSizeError",
     "serde_traits.rs"),
])  # fmt: skip
def test_changed_code_that_is_by_hand_is_seen(monkeypatch, name, old, new, item, by_hand):
    """A change of proved code in whose place there is other Rust is refused, until somebody has looked at that."""
    said = failure(monkeypatch, of_library, name, old, new)
    start = rf"crates/byte_unit_{name}.rt:\d+|LINE"
    why = f"{item} is new or has changed: see if bindings/rust/src/{by_hand} does the same by hand"
    assert re.fullmatch(rf"(?:{start}): {re.escape(why)}, and write \w{{8}} in render/by_hand.py", said), said


@pytest.mark.parametrize("old, new", [
    ("with leading zeros: first four", "with zeros: first four"), ("{ n < 10 ^ 16 }", "{ n < 10 ^ 15 }"),
    ("    // The first digit of two", "    // One digit of two"), ("    let hundred =", "    let  hundred ="),
])  # fmt: skip
def test_contracts_and_comments_of_such_code_may_change(monkeypatch, old, new):
    assert failure(monkeypatch, of_library, "math/src/lanes", old, new) == "rendered"


@pytest.mark.parametrize("old, new, why", [
    ("use byte_unit::ParseError;", "use byte_unit::Parse;", "name that no rule knows: byte_unit::Parse"),
    ("use byte_unit_base::size;", "use std::simd::u8x1;", "form that no rule knows: std::simd"),
    ("#[inline(always)]", "#[cfg(test)]", "form that no rule knows: #[cfg(test)]"),
    *((None, code, f"form that no rule knows: {form}") for code, form in (
        ("std::io::x", "std::io::x"), ("laws::x()", "laws::x"), ("1 ⊕ 2", "⊕"), ("1 << requires", "requires"),
        ("(0..)", "a..)"), ("Vec::leak(1)", "Vec::leak"), ("io::copy", "io::copy"), ("env::vars()", "env::vars"))),
])  # fmt: skip
def test_unknown_form_of_a_program_is_seen(monkeypatch, old, new, why):
    if not old:
        old = "use byte_unit::ParseError;"
        new = f"const A: u8 = {new}; {old}"
    assert failure(monkeypatch, of_program, "command/src/size", old, new) == f"LINE: a {why}"


@pytest.mark.parametrize("packages", [rust, rust_programs], ids=["library", "programs"])
def test_unused_form_is_seen(monkeypatch, packages):
    """What no source has may be in no table: they are the vocabulary of the sources, and no more."""
    monkeypatch.setattr(rust, "formatted", str)
    monkeypatch.setattr(packages.KNOWN, "unseen", {".swap("})
    with pytest.raises(Failure, match=re.escape("no source has what a table of the renderer has: .swap(")):
        [*packages.made()]


@pytest.mark.parametrize("code, unseen", [
    ("a rule 1", set()), ("a rule", {"1"}), ("1", {"a rule"}), ("0x1", {"1", "a rule"}),
])  # fmt: skip
def test_each_rule_and_word_is_needed(code, unseen):
    """Of the words those of the last table."""
    known, file = vocabulary.Vocabulary((), ["a rule"], [("{}", "0x1")], [("{}", "1")]), rust.Rendered("VERSION", "")
    file.text = file.code = code
    known.check(file, "a rule")
    assert known.unseen == unseen


FILE, OTHER = "// Rendered from a source.\n", "// Written by hand.\n"


@pytest.mark.parametrize("found, said, after", [
    ({"x/a.rs": FILE}, "as rendered: rust\n", {"x/a.rs": FILE}),
    ({}, "x/a.rs:1: differs from what is rendered", {"x/a.rs": FILE}),
    ({"x/a.rs": OTHER}, "x/a.rs:1: differs from what is rendered", {"x/a.rs": FILE}),
    ({"x/a.rs": FILE, "x/gone.rs": FILE}, "x/gone.rs:1: is rendered from no file", {"x/a.rs": FILE}),
    ({"x/a.rs": FILE, "x/gone.rs": OTHER}, "x/gone.rs:1: is rendered from no file",
     {"x/a.rs": FILE, "x/gone.rs": OTHER}),
], ids=["as rendered", "missing", "changed", "of no source", "by hand"])  # fmt: skip
def test_files_are_compared(monkeypatch, tmp_path, capsys, found, said, after):
    """Each file that is rendered, and each one beside it, is compared; without --check it is written or removed."""
    monkeypatch.setattr(common, "ROOT", str(tmp_path))
    monkeypatch.setitem(render.PARTS, "rust", lambda: rust.files_of({"x/a.rs": FILE}, "x/"))
    monkeypatch.setattr(rust, "formatted", str)
    output("git", "init", "-q", cwd=tmp_path)
    for name, text in found.items():
        write(name, text)
    status = render.run("rust", check=True)
    printed = capsys.readouterr().out
    assert (status, printed.startswith(said)) == (found != {"x/a.rs": FILE}, True), printed
    assert render.run("rust") == (OTHER in after.values())
    assert {name: read(name) for name in after} == after and len(rust.files()) == len(after)
