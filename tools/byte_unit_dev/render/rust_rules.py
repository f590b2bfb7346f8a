"""The rules by which render/rust.py makes plain Rust of the proved sources, each with its reason.

What is in none of these tables is kept as it is, if render/vocabulary.py knows it: Rattle is Rust with contracts.
"""

import re

# Files that are not rendered, by the end of their names.
LEFT_OUT = {
    "/laws.rt": "its functions do nothing: the contracts, which are dropped, are the laws",
    "/json.rt": "the package has serde in place of a type of JSON values",
    "/text.rt": "by hand in the original's form, over the functions of `format`",
    "/approximate.rt": "the same",
}
# Items that are not rendered, by how they begin, with their comments and attributes.
ITEMS_LEFT_OUT = {
    r"impl(?:<[^>]*>)? Model for \w+": "what a value is in a contract",
    r"(?:pub )?mod (?:laws|json|text|approximate);": "see `LEFT_OUT`",
    r"(?:pub(?:\(\w+\))? )?fn \w+(?:<A: Allocator>|\(self, alloc: Global)":
        "allocators are not stable, and no call of the package allocates",
}  # fmt: skip
# Items that are by hand in Rust: see render/by_hand.py.
ITEMS_BY_HAND = {
    r"impl Clone for \w+": "Rattle's `clone` may fail; the type is `Copy`, and `Clone` is derived",
    r"pub enum JsonSizeError|impl (?:\w+::)?\w+ for JsonSizeError": "see `LEFT_OUT` of `/json.rt`",
    r"impl fmt::Display for (?:Unit|Decimal|Byte|Bit|AdjustedByte|AdjustedBit)\b":
        "by hand: the original's obeys the flags of the formatter",
    r"(?:pub )?fn (?:last_16_digits|suffix_len|value_of_eight|first_char)\(":
        "by hand, in `support`: rustc makes many instructions of them",
    r"pub(?:\(crate\))? fn from_u128_unsafe": "by hand: the original's is `unsafe`",
    r"pub fn get_value": "by hand: the original's returns a float",
    r"(?<=    )pub fn (?:text_len|write_text)\(self": "see `LEFT_OUT` of `/text.rt`",
}  # fmt: skip
# Paths of names that are left out with their items.
NAMES_LEFT_OUT = re.compile(r".*::(?:append_\w+|JsonSizeError|first_char)")
# Derived traits that the original's types have, and Rattle's need not.
DERIVED = {"Unit": ["Hash"], "UnitType": ["Hash"], "Sign": ["Hash"], "Align": ["Hash"], "FormatSpec": ["Hash"],
           "ValueParseError": ["PartialEq", "Eq"], "UnitParseError": ["PartialEq", "Eq"],
           "ParseError": ["PartialEq", "Eq"]}  # fmt: skip
# Derived traits that are by hand: `Debug` of the original is that of a tuple.
BY_HAND = {"Byte": ["Debug"], "Bit": ["Debug"]}
# Paths of Rattle's std, and what is in their place. `None` is what nothing that is rendered uses.
STD = {
    **{f"std::{name}": f"core::{name}" for name in (
        "cmp::Ordering", "error::Error", "fmt", "fmt::Display", "num::TryFromIntError", "str", "str::FromStr")},
    **{f"std::{name}": None for name in ("marker::Model", "alloc::Allocator", "alloc::Global", "alloc::AllocError")},
    "std::fmt::InlineText": "byte_unit::support::InlineText",
    "std::simd::prelude::*": "byte_unit::support::lanes::*",
    "core::dec2flt::read_digits": "byte_unit::support::read_digits",
    # Rust has an exported macro at the root of its crate.
    "byte_unit_base::with_prefixes": "byte_unit::with_prefixes",
}  # fmt: skip
# Traits that are imported for their methods. Other names are not imported if nothing but proofs has used them.
TRAITS = ["Display"]

# Forms of code: a pattern, what is in its place, and why.
FORMATTER = [
    (r"<W: fmt::Write>(?=\()", "", "Rust's formatter has no parameter for its writer"),
    (r"\bfmt::Formatter<W>", "fmt::Formatter<'_>", "the same"),
]
FORMS = [
    *FORMATTER,
    (r"#\[macro_export\]", "#[doc(hidden)]\n#[macro_export]", "the macro is none of the package's names"),
    (r"bytes\[start \+ 1\] = PAIRS\[pair \+ 1\];\s*bytes\[start\] = PAIRS\[pair\];",
     "bytes[start..end].copy_from_slice(&PAIRS[pair..pair + 2]);", "one store, and one test of its indexes"),
    (r"\bvalue_of_eight\(", "crate::support::value_of_eight(", "fewer instructions, as in `read_digits`"),
    (r"\bsuffix_len\(", "crate::support::lanes::suffix_len(", "the same"),
    (r"\bfirst_char\(&text\[([\w.]+)\.\.\]\)", r"crate::support::char_at(text, \1)", "fewer, if it is ASCII"),
    (r"\bfmt::Display::fmt\(value, f\)",
     "fmt::Display::fmt(&crate::rendered::math::Expansion::from_decimal(*value), f)",
     "a message ignores the flags of its formatter, and the `Display` of a decimal obeys them"),
    (r"#\[inline\(never\)\](?=\s*fn long_value\()", "#[inline(always)]", "fewer, since a call saves registers"),
    (r"^( *)'\w+: (?=while\b)", r"\1", "labels name loops for proofs alone"),
    (r"(pub fn (?:parse_str(?:_binary)?|error_position))\(s: &str((?:, \w+: bool)*\)[^{]*\{)",
     r"\1<S: AsRef<str>>(s: S\2 let s = s.as_ref();", "as in the original: any type of strings"),
]
# Functions that are `const`, as the original's are, with those that they call, by file.
CONST = {
    "math/src/decimal": "new from_u128 whole fraction from_digits from_wide_digits from_trimmed_digits",
    "math/src/tens": "power_of_ten",
    "base/src/kind": "bits unit",
    "base/src/unit": "as_bits_u128 as_str is_bit is_binary_multiples",
    "base/src/size": "bounded ceil_to_kind with_unit",
    **{f"{kind}/src/{kind}": "as_u128 as_u64 as_u64_checked add subtract multiply divide" for kind in ("byte", "bit")},
    **{f"{kind}/src/{kind}/constructors": "from_u128 from_u64 from_i128 from_i64 from_u128_with_unit "
       "from_u64_with_unit from_i128_with_unit from_i64_with_unit" for kind in ("byte", "bit")},
    "byte/src/byte/adjusted": "get_unit get_byte get_adjusted_unit",
    "bit/src/bit/adjusted": "get_unit get_bit get_adjusted_unit",
}  # fmt: skip
# The modules of a type that are before its others, since rustdoc has its methods in the order of modules.
FIRST_MODULES = "parse constructors decimal units".split()
# Forms in their bodies: Rust's `const fn` has neither `?` nor calls of traits and closures.
CONST_FORMS = [
    (r"\b([ui]\d+)::from\(([\w.]+)\)", r"\2 as \1"),
    (r"\b([ui]\d+)::try_from\(([\w.]+)\)\.ok\(\)", r"crate::support::\1_of(\2)"),
    (r"\b([ui]\d+)::try_from\(([\w.]+)\)\.unwrap_or\((.*)\)",
     r"match crate::support::\1_of(\2) { Some(n) => n, None => \3 }"),
    (r"\((.*)\)\.then_some\((\w+)\)", r"if \1 { Some(\2) } else { None }"),
    (r"let (\w+) = ([^;]*)\?;((?:.|\n)*)\}$", r"match \2 { Some(\1) => {\3 } None => None } }"),
    (r"([\w:]+)\(([^;]*)\?((?:, \w+)?)\)(?=\s*\}$)", r"match \2 { Some(n) => \1(n\3), None => None }"),
]
# Crates whose functions are `#[inline]` unless they say otherwise: a call of another package is no call in Rattle,
# whose compiler has all crates at once.
INLINED = ["byte_unit_byte", "byte_unit_bit"]
# Methods of the package's types that users cannot call: `Steps` is for proofs. Nor can they call those that have a
# precondition, since rustc does not prove it. Examples of both are left out: doc tests cannot call them either.
HIDDEN = ["get_recoverable_unit_counted"]
HIDDEN_EXAMPLES = re.compile(
    r"^( *)///\n\1/// # Examples\n\1/// ```rust\n(?:\1///.*\n)*?\1/// ```\n(?=(?:\s|\0|#\[[^]]*\])*pub\(crate\) )",
    re.M)  # fmt: skip

QUOTED = "crate::support::write_quoted(f, "
# Forms of comments, and those that are found by what is in a string or a comment.
COMMENT_FORMS = [
    (r" \(proved at every call\)", "", "proved of the calls in Rattle alone"),
    (r"\n *// Not by `write!`, whose contract .*", "", "there is no contract"),
    (r"(?:\n *///)? In (?:a contract|contracts) (?:[^\n.]|\.(?=\d))*\.(?=\n)", "", "there is no contract"),
    (r" In contracts (?:[^\n.]|\.(?=\d))*\.(?= )", "", "the same"),
    # With its text. In Rust a character in quotes takes fewer instructions without a formatter of its own.
    (r'write!\(f, "([^{}"]*)\{(\w+):\?\}([^{}"]*)"\)', rf"""{QUOTED}"\1'", *\2, "'\3")""", "fewer instructions"),
    (r'write!\(f, "([^{}"]*)\{:\?\}([^{}"]*)", ([\w.]+)\)', rf"""{QUOTED}"\1'", \3, "'\2")""", "the same"),
    (r'write!\(f, "\{(\w+)\}\{(\w+):\?\}"\)\?', rf"""f.write_str(\1)?; {QUOTED}"'", *\2, "'")?""", "the same"),
    # With its comments. rustc puts the error beside it in a result at its beginning, and would split a number there.
    (r"(pub struct Decimal \{\n)((?:.*\n){2})((?:.*\n){2})((?:.*\n){2})(?=\})", r"#[repr(C)]\n\1\4\3\2",
     "the number of places first: fewer instructions"),
]


def decimal(found):
    """Returns an example's decimal without `from_digits`, for a match of its whole part, its digits and places."""
    whole, digits, places = found.groups()
    digits = digits.zfill(int(places)) if places != "0" else ""
    return f"Decimal::from_u128_with_scale({int(whole + digits)}, {places}).unwrap()"


# Forms of examples in comments.
EXAMPLE_FORMS = [
    *FORMATTER,
    (r"(\bassert\w*!\()rt; ", r"\1", "no argument for the runtime"),
    (r"\bformat!\(in alloc; ", "format!(", "no argument for the allocator"),
    (r"(format!\([^;]*\))\?(?=\.as_str)", r"\1", "a call that cannot fail in Rust"),
    (r"\bDecimal::from_digits\((\w+), (\w+), (\w+)\)", decimal, "a method with a precondition, see `HIDDEN`"),
    (r"\.to_text\(alloc, FormatSpec::PLAIN\)\?\.as_str\(\)", ".to_string()", "see `LEFT_OUT` of `/text.rt`"),
]
# The package's names, which each example imports as it is shown, and what precedes it, hidden, for all other names.
PUBLIC = {"AdjustedBit", "AdjustedByte", "Align", "Bit", "Byte", "Decimal", "ExceededBoundsError", "FormatSpec",
          "ParseError", "Sign", "Unit", "UnitParseError", "UnitType", "ValueParseError"}  # fmt: skip
PRELUDE = "# use byte_unit::rendered::{base::{size::parse_line, *}, bit::*, byte::*, choice::*, format::*, math::*};"

# A comment between blank lines: all of these are on ghost members.
ALONE = r"(?<=\n\n)(?://(?![/!]).*\n)+(?=\n)"
CLAUSE = r"^ *(requires|ensures)\b[^{;]*(?=\{)"
