"""The forms of code that are rendered as they are, since Rust means the same by them.

Each token that is left after the proofs are dropped is a name that the sources declare, or part of a form that a rule
rewrites, or one of the forms below. Anything else is a failure, and so is a form below that no source has.
"""

import functools
import re
from itertools import chain

from ..common import Failure
from ..source import sources

# The forms of the library and the C API. A method of std is known by its name, a path of std as a whole, an attribute
# by its text, a number as 1 with its prefix and suffix, and a range with what is on its sides: `a..` as an index
# alone, and with the end included between literals.
LIBRARY = [
    ("{}", """Self _ as break const continue crate else enum false fn for if impl in let macro_rules! match mod mut pub
        return self static struct super true type use while expr ident literal tt"""),
    ("{}", "bool char i8 i16 i32 i64 i128 isize str u8 u16 u32 u64 u128 usize"),
    ("as {}", "i64 u8 u16 u32 u64 u128 usize"),
    ("#[{}]", "cold doc(hidden) inline inline(always) inline(never) repr(C) unsafe(no_mangle)"),
    ("#[derive({})]", "Clone Copy Debug Drop Eq Hash Ord PartialEq PartialOrd"),
    ("{}!", "concat matches write"),
    ("{}", """Default Display Eq Err From FromStr None Ok Option Ord Ordering PartialEq PartialOrd Result Some TryFrom
        TryFromIntError core core::cmp core::error core::fmt core::num core::str fmt::Display fmt::Display::fmt
        fmt::Result str::from_utf8"""),
    ("{}::from", "char i64 i128 u32 u64 u128 usize"),
    ("{}::try_from", "u8 u16 u32 u64 u128 usize"),
    ("{}", "u32::MAX u64::BITS u64::MAX u128::BITS"),
    (".{}(", """as_bytes chars checked_add checked_div checked_mul checked_sub copy_from_slice div_ceil encode_utf8
        eq_ignore_ascii_case fill filter is_ascii is_ascii_alphabetic is_ascii_digit is_ascii_graphic is_control is_empty
        is_some iter leading_zeros max min ok ok_or parse saturating_add saturating_mul saturating_sub split_at
        split_first then then_some trailing_zeros trim trim_start unwrap unwrap_or wrapping_add
        wrapping_mul wrapping_sub write_str"""),
    # By hand, in `support`.
    ("{}", """InlineText InlineText::of last_16_digits read_digits u8x16 u8x32::from_slice
        u8x32::splat u8x4::from_slice u8x8::from_slice u32x1::from_le_bytes u64x1::from_le_bytes .simd_ne( .to_array(
        .to_bitmask("""),
    # Literals, with what is escaped and formatted in them; ranges, and what is left out of a pattern; marks.
    ("{}", r"""1 0x1 1u8 1u64 " ' b" b' \ \' \0 \\ \u :?"""),
    ("{}", "a..b 1..=1 a..] [..b (..b ,..b ,..] ,..} @..]"),
    ("{}", """+ - * / % += -= /= == != < <= > >= ! & && | || ^ = => -> ? @ $ : ::{ ::< ::$ , ; ( ) [ ] { }"""),
]
# The forms that the programs have beside those. What `rattle` and `clap` declare is by hand, in the package.
PROGRAMS = [
    ("{}", "loop trait Copy Infallible std::convert std::process std::slice::from_ref std::str"),
    (".{}(", """all any as_ref as_slice bytes ends_with extend_from_slice is_none is_ok is_some_and
        pop push push_str resize skip sort_unstable_by_key split split_once starts_with strip_prefix
        trim_end truncate windows"""),
    # By hand, in `support`, `rattle` and `clap`.
    ("{}", """AllocError Allocator ErrorKind ExitCode ExitCode::from Global HostRuntime String String::new Vec Vec::new
        env env::args eprint eprintln format io io::Error::from io::ErrorKind::BrokenPipe io::ErrorKind::OutOfMemory
        io::Result io::sink io::writer ErrorKind::BrokenPipe ErrorKind::OutOfMemory ErrorKind::WriteZero
        u8x16::from_slice u8x16::splat Arg Arg::new ArgAction ArgAction::SetTrue ArgMatches Command Command::new
        value_parser"""),
    (".{}(", """about action after_help alloc allow_hyphen_values arg args_override_self conflicts_with contains_id
        default_missing_value get_flag get_one get_str get_strs help infer_long_args is_terminal kind long num_args
        override_usage print reader require_equals short simd_eq stderr try_get_matches_from use_stderr value_name
        value_parser version"""),
    ("{}", r"'name: \n \t"),
]

TOKEN = re.compile(r"""(?P<skip>\s+|\0|//[^\n]*)|(?P<text>\w*"(?:\\.|[^"\\])*"|\w*'(?:\\.[^']*|[^'\\])')|(?P<label>'\w+)
    |(?P<attribute>\#!?\[[^\]]*\])|(?P<number>\d\w*(?:\.\d\w*)?)|(?P<word>(?:\w+::)*\w+(?:!(?!=))?)
    |(?P<mark>\.\.=?|>::|::[<{$]|::|[-=]>|<<=|>>=|&&|\|\||/\*|[-+*/%&|^=!<>]=|.)""", re.S | re.X)  # fmt: skip
# The paths that the renderer itself has written.
PACKAGE = re.compile(r"(?:crate|byte_unit)::(?:rendered|support|rattle|clap)\b")
# What declares names for all files: items, fields, and the variants of enums.
ITEM = re.compile(r"\b(?:(struct|enum|trait|type|mod)|fn|const|static|macro_rules!) (\w+)"
                  r"((?:<[^>]*>)?\(\s*(?:&(?:'\w+ )?)?(?:mut )?self\b)?"
                  r"|^ +(?:pub(?:\(\w+\))? )?(\w+): ", re.M)  # fmt: skip
ENUM = re.compile(r"\benum [^{;]*\{((?:[^{}]|\{[^{}]*\})*)\}")
# And for one file: `use`, a colon after a name, the patterns of macros, `let`, `for`, closures and arms, and type
# parameters of one letter.
USE = r"\buse [^;]*;"
NAMED = re.compile(r"(\w+):(?!:)|^ +\((\w+)\n +\$|\b([A-Z])\b", re.M)
PATTERN = re.compile(r"\blet\b([^=;]*)[=;]|\bfor\b([^{;]*?)\bin\b|[(,=]\s*(?:move )?\|([^|]*)\|"
                     r"|^ *([^=\n]*?)(?: if .*)?=>", re.M)  # fmt: skip


def items(code):
    """Yields the forms that a file declares: names, `name::` of what has paths, `.name(` of a method, `.name`."""
    for kind, name, method, field in ITEM.findall(code):
        yield from [f".{field}"] if field else [name, f"{name}!", f"{name}::" * bool(kind), f".{name}(" * bool(method)]
    for variant in re.findall(r"^ *([A-Z]\w*)", "\n".join(ENUM.findall(code)), re.M):
        yield from [variant, f"::{variant}"]


def names(code):
    """Yields the names, and macros, that are known in this file alone."""
    for name in re.findall(r"\w+", " ".join(re.findall(USE, code))):
        yield from [name, f"{name}!"]
    for found in NAMED.findall(code):
        yield from found
    for found in PATTERN.finditer(code):
        without_types = re.sub(r"(?<!:):(?!:)[^,)}|=]*|.*\bmatch\b[^{]*", "", found[found.lastindex])
        yield from re.findall(r"\b[a-z_]\w*\b(?!\s*[:(!])", without_types)


def of_text(text, *_):
    """Returns the quotes with the letter before them, the escapes, and how values are formatted."""
    start, inner = re.fullmatch(r"(\w*['\"])(.*).", text, re.S).groups()
    return [start, *map(str.rstrip, re.findall(r"\\.", inner, re.S)), *re.findall(r"\{\w*(:[^{}]*)\}", inner)]


def of_attribute(text, *_):
    """Returns the text in one line, or each derived trait."""
    text = " ".join(text.split())
    traits = re.fullmatch(r"#\[derive\((.*)\)\]", text)
    return [f"#[derive({name})]" for name in re.findall(r"[\w:]+", traits[1])] if traits else [text]


def of_number(text, left, _):
    found = re.fullmatch(r"(?:(0x)[\da-fA-F_]+?|[\d_]+)([ui]\w*)?", text)
    return [] if left == "." else [f"{found[1] or ''}1{found[2] or ''}" if found else text]


def of_word(text, left, right):
    if left == ".":
        return [f".{text}(" if right in ("(", "::<") else f".{text}"]
    return [{"as": "as ", ">::": ">::"}.get(left, "") + text]


def of_mark(text, left, right):
    """Returns a range with what is on its sides, and other marks; a point before a name is a part of it."""
    if text == "..=" and re.match("b?'|\\d", left) and re.match("b?'|\\d", right):
        return ["1..=1"]
    if text[:2] == "..":
        before = "a" if re.match(r"[\w'\")\]]", left) else left
        return [before + text + (right if re.match(r"[)}\],;]|=>", right) else "b")]
    return [text] if text != "." or not re.match(r"\w", right) else []


FORMS = {"text": of_text, "attribute": of_attribute, "number": of_number, "word": of_word, "mark": of_mark,
         "label": lambda _, left, right: ["'name:"] if right == ":" else []}  # fmt: skip


def forms(text):
    """Yields the place of each token, and its forms."""
    found = [token for token in TOKEN.finditer(text) if token.lastgroup != "skip"]
    words = [" ", *(token[0] for token in found), " "]
    for token, left, right in zip(found, words, words[2:]):
        yield token.start(), FORMS[token.lastgroup](token[0], left, right)


class Vocabulary:
    """What is known in some crates, and what their sources have of the last of the tables."""

    def __init__(self, crates, rules, *tables):
        every = [{form.replace("{}", word) for form, words in table for word in words.split()} for table in tables]
        self.crates, self.known, self.unseen = crates, set().union(*every), {*every[-1], *rules}

    @functools.cached_property
    def declared(self):
        return {form for crate in self.crates for file in sources(crate) for form in items(file.code)}

    def is_name(self, form, near):
        """Tells whether a form is a name that the sources declare, for this place those of `near`."""
        head, path, rest = form.partition("::")
        if head and path:
            is_head = re.fullmatch("Self|[A-Z]", head) or f"{head}::" in self.declared
            return PACKAGE.match(form) or is_head and self.declared.issuperset(rest.split("::"))
        return form.removeprefix("as ") in near or {form if form[0] == "." else f"::{form}"} & self.declared

    def check(self, file, *rules):
        """Fails at the first token that is not known, and in no form that a rule rewrites."""
        here, spans = {*items(file.code), *names(file.code)}, {}
        for rule in (USE, *rules):
            spans[rule] = [found.span() for found in re.finditer(rule, file.code, re.M)]
            self.unseen -= {rule} if spans[rule] else set()
        uses = spans.pop(USE)
        for place, found in forms(file.text):
            near = self.declared if any(start <= place < end for start, end in uses) else here
            known = any(start <= place < end for start, end in chain(*spans.values()))
            for form in [] if known else found:
                if form not in self.known and not self.is_name(form, near):
                    raise file.wrong(place, f"a form that no rule knows: {form}")
                self.unseen.discard(form)

    def rewritten(self, text, rules):
        """Returns a text with forms rewritten."""
        for pattern, new, *_ in rules:
            text, count = re.subn(pattern, new, text)
            self.unseen -= {pattern} if count else set()
        return text

    def used_up(self):
        """Fails if a form or a rule is of no file that was rendered."""
        if self.unseen:
            raise Failure(f"no source has what a table of the renderer has: {min(self.unseen)}")
