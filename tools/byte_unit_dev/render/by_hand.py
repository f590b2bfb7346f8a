"""The proved code that is by hand in Rust: which file of the Rust package has it, and a digest of the proved code."""

import hashlib
import re

from ..source import blanked
from .bits import CRATE

# Of each item with the constants of its file in it, or of a whole file, without comments, contracts and attributes.
REPLACED = {
    "math/src/decimal.rt impl fmt::Display for Decimal": "decimal.rs 65c01c32",
    "math/src/lanes.rt fn last_16_digits": "support/lanes.rs 4237f7c9",
    "base/src/errors.rt impl Clone for JsonSizeError": "serde_traits.rs 8a2e98c5",
    "base/src/errors.rt impl Clone for ParseError": "rendered/base/errors.rs 253789fd",
    "base/src/errors.rt impl Clone for UnitParseError": "rendered/base/errors.rs 154ddc69",
    "base/src/errors.rt impl Error for JsonSizeError": "serde_traits.rs 38234d97",
    "base/src/errors.rt impl fmt::Display for JsonSizeError": "serde_traits.rs 54232c5b",
    "base/src/errors.rt enum JsonSizeError": "serde_traits.rs 870bab94",
    "base/src/read/unit.rt fn suffix_len": "support/lanes.rs c2ae17d9",
    "base/src/read/digits.rt fn value_of_eight": "support.rs 5fb2c09b",
    "base/src/stop.rt fn first_char": "support.rs 6d1531aa",
    "base/src/unit.rt impl fmt::Display for Unit": "sizes.rs 44028d8e",
    "byte/src/byte/adjusted/json.rt": "serde_traits.rs e553b169",
    "byte/src/byte/approximate.rt": "sizes.rs ae4bbf31",
    "byte/src/byte/json.rt": "serde_traits.rs d3511cf1",
    "byte/src/byte/text.rt": "sizes.rs 6ec5e818",
    "byte/src/byte/constructors.rt fn from_u128_unsafe": "sizes.rs 33fb92cc",
    "byte/src/byte/adjusted.rt fn get_value": "sizes.rs ab8007b2",
    "byte/src/byte/adjusted.rt fn write_text": "sizes.rs 17a81276",
    "byte/src/byte/adjusted.rt fn text_len": "sizes.rs febb728c",
    "byte/src/byte/adjusted/built_in_traits.rt impl fmt::Display for AdjustedByte": "sizes.rs 69a2da6e",
    "byte/src/byte/built_in_traits.rt impl fmt::Display for Byte": "sizes.rs 06a8711d",
}


def unchanged(file, start, end):
    """Fails if the code between two places is not that of the digest of its item. Returns the item."""
    if file.crate == CRATE:
        return None  # It is rendered from byte_unit_byte.
    text = blanked(file.text, lambda word: word[0] == "/")
    constants = [found[0] for found in re.finditer(r"^const (\w+):.*", text, re.M) if found[1] in text[start:end]]
    words = " ".join([text[start:end], *constants]).replace("\0", "").split()
    head = re.sub(r"#\[[^\]]*\] *|pub(\(\w+\))? ", "", file.code[start:end]).strip()
    item = re.match(r"(?:fn|enum) \w+|impl [^{]*\w|", head)[0] if start else ""
    key = f"{file.name.removeprefix('crates/byte_unit_')} {item}".strip()
    digest = hashlib.sha256(" ".join(words).encode()).hexdigest()[:8]
    where, _, known = REPLACED.get(key, " ").partition(" ")
    if digest != known:
        why = f"{item or 'this file'} is new or has changed: see if bindings/rust/src/{where} does the same by hand"
        raise file.wrong(start, f"{why}, and write {digest} in render/by_hand.py")
    return key
