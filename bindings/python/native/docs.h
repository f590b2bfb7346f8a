/* The documentation of the calls that the package exports, and their parameters in the form that `inspect.signature`
 * reads. The stub _native.pyi has the types. */
#ifndef DOCS_H
#define DOCS_H

#define HEAD(signature) signature "\n--\n\n"
#define OUT_OF_RANGE "Raises `ByteUnitError` if an argument is out of range.\n\n"

#define PARSE_DOC \
    HEAD("parse($module, text, *, bits=False, ignore_case=False, binary=False, words=False)") \
    "Parses a size: a number and a unit, or a number alone.\n\n" \
    "Returns the number of bytes, or of bits with `bits`, rounded up to a whole one. White space at both ends\n" \
    "is ignored. A text without a unit is in bytes, or in bits with `bits`. `B` means bytes, and `b` bits\n" \
    "unless `ignore_case` is set, which makes it bytes; with `bits` that flag has no effect.\n\n" \
    "`K` and `KB` are by 1000, up to `R` and `RB`; with `binary` they are by 1024, as `Ki` and `KiB` always\n" \
    "are. So nginx, docker, the JVM and PostgreSQL mean them, where `b` is bytes: with `ignore_case` too.\n\n" \
    "With `words`, words for units are read too: a prefix by its name or its letters, or none, then `byte`,\n" \
    "`octet` or `bit`, in the singular or the plural, in either case. No text that is a size without it changes.\n\n" \
    "An `int` in place of a text is returned as it is, if it is a size. A `float` is a `TypeError`: write it with\n" \
    "its unit, as a text.\n\n" \
    "Raises `SizeError` if the text is not a size, and `ByteUnitError` if an `int` is not. Bytes are taken as\n" \
    "UTF-8.\n\n" \
    ">>> parse(\"1.5 KiB\"), parse(1536)\n" \
    "(1536, 1536)\n" \
    ">>> parse(\"9 b\"), parse(\"9 b\", ignore_case=True)\n" \
    "(2, 9)\n" \
    ">>> parse(b\"1 KB\", bits=True)\n" \
    "8000\n" \
    ">>> parse(\"10m\", binary=True), parse(\"128 mb\", binary=True, ignore_case=True)\n" \
    "(10485760, 134217728)\n" \
    ">>> parse(\"5 bytes\", words=True), parse(\"64 KBytes\", words=True, binary=True)\n" \
    "(5, 65536)\n" \
    ">>> parse(\"1 KX\")\n" \
    "Traceback (most recent call last):\n" \
    "byte_unit.SizeError: '1 KX' is not a size: the character 'X' is incorrect ('B' or 'b' or no character is " \
    "expected) (character 4)"

#define EXPLAIN_DOC \
    HEAD("explain($module, text, *, bits=False, ignore_case=False, binary=False, words=False)") \
    "Returns the reason in the message of the error that `parse` raises, or `None` if the text is a size.\n\n" \
    "It ends with the number of the first wrong character, from 1, or with \"(at the end of the text)\", unless\n" \
    "only the size is too large or the text is not UTF-8.\n\n" \
    ">>> explain(\"one KB\")\n" \
    "\"the character 'o' is not a number (character 1)\"\n" \
    ">>> explain(\"1 KB\") is None\n" \
    "True"

#define PARSE_UNIT_DOC \
    HEAD("parse_unit($module, text, *, bits=False, ignore_case=False)") \
    "Parses a unit in any of its spellings, and returns its name.\n\n" \
    "A spelling without a suffix is of bytes, or of bits with `bits`. With `ignore_case` the suffix `b` means\n" \
    "bytes too. White space at both ends is ignored.\n\n" \
    "Raises `SizeError` if the text is not a unit.\n\n" \
    ">>> parse_unit(\"kibits\"), parse_unit(\"m\"), parse_unit(\"m\", bits=True)\n" \
    "('Kib', 'MB', 'Mb')\n" \
    ">>> parse_unit(\"kb\"), parse_unit(\"kb\", ignore_case=True)\n" \
    "('Kb', 'KB')\n" \
    ">>> parse_unit(\"Kx\")\n" \
    "Traceback (most recent call last):\n" \
    "byte_unit.SizeError: 'Kx' is not a unit: the character 'x' is incorrect ('B' or 'b' or no character is " \
    "expected) (character 2)"

#define EXPLAIN_UNIT_DOC \
    HEAD("explain_unit($module, text, *, bits=False, ignore_case=False)") \
    "Returns the reason in the message of the error that `parse_unit` raises, or `None` if the text is a unit.\n\n" \
    "It ends with the number of the first wrong character, from 1, or with \"(at the end of the text)\", unless\n" \
    "the text is not UTF-8.\n\n" \
    ">>> explain_unit(\"Kbitx\")\n" \
    "\"the character 'x' is incorrect ('s' or no character is expected) (character 5)\"\n" \
    ">>> explain_unit(\"Kbits\") is None\n" \
    "True"

#define TEXT_DOC \
    HEAD("text($module, size, *, bits=False, precision=None, width=None, align=None, sign=None, alternate=True)") \
    "Formats a size in a unit that represents it exactly, or with `alternate=False` in digits alone.\n\n" \
    "The unit is the largest of its kind (bytes or bits), not above the size, in which the size is exact with\n" \
    "at most `precision` digits after the decimal point: 3 if it is `None`, and never more than 28. If there is\n" \
    "no such unit, it is `B` or `b`.\n\n" \
    "`width` is the least number of columns, filled with spaces: between the number and the unit, or before the\n" \
    "number with `align=\"right\"`. Digits alone are aligned as `align` says, which is \"left\", \"center\" or\n" \
    "\"right\", to the right if it is `None`. `sign=\"plus\"` puts a plus sign before digits alone, and pads the\n" \
    "unit and the space before it to four columns; `sign=\"minus\"` leaves that space out. A width and a precision\n" \
    "are at most 65535. Numbers are `int`, or what `operator.index` accepts.\n\n" \
    OUT_OF_RANGE \
    ">>> text(1536), text(1537), text(1500, bits=True)\n" \
    "('1.5 KiB', '1.537 KB', '1.5 Kb')\n" \
    ">>> text(123456, precision=0), text(1536, alternate=False)\n" \
    "('123456 B', '1536')\n" \
    ">>> text(1536, width=10), text(1536, width=10, align=\"right\"), text(1536, sign=\"minus\")\n" \
    "('1.5    KiB', '   1.5 KiB', '1.5KiB')"

#define ADJUSTED_TEXT_DOC \
    HEAD("adjusted_text($module, size, unit, *, bits=False, precision=None, width=None, align=None, " \
         "sign=None, alternate=False)") \
    "Formats a size in a unit, which is one of `UNITS`.\n\n" \
    "Without a precision all digits are shown. With one, the number is rounded to exactly `precision` digits\n" \
    "after the point, where ties go to the even digit; but in `b` and `B` all digits are shown. With\n" \
    "`alternate=True` it is rounded to at most `precision` digits, 16 at most and none that are zeros at the\n" \
    "end, where ties go up, in `b` and `B` too. The other arguments are those of `text`.\n\n" \
    OUT_OF_RANGE \
    ">>> adjusted_text(123456, \"KiB\"), adjusted_text(123456, \"KiB\", precision=2)\n" \
    "('120.5625 KiB', '120.56 KiB')\n" \
    ">>> adjusted_text(1280, \"KiB\", precision=1), adjusted_text(1280, \"KiB\", precision=1, alternate=True)\n" \
    "('1.2 KiB', '1.3 KiB')\n" \
    ">>> adjusted_text(1536000, \"KB\", precision=2), adjusted_text(1536000, \"KB\", precision=2, alternate=True)\n" \
    "('1536.00 KB', '1536 KB')\n" \
    ">>> adjusted_text(3, \"B\", bits=True, precision=1), adjusted_text(3, \"B\", bits=True, precision=1, " \
    "alternate=True)\n" \
    "('0.375 B', '0.4 B')"

#define APPROXIMATE_TEXT_DOC \
    HEAD("approximate_text($module, size, *, bits=False, unit_type='binary', precision=1, width=None, align=None, " \
         "sign=None, alternate=False)") \
    "Formats a size for people, rounded in the largest unit of its kind and of a type that is not above it.\n\n" \
    "The unit is what `appropriate_unit` returns with `unit_type`, \"binary\", \"decimal\" or \"both\", and the\n" \
    "text what `adjusted_text` does in it. The unit is chosen before the number is rounded. With\n" \
    "`precision=None` all digits are shown.\n\n" \
    OUT_OF_RANGE \
    ">>> approximate_text(123456789), approximate_text(123456789, unit_type=\"decimal\", precision=2)\n" \
    "('117.7 MiB', '123.46 MB')\n" \
    ">>> approximate_text(1023), approximate_text(2**20 - 1), approximate_text(1500, bits=True)\n" \
    "('1023 B', '1024.0 KiB', '1.5 Kib')"

#define APPROPRIATE_UNIT_DOC \
    HEAD("appropriate_unit($module, size, *, bits=False, unit_type='binary')") \
    "Returns the largest unit of the kind and of the type that is not above the size, or `B` or `b` if there is\n" \
    "none. The type is \"binary\", \"decimal\" or \"both\".\n\n" \
    OUT_OF_RANGE \
    ">>> appropriate_unit(10000), appropriate_unit(10000, unit_type=\"decimal\"), appropriate_unit(7, bits=True)\n" \
    "('KiB', 'KB', 'b')"

#define EXACT_UNIT_DOC \
    HEAD("exact_unit($module, size, *, bits=False, either_kind=False)") \
    "Returns the size as a whole number of the largest unit, not above it, that divides it, and the unit.\n\n" \
    "If there is no such unit, it is `B` or `b`. With `either_kind`, units of bytes and of bits are considered.\n\n" \
    "Raises `ByteUnitError` if the size is out of range.\n\n" \
    ">>> exact_unit(50840000), exact_unit(1001)\n" \
    "((50840, 'KB'), (1001, 'B'))"

#define RECOVERABLE_UNIT_DOC \
    HEAD("recoverable_unit($module, size, *, bits=False, either_kind=False, precision=3)") \
    "Returns the size in the largest unit, not above it, in which it is exact with `precision` digits, and the\n" \
    "unit.\n\n" \
    "The digits are those after the decimal point. A precision is at most 65535, and more than 28 counts as 28.\n" \
    "If there is no such unit, it is `B` or `b`. With `either_kind`, units of bytes and of bits are considered.\n\n" \
    OUT_OF_RANGE \
    ">>> recoverable_unit(50840000, precision=2), recoverable_unit(50840000, precision=1)\n" \
    "((Decimal('50.84'), 'MB'), (Decimal('50840'), 'KB'))"

#define FROM_UNIT_DOC \
    HEAD("from_unit($module, count, unit, *, bits=False)") \
    "Returns the size of a whole number of a unit, rounded up to a whole byte, or bit with `bits`.\n\n" \
    "Raises `ByteUnitError` if the size is 10^30 or more, or an argument is out of range.\n\n" \
    ">>> from_unit(3, \"KiB\"), from_unit(17, \"b\"), from_unit(1, \"KB\", bits=True)\n" \
    "(3072, 3, 8000)"

#endif
