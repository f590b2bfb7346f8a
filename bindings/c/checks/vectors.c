/* Makes the calls of test vectors through the C API. Reads records that end with a zero byte, each a call of
 * crates/byte_unit_vectors/stdin with its text unescaped, and writes a line with the result of each, or `-` for a call
 * that the C API does not have. */
#include "byte_unit.h"

#include <stdio.h>
#include <stdlib.h>
#include <string.h>

static char out[1 << 18]; /* longer than each text of the vectors */

/* Returns ten times a number, and a digit more. */
static byte_unit_number with_digit(byte_unit_number n, char digit)
{
    uint64_t low = (n.low & UINT32_MAX) * 10 + (uint64_t)(digit - '0'), middle = (n.low >> 32) * 10 + (low >> 32);
    return (byte_unit_number){middle << 32 | (low & UINT32_MAX), n.high * 10 + (middle >> 32)};
}

/* Returns the last digit of a number, and divides the number by ten. */
static char take_digit(byte_unit_number *n)
{
    uint64_t middle = n->high % 10 << 32 | n->low >> 32, low = middle % 10 << 32 | (n->low & UINT32_MAX);
    *n = (byte_unit_number){middle / 10 << 32 | low / 10, n->high / 10};
    return (char)('0' + (int)(low % 10));
}

/* Returns the number whose digits a text begins with. */
static byte_unit_number number(const char *digits)
{
    byte_unit_number n = {0, 0};
    for (; *digits >= '0' && *digits <= '9'; digits++)
        n = with_digit(n, *digits);
    return n;
}

/* Prints the digits of a number. */
static void print_number(byte_unit_number n)
{
    /* At most 39 digits, and a zero. */
    char digits[40], *at = digits + sizeof digits - 1;
    *at = 0;
    do
        *--at = take_digit(&n);
    while (n.low || n.high);
    printf("%s", at);
}

/* Prints a decimal without the zeros at its end. The fraction has 28 digits. */
static void print_decimal(byte_unit_decimal decimal)
{
    char digits[28];
    size_t len = 28;
    print_number(decimal.whole);
    for (size_t i = len; i--;)
        digits[i] = take_digit(&decimal.fraction);
    while (len && digits[len - 1] == '0')
        len--;
    if (len)
        printf(".%.*s", (int)len, digits);
}

static void print_unit(uint32_t unit)
{
    char name[4];
    printf("%.*s", (int)byte_unit_unit_name(unit, name, sizeof name), name);
}

/* Returns the code of a unit. */
static uint32_t unit_of(const char *name)
{
    uint32_t unit = BYTE_UNIT_NO_UNIT;
    byte_unit_parse_unit(name, strlen(name), 0, &unit, NULL);
    return unit;
}

/* Prints a character in UTF-8. */
static void print_character(uint32_t c)
{
    if (c < 0x80)
        putchar((int)c);
    else if (c < 0x800)
        printf("%c%c", (int)(0xC0 | c >> 6), (int)(0x80 | (c & 63)));
    else if (c < 0x10000)
        printf("%c%c%c", (int)(0xE0 | c >> 12), (int)(0x80 | (c >> 6 & 63)), (int)(0x80 | (c & 63)));
    else
        printf("%c%c%c%c", (int)(0xF0 | c >> 18), (int)(0x80 | (c >> 12 & 63)), (int)(0x80 | (c >> 6 & 63)),
               (int)(0x80 | (c & 63)));
}

/* Prints an error as the vectors have it: the name of the code, and its details; and its position unless it is the one
 * that the call for it writes, or 0 if only the size is too large or that call writes none. */
static void print_error(uint32_t code, const byte_unit_error *error, const char *text,
                        bool (*position_of)(const char *, size_t, size_t *))
{
    static const char *const names[] = {"", "NoValue", "NotNumber", "NumberTooLong", "ExceededBounds", "Unit",
                                        "NotUtf8"};
    size_t position = 0;
    printf("%s", code < 7 ? names[code] : "InvalidArgument");
    if (code == BYTE_UNIT_NOT_NUMBER || code == BYTE_UNIT_UNIT) {
        printf(" \"");
        print_character(error->character);
        putchar('"');
    }
    if (code == BYTE_UNIT_UNIT)
        printf(" [%s]%s", error->expected, error->also_expect_no_character ? " end" : "");
    if (code == BYTE_UNIT_EXCEEDED_BOUNDS) {
        putchar(' ');
        print_decimal(error->number);
    }
    if (code != BYTE_UNIT_EXCEEDED_BOUNDS)
        position_of(text, strlen(text), &position);
    if (code != BYTE_UNIT_NOT_UTF8 && error->position != position)
        printf(" at %zu", error->position);
}

/* Returns the spec of a format string of the Rust crate. */
static byte_unit_spec spec_of(const char *s)
{
    byte_unit_spec spec = {0};
    s += strncmp(s, "{:", 2) ? 1 : 2;
    for (int i = 0; i < 3; i++)
        if (*s == "<^>"[i])
            spec.align = (uint8_t)(i + 1), s++, i = 3;
    if (*s == '+' || *s == '-')
        spec.sign = *s++ == '+' ? BYTE_UNIT_SIGN_PLUS : BYTE_UNIT_SIGN_MINUS;
    if (*s == '#')
        spec.alternate = 1, s++;
    spec.width = (uint32_t)strtoul(s, (char **)&s, 10);
    if (*s == '.')
        spec.has_precision = 1, spec.precision = (uint32_t)strtoul(s + 1, NULL, 10);
    return spec;
}

/* Answers `parse KIND CASE TEXT`, and `parse_binary` and `words` by a flag. */
static void answer_parse(uint32_t flags, const char *text)
{
    byte_unit_number size;
    byte_unit_error error;
    uint32_t code = byte_unit_parse(text, strlen(text), flags, &size, &error);
    if (code == BYTE_UNIT_OK)
        print_number(size);
    else
        print_error(code, &error, text, byte_unit_error_position);
}

/* Answers `hint TEXT`. */
static void answer_hint(const char *text)
{
    size_t len = byte_unit_hint(text, strlen(text), out, sizeof out);
    if (len)
        printf("\"%.*s\"", (int)len, out);
    else
        printf("none");
}

/* Answers `unit CASE PREFER TEXT`. */
static void answer_unit(uint32_t flags, const char *text)
{
    uint32_t unit;
    byte_unit_error error;
    uint32_t code = byte_unit_parse_unit(text, strlen(text), flags, &unit, &error);
    if (code == BYTE_UNIT_OK)
        print_unit(unit);
    else
        print_error(code, &error, text, byte_unit_unit_error_position);
}

/* Answers `position OF TEXT`. */
static void answer_position(const char *of, const char *text)
{
    size_t position;
    if (strcmp(of, "unit") ? byte_unit_error_position(text, strlen(text), &position)
                           : byte_unit_unit_error_position(text, strlen(text), &position))
        printf("%zu", position);
    else
        printf("none");
}

/* Answers `says KIND CASE TEXT`. The vectors have the message without its last words. If the error has a position, these
 * have to be the number of the character there, or to say that only white space follows. */
static void answer_says(uint32_t flags, const char *text)
{
    size_t len = byte_unit_explain(text, strlen(text), flags, out, sizeof out), position, nth = 1, tail_len = 0;
    char tail[40] = "";
    if (byte_unit_error_position(text, strlen(text), &position)) {
        for (size_t at = 0; at < position; at++) /* counts the first bytes of characters */
            nth += ((unsigned char)text[at] & 0xC0) != 0x80;
        if (text[position + strspn(text + position, " \t\n\v\f\r")])
            tail_len = (size_t)sprintf(tail, " (character %zu)", nth);
        else
            tail_len = strlen(strcpy(tail, " (at the end of the text)"));
    }
    if (len < tail_len || memcmp(out + len - tail_len, tail, tail_len))
        printf("without%s: ", tail), tail_len = 0;
    printf("\"%.*s\"", (int)(len - tail_len), out);
}

/* Answers `text KIND SIZE [in UNIT | by TYPE] SPEC`. The type is binary, decimal or both. */
static void answer_text(uint32_t flags, char **words)
{
    byte_unit_number size = number(words[2]);
    size_t len;
    if (words[3][0] == '{')
        len = byte_unit_text(size, flags, spec_of(words[3]), out, sizeof out);
    else {
        uint32_t type = words[4][0] == 'd' ? BYTE_UNIT_DECIMAL : words[4][1] == 'i' ? BYTE_UNIT_BINARY : BYTE_UNIT_BOTH;
        uint32_t unit = words[3][0] == 'i' ? unit_of(words[4]) : byte_unit_appropriate_unit(size, flags, type);
        len = byte_unit_adjusted_text(size, flags, unit, spec_of(words[5]), out, sizeof out);
    }
    printf("\"%.*s\"", (int)len, out);
}

/* Answers `exact KIND SET SIZE` and `recoverable KIND SET PLACES SIZE`. */
static void answer_choice(uint32_t flags, char **words)
{
    byte_unit_decimal count = {{0, 0}, {0, 0}};
    uint32_t unit;
    flags |= strcmp(words[2], "any") ? 0 : BYTE_UNIT_EITHER_KIND;
    if (words[0][0] == 'e')
        unit = byte_unit_exact_unit(number(words[3]), flags, &count.whole);
    else
        unit = byte_unit_recoverable_unit(number(words[4]), flags, strtoul(words[3], NULL, 10), &count);
    print_decimal(count);
    putchar(' ');
    print_unit(unit);
}

/* Answers `make_in KIND NUMBER UNIT`. */
static void answer_make_in(uint32_t flags, char **words)
{
    byte_unit_number size;
    if (byte_unit_from_unit(number(words[2]), unit_of(words[3]), flags, &size))
        print_number(size);
    else
        printf("none");
}

/* Answers `compute KIND SIZE OP NUMBER`. The C API adds and subtracts alone. */
static void answer_compute(char **words)
{
    byte_unit_number a = number(words[2]), b = number(words[4]), result;
    bool is_sum = !strcmp(words[3], "add");
    if (!is_sum && strcmp(words[3], "subtract"))
        putchar('-');
    else if (is_sum ? byte_unit_add(a, b, &result) : byte_unit_subtract(a, b, &result))
        print_number(result);
    else
        printf("none");
}

/* Answers `as_u64 KIND SIZE`: the size, or the greatest number of 64 bits in its place, and the size, if it fits. */
static void answer_as_u64(byte_unit_number size)
{
    uint64_t value = UINT64_MAX;
    bool fits = byte_unit_to_u64(size, &value);
    if (byte_unit_compare(size, (byte_unit_number)BYTE_UNIT_SIZE_LIMIT_INIT) >= 0) {
        printf("none");
        return;
    }
    print_number(byte_unit_from_u64(value));
    putchar(' ');
    if (fits)
        print_number(byte_unit_from_u64(value));
    else
        printf("none");
}

/* Answers a record: words, of which no call has more than eight, and a text after a double quote. */
static void answer(char *record)
{
    char *words[8] = {0}, *text = strchr(record, '"');
    size_t count = 0;
    if (text)
        *text++ = 0;
    for (char *word = strtok(record, " "); word && count < 8; word = strtok(NULL, " "))
        words[count++] = word;
    /* In `unit CASE PREFER` the case is the second word, and else it is the last one, if there is any. */
    uint32_t bits = count > 1 && !strcmp(words[1], "bit") ? BYTE_UNIT_BITS : 0;
    bool is_uncased = count > 1 && (!strcmp(words[count - 1], "uncased") || !strcmp(words[1], "uncased"));
    uint32_t uncased = is_uncased ? BYTE_UNIT_IGNORE_CASE : 0;
    if (!strcmp(words[0], "parse"))
        answer_parse(bits | uncased, text);
    else if (!strcmp(words[0], "parse_binary"))
        answer_parse(bits | uncased | BYTE_UNIT_BINARY_PREFIXES, text);
    else if (!strcmp(words[0], "words"))
        answer_parse(bits | uncased | BYTE_UNIT_WORDS | (strcmp(words[2], "binary") ? 0 : BYTE_UNIT_BINARY_PREFIXES),
                     text);
    else if (!strcmp(words[0], "hint"))
        answer_hint(text);
    else if (!strcmp(words[0], "position"))
        answer_position(words[1], text);
    else if (!strcmp(words[0], "unit"))
        answer_unit(uncased | (strcmp(words[2], "bits") ? 0 : BYTE_UNIT_BITS), text);
    else if (!strcmp(words[0], "says"))
        answer_says(bits | uncased, text);
    else if (!strcmp(words[0], "text"))
        answer_text(bits, words);
    else if (!strcmp(words[0], "exact") || !strcmp(words[0], "recoverable"))
        answer_choice(bits, words);
    else if (!strcmp(words[0], "make_in"))
        answer_make_in(bits, words);
    else if (!strcmp(words[0], "compute"))
        answer_compute(words);
    else if (!strcmp(words[0], "as_u64"))
        answer_as_u64(number(words[2]));
    else
        putchar('-');
    putchar('\n');
}

int main(void)
{
    char *record = NULL;
    size_t room = 0;
    while (getdelim(&record, &room, 0, stdin) > 0)
        answer(record);
    free(record);
    return 0;
}
