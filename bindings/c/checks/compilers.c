/* Makes the same calls in two shared libraries of byte_unit, and compares what each returns and writes, byte for byte.
 *
 *     compilers ONE.so OTHER.so ROUNDS SEED < TEXTS
 *
 * A round calls each function of the header once, with arguments that are drawn. What is read ends before a page of
 * memory that may not be touched, or begins after one; what is written ends before one, in memory of each library's
 * own, and the bytes before it are compared, too. First the strings of TEXTS, of which each ends with a zero byte, are
 * parsed with each flag; then some of what is drawn is one of them, changed or not.
 *
 * Prints each function with the number of its calls, and how many of them returned what FUNCTIONS has beside it. At the
 * first difference, or a signal within a call, prints the call and its arguments, and exits with 1. */
#define _GNU_SOURCE
#include "drawing.h"

#include <dlfcn.h>
#include <signal.h>
#include <stdio.h>
#include <stdlib.h>
#include <sys/mman.h>
#include <unistd.h>

/* The flags of a call that parses sizes. */
#define PARSING (BYTE_UNIT_BITS | BYTE_UNIT_IGNORE_CASE | BYTE_UNIT_BINARY_PREFIXES | BYTE_UNIT_WORDS)

/* Each function, and what it returns if it succeeds or if it fails: what is counted. */
#define FUNCTIONS(X)                                                                                                   \
    X(version, BYTE_UNIT_VERSION)                                                                                      \
    X(parse_to, BYTE_UNIT_OK)                                                                                          \
    X(parse_binary_to, BYTE_UNIT_OK)                                                                                   \
    X(parse_words_to, BYTE_UNIT_OK)                                                                                    \
    X(parse_unit_to, BYTE_UNIT_OK)                                                                                     \
    X(parse_many_to, BYTE_UNIT_OK)                                                                                     \
    X(parse_many_32_to, BYTE_UNIT_OK)                                                                                  \
    X(error_position, false)                                                                                           \
    X(unit_error_position, false)                                                                                      \
    X(explain, 0)                                                                                                      \
    X(hint, 0)                                                                                                         \
    X(explain_unit, 0)                                                                                                 \
    X(quote, 0)                                                                                                        \
    X(text, 0)                                                                                                         \
    X(adjusted_text, 0)                                                                                                \
    X(approximate_text, 0)                                                                                             \
    X(unit_name, 0)                                                                                                    \
    X(appropriate_unit, BYTE_UNIT_NO_UNIT)                                                                             \
    X(exact_unit, BYTE_UNIT_NO_UNIT)                                                                                   \
    X(recoverable_unit, BYTE_UNIT_NO_UNIT)                                                                             \
    X(from_unit, false)                                                                                                \
    X(add, false)                                                                                                      \
    X(subtract, false)                                                                                                 \
    X(compare, 0)                                                                                                      \
    X(from_u64, 0)                                                                                                     \
    X(to_u64, false)

#define FIELD(name, counted) __typeof__(byte_unit_##name) *name;
#define INDEX(name, counted) AT_##name,
#define NAME(name, counted) "byte_unit_" #name,
#define COUNTED(name, counted) counted,

static struct library {
    FUNCTIONS(FIELD)
} libraries[2];
enum { FUNCTIONS(INDEX) COUNT };
static const char *const names[] = { FUNCTIONS(NAME) };
static const uint64_t counted[] = { FUNCTIONS(COUNTED) };
static unsigned long calls[COUNT], counts[COUNT];

/* Enough for each text: neither a width of 65535 nor 65535 digits after the point make one of 2 * 65536 bytes. */
enum { PAGE = 4096, PAGES = 33, BEFORE = 32, MANY = 6 };

/* What the libraries write, each in its own memory. The last `len` bytes before the ends are the call's. */
typedef struct place {
    char *ends[2];
    size_t len;
} place;

static place number, decimal, error, unit, position, value, out, sizes, codes;
static place *const places[] = { &number, &decimal, &error, &unit, &position, &value, &out, &sizes, &codes };

/* The arguments of the calls, which are printed if there is a difference. */
static string given;
static const char *text;
static byte_unit_number size, other;
static byte_unit_spec spec;
static uint32_t flags, code;
static size_t out_len;
static int function, library;

static void print_arguments(void)
{
    printf("the string \"");
    for (size_t i = 0; i < given.len; i++)
        printf(given.bytes[i] >= ' ' && given.bytes[i] <= '~' ? "%c" : "\\x%02x", (unsigned char)given.bytes[i]);
    printf("\", the number %llu * 2^64 + %llu, flags %u, code %u, out_len %zu,\n",
           (unsigned long long)size.high, (unsigned long long)size.low, flags, code, out_len);
    printf("the other number %llu * 2^64 + %llu,\n", (unsigned long long)other.high, (unsigned long long)other.low);
    printf("the spec { .precision = %u, .width = %u, .has_precision = %u, .alternate = %u, .sign = %u, .align = %u }\n",
           spec.precision, spec.width, spec.has_precision, spec.alternate, spec.sign, spec.align);
}

static void stop_at_signal(int number_of_signal)
{
    printf("signal %d in %s of library %d; the last arguments are\n", number_of_signal, names[function], library + 1);
    print_arguments();
    fflush(stdout);
    _exit(1);
}

/* Maps memory between two pages that may not be touched, and returns its end. */
static char *map_memory(size_t pages)
{
    char *memory = mmap(NULL, PAGE * (pages + 2), PROT_NONE, MAP_PRIVATE | MAP_ANONYMOUS, -1, 0);

    if (memory == MAP_FAILED || mprotect(memory + PAGE, PAGE * pages, PROT_READ | PROT_WRITE) != 0)
        exit(2);
    return memory + PAGE * (pages + 1);
}

/* Begins a place of `len` bytes for a call: what each library finds there is the same. */
static void begin(place *where, size_t len)
{
    where->len = len;
    for (int i = 0; i < 2; i++)
        memset(where->ends[i] - len - BEFORE, 'x', len + BEFORE);
}

/* Returns where the library that is called now writes, or NULL if there is no room, as a caller may give it. */
static void *in(const place *where)
{
    return where->len ? where->ends[library] - where->len : NULL;
}

/* Compares what both libraries returned and wrote, and ends the places of the call. The bytes between the fields of an
 * error have no value. */
static void compare(const uint64_t *returned)
{
    const size_t from = offsetof(byte_unit_error, expected) + sizeof ((byte_unit_error *)0)->expected;
    bool differs = returned[0] != returned[1];

    for (size_t i = 0; i < sizeof places / sizeof *places; i++) {
        place *where = places[i];
        size_t len = where->len + BEFORE;
        if (where->len == 0)
            continue;
        for (int side = 0; side < 2 && where == &error; side++)
            memset(error.ends[side] - error.len + from, 0, offsetof(byte_unit_error, number) - from);
        differs = differs || memcmp(where->ends[0] - len, where->ends[1] - len, len) != 0;
        where->len = 0;
    }
    calls[function]++;
    counts[function] += returned[0] == counted[function];
    if (differs) {
        printf("%s: returned %llu and %llu, or what is written differs; the last arguments are\n", names[function],
               (unsigned long long)returned[0], (unsigned long long)returned[1]);
        print_arguments();
        exit(1);
    }
}

/* Compares the results of a call, or a part of each, such as `.low`. */
#define CALL(name, ...) COMPARE(name, , __VA_ARGS__)
#define COMPARE(name, part, ...)                                                                                       \
    do {                                                                                                               \
        uint64_t returned[2];                                                                                          \
        function = AT_##name;                                                                                          \
        for (library = 0; library < 2; library++)                                                                      \
            returned[library] = (uint64_t)(libraries[library].name(__VA_ARGS__) part);                                 \
        compare(returned);                                                                                             \
    } while (0)

/* Puts the string where memory ends, or where it begins; an empty one may be NULL. */
static void put(const string *one, char *end)
{
    given = *one;
    text = one_in(2) ? end - one->len : end - PAGE;
    text = one->len == 0 && one_in(2) ? NULL : memcpy((char *)text, one->bytes, one->len);
}

/* Begins a place for a text: mostly one that is long enough, or of any length. */
static void begin_out(size_t enough)
{
    out_len = one_in(8) ? below(200) : enough;
    begin(&out, out_len);
}

/* Parses the string as a size. The header chooses by two flags from the first three calls: each is made with the flags
 * that it has there, but for one in 16. */
static void parse_size(uint32_t word)
{
    const uint32_t binary = BYTE_UNIT_BINARY_PREFIXES, in_words = BYTE_UNIT_WORDS;
    size_t errors = !one_in(4);

    flags = one_in(16) ? word : word & ~(binary | in_words);
    begin(&number, sizeof(byte_unit_number));
    begin(&error, errors * sizeof(byte_unit_error));
    CALL(parse_to, text, given.len, flags, in(&number), in(&error), errors);
    flags = one_in(16) ? word : (word & ~in_words) | binary;
    begin(&number, sizeof(byte_unit_number));
    begin(&error, errors * sizeof(byte_unit_error));
    CALL(parse_binary_to, text, given.len, flags, in(&number), in(&error), errors);
    flags = one_in(16) ? word : word | in_words;
    begin(&number, sizeof(byte_unit_number));
    begin(&error, errors * sizeof(byte_unit_error));
    CALL(parse_words_to, text, given.len, flags, in(&number), in(&error), errors);
    begin(&position, sizeof(size_t));
    CALL(error_position, text, given.len, in(&position));
    flags = word;
    begin_out(BYTE_UNIT_BUFFER_SIZE);
    CALL(explain, text, given.len, flags, in(&out), out_len);
    begin_out(BYTE_UNIT_HINT_SIZE);
    CALL(hint, text, given.len, in(&out), out_len);
    begin_out(BYTE_UNIT_QUOTE_SIZE);
    CALL(quote, text, given.len, in(&out), out_len);
}

/* Parses the string as a unit. */
static void parse_unit(uint32_t word)
{
    size_t errors = !one_in(4);

    flags = word;
    begin(&unit, sizeof(uint32_t));
    begin(&error, errors * sizeof(byte_unit_error));
    CALL(parse_unit_to, text, given.len, flags, in(&unit), in(&error), errors);
    begin(&position, sizeof(size_t));
    CALL(unit_error_position, text, given.len, in(&position));
    begin_out(BYTE_UNIT_BUFFER_SIZE);
    CALL(explain_unit, text, given.len, flags, in(&out), out_len);
}

/* Returns a length that is mostly enough for a text with the spec. */
static size_t enough(void)
{
    bool is_known = spec.precision < 65536 && spec.width < 65536;
    return is_known ? (one_in(2) ? 64 : 128) + spec.precision + spec.width : 64;
}

static void format(void)
{
    size = draw_number(), spec = draw_spec();
    flags = draw_flags(BYTE_UNIT_BITS);
    begin_out(enough());
    CALL(text, size, flags, spec, in(&out), out_len);
    code = draw_code(BYTE_UNIT_RIB + 1);
    begin_out(enough());
    CALL(adjusted_text, size, flags, code, spec, in(&out), out_len);
    begin_out(8);
    CALL(unit_name, code, in(&out), out_len);
    code = draw_code(BYTE_UNIT_BOTH + 1);
    begin_out(enough());
    CALL(approximate_text, size, flags, code, spec, in(&out), out_len);
}

static void choose(void)
{
    size_t precision = one_in(16) ? draw() >> below(64) : below(32);

    CALL(version);
    size = draw_number();
    flags = draw_flags(BYTE_UNIT_BITS), code = draw_code(BYTE_UNIT_BOTH + 1);
    CALL(appropriate_unit, size, flags, code);
    flags = draw_flags(BYTE_UNIT_BITS | BYTE_UNIT_EITHER_KIND);
    begin(&number, sizeof(byte_unit_number));
    CALL(exact_unit, size, flags, in(&number));
    begin(&decimal, sizeof(byte_unit_decimal));
    CALL(recoverable_unit, size, flags, precision, in(&decimal));
    size = one_in(2) ? size : (byte_unit_number){ draw() >> below(64), 0 };
    flags = draw_flags(BYTE_UNIT_BITS), code = draw_code(BYTE_UNIT_RIB + 1);
    begin(&number, sizeof(byte_unit_number));
    CALL(from_unit, size, code, flags, in(&number));
}

/* Calculates with two numbers, of which one in two sums or differences is near the limit. */
static void calculate(void)
{
    size = draw_number();
    other = one_in(2) ? draw_number() : number_of(power(10, 30) * one_in(2) - value_of(size) + below(3) - 1);
    begin(&number, sizeof(byte_unit_number));
    CALL(add, size, other, in(&number));
    other = one_in(4) ? size : other;
    begin(&number, sizeof(byte_unit_number));
    CALL(subtract, size, other, in(&number));
    CALL(compare, size, other);
    COMPARE(from_u64, .low, other.low);
    COMPARE(from_u64, .high, other.low);
    begin(&value, sizeof(uint64_t));
    CALL(to_u64, size, in(&value));
}

/* Begins the places of the sizes and the codes of many texts, and returns their numbers: mostly those of the texts. */
static void begin_many(size_t count, size_t lengths[2])
{
    for (int i = 0; i < 2; i++)
        lengths[i] = one_in(32) ? below(MANY + 2) : count;
    begin(&sizes, lengths[0] * sizeof(byte_unit_number));
    begin(&codes, lengths[1]);
}

/* Parses many texts, with offsets of both widths, of which one in eight lists does not fit. */
static void parse_many(char *end, char *wide_end, char *narrow_end)
{
    size_t count = below(MANY + 1), offsets_len = one_in(32) ? below(MANY + 2) : count + 1, lengths[2];
    int64_t borders[MANY + 2] = { 0 }, *wide_offsets = (int64_t *)(void *)wide_end - offsets_len;
    int32_t *narrow_offsets = (int32_t *)(void *)narrow_end - offsets_len;
    string all = { .len = 0 };

    for (size_t i = 0; i <= count; i++) {
        string one = draw_string(false);
        borders[i] = (int64_t)all.len;
        if (i < count)
            append(&all, one.bytes, one.len < 24 ? one.len : 24);
    }
    if (one_in(8))
        borders[below((uint32_t)count + 1)] += one_in(2) ? (int64_t)below(7) - 3 : (int64_t)(int32_t)draw();
    for (size_t i = 0; i < offsets_len; i++)
        wide_offsets[i] = borders[i], narrow_offsets[i] = (int32_t)borders[i];
    put(&all, end);
    flags = draw_flags(PARSING);
    begin_many(count, lengths);
    CALL(parse_many_to, text, all.len, offsets_len ? wide_offsets : NULL, offsets_len, flags, in(&sizes), lengths[0],
         in(&codes), lengths[1]);
    begin_many(count, lengths);
    CALL(parse_many_32_to, text, all.len, offsets_len ? narrow_offsets : NULL, offsets_len, flags, in(&sizes),
         lengths[0], in(&codes), lengths[1]);
}

/* Opens a library, and finds its functions. */
static void open_library(struct library *found, const char *name)
{
    void *opened = dlopen(name, RTLD_NOW | RTLD_LOCAL);
    void **at = (void **)(void *)found;

    for (int i = 0; i < COUNT; i++)
        if (!opened || !(at[i] = dlsym(opened, names[i]))) {
            fprintf(stderr, "%s\n", dlerror());
            exit(2);
        }
}

/* Reads the list of strings, and parses each with each flag. */
static void read_list(char *end)
{
    char *record = NULL;
    size_t room = 0;
    ssize_t len;

    while ((len = getdelim(&record, &room, 0, stdin)) > 0) {
        size_t known = (size_t)(len - (record[len - 1] == 0));
        listed = realloc(listed, (listed_count + 1) * sizeof *listed);
        if (!listed)
            exit(2);
        listed[listed_count].len = known < LONGEST ? known : LONGEST;
        memcpy(listed[listed_count].bytes, record, listed[listed_count].len);
        put(&listed[listed_count++], end);
        for (uint32_t word = 0; word < 32; word++) {
            parse_size(word);
            parse_unit(word);
        }
    }
    free(record);
}

int main(int argc, char **argv)
{
    char *end = map_memory(1), *wide_end = map_memory(1), *narrow_end = map_memory(1);

    if (argc != 5)
        return 2;
    for (int i = 0; i < 2; i++) {
        open_library(&libraries[i], argv[1 + i]);
        for (size_t at = 0; at < sizeof places / sizeof *places; at++)
            places[at]->ends[i] = map_memory(PAGES);
    }
    for (const int *at = (int[]){ SIGSEGV, SIGBUS, SIGILL, SIGFPE, SIGABRT, 0 }; *at; at++)
        signal(*at, stop_at_signal);
    state = strtoull(argv[4], NULL, 10);
    read_list(end);
    for (unsigned long left = strtoul(argv[3], NULL, 10); left > 0; left--) {
        string one = draw_string(false);
        put(&one, end);
        parse_size(draw_flags(PARSING));
        one = draw_string(true);
        put(&one, end);
        parse_unit(draw_flags(BYTE_UNIT_BITS | BYTE_UNIT_IGNORE_CASE));
        format();
        choose();
        calculate();
        parse_many(end, wide_end, narrow_end);
    }
    for (int i = 0; i < COUNT; i++)
        printf("%s %lu %lu\n", names[i], calls[i], counts[i]);
    return 0;
}
