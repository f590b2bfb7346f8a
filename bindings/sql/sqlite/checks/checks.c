/* Makes one allocation of SQLite after another fail while the extension is loaded, or a statement that calls it runs.
 * That must end with SQLITE_NOMEM, or as it does if none fails; the connection must be as usable as before, and no
 * memory may be left when it is closed. Then binds texts with zero bytes. The extension, which is linked,
 * gets only those calls of SQLite that 3.31 has, and from them texts that end where their memory ends, so that ASan
 * reports a read past one.
 *
 * Prints how many runs there were, and returns 1 if one ended otherwise. */
#define SQLITE_CORE /* calls of SQLite are its own here, not those of a table */
#include <sqlite3ext.h>
#include <stdbool.h>
#include <stddef.h>
#include <stdio.h>
#include <stdlib.h>
#include <string.h>

int sqlite3_byteunit_init(sqlite3 *db, char **error, const sqlite3_api_routines *api);

static sqlite3_mem_methods real; /* SQLite's own allocator */
static long before_failure = -1; /* how many more allocations succeed; no limit if negative */
static bool failed; /* whether an allocation failed in the run */
static long runs, wrong;
static sqlite3_int64 used_before; /* the bytes that SQLite has allocated without a database */

/* Whether the allocation fails that is asked for now. */
static bool fails(void)
{
    if (before_failure < 0)
        return false;
    failed |= before_failure == 0;
    return before_failure-- == 0;
}

static void *failing_malloc(int size)
{
    return fails() ? NULL : real.xMalloc(size);
}

static void *failing_realloc(void *old, int size)
{
    return fails() ? NULL : real.xRealloc(old, size);
}

/* Makes each allocation as long as it is asked for, not a multiple of 8 bytes. */
static int same_size(int size)
{
    return size;
}

static struct copy {
    struct copy *next;
    char text[];
} *copies;

/* Returns a copy of a text, in memory that ends where the text does. */
static const char *copy_of(const void *text, size_t len)
{
    struct copy *copy = malloc(sizeof *copy + len);

    copy->next = copies;
    copies = copy;
    return len == 0 ? copy->text : memcpy(copy->text, text, len);
}

static const unsigned char *copied_text(sqlite3_value *value)
{
    const unsigned char *text = sqlite3_value_text(value);

    return text == NULL ? NULL : (const unsigned char *)copy_of(text, (size_t)sqlite3_value_bytes(value));
}

static int (*compare)(void *, int, const void *, int, const void *); /* the collation of the extension */

static int compare_copies(void *unused, int a_len, const void *a, int b_len, const void *b)
{
    return compare(unused, a_len, copy_of(a, (size_t)a_len), b_len, copy_of(b, (size_t)b_len));
}

static int create_collation(sqlite3 *db, const char *name, int encoding, void *unused,
                            int (*call)(void *, int, const void *, int, const void *), void (*destroy)(void *))
{
    compare = call;
    return sqlite3_create_collation_v2(db, name, encoding, unused, compare_copies, destroy);
}

static int version_3_30_1(void)
{
    return 3030001;
}

static int version_3_31_0(void)
{
    return 3031000;
}

/* The calls that the extension gets. */
static sqlite3_api_routines given;

/* Sets `given`, as SQLite calls each extension: those of its calls that 3.31.0 has. */
static int get_calls(sqlite3 *db, char **error, const sqlite3_api_routines *api)
{
    (void)db, (void)error;
    memcpy(&given, api, offsetof(sqlite3_api_routines, create_filename)); /* the first one of 3.32.0 */
    given.libversion_number = version_3_31_0;
    given.value_text = copied_text;
    given.create_collation_v2 = create_collation;
    return SQLITE_OK;
}

/* Runs a statement, and writes its result: the beginning of the text of a value, NULL, or the error. Returns SQLite's
 * status. */
static int result_of(sqlite3_stmt *statement, char *out, size_t out_len)
{
    int status = sqlite3_step(statement);

    if (status == SQLITE_ROW) {
        const char *text = (const char *)sqlite3_column_text(statement, 0);
        snprintf(out, out_len, "%.60s", text == NULL ? "NULL" : text);
        if (text == NULL && sqlite3_errcode(sqlite3_db_handle(statement)) == SQLITE_NOMEM)
            status = SQLITE_NOMEM;
    } else {
        snprintf(out, out_len, "%s", sqlite3_errmsg(sqlite3_db_handle(statement)));
    }
    return status;
}

/* Ends a statement, and frees the copies of its texts. */
static void finalize(sqlite3_stmt *statement)
{
    sqlite3_finalize(statement);
    for (struct copy *next; copies != NULL; copies = next) {
        next = copies->next;
        free(copies);
    }
}

/* Prepares a statement. If that fails, it counts as wrong. */
static sqlite3_stmt *prepare(sqlite3 *db, const char *sql)
{
    sqlite3_stmt *statement = NULL;

    if (sqlite3_prepare_v2(db, sql, -1, &statement, NULL) != SQLITE_OK) {
        printf("%s: %s\n", sql, sqlite3_errmsg(db));
        wrong++;
    }
    return statement;
}

/* Runs a statement, of which the allocation after `count` others fails, or none if `count` is negative. Returns its
 * status, and its result as text. */
static int run(sqlite3 *db, const char *sql, long count, char *out, size_t out_len)
{
    sqlite3_stmt *statement = prepare(db, sql);

    failed = false;
    before_failure = count;
    int status = result_of(statement, out, out_len);
    before_failure = -1;
    finalize(statement);
    runs++;
    return status;
}

/* Runs a statement with its first allocation failing, with its second one, and so on, until all succeed; and after each
 * failure once more, as it is. There are 1000 runs at most, so that it ends. */
static void with_failures(sqlite3 *db, const char *sql)
{
    char wanted[512], got[512], after[512]; /* longer than each result and error */
    int normal = run(db, sql, -1, wanted, sizeof wanted);

    failed = true;
    for (long count = 0; failed && count <= 1000; count++) {
        int status = run(db, sql, count, got, sizeof got);
        bool is_right = status == normal && strcmp(got, wanted) == 0, has_failed = failed;
        bool is_usable = run(db, sql, -1, after, sizeof after) == normal && strcmp(after, wanted) == 0;

        failed = has_failed;
        if (!is_usable || count == 1000 || !(is_right || (failed && status == SQLITE_NOMEM))) {
            printf("%s: allocation %ld fails: %d %s, then %s, not %d %s\n", sql, count, status, got, after, normal,
                   wanted);
            wrong++;
        }
    }
}

/* Compares the result of a statement with a text of `len` bytes bound. */
static void with_text(sqlite3 *db, const char *sql, const char *text, int len, const char *wanted)
{
    char got[512];
    sqlite3_stmt *statement = prepare(db, sql);

    sqlite3_bind_text(statement, 1, text, len, SQLITE_STATIC);
    result_of(statement, got, sizeof got);
    runs++;
    if (strcmp(got, wanted) != 0) {
        printf("%s: %s, not %s\n", sql, got, wanted);
        wrong++;
    }
    finalize(statement);
}

/* Binds texts that a constant of SQL cannot be: with zero bytes. */
static void with_zero_bytes(sqlite3 *db)
{
    with_text(db, "SELECT size_parse(?)", "12", 1, "1");
    with_text(db, "SELECT size_parse(?)", "", 0,
              "'' is not a size: no value can be found (at the end of the text); hint: a size begins with a number as"
              " in '12' or '1.5'");
    with_text(db, "SELECT size_explain(?) IS NULL", "1\0K", 3, "0");
    with_text(db, "SELECT size_text(1, ?)", "bits\0", 5, "'bits\\u{0}' has flags other than 'bits'");
    with_text(db, "SELECT size_in(1, ?)", "KB\0", 3,
              "'KB\\u{0}' is not a unit: the character '\\0' is incorrect ('i' or no character is expected)"
              " (character 3)");
    with_text(db, "SELECT ? = '1' COLLATE SIZE", "1\0", 2, "0");
    with_text(db, "SELECT ? > '2' COLLATE SIZE", "1\0", 2, "1");
    with_text(db, "SELECT ? < '1.0 KB' COLLATE SIZE", "", 0, "0");
}

/* Statements in which each function allocates, for results and for errors. */
static const char *const statements[] = {
    "SELECT size_parse('1.5 KiB')",
    "SELECT size_parse(1536, 'bits')",
    "SELECT size_parse('12 Kiq')",
    "SELECT size_parse(substr('xxxxxxxxxxxxxxxxxxxxxxxxxxxxxxxxxxxxxxxxxxxxxxxxxxxxxxxxxxxxxxxxx', 2))",
    "SELECT size_parse('10 EB')",
    "SELECT size_parse(x'3132')",
    "SELECT size_parse(1.5)",
    "SELECT size_parse('1', 'bist')",
    "SELECT size_explain('12 Kiq', 'bits ignore-case')",
    "SELECT size_explain(1.5)",
    "SELECT size_text(1536)",
    "SELECT size_text(-1)",
    "SELECT size_text(1536, 70000)",
    "SELECT size_text('1536')",
    "SELECT size_text('1.5 KiB')",
    "SELECT size_try('10m', 'binary')",
    "SELECT size_try('12 Kiq')",
    "SELECT size_pretty(1536, 'decimal', 9000)",
    "SELECT size_pretty(1536, 'x')",
    "SELECT size_pretty(1536, 'both')",
    "SELECT size_sum(column1, 'bits') FROM (VALUES ('1 KB'), (9223372036854775807))",
    "SELECT size_sum(column1) FROM (VALUES ('999 RB'), ('999 RB'))",
    "SELECT group_concat(s) FROM (SELECT size_sum(column1) OVER (ROWS 1 PRECEDING) AS s"
    " FROM (VALUES ('1 KB'), ('900 RB'), ('1 YB')))",
    "SELECT length(size_in(1536, 'KiB', 9000))",
    "SELECT size_in(1536, 'MB', 2, 'bits')",
    "SELECT size_in(1536, 'Mx')",
    "SELECT size_in(1536, ' ')",
    "SELECT group_concat(t) FROM (SELECT column1 AS t FROM (VALUES ('1 KiB'), ('2 x'), ('1000'), ('1 x'), ('1 xy'))"
    " ORDER BY t COLLATE SIZE)",
};

/* Checks that a version of SQLite that is too old is rejected. */
static void with_old_version(sqlite3 *db)
{
    sqlite3_api_routines old = given;
    char *error = NULL;

    old.libversion_number = version_3_30_1;
    runs++;
    if (sqlite3_byteunit_init(db, &error, &old) != SQLITE_ERROR || error == NULL
        || strstr(error, " is too old: 3.31.0 or later is needed") == NULL) {
        printf("SQLite 3.30.1: %s\n", error == NULL ? "no error" : error);
        wrong++;
    }
    sqlite3_free(error);
}

/* Opens a database of an encoding. */
static sqlite3 *opened(const char *encoding)
{
    sqlite3 *db = NULL;

    if (sqlite3_open(":memory:", &db) != SQLITE_OK || sqlite3_exec(db, encoding, NULL, NULL, NULL) != SQLITE_OK) {
        printf("%s: %s\n", encoding, sqlite3_errmsg(db));
        exit(1);
    }
    /* Without the memory that a connection keeps for small objects, each allocation is made by the functions above. */
    sqlite3_db_config(db, SQLITE_DBCONFIG_LOOKASIDE, NULL, 0, 0);
    return db;
}

/* Closes a database, after which SQLite has the memory that it had before, if the extension has freed all of it. */
static void closed(sqlite3 *db, const char *what)
{
    if (sqlite3_close(db) != SQLITE_OK || sqlite3_memory_used() != used_before) {
        printf("%s: %lld bytes are left\n", what, sqlite3_memory_used() - used_before);
        wrong++;
    }
}

/* Loads the extension into new databases, with one allocation after another failing. */
static void with_failures_of_loading(const char *encoding)
{
    failed = true;
    for (long count = 0; failed && count < 1000; count++) {
        sqlite3 *db = opened(encoding);
        char *error = NULL;

        failed = false;
        before_failure = count;
        int status = sqlite3_byteunit_init(db, &error, &given);
        before_failure = -1;
        runs++;
        if (status != (failed ? SQLITE_NOMEM : SQLITE_OK)) {
            printf("loading: allocation %ld fails: %d\n", count, status);
            wrong++;
        }
        sqlite3_free(error);
        closed(db, "loading");
    }
}

/* Runs all checks in databases of an encoding: in UTF-16, SQLite converts each text. */
static void in_encoding(const char *encoding)
{
    with_failures_of_loading(encoding);
    for (size_t at = 0; at <= sizeof statements / sizeof *statements; at++) {
        bool is_last = at == sizeof statements / sizeof *statements;
        sqlite3 *db = opened(encoding);

        if (sqlite3_byteunit_init(db, NULL, &given) != SQLITE_OK) {
            printf("%s: %s\n", encoding, sqlite3_errmsg(db));
            exit(1);
        }
        if (!is_last) {
            with_failures(db, statements[at]);
        } else {
            with_zero_bytes(db);
            with_old_version(db);
        }
        closed(db, is_last ? encoding : statements[at]);
    }
}

int main(void)
{
    sqlite3_mem_methods failing;

    if (sqlite3_config(SQLITE_CONFIG_GETMALLOC, &real) != SQLITE_OK)
        return 2;
    failing = real;
    failing.xMalloc = failing_malloc;
    failing.xRealloc = failing_realloc;
    failing.xRoundup = same_size;
    if (sqlite3_config(SQLITE_CONFIG_MALLOC, &failing) != SQLITE_OK
        || sqlite3_auto_extension((void (*)(void))get_calls) != SQLITE_OK)
        return 2;
    used_before = sqlite3_memory_used();
    in_encoding("PRAGMA encoding = 'UTF-8'");
    in_encoding("PRAGMA encoding = 'UTF-16'");
    printf("%ld runs, %ld wrong\n", runs, wrong);
    return wrong != 0;
}
