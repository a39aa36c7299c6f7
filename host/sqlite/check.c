/* Loads the extension into SQLite and asks each of its functions, of texts, blobs, NULL and numbers, in a database of UTF-8 and one of
 * UTF-16; host/store/model.c is the judge. host/sqlite/test runs it with both parts under the sanitizers. */
#include "../store/judge.h"

#include <sqlite3.h>
#include <stdio.h>
#include <stdlib.h>
#include <string.h>

enum { KEY, IS_KEY, SETTLED, IS_SETTLED, FAULT, FUNCTIONS };
static const char *const queries[FUNCTIONS] = {
    "SELECT menkhodur_key(?)", "SELECT menkhodur_is_key(?)", "SELECT menkhodur_settled(?)", "SELECT menkhodur_is_settled(?)", "SELECT menkhodur_fault(?)",
};

struct base {
    sqlite3 *db;
    sqlite3_stmt *query[FUNCTIONS];
};
static struct base wide, narrow;
static unsigned long asked_values, failed;

static void fail(const char *what, const char *text, size_t length)
{
    if (failed++ < 10) printf("host/sqlite/check: %s, of %zu bytes: %.*s\n", what, length, (int)(length < 100 ? length : 100), text);
}

static void expect_text(struct base *base, int function, const char *want, size_t want_length, const char *text, size_t length)
{
    sqlite3_stmt *query = base->query[function];
    const unsigned char *got;
    if (sqlite3_step(query) != SQLITE_ROW || sqlite3_column_type(query, 0) != (want ? SQLITE_TEXT : SQLITE_NULL)) {
        fail(queries[function], text, length);
    } else if (want) {
        got = sqlite3_column_text(query, 0);
        if ((size_t)sqlite3_column_bytes(query, 0) != want_length || memcmp(got, want, want_length)) fail(queries[function], text, length);
    }
    sqlite3_reset(query);
}

static void expect_truth(struct base *base, int function, bool want, const char *text, size_t length)
{
    sqlite3_stmt *query = base->query[function];
    if (sqlite3_step(query) != SQLITE_ROW || sqlite3_column_type(query, 0) != SQLITE_INTEGER || sqlite3_column_int(query, 0) != want)
        fail(queries[function], text, length);
    sqlite3_reset(query);
}

static void expect_refusal(struct base *base, int function, const char *want, const char *text, size_t length)
{
    if (sqlite3_step(base->query[function]) != SQLITE_ERROR || strcmp(sqlite3_errmsg(base->db), want)) fail(queries[function], text, length);
    sqlite3_reset(base->query[function]);
}

/* What is bound is already there; `is_text` tells whether it can be a key. */
static void expect_owed(struct base *base, const struct owed *owed, bool is_text, const char *text, size_t length)
{
    asked_values++;
    if (owed->has_key) {
        expect_text(base, KEY, owed->key, owed->key_length, text, length);
        expect_text(base, SETTLED, owed->settled, owed->settled_length, text, length);
    } else {
        expect_refusal(base, KEY, owed->message, text, length);
        expect_refusal(base, SETTLED, owed->message, text, length);
    }
    expect_truth(base, IS_KEY, is_text && owed->is_key, text, length);
    expect_truth(base, IS_SETTLED, is_text && owed->is_settled, text, length);
    expect_text(base, FAULT, owed->has_key ? NULL : owed->json, strlen(owed->json), text, length);
}

static bool is_ascii(const char *text, size_t length)
{
    for (size_t i = 0; i < length; i++)
        if ((unsigned char)text[i] > 127) return false;
    return true;
}

static void ask(const char *text, size_t length)
{
    struct owed owed;
    owed_to(text, length, &owed);
    for (int f = 0; f < FUNCTIONS; f++) sqlite3_bind_text(narrow.query[f], 1, text, (int)length, SQLITE_STATIC);
    expect_owed(&narrow, &owed, true, text, length);
    for (int f = 0; f < FUNCTIONS; f++) sqlite3_bind_blob(narrow.query[f], 1, text, (int)length, SQLITE_STATIC);
    expect_owed(&narrow, &owed, false, text, length);
    if (is_ascii(text, length)) { /* SQLite itself rewrites other bytes for UTF-16 */
        for (int f = 0; f < FUNCTIONS; f++) sqlite3_bind_text(wide.query[f], 1, text, (int)length, SQLITE_STATIC);
        expect_owed(&wide, &owed, true, text, length);
    }
    for (int f = 0; f < FUNCTIONS; f++) {
        sqlite3_clear_bindings(narrow.query[f]);
        sqlite3_clear_bindings(wide.query[f]);
    }
}

/* NULL is no key and has none; numbers are the text that SQLite makes of them; a zero-length blob is an empty text. */
static void ask_others(void)
{
    struct owed owed;
    expect_text(&narrow, KEY, NULL, 0, "NULL", 4);
    expect_text(&narrow, SETTLED, NULL, 0, "NULL", 4);
    expect_text(&narrow, FAULT, NULL, 0, "NULL", 4);
    expect_truth(&narrow, IS_KEY, false, "NULL", 4);
    expect_truth(&narrow, IS_SETTLED, false, "NULL", 4);
    for (int f = 0; f < FUNCTIONS; f++) sqlite3_bind_int64(narrow.query[f], 1, -88);
    owed_to("-88", 3, &owed);
    expect_owed(&narrow, &owed, false, "-88", 3);
    for (int f = 0; f < FUNCTIONS; f++) sqlite3_bind_double(narrow.query[f], 1, 0.5);
    owed_to("0.5", 3, &owed);
    expect_owed(&narrow, &owed, false, "0.5", 3);
    for (int f = 0; f < FUNCTIONS; f++) sqlite3_bind_zeroblob(narrow.query[f], 1, 0);
    owed_to("", 0, &owed);
    expect_owed(&narrow, &owed, false, "", 0);
}

static void open_base(struct base *base, const char *encoding, const char *extension)
{
    char *error = NULL;
    if (sqlite3_open(":memory:", &base->db) != SQLITE_OK || sqlite3_exec(base->db, encoding, NULL, NULL, NULL) != SQLITE_OK ||
        sqlite3_db_config(base->db, SQLITE_DBCONFIG_ENABLE_LOAD_EXTENSION, 1, NULL) != SQLITE_OK ||
        sqlite3_load_extension(base->db, extension, NULL, &error) != SQLITE_OK) {
        fprintf(stderr, "host/sqlite/check: %s: %s\n", extension, error ? error : sqlite3_errmsg(base->db));
        exit(1);
    }
    for (int f = 0; f < FUNCTIONS; f++)
        if (sqlite3_prepare_v2(base->db, queries[f], -1, &base->query[f], NULL) != SQLITE_OK) exit(1);
}

static void close_base(struct base *base)
{
    for (int f = 0; f < FUNCTIONS; f++) sqlite3_finalize(base->query[f]);
    if (sqlite3_close(base->db) != SQLITE_OK) fail("sqlite3_close", "", 0);
}

int main(int count, char **arguments)
{
    if (count != 3) {
        fprintf(stderr, "usage: check EXTENSION POSITIONS\n");
        return 1;
    }
    open_base(&narrow, "PRAGMA encoding = 'UTF-8'", arguments[1]);
    open_base(&wide, "PRAGMA encoding = 'UTF-16le'", arguments[1]);
    ask_others();
    if (!ask_all(arguments[2], 60000, ask)) fail("no positions", arguments[2], strlen(arguments[2]));
    close_base(&narrow);
    close_base(&wide);
    printf("host/sqlite/check: %lu values asked, %lu failed\n", asked_values, failed);
    return failed > 0 || asked_values < 120000;
}
