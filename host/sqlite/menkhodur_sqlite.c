/* A loadable extension of SQLite: the proved key as SQL functions, for CHECK, indexes, generated columns and queries.
 *
 *   menkhodur_key(text)         the text's key; NULL for NULL; a refused text is an SQL error with number, offset and reason
 *   menkhodur_is_key(text)      1 if the text is its own key, else 0; never an error
 *   menkhodur_settled(text)     the text's settled key, by which an en passant file that no pawn can use is no other name; all else as menkhodur_key
 *   menkhodur_is_settled(text)  1 if the text is its own settled key, else 0; never an error
 *   menkhodur_fault(text)       NULL, or what is wrong with the text as JSON: number, offset, reason
 *   menkhodur_version()         the version of the archive within
 *   menkhodur_run(sql)          runs SQL that a query has made, for store.sql and cure.sql; how many rows its last statement changed
 *
 * A value is read over its whole length in bytes, 0 bytes too. A blob is read by its bytes, but it is never a key: to SQLite a blob and
 * a text with the same bytes are two values, so that a table could hold both. Numbers are read as the text that SQLite makes of them.
 *
 * It does not load over an archive of another version than that of the header it was compiled with. */
#include "../store/key.h"

#include <sqlite3ext.h>
SQLITE_EXTENSION_INIT1

/* For host/install, which must not put an extension beside a library of another version. */
uint64_t menkhodur_sqlite_version(void);
uint64_t menkhodur_sqlite_version(void)
{
    return menkhodur_version();
}

static enum store_rule rule_of(sqlite3_context *context)
{
    return *(const enum store_rule *)sqlite3_user_data(context);
}

/* Reads a value that is not NULL; false, with the error set, if SQLite had no memory to make a text of it. */
static bool read_value(sqlite3_context *context, sqlite3_value *value, struct store_key *key)
{
    bool is_blob = sqlite3_value_type(value) == SQLITE_BLOB;
    const void *bytes = is_blob ? sqlite3_value_blob(value) : sqlite3_value_text(value);
    size_t length = (size_t)sqlite3_value_bytes(value);
    if (!bytes && !(is_blob && length == 0)) {
        sqlite3_result_error_nomem(context);
        return false;
    }
    store_key_of(key, rule_of(context), bytes, length);
    return true;
}

static void sql_key(sqlite3_context *context, int count, sqlite3_value **values)
{
    struct store_key key;
    char told[STORE_TOLD];
    (void)count;
    if (sqlite3_value_type(values[0]) == SQLITE_NULL || !read_value(context, values[0], &key)) return;
    if (!key.number) {
        sqlite3_result_text(context, key.key, (int)key.length, SQLITE_TRANSIENT);
        return;
    }
    store_message(&key, told);
    sqlite3_result_error(context, told, -1);
}

static void sql_is_key(sqlite3_context *context, int count, sqlite3_value **values)
{
    const void *text = sqlite3_value_type(values[0]) == SQLITE_TEXT ? sqlite3_value_text(values[0]) : NULL;
    (void)count;
    sqlite3_result_int(context, text && store_is_key(rule_of(context), text, (size_t)sqlite3_value_bytes(values[0])));
}

static void sql_fault(sqlite3_context *context, int count, sqlite3_value **values)
{
    struct store_key key;
    char told[STORE_TOLD];
    (void)count;
    if (sqlite3_value_type(values[0]) == SQLITE_NULL || !read_value(context, values[0], &key) || !key.number) return;
    store_json(&key, told);
    sqlite3_result_text(context, told, -1, SQLITE_TRANSIENT);
}

static void sql_version(sqlite3_context *context, int count, sqlite3_value **values)
{
    (void)count;
    (void)values;
    sqlite3_result_int64(context, (sqlite3_int64)menkhodur_version());
}

/* The plain shell runs no SQL that a query has made, and a script that asks the catalog which tables refer to `position` needs that. */
static void sql_run(sqlite3_context *context, int count, sqlite3_value **values)
{
    sqlite3 *db = sqlite3_context_db_handle(context);
    const char *sql = (const char *)sqlite3_value_text(values[0]);
    char *error = NULL;
    int status;
    (void)count;
    if (!sql) {
        if (sqlite3_value_type(values[0]) != SQLITE_NULL) sqlite3_result_error_nomem(context);
        return;
    }
    status = sqlite3_exec(db, sql, NULL, NULL, &error);
    if (status == SQLITE_OK) {
        sqlite3_result_int64(context, sqlite3_changes(db));
    } else {
        sqlite3_result_error(context, error ? error : sqlite3_errstr(status), -1);
        sqlite3_result_error_code(context, status);
    }
    sqlite3_free(error);
}

int sqlite3_menkhodursqlite_init(sqlite3 *db, char **error, const sqlite3_api_routines *api);
int sqlite3_menkhodursqlite_init(sqlite3 *db, char **error, const sqlite3_api_routines *api)
{
    enum { ANYWHERE = SQLITE_UTF8 | SQLITE_DETERMINISTIC | SQLITE_INNOCUOUS, TYPED = SQLITE_UTF8 | SQLITE_DIRECTONLY };
    static const struct {
        const char *name;
        int arguments, flags;
        void (*call)(sqlite3_context *, int, sqlite3_value **);
        enum store_rule rule;
    } functions[] = {
        { "menkhodur_key", 1, ANYWHERE, sql_key, STORE_KEY },
        { "menkhodur_is_key", 1, ANYWHERE, sql_is_key, STORE_KEY },
        { "menkhodur_settled", 1, ANYWHERE, sql_key, STORE_SETTLED },
        { "menkhodur_is_settled", 1, ANYWHERE, sql_is_key, STORE_SETTLED },
        { "menkhodur_fault", 1, ANYWHERE, sql_fault, STORE_KEY },
        { "menkhodur_version", 0, ANYWHERE, sql_version, STORE_KEY },
        { "menkhodur_run", 1, TYPED, sql_run, STORE_KEY }, /* in no trigger, view or index: a database file that was sent runs nothing */
    };
    int status = SQLITE_OK;
    char told[STORE_TOLD];
    SQLITE_EXTENSION_INIT2(api);
    if (!store_version_fits(told)) {
        *error = sqlite3_mprintf("%s", told);
        return SQLITE_ERROR;
    }
    for (unsigned i = 0; i < sizeof functions / sizeof *functions && status == SQLITE_OK; i++)
        status = sqlite3_create_function_v2(db, functions[i].name, functions[i].arguments, functions[i].flags, (void *)&functions[i].rule,
                                            functions[i].call, NULL, NULL, NULL);
    return status;
}
