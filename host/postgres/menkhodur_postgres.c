/* An extension of PostgreSQL: the proved key as SQL functions (menkhodur--1.sql and menkhodur--1--2.sql declare them).
 *
 * A text is read by its bytes in the server's encoding. Each encoding that a server can have keeps ASCII as it is and uses no ASCII byte
 * within another character, so that a FEN text has the same bytes in all of them; an offset counts bytes of that encoding.
 *
 * The library does not load over an archive of another version than that of the header it was compiled with. */
#include "postgres.h"

#include "access/detoast.h"
#include "fmgr.h"
#include "utils/builtins.h"

#include "../store/key.h"

PG_MODULE_MAGIC;

extern PGDLLEXPORT void _PG_init(void);

PG_FUNCTION_INFO_V1(sql_key);
PG_FUNCTION_INFO_V1(sql_is_key);
PG_FUNCTION_INFO_V1(sql_settled);
PG_FUNCTION_INFO_V1(sql_is_settled);
PG_FUNCTION_INFO_V1(sql_fault);
PG_FUNCTION_INFO_V1(sql_version);

/* The server calls it when it loads the library. */
void _PG_init(void)
{
    char told[STORE_TOLD];
    if (!store_version_fits(told)) ereport(ERROR, (errcode(ERRCODE_OBJECT_NOT_IN_PREREQUISITE_STATE), errmsg("%s", told)));
}

static Datum key_by(enum store_rule rule, FunctionCallInfo fcinfo)
{
    text *value = PG_GETARG_TEXT_PP(0);
    struct store_key key;
    char told[STORE_TOLD];
    store_key_of(&key, rule, VARDATA_ANY(value), VARSIZE_ANY_EXHDR(value));
    if (key.number) {
        store_message(&key, told);
        ereport(ERROR, (errcode(ERRCODE_INVALID_TEXT_REPRESENTATION), errmsg("%s", told)));
    }
    PG_RETURN_TEXT_P(cstring_to_text_with_len(key.key, (int)key.length));
}

static Datum is_key_by(enum store_rule rule, FunctionCallInfo fcinfo)
{
    struct varlena *value = (struct varlena *)PG_GETARG_POINTER(0);
    /* A value that lies outside its row, or compressed, is fetched only if a key can have its length. */
    if (unlikely(VARATT_IS_EXTENDED(value) && !VARATT_IS_SHORT(value))) {
        if (toast_raw_datum_size(PointerGetDatum(value)) - VARHDRSZ > MENKHODUR_LONGEST_FEN) PG_RETURN_BOOL(false);
        value = PG_DETOAST_DATUM_PACKED(PointerGetDatum(value));
    }
    PG_RETURN_BOOL(store_is_key(rule, VARDATA_ANY(value), VARSIZE_ANY_EXHDR(value)));
}

Datum sql_key(PG_FUNCTION_ARGS)
{
    return key_by(STORE_KEY, fcinfo);
}

Datum sql_is_key(PG_FUNCTION_ARGS)
{
    return is_key_by(STORE_KEY, fcinfo);
}

Datum sql_settled(PG_FUNCTION_ARGS)
{
    return key_by(STORE_SETTLED, fcinfo);
}

Datum sql_is_settled(PG_FUNCTION_ARGS)
{
    return is_key_by(STORE_SETTLED, fcinfo);
}

Datum sql_fault(PG_FUNCTION_ARGS)
{
    text *value = PG_GETARG_TEXT_PP(0);
    struct store_key key;
    char told[STORE_TOLD];
    store_key_of(&key, STORE_KEY, VARDATA_ANY(value), VARSIZE_ANY_EXHDR(value));
    if (!key.number) PG_RETURN_NULL();
    store_json(&key, told);
    PG_RETURN_TEXT_P(cstring_to_text(told));
}

Datum sql_version(PG_FUNCTION_ARGS)
{
    (void)fcinfo;
    PG_RETURN_INT64((int64)menkhodur_version());
}
