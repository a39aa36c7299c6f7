-- The functions of host/sqlite, with PostgreSQL's types, and a domain of keys.
\echo Use "CREATE EXTENSION menkhodur" to load this file. \quit

CREATE FUNCTION menkhodur_key(text) RETURNS text
    AS 'MODULE_PATHNAME', 'sql_key' LANGUAGE C IMMUTABLE STRICT PARALLEL SAFE;
COMMENT ON FUNCTION menkhodur_key(text) IS 'the key of a FEN text; a refused text is an error with number, offset and reason';

CREATE FUNCTION menkhodur_is_key(text) RETURNS boolean
    AS 'MODULE_PATHNAME', 'sql_is_key' LANGUAGE C IMMUTABLE STRICT PARALLEL SAFE;
COMMENT ON FUNCTION menkhodur_is_key(text) IS 'whether a text is its own key, byte for byte; never an error';

CREATE FUNCTION menkhodur_fault(text) RETURNS json
    AS 'MODULE_PATHNAME', 'sql_fault' LANGUAGE C IMMUTABLE STRICT PARALLEL SAFE;
COMMENT ON FUNCTION menkhodur_fault(text) IS 'NULL, or what is wrong with a FEN text: number, offset in bytes, reason';

CREATE FUNCTION menkhodur_version() RETURNS bigint
    AS 'MODULE_PATHNAME', 'sql_version' LANGUAGE C IMMUTABLE STRICT PARALLEL SAFE;
COMMENT ON FUNCTION menkhodur_version() IS 'the version of the archive within';

-- Keys are ASCII, and equal exactly if their bytes are: no collation of a country has a say in their order or in their hash.
CREATE DOMAIN fen_key AS text COLLATE "C" CONSTRAINT one_name CHECK (menkhodur_is_key(VALUE));
COMMENT ON DOMAIN fen_key IS 'a text that is the key of its position';
