-- Settled keys, by which an en passant file that no pawn can use is no other name, and a domain of them.
\echo Use "ALTER EXTENSION menkhodur UPDATE" to load this file. \quit

CREATE FUNCTION menkhodur_settled(text) RETURNS text
    AS 'MODULE_PATHNAME', 'sql_settled' LANGUAGE C IMMUTABLE STRICT PARALLEL SAFE;
COMMENT ON FUNCTION menkhodur_settled(text) IS 'the settled key of a FEN text; a refused text is an error with number, offset and reason';

CREATE FUNCTION menkhodur_is_settled(text) RETURNS boolean
    AS 'MODULE_PATHNAME', 'sql_is_settled' LANGUAGE C IMMUTABLE STRICT PARALLEL SAFE;
COMMENT ON FUNCTION menkhodur_is_settled(text) IS 'whether a text is its own settled key, byte for byte; never an error';

CREATE DOMAIN fen_position AS text COLLATE "C" CONSTRAINT one_name CHECK (menkhodur_is_settled(VALUE));
COMMENT ON DOMAIN fen_position IS 'a text that is the settled key of its position';
