-- The store on one server: each position once, under its key, and which games came to it. It is made whole or not at all.
--
--     psql -f host/postgres/store.sql STORE
--     psql -v settled=yes -f host/postgres/store.sql STORE
--
-- With `settled=yes` it takes settled keys alone, by which an en passant square that no pawn can use makes no second name (docs/STORE.md, "Which key").
\set ON_ERROR_STOP on
-- The rule, in this one place: the domain of the names.
\set domain fen_key
\if :{?settled}
\set domain fen_position
SELECT :'settled' <> 'yes' AS unknown \gset
\if :unknown
DO $$ BEGIN RAISE EXCEPTION 'settled is known as yes alone'; END $$;
\endif
\endif

BEGIN;
CREATE EXTENSION IF NOT EXISTS menkhodur;

CREATE TABLE position (
    fen :domain PRIMARY KEY
);

CREATE TABLE game_position (
    game bigint NOT NULL,
    ply smallint NOT NULL,
    fen :domain NOT NULL REFERENCES position (fen),
    PRIMARY KEY (game, ply)
);

CREATE INDEX game_position_fen ON game_position (fen);
COMMIT;
