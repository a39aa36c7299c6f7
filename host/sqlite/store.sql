-- The store in one file: each position once, under its key, and which games came to it. Load the extension first: without it nothing is made.
--
--     sqlite3 -cmd '.load PREFIX/lib/menkhodur_sqlite' STORE <host/sqlite/store.sql
--     sqlite3 -cmd '.load PREFIX/lib/menkhodur_sqlite' -cmd '.parameter set :settled yes' STORE <host/sqlite/store.sql
--
-- With `:settled yes` it takes settled keys alone, by which an en passant square that no pawn can use makes no second name (docs/STORE.md, "Which key").
--
-- File with INSERT .. ON CONFLICT DO NOTHING. INSERT OR IGNORE drops in silence what a CHECK refuses: so triggers refuse too, which nothing overrules.
.bail on
SELECT 1 WHERE menkhodur_version() IS NULL;
CREATE TEMP TABLE rule (settled TEXT, CONSTRAINT ":settled is yes, or is not given" CHECK (settled = 'yes'));
INSERT INTO rule VALUES (:settled);

BEGIN;
-- The rule, in this one place: what the tables and their triggers ask of a name.
SELECT 1 FROM (SELECT iif(settled IS NULL, 'menkhodur_is_key', 'menkhodur_is_settled') AS is_key, iif(settled IS NULL, 'key', 'settled key') AS key FROM rule)
WHERE menkhodur_run(replace(replace('
CREATE TABLE position (
    fen TEXT PRIMARY KEY NOT NULL,
    CONSTRAINT one_name CHECK ($is_key(fen))
) WITHOUT ROWID;

CREATE TABLE game_position (
    game INTEGER NOT NULL,
    ply INTEGER NOT NULL,
    fen TEXT NOT NULL REFERENCES position (fen),
    PRIMARY KEY (game, ply),
    CONSTRAINT one_name CHECK ($is_key(fen))
) WITHOUT ROWID;

CREATE INDEX game_position_fen ON game_position (fen);

CREATE TRIGGER one_name_insert BEFORE INSERT ON position WHEN NOT $is_key(NEW.fen)
BEGIN SELECT RAISE(ABORT, ''one_name: not the $key of its position''); END;
CREATE TRIGGER one_name_update BEFORE UPDATE OF fen ON position WHEN NOT $is_key(NEW.fen)
BEGIN SELECT RAISE(ABORT, ''one_name: not the $key of its position''); END;
CREATE TRIGGER game_position_one_name_insert BEFORE INSERT ON game_position WHEN NOT $is_key(NEW.fen)
BEGIN SELECT RAISE(ABORT, ''one_name: not the $key of its position''); END;
CREATE TRIGGER game_position_one_name_update BEFORE UPDATE OF fen ON game_position WHEN NOT $is_key(NEW.fen)
BEGIN SELECT RAISE(ABORT, ''one_name: not the $key of its position''); END;
', '$is_key', is_key), '$key', key)) IS NULL;
COMMIT;
