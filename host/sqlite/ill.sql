-- The tables of the cure's test, which host/store/ill fills: a `position` with more than a name, and what can refer to it.
CREATE TABLE position (
    id INTEGER PRIMARY KEY,
    fen TEXT NOT NULL UNIQUE,
    note TEXT,
    seen INTEGER NOT NULL DEFAULT 0,
    previous TEXT REFERENCES position (fen) ON DELETE CASCADE,
    size INTEGER GENERATED ALWAYS AS (length(fen)) STORED,
    side TEXT GENERATED ALWAYS AS (substr(fen, instr(fen, ' ') + 1, 1)) VIRTUAL,
    UNIQUE (id, fen)
);
CREATE UNIQUE INDEX position_note ON position (note) WHERE note IS NOT NULL;
CREATE INDEX position_seen ON position (seen) WHERE seen > 0;
CREATE INDEX position_side ON position (substr(fen, instr(fen, ' ') + 1, 1));

CREATE TABLE game_position (game INTEGER NOT NULL, ply INTEGER NOT NULL, fen TEXT NOT NULL REFERENCES position (fen) ON UPDATE RESTRICT ON DELETE RESTRICT,
    PRIMARY KEY (game, ply)) WITHOUT ROWID;
CREATE TABLE "a ""comment""" (number INTEGER, "its fen" TEXT REFERENCES position (fen) ON DELETE CASCADE ON UPDATE SET NULL, words TEXT);
CREATE TABLE visit (number INTEGER, position INTEGER REFERENCES position ON DELETE SET NULL);
CREATE TABLE evaluation (position INTEGER PRIMARY KEY REFERENCES position (id) ON DELETE CASCADE, score REAL);
CREATE TABLE pair (number INTEGER, id INTEGER, fen TEXT, FOREIGN KEY (id, fen) REFERENCES position (id, fen) ON DELETE CASCADE);
CREATE TABLE opening (number INTEGER, fen TEXT PRIMARY KEY REFERENCES position (fen) ON UPDATE CASCADE ON DELETE CASCADE) WITHOUT ROWID;
CREATE TABLE line (number INTEGER, opening TEXT REFERENCES opening (fen) ON DELETE CASCADE);
CREATE TABLE free (number INTEGER, fen TEXT);
CREATE TABLE history (number INTEGER, fen TEXT);

CREATE VIEW shown AS SELECT p.id, p.fen, p.note, p.size, p.side, count(*) AS places FROM position p JOIN game_position g ON g.fen = p.fen GROUP BY p.id;
CREATE TABLE log (what TEXT, id INTEGER);
CREATE TRIGGER renamed AFTER UPDATE OF fen ON position BEGIN INSERT INTO log VALUES ('renamed', NEW.id); END;
CREATE TRIGGER removed AFTER DELETE ON position BEGIN INSERT INTO log VALUES ('removed', OLD.id); END;
