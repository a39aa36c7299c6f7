-- The tables of the cure's test, which host/store/ill fills: a `position` with more than a name, and what can refer to it.
CREATE TABLE position (
    id bigint PRIMARY KEY,
    fen text NOT NULL UNIQUE,
    note text,
    seen int NOT NULL DEFAULT 0,
    previous text REFERENCES position (fen) ON DELETE CASCADE,
    size int GENERATED ALWAYS AS (length(fen)) STORED,
    UNIQUE (id, fen)
);
CREATE UNIQUE INDEX position_note ON position (note) WHERE note IS NOT NULL;
CREATE INDEX position_seen ON position (seen) WHERE seen > 0;
CREATE INDEX position_side ON position (split_part(fen, ' ', 2));

CREATE TABLE game_position (game bigint, ply smallint, fen varchar(90) NOT NULL REFERENCES position (fen) ON UPDATE RESTRICT ON DELETE RESTRICT,
    PRIMARY KEY (game, ply)) PARTITION BY HASH (game);
CREATE TABLE game_position_0 PARTITION OF game_position FOR VALUES WITH (MODULUS 2, REMAINDER 0);
CREATE TABLE game_position_1 PARTITION OF game_position FOR VALUES WITH (MODULUS 2, REMAINDER 1);
CREATE INDEX ON game_position (fen);
CREATE TABLE "a ""comment""" (number int, "its fen" text COLLATE "C" REFERENCES position (fen) ON DELETE CASCADE ON UPDATE SET NULL, words text);
CREATE TABLE visit (number int, position bigint REFERENCES position ON DELETE SET NULL DEFERRABLE INITIALLY DEFERRED);
CREATE TABLE evaluation (position bigint PRIMARY KEY REFERENCES position (id) ON DELETE CASCADE, score float8);
CREATE TABLE pair (number int, id bigint, fen text, FOREIGN KEY (id, fen) REFERENCES position (id, fen) ON DELETE CASCADE);
CREATE TABLE opening (number int, fen text PRIMARY KEY REFERENCES position (fen) ON UPDATE CASCADE ON DELETE CASCADE);
CREATE TABLE line (number int, opening text REFERENCES opening (fen) ON DELETE CASCADE);
CREATE SCHEMA other;
CREATE TABLE other.free (number int, fen text);
CREATE TABLE history (number int, fen text);

CREATE VIEW shown AS SELECT p.id, p.fen, p.note, p.size, count(*) AS places FROM position p JOIN game_position g ON g.fen = p.fen GROUP BY p.id;
CREATE TABLE log (what text, id bigint);
CREATE FUNCTION logged() RETURNS trigger LANGUAGE plpgsql AS $$ BEGIN
    IF TG_OP = 'DELETE' THEN INSERT INTO log VALUES ('removed', OLD.id); ELSE INSERT INTO log VALUES ('renamed', NEW.id); END IF;
    RETURN NULL;
END $$;
CREATE TRIGGER logged AFTER DELETE OR UPDATE ON position FOR EACH ROW EXECUTE FUNCTION logged();
