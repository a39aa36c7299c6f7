-- Shows what a store files under another name than its key, and changes nothing: the name, its right key, whether the key is filed too, how many
-- places of games refer to the name, and, of a name that is no FEN text, what is wrong with it (such a name has no key).
--
--     sqlite3 -readonly -cmd '.load PREFIX/lib/menkhodur_sqlite' STORE <host/sqlite/second-names.sql
--
-- With `-cmd '.parameter set :settled yes'` the right key is the settled one: then a key with an en passant square that no pawn can use is shown too.
.bail on
SELECT 1 WHERE menkhodur_version() IS NULL;
CREATE TEMP TABLE rule (settled TEXT, CONSTRAINT ":settled is yes, or is not given" CHECK (settled = 'yes'));
INSERT INTO rule VALUES (:settled);

-- The rule, in this one place: the function that gives a text's right key.
WITH named AS (
    SELECT fen, CASE WHEN menkhodur_fault(fen) IS NULL THEN iif(:settled IS NULL, menkhodur_key(fen), menkhodur_settled(fen)) END AS key
    FROM (SELECT fen FROM position UNION SELECT fen FROM game_position)
)
SELECT n.fen AS name, n.key,
       n.key IS NOT NULL AND EXISTS (SELECT 1 FROM position p WHERE p.fen = n.key) AS key_is_filed,
       (SELECT count(*) FROM game_position g WHERE g.fen IS n.fen) AS places,
       menkhodur_fault(n.fen) AS fault
FROM named n
WHERE n.key IS NULL OR n.key IS NOT n.fen
ORDER BY n.key, n.fen;
