-- Shows what a store files under another name than its key, and changes nothing: the name, its right key, whether the key is filed too, how many
-- places of games refer to the name, and, of a name that is no FEN text, what is wrong with it (such a name has no key).
--
--     psql -f host/postgres/second-names.sql STORE
--
-- With `-v settled=yes` the right key is the settled one: then a key with an en passant square that no pawn can use is shown too.
\set ON_ERROR_STOP on
SELECT menkhodur_version() AS version \gset

-- The rule, in this one place: the function that gives a text's right key.
\set key_of menkhodur_key
\if :{?settled}
\set key_of menkhodur_settled
SELECT :'settled' <> 'yes' AS unknown \gset
\if :unknown
DO $$ BEGIN RAISE EXCEPTION 'settled is known as yes alone'; END $$;
\endif
\endif

SELECT n.fen AS name, n.key,
       EXISTS (SELECT 1 FROM position p WHERE p.fen = n.key) AS key_is_filed,
       (SELECT count(*) FROM game_position g WHERE g.fen = n.fen) AS places,
       menkhodur_fault(n.fen) AS fault
FROM (SELECT fen, CASE WHEN menkhodur_fault(fen) IS NULL THEN :key_of(fen) END AS key
      FROM (SELECT fen::text FROM position UNION SELECT fen::text FROM game_position) u) n
WHERE n.key IS DISTINCT FROM n.fen
ORDER BY n.key NULLS FIRST, n.fen COLLATE "C";
